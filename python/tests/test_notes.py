"""Tests of notes on dumps, and of options that a form does not use. They need the program overlay."""

import json

from tagzirk import Asked, TagzirkError
from tagzirk.asked import NOT_FOR_ALL

from .misreads import HOSTS, UP, lines
from .test_states import Dumps, links_of

RING = "".join(f"{a} {b}\n" for a, b in sorted(UP))
NUMBERS = RING.replace("n", "")
CHORDS = "n1 n3\nn2 n5\nn4 n6\n"


def both_ways(text):
    """Lines of two hosts, and each of them once more with its ends in the other order."""
    return text + "".join(f"{b} {a}\n" for a, b in map(str.split, text.splitlines()))


def renamed(old, new):
    """The ring, in which a host is called otherwise in the last line that has it."""
    before, _, behind = RING.rpartition(old)
    return before + new + behind


class Notes(Dumps):
    def test_notes(self):
        views = {it: [a if b == it else b for a, b in UP if it in (a, b)] for it in HOSTS}
        for name, text, told in (
            ("two-csv.csv", f"a,b\n{RING}a,b\n".replace(" ", ","), "lines 1 and 9: a and b stand in no other line"),
            ("quotes.csv", "von;nach\n" + RING.replace(" ", ";"), "line 1: nach and von stand in no other line"),
            ("middle.edges", RING + "from to\n" + RING, "line 8: from and to stand in no other line: a header"),
            ("footer.edges", RING + "total 7\n", "line 8: 7 and total stand in no other line: a header or a footer?"),
            ("mark-alone.edges", ";\n" + RING + "total 7\n", "7 and total stand in no other line"),
            ("footer-links.edges", RING + "7 links\n", "line 8: 7 and links stand in no other line"),
            ("footer-of-a-host.edges", NUMBERS + "6 hosts\n", "line 8: hosts stands in no other line: is it a footer?"),
            ("counts.edges", "6 7\n" + NUMBERS, "line 1: 6 7 may be how many hosts and links there are: --skip 1"),
            ("two-columns.edges", "".join(f"{it} alive\n" for it in HOSTS), "no name stands in both columns, as n1"),
            ("three-racks.txt", "n1 r1\nn2 r1\nn3 r2\n", "no name stands in both columns, as n1 and r1"),
            ("racks.txt", "".join(f"{it} r{it < 'n4'}\n" for it in HOSTS), "no name stands in both columns"),
            ("case.edges", renamed("n6", "N6"), "names that differ in capitals alone, and are hosts of their own here"),
            ("dot.edges", renamed("n6", "n6."), "names that differ in a dot at their end alone"),
            ("struck.edges", renamed("n6", "~~n6~~"), "names that differ in signs at their ends alone"),
            ("unseen.edges", renamed("n6", "n6\u200b"), "names that differ in characters that are not seen alone"),
            ("domain.edges", renamed("n6", "n6.example.net"), "names that differ in a domain alone"),
            ("port.edges", renamed("n6", "n6:7946"), "names that differ in a port alone"),
            ("errors.json", json.dumps({**views, "errors": []}), "without any link, though others are linked: 1 of 7"),
            ("null.json", json.dumps({**views, "error": None}), "1 of 7 hosts: error"),
        ):
            with self.subTest(name):
                dump = self.read(self.put(name, text))
                self.assertIn(told, "\n".join(dump.notes))

    def test_no_note_without_a_reason(self):
        ports = RING
        for host in HOSTS:
            ports = ports.replace(host, f"10.0.0.1:{host[1:]}")
        both = RING.replace("n", "10.0.0.1:700") + RING.replace("n", "10.0.0.2:700")
        for name, text in (
            ("ring.edges", RING),
            ("numbers.edges", NUMBERS),
            ("ports.edges", ports),
            ("both.edges", both + "10.0.0.1:7001 10.0.0.2:7001\n"),
            ("addresses.edges", RING.replace("n", "10.0.0.")),
            ("domains.edges", RING.replace("n", "host").replace(" ", ".net ").replace("\n", ".net\n")),
            ("alone.edges", "a b\n"),
            # two hosts that are linked to each other alone, as a part of an overlay that is split
            ("pair.edges", RING + "n7 n8\n" + CHORDS),
            ("pair-last.edges", both_ways(RING.replace("n", "ams-") + "hel-1 hel-2\n")),
            ("words.edges", "oslo rome\nrome bern\nbern oslo\nwien riga\nbern kiew\nkiew oslo\nrome kiew\n"),
            ("host-of-a-word.edges", RING + "n1 peers\n"),
            ("none.json", '{"a": [], "b": []}'),
            ("hub.json", json.dumps({"hub": ["a", "b", "c"], **{it: ["hub"] for it in "abc"}})),
        ):
            with self.subTest(name):
                self.assertEqual(self.read(self.put(name, text)).notes, ())

    def test_a_pair_by_itself_is_no_header(self):
        """Also where how often a link stands there is told."""
        for text in RING + "n7 n8\n" + RING, RING.replace("n", "ams-") + both_ways("hel-1 hel-2\n"):
            (told,) = self.read(self.put("pair.edges", text)).notes
            self.assertRegex(told, r"^not read as states: of \d+ links stands there \(")

    def test_what_is_listed_without_an_entry_is_told_once(self):
        dump = self.read(self.put("dead.json", '{"a": ["b", "dead"], "b": ["a"]}'))
        self.assertIn("listed without an entry: 1", dump.notes)
        self.assertNotIn("without any link", " ".join(dump.notes))


class Unused(Dumps):
    def test_options_that_say_nothing(self):
        graph = "# 1 a\nnode 1\n# 2 b\nnode 2\nlink 1 2\n"
        files = {"a.txt": "b\n", "b.txt": "a\n"}
        objects = '[{"name": "a", "peers": ["b"]}, {"name": "b", "peers": ["a"]}]'
        for name, text, asked, told in (
            ("a.graph", graph, {"by": "label"}, "--by label is of no use here: it is a graph file"),
            ("a.graph", graph, {"up": ("state=up",)}, "--up state=up is of no use here: it is a graph file"),
            ("a.graph", graph, {"columns": "1,2"}, "--columns 1,2 is of no use here: it is a graph file"),
            ("a.edges", RING, {"by": "label"}, "--by label is of no use here: it has the form edges"),
            ("a.edges", RING, {"peers": "x"}, "--peers x is of no use here: it has the form edges"),
            ("a.edges", RING, {"up": ("3=1",)}, "--up 3=1 is of no use here: nothing but names stands in it"),
            ("a.edges", RING, {"form": "json"}, "line 1: it is no JSON"),
            ("a.csv", lines("source,target,w\n", "{a},{b},{it}", 1, 2), {"by": "w"}, "--by w is of no use here"),
            ("a.csv", lines("source,target,w\n", "{a},{b},{it}", 1, 2), {"links": "w"}, "--links w is of no use here"),
            ("a.json", '{"a": ["b"], "b": ["a"]}', {"by": "id"}, "--by id is of no use here: nothing but names"),
            ("a.json", '{"a": ["b"], "b": ["a"]}', {"columns": "a,b"}, "--columns a,b is of no use here"),
            ("a.json", objects, {"by": "id"}, "no object has the field id, that --by asks for; there are name, peers"),
            ("a.json", objects, {"columns": "a,b"}, "no object has the field a, that --columns asks for"),
            ("a.json", objects, {"links": "edges"}, "there is no key edges, that --links asks for"),
            ("a.dot", "graph { a -- b [w=1] }", {"by": "w"}, "--by w is of no use here: it has the form dot"),
            ("a.dot", "graph { a -- b [w=1] }", {"columns": "a,b"}, "--columns a,b is of no use here"),
            (
                "room-1",
                files,
                {"columns": "1,2"},
                "--columns 1,2 is of no use here: each file has the peers of one host",
            ),
            ("room-2", files, {"form": "json"}, "--form json is of no use here: each file has the peers of one host"),
            ("room-3", files, {"skip": 1}, "--skip 1 is of no use here: each file has the peers of one host"),
        ):
            with self.subTest(name, **asked):
                with self.assertRaises(TagzirkError) as why:
                    self.read(self.put(name, text), Asked(**asked))
                self.assertIn(told, str(why.exception))

    def test_each_option_is_known(self):
        self.assertEqual({*NOT_FOR_ALL, "all"}, set(Asked._fields))


class Links(Dumps):
    def test_links_below_a_key(self):
        # as other programs write them: with the nodes beside, or the ends alone
        pairs = sorted(UP)
        olsr = {"pid": 7, "topology": [{"lastHopIP": a, "destinationIP": b, "tcEdgeCost": 1024} for a, b in pairs]}
        lnd = {
            "nodes": [{"pub_key": f"k{it}", "alias": it, "color": "#000"} for it in HOSTS],
            "edges": [{"channel_id": a + b, "node1_pub": f"k{a}", "node2_pub": f"k{b}"} for a, b in pairs],
        }
        deep = {"net": {"a": {"channels": {a + b: {"ends": {"one": a, "two": b}} for a, b in pairs}}}}
        for value, words in (
            (olsr, {"links": "topology", "columns": "lastHopIP,destinationIP"}),
            (lnd, {"links": "edges", "columns": "node1_pub,node2_pub", "by": "alias"}),
            (deep, {"links": "channels", "columns": "ends.one,ends.two"}),
            (deep, {"links": "net.a.channels", "columns": "ends.one, ends.two"}),
            ([{"a": a, "b": b} for a, b in pairs], {"columns": "a,b"}),
            ({"nodes": HOSTS, "x": pairs, "links": []}, {"links": "x"}),
        ):
            with self.subTest(words):
                dump = self.read(self.put("links.json", json.dumps(value)), Asked(**words))
                self.assertEqual((links_of(dump), set(dump.graph.ids)), (UP, set(HOSTS)))

    def test_nodes_without_links_are_hosts(self):
        value = {"peers": [{"id": "a"}, {"id": "b"}, {"id": "c"}], "links": [{"x": "a", "y": "b"}]}
        dump = self.read(self.put("links.json", json.dumps(value)), Asked(links="links", columns="x,y"))
        self.assertEqual((links_of(dump), set(dump.graph.ids)), ({("a", "b")}, {"a", "b", "c"}))

    def test_what_is_refused(self):
        pair = {"x": "a", "y": "b"}
        for value, words, told in (
            ({"a": [pair], "b": {"a": [pair]}}, {"links": "b.c"}, "there is no key b.c"),
            ({"p": {"a": [pair]}, "q": {"a": [pair]}}, {"links": "a"}, "the key a stands in 2 places: say with dots"),
            (
                {"a": [pair]},
                {"links": "a"},
                "what is no link with known ends, and it has the fields x, y: say --columns",
            ),
            ({"a": 7}, {"links": "a"}, "below a stands no list of links: 7"),
            ({"a": [pair]}, {"links": "a", "columns": "x"}, "--columns takes two fields of a link"),
        ):
            with self.subTest(words):
                with self.assertRaises(TagzirkError) as why:
                    self.read(self.put("links.json", json.dumps(value)), Asked(**words))
                self.assertIn(told, str(why.exception))
