"""Tests of what dumps say of states: none gives a k that is too high without a word. Some need the program overlay."""

import itertools
import json
import pathlib
import tempfile
import unittest

from tagzirk import Asked, BadDump, Options, read_dump
from tagzirk.dot import of_dot
from tagzirk.fields import Field, fields_of
from tagzirk.folders import of_hosts
from tagzirk.forms import listings_of
from tagzirk.states import Kind, kind_of
from tagzirk.taken import doubts_in, taken_of
from tagzirk.values import Views

from . import misreads, more_misreads
from .misreads import ALL, HOSTS, UP, dot, each, graph, graphml, hosts, lines, others, seen, yaml
from .test_commands import Commands


def asked_by(words):
    """What is asked for by such words of the command."""
    pairs = list(zip(words[::2], words[1::2]))
    ups = tuple(value for word, value in pairs if word == "--up")
    return Asked(**{word[2:]: value for word, value in pairs if word != "--up"}, up=ups)


def links_of(dump):
    names = dump.graph.names
    return {tuple(sorted((names[a], names[b]))) for a, b in dump.graph.links}


class Dumps(unittest.TestCase):
    def setUp(self):
        room = tempfile.TemporaryDirectory()
        self.addCleanup(room.cleanup)
        self.room = pathlib.Path(room.name)

    def put(self, name, text):
        """A file, or a folder of files, with this text."""
        place = self.room / name
        if isinstance(text, dict):
            place.mkdir()
            for file, inner in text.items():
                (place / file).write_text(inner)
        elif isinstance(text, bytes):
            place.write_bytes(text)
        else:
            place.write_text(text)
        return str(place)

    def read(self, place, asked=Asked()):
        return read_dump([place], Options(asked=asked))


def taken(name, text, asked=Asked()):
    """What is taken of a dump, and the notes on it, without a file and without a program."""
    if isinstance(text, dict):
        views = of_hosts({pathlib.Path(file): inner.encode() for file, inner in text.items()}, asked)
    else:
        views = listings_of(text.encode(), name, asked) or of_dot(text)
    left, notes = taken_of(views, asked)
    listed = {(one, other) for one, peers in left.peers.items() for other in peers}
    return {it for it in listed if it[0] < it[1] and it[::-1] in listed}, set(left.peers), " ".join(notes)


class Misreads(unittest.TestCase):
    def test_what_is_down_is_asked(self):
        for name, text, words, told in misreads.ASKED:
            with self.subTest(name):
                with self.assertRaises(BadDump) as why:
                    taken(name, text)
                self.assertIn(told, str(why.exception))
                if words:
                    self.assertEqual(taken(name, text, asked_by(words))[:2], (UP, set(HOSTS)))

    def test_all_is_taken_with_a_word(self):
        count = 0
        for name, text, words, told in misreads.ASKED:
            if words and "--up" in words:
                with self.subTest(name):
                    links, _, notes = taken(name, text, asked_by(words)._replace(up=(), all=True))
                    self.assertLess(UP, links)
                    self.assertIn("taken all the same, as --all asks", notes)
                    count += 1
        self.assertGreater(count, 60)

    def test_what_may_be_down_is_told(self):
        for name, text, words, told in misreads.NOTED:
            with self.subTest(name):
                links, _, notes = taken(name, text)
                self.assertTrue("some may be down" in notes and told in notes, notes)
                self.assertEqual(links, set(ALL))
                self.assertEqual(taken(name, text, asked_by(words))[0], UP)

    def test_there_are_so_many(self):
        dumps = [*misreads.ASKED, *misreads.NOTED, *more_misreads.TOLD]
        self.assertEqual(len({it[0] for it in dumps}), len(dumps))
        self.assertGreaterEqual(len(dumps), 180)


class MoreMisreads(Dumps):
    def test_each_is_asked_or_told(self):
        for name, text, told in more_misreads.TOLD:
            with self.subTest(name):
                asked = Asked(**more_misreads.WORDS.get(name, {}))
                try:
                    found = " ".join(doubts_in(self.read(self.put(name, text), asked).notes))
                except BadDump as why:
                    found = str(why)
                self.assertIn(told, found)


# What differs from link to link or from host to host, and says nothing of what is down: no word is said of it.
PLAIN = [
    ("weight.json", seen("weight", [1, 2, 5], [3, 8])),
    ("floats.json", seen("w", [0.5, 2.25], [1.75])),
    ("region.json", hosts({"region": "eu"}, {"region": "us"})),
    ("version.json", seen("version", ["1.4.0", "1.4.1"], ["1.3.9"])),
    ("port.json", seen("port", [655, 656], [657])),
    ("rtt.json", seen("rtt", [3.25, 8, 12], [30.5, 31])),
    ("rtt-texts.json", seen("rtt", ["3ms", "8ms"], ["31ms"])),
    ("bytes.json", seen("bytes_recvd", range(1000, 9000, 700), range(400, 9000, 900))),
    ("uptime.json", seen("uptime", [12.5, 30.25], [3600.75])),
    ("connected-since.json", seen("since", ["2026-11-30T09:00:00Z"], ["2026-11-28T21:00:00Z"])),
    ("inbound.json", hosts({"inbound": True}, {"inbound": False})),
    ("zero.json", hosts({"priority": 0}, {"priority": 0})),
    ("protocol.json", hosts({"proto": "tcp"}, {"proto": "quic"})),
    ("interface.json", seen("interface", ["eth0", "eth1"], ["wg0"])),
    ("mtu.json", hosts({"mtu": 1500}, {"mtu": 9000})),
    ("keys.json", json.dumps([{"_key": at, "source": a, "target": b} for at, (a, b) in enumerate(ALL)])),
    ("hops.json", hosts({"hops": 1}, {"hops": 2})),
    ("addresses.json", each(lambda it: {"peers": [{"id": x, "addr": f"10.0.0.{x[1:]}:7946"} for x in others(it)]})),
    ("builds.json", each(lambda it: {"peers": [{"id": x, "cookie": f"b{x[1:]}"} for x in others(it)]})),
    ("racks.json", each(lambda it: {"rack": "abcabc"[int(it[1]) - 1], "peers": others(it)})),
    ("roles.json", each(lambda it: {"role": "seed" if it == "n1" else "node", "peers": others(it)})),
    ("ports.json", each(lambda it: {"port": 7000 + int(it[1]), "peers": others(it)})),
    ("tags.json", each(lambda it: {"tags": ["eu", "ssd"][int(it[1]) % 2 :], "peers": others(it)})),
    ("counts.json", each(lambda it: {"links": 5, "peers": others(it)})),
    (
        "positions.json",
        graph({"weight": 3}, {"weight": 4}, nodes=[{"id": it, "x": at - 2, "y": 0} for at, it in enumerate(HOSTS)]),
    ),
    ("weights.csv", lines("source,target,weight\n", "{a},{b},{it}", 3, 7)),
    ("gephi.csv", lines("Source,Target,Type,Label,Weight\n", "{a},{b},Undirected,{a}{b},1.0{it}", 0, 5)),
    ("weights.edges", lines("", "{a} {b} {it}", 3.5, 7.25)),
    ("weights.dot", dot("[label=5]", "[label=7]")),
    ("widths.dot", dot("[penwidth=1.5]", "[penwidth=3]")),
    ("attributes.edges", lines("", "{a} {b} {{'weight': {it}}}", 3, 7)),
]

# Dumps that say of all hosts, or of all links, that they are down.
ALL_DOWN = [
    ("state.json", hosts({"state": "down"}, {"state": "down"}), r"30 listings state is down \(30\)"),
    ("up.json", hosts({"up": False}, {"up": False}), r"30 listings up is false \(30\)"),
    ("host-up.json", hosts({"host_up": False}, {"host_up": False}), r"30 listings host_up is false \(30\)"),
    ("connected.json", hosts({"connected": 0}, {"connected": 0}), r"30 listings connected is 0 \(30\)"),
    ("down.json", hosts({"down": True}, {"down": True}), r"30 listings down is true \(30\)"),
    ("failed.json", hosts({"failed": 1}, {"failed": 1}), r"30 listings failed is 1 \(30\)"),
    ("below.json", hosts(*[{"status": {"up": False}}] * 2), r"30 listings status.up is false \(30\)"),
    ("not-ready.json", hosts({"x": "NotReady"}, {"x": "NotReady"}), r"30 listings x is NotReady \(30\)"),
    ("idle.json", hosts({"state": "Idle"}, {"state": "Idle"}), r"30 listings state is Idle \(30\)"),
    ("for.json", seen("x", ["Down 3 days", "Down 2 days"], ["Down 5 days"]), r"30 listings x is Down 5 days \(16\), D"),
    ("never.json", hosts({"handshake": "never"}, {"handshake": "never"}), r"30 listings handshake is never \(30\)"),
    ("hosts.json", each(lambda it: {"status": "dead", "peers": others(it)}), r"6 hosts status is dead \(6\)"),
    ("alive.json", each(lambda it: {"alive": "no", "peers": others(it)}), r"6 hosts alive is no \(6\)"),
    ("state.csv", lines("source,target,state\n", "{a},{b},{it}", "down", "Down"), r"15 links state is down \(15\)"),
    ("comment.edges", lines("", "{a} {b} # {it}", "down", "down"), r"15 links comment is down \(15\)"),
    ("invis.dot", dot("[style=invis]", "[style=invis]"), r"15 links style is invis \(15\)"),
    ("default.graphml", graphml("string", "", "").replace('attr.type="string"/>', '><default>down</default></key>')
     .replace('<data key="d0"></data>', ""), r"15 links state is down \(15\)"),
    ("state.graphml", graphml("string", "down", "down"), r"15 links state is down \(15\)"),
    ("state.yaml", yaml("state: down", "state: down"), r"30 listings state is down \(30\)"),
]


class FalseAlarms(Dumps):
    def test_nothing_is_told_of_what_is_no_state(self):
        for name, text in PLAIN:
            with self.subTest(name):
                if name == "attributes.edges":
                    # overlay import reads it
                    self.assertIsNone(listings_of(text.encode(), name, Asked()))
                    continue
                links, _, notes = taken(name, text)
                self.assertEqual((links, "down" in notes), (set(ALL), False))

    def test_one_value_for_all_is_told(self):
        for name, text, told in (
            ("state.json", hosts({"state": "ready"}, {"state": "ready"}), "state is ready of all 30 listings"),
            ("up.json", hosts({"up": True}, {"up": True}), "up is true of all 30 listings"),
            ("all-down.json", hosts({"b": False}, {"b": False}), "b is false of all 30 listings"),
            ("status.csv", lines("source,target,status\n", "{a},{b},{it}", "ok", "OK"), "status is ok of all 15 links"),
            ("null.json", hosts({"connected": None}, {"connected": None}), "connected is null of all 30 listings"),
            ("state-7.json", hosts({"state": 7}, {"state": 7}), "state is 7 of all 30 listings"),
            ("failed.json", hosts({"failed": 0}, {"failed": 0}), "failed is 0 of all 30 listings"),
            ("limit.json", hosts({"max_failures": 3}, {"max_failures": 3}), "max_failures is 3 of all 30 listings"),
            ("tls.json", hosts({"tls_enabled": False}, {"tls_enabled": False}), "tls_enabled is false of all 30 li"),
            ("empty.json", hosts({"state": ""}, {"state": ""}), "state is empty of all 30 listings"),
            ("healthy.json", each(lambda it: {"state": "alive", "peers": others(it)}), "state is alive of all 6 hosts"),
            ("lengths.json", seen("status", ["Up 3 hours", "Up 2 days"], ["Up 5 days"]), "status is Up"),
            ("moment.json", seen("lastSeen", [1764493200, 1764493210], [1764493233]), "lastSeen is 17644932"),
        ):
            with self.subTest(name):
                links, _, notes = taken(name, text)
                self.assertEqual(links, set(ALL))
                self.assertIn(told, notes)

    def test_all_down_is_asked(self):
        for name, text, told in ALL_DOWN:
            with self.subTest(name):
                asked = f"all may be down: of {told}.*; say --up .*, or --all to take all"
                with self.assertRaisesRegex(BadDump, asked):
                    taken(name, text)
                links, _, notes = taken(name, text, Asked(all=True))
                self.assertEqual(links, set(ALL))
                self.assertIn("taken all the same, as --all asks", notes)

    def test_what_real_daemons_say(self):
        # as Yggdrasil 0.4 and tinc 1.0 write it, of a ring
        ring = {it: [HOSTS[at - 1], HOSTS[(at + 1) % 6]] for at, it in enumerate(HOSTS)}
        peers = itertools.count(1)
        folder = {
            f"{it}.json": json.dumps(
                {
                    "peers": [
                        {
                            "address": peer,
                            "key": f"k{peer}",
                            "port": at,
                            "priority": 0,
                            "coords": [next(peers)],
                            "remote": f"tcp://{peer}:{next(peers)}",
                            "bytes_recvd": 0 if at else next(peers),
                            "bytes_sent": next(peers),
                            "uptime": next(peers) + 0.5,
                        }
                        for at, peer in enumerate(ring[it])
                    ]
                }
            )
            for it in HOSTS
        }
        tinc = "digraph {\n" + "".join(f'\t{it} [label = "{it}"];\n' for it in HOSTS)
        tinc += "".join(f"\t{it} -> {peer};\n" for it, listed in ring.items() for peer in listed) + "}\n"
        wanted = {tuple(sorted((it, peer))) for it, listed in ring.items() for peer in listed}
        for name, text in ("yggdrasil", folder), ("tinc.dot", tinc):
            self.assertEqual(links_of(self.read(self.put(name, text))), wanted, name)


class Ups(Dumps):
    def test_what_is_asked_and_not_there(self):
        place = self.put("state.json", hosts({"state": "up"}, {"state": "down"}))
        for up, told in (
            ("stat=up", "no field stat, that --up asks for: the dump has state"),
            ("state=Op", r"none of 30 listings has state=Op: state is down \(16\) or up \(14\)"),
            ("state", "--up takes FIELD=VALUE"),
            ("=up", "--up takes FIELD=VALUE"),
        ):
            with self.assertRaisesRegex(BadDump, told):
                self.read(place, Asked(up=(up,)))
        with self.assertRaisesRegex(BadDump, "no object has the field active, that --peers asks"):
            self.read(place, Asked(peers="active"))

    def test_what_is_rare_is_told_first(self):
        """Of more values or fields than have room the rare ones are told first, each with how often it is there."""
        words = ["Idle"] * 2 + ["Active"]
        numbers = [str(4 + at % 9) for at in range(30)]
        many = [f"w{at}" for at in range(7) for _ in range(at + 1)]
        few_down = [["up" if at != 33 and row % 2 or at == 33 and row else "down" for at in range(41)]
                    for row in range(40)]
        for rows, names, told in (
            ([[it] for it in numbers + words], ["pfxrcd"], r"pfxrcd is Active \(1\), Idle \(2\) or 4 to 12 \(30\);"),
            ([[it] for it in words + numbers], ["pfxrcd"], r"pfxrcd is Active \(1\), Idle \(2\) or 4 to 12 \(30\);"),
            ([[it] for it in many], ["state"], r"w0 \(1\), w1 \(2\), w2 \(3\), w3 \(4\), w6 \(7\) and 2 more values"),
            (few_down, [f"up{at}" for at in range(41)], r"of 40 links up33 is up \(39\) or down \(1\); up0 is"),
        ):
            lines = [["source", "target", *names], *([f"a{at}", f"b{at}", *row] for at, row in enumerate(rows))]
            place = self.put("net.csv", "".join(",".join(it) + "\n" for it in lines))
            with self.assertRaisesRegex(BadDump, told):
                self.read(place)

    def test_columns_by_their_numbers(self):
        for name, header in ("nameless.csv", "source,target,"), ("twice.csv", "source,target,target"):
            place = self.put(name, f"{header}\na,b,yes\nb,c,no\n")
            self.assertEqual(links_of(self.read(place, Asked(up=("3=yes",)))), {("a", "b")}, header)
        place = self.put("named.csv", "source,state,target\na,yes,b\nb,no,c\n")
        for up in "2=yes", "state=yes", "link:2=yes":
            self.assertEqual(links_of(self.read(place, Asked(up=(up,)))), {("a", "b")}, up)
        with self.assertRaisesRegex(BadDump, "a column without a name is called by its number, as 3=1"):
            self.read(place, Asked(up=("=yes",)))

    def test_several_fields(self):
        # n1 and n4 are linked only by what is up and alive
        text = "source,target,state,alive\nn1,n4,up,yes\nn1,n2,up,no\nn2,n4,down,yes\nn2,n3,up,yes\n"
        place = self.put("two.csv", text)
        with self.assertRaisesRegex(BadDump, r"state is up \(3\) or down \(1\); alive is yes \(3\) or no \(1\)"):
            self.read(place)
        # what is left may still be down by the other field
        with self.assertRaisesRegex(BadDump, r"of 3 links alive is yes \(2\) or no \(1\)"):
            self.read(place, Asked(up=("state=up",)))
        dump = self.read(place, Asked(up=("state=up", "alive=yes")))
        self.assertEqual(links_of(dump), {("n1", "n4"), ("n2", "n3")})
        self.assertIn("left out, as --up state=up asks: 1 of 4 links", dump.notes)
        self.assertEqual(len(links_of(self.read(place, Asked(up=("state=up",), all=True)))), 3)

    def test_a_field_of_hosts_and_of_listings(self):
        entry = {"status": "ok", "peers": [{"name": "a", "status": "ok"}, {"name": "b", "status": "bad"}]}
        text = json.dumps({"a": entry, "b": {**entry, "status": "bad"}, "c": entry})
        place = self.put("both.json", text)
        with self.assertRaisesRegex(BadDump, "say --up host:status=.. or link:status=.."):
            self.read(place, Asked(up=("status=ok",)))
        # without the host b no listing is left that is bad
        dump = self.read(place, Asked(up=("host:status=ok",)))
        self.assertEqual((set(dump.graph.ids), links_of(dump)), ({"a", "c"}, set()))
        dump = self.read(place, Asked(up=("link:status=ok",), all=True))
        self.assertEqual(set(dump.graph.ids), {"a", "b", "c"})

    def test_two_statements_of_one_link(self):
        text = "source,target,state\na,b,down\nb,a,up\na,c,down\n"
        dump = self.read(self.put("two.csv", text), Asked(up=("state=up",)))
        self.assertEqual((links_of(dump), set(dump.graph.ids)), ({("a", "b")}, {"a", "b", "c"}))

    def test_how_something_is_written(self):
        pairs = [{"source": "a", "target": "b"}, {"from": "b", "to": "c"}, {"source": "a", "target": "c"}]
        written = self.put("written.json", json.dumps(pairs))
        twice = self.put("twice.edges", "a b\nb a\na c\nc a\nb c\n")
        views = self.put("views.json", '{"a": ["b", "b", "c"], "b": ["a", "a"], "c": ["a"]}')
        dot = self.put("twice.dot", "graph { a -- b; b -- a; a -- c }")
        for place, up, wanted in (
            (written, "written as=source and target", {("a", "b"), ("a", "c")}),
            (twice, "stands there=from both ends", {("a", "b"), ("a", "c")}),
            (views, "stands there=twice", {("a", "b")}),
            (dot, "stands there=once", {("a", "c")}),
        ):
            dump = self.read(place, Asked(up=(up,)))
            self.assertEqual((links_of(dump), doubts_in(dump.notes)), (wanted, []), up)

    def test_ranges(self):
        rows = [("a", "b", "0.5"), ("b", "c", "7"), ("c", "d", "-1"), ("d", "e", ""), ("e", "f", "12")]
        place = self.put("rtt.csv", "source,target,rtt\n" + "".join(",".join(it) + "\n" for it in rows))
        for values, wanted in ("0..", "ab bc ef"), ("0.5..7", "ab bc"), ("..0", "cd"), ("7..", "bc ef"), ("7..7", "bc"):
            dump = self.read(place, Asked(up=(f"rtt={values}",), all=True))
            self.assertEqual(links_of(dump), {tuple(it) for it in wanted.split()}, values)


class InCommands(Commands):
    def test_options_and_words(self):
        place = self.file("state.json", hosts({"state": "up"}, {"state": "down"}))
        for words, k in (("--up", "state=up"), 2), (("--all",), 5), (("--up", "state=up,down"), 5):
            out, err, status = self.tagzirk("status", *words, place)
            self.assertEqual((f"k is {k}" in out, status), (True, 0), err)
        for command in "status", "each", "history", "import", "report":
            out, err, status = self.tagzirk(command, place)
            self.assertEqual((status, "some may be down: of 30 listings" in err), (1, True), command)
        for up in "state", "=up":
            out, err, status = self.tagzirk("status", "--up", up, place)
            self.assertEqual((out, status, "--up takes FIELD=VALUE" in err), ("", 2, True), err)

    def test_no_number_without_a_word(self):
        # each command that says k tells of what may be down
        place = self.file("codes.json", hosts({"zustand": "A"}, {"zustand": "B"}))
        other = self.file("other.json", hosts({"zustand": "A"}, {"zustand": "B"}))
        for words in (
            ("status", place),
            ("status", "--at-least", 3, place),
            ("diff", place, other),
            ("each", place),
            ("history", place, other),
            ("metrics", "--textfile", self.room / "a.prom", place),
            ("mend", "--to", 5, place),
            ("report", place),
            ("import", place),
        ):
            out, err, status = self.tagzirk(*words)
            self.assertIn("some may be down: of 30 listings zustand is B (16) or A (14)", err, words)
            # an alarm warns that k may be lower
            self.assertEqual(status, int("--at-least" in words), words)
        self.assertIn("and so of 1 more dumps", self.tagzirk("history", place, other)[1])


def field(values, name="x", of="links", missing=0):
    """A field with a value for each of so many links of different hosts, or for so many hosts."""
    who = [(f"a{at}",) if of == "hosts" else (f"a{at}", f"b{at % 2}") for at in range(len(values))]
    return Field(of, name, list(zip(who, values)), missing)


class Rules(unittest.TestCase):
    def test_rules(self):
        for values, told, kind in (
            ([True, False, True], {}, Kind.ASKED),
            ([True, True, True], {}, Kind.TOLD),
            ([True, True], {"missing": 3}, Kind.ASKED),
            ([True, False, True], {"name": "inbound"}, Kind.NONE),
            ([True, False, True], {"name": "joined"}, Kind.TOLD),
            ([True, False, True], {"of": "hosts"}, Kind.TOLD),
            ([True, False, True], {"of": "hosts", "name": "alive"}, Kind.ASKED),
            ([1, 1, 1], {}, Kind.NONE),
            ([1, 0, 1], {"name": "weight"}, Kind.ASKED),
            ([1, 2, 1, 2], {"name": "weight"}, Kind.NONE),
            ([1, 2, 1, 2], {"name": "code"}, Kind.TOLD),
            ([3, None, 4], {}, Kind.ASKED),
            ([3, None, 4], {"of": "hosts"}, Kind.TOLD),
            ([3, None, 4], {"name": "rack"}, Kind.TOLD),
            ([3, -1, 4], {"name": "rtt"}, Kind.ASKED),
            ([-3, -1, -4], {"name": "dbm"}, Kind.TOLD),
            (["a", "b", "a", "b"], {}, Kind.TOLD),
            (["a", "b", "a", "b"], {"name": "region"}, Kind.NONE),
            (["a", "b", "c", "d"], {}, Kind.NONE),
            (["up", "down", "joining"], {}, Kind.ASKED),
            (["north", "DOWN", "south"], {"name": "region"}, Kind.ASKED),
            ([*map(str, range(20)), "timeout"], {"name": "rtt"}, Kind.TOLD),
            ([1764493200, 1764493230], {"name": "t"}, Kind.TOLD),
            ([1764493200, 1764493290], {"name": "t"}, Kind.ASKED),
            ([1764493200, 1764400000], {"name": "created"}, Kind.NONE),
            ([1764493200, 1764400000], {"name": "t", "of": "hosts"}, Kind.TOLD),
            ([1764493200, 1764400000], {"name": "last_seen", "of": "hosts"}, Kind.ASKED),
            (["5s", "50s"], {"name": "age"}, Kind.TOLD),
            (["5s", "90s"], {"name": "age"}, Kind.ASKED),
            ([5, 90], {"name": "age"}, Kind.ASKED),
            (["red", "black"] * 3, {"name": "color"}, Kind.TOLD),
            (["red", "black"] * 3, {"name": "color", "of": "hosts"}, Kind.TOLD),
            (["red", "black"] * 3, {"name": "paint", "of": "hosts"}, Kind.NONE),
            ([4, 5, 6, 7, 8, 9, 10, 11], {"name": "error_count"}, Kind.TOLD),
            ([4, 5, 65535], {"name": "metric"}, Kind.TOLD),
        ):
            with self.subTest(values=values, **told):
                self.assertEqual(kind_of(field(values, **told)), kind)

    def test_fields_are_counted(self):
        views = Views()
        views.enter("a", {"rack": 1})
        views.link("a", "b", {"state": "Up", "w": 1.0})
        views.link("b", "c", {"state": "up "})
        found = {(it.of, it.name): (dict(it.counts), it.missing) for it in fields_of(views)}
        self.assertEqual(
            found,
            {
                ("hosts", "rack"): ({"1": 1, "missing": 2}, 2),
                ("links", "state"): ({"Up": 2}, 0),
                ("links", "w"): ({"1": 1, "missing": 1}, 1),
            },
        )

    def test_nothing_to_tell(self):
        views = Views("lines")
        views.link("a", "b")
        self.assertEqual(taken_of(views, Asked()), (views, []))
