"""Tests of what an operator asks first, of the worst of the smallest cuts, and of racks and sites: against the
definitions, by trying all crashes of small graphs."""

import itertools
import json
import os
import random
import time
import unittest
from unittest import mock

import tagzirk
from tagzirk.graphs import named_graph
from tagzirk.racks import fewest_racks
from tagzirk.worst import worst

from .test_commands import Commands, edges_of, views_of
from .test_remedies import fewest_that_cut_off, number_cut_off, pieces_of, some_graph

# Three sites of four hosts, each in a ring with both diagonals; relays join each site with the next one.
SITES = {site: [f"{site}-{at}.example.net" for at in range(4)] for site in ("fra", "hel", "ams")}
RELAYS = ["relay-1", "relay-2"]
OVERLAY = [
    *(link for hosts in SITES.values() for link in itertools.combinations(hosts, 2)),
    *((relay, hosts[at]) for hosts in SITES.values() for at, relay in enumerate(RELAYS)),
]


def dump_with_dead():
    """The overlay as views in JSON, in which two hosts list a dead one."""
    nodes = [*itertools.chain(*SITES.values()), *RELAYS]
    views = views_of(nodes, OVERLAY)
    views["relay-1"].append("fra-9.example.net")
    views["hel-3.example.net"].append("fra-9.example.net")
    return json.dumps(views)


class Status(Commands):
    def setUp(self):
        super().setUp()
        self.dump = self.file("net.json", dump_with_dead())

    def lines(self, *words):
        out, _, status = self.tagzirk("status", self.dump, *words)
        self.assertEqual(status, 0, out)
        return out.splitlines()

    def test_what_is_printed(self):
        # without both relays each site is alone, and without fewer hosts nobody is
        lines = self.lines("--site", "^([a-z]+)-[0-9]+[.]")
        self.assertEqual(
            lines[0],
            "k is 2: of 14 hosts, a crash of relay-1, relay-2 cuts off 8 hosts, and fewer crashes cut off nobody.",
        )
        self.assertIn("Sites fra (4 hosts), hel (4 hosts) are cut off.", lines)
        self.assertEqual(
            lines[-1],
            "fra-9.example.net: listed by others, without an entry, and so left out, as dead (--no-entries takes them "
            "in). With it k is 0.",
        )
        self.assertEqual(self.tagzirk("status", self.dump)[0], self.tagzirk("analyse", self.dump)[0])
        with open(self.dump, encoding="utf-8") as file:
            self.assertEqual(self.tagzirk("status", given=file.read())[0], self.tagzirk("status", self.dump)[0])

    def test_json(self):
        said = json.loads("".join(self.lines("--json", "--without", "relay-1", "--at-least", "1")))
        # relay-2 alone joins the sites then
        self.assertEqual((said["k"], len(said["cut"]), said["left_out"], said["hosts"]), (1, 1, ["relay-1"], 13))
        worst_cut = said["worst"]["cuts"][0]
        self.assertEqual((worst_cut["crashed"], len(worst_cut["cut_off"]), worst_cut["pieces"]), (["relay-2"], 8, 3))
        self.assertEqual((said["status"], said["with_dead"]["k"], said["one_sided"]), ("OK", 0, 2))

    def test_json_has_the_cut_that_is_told_first(self):
        # rings of six, each joined to both spines: the certificate has a cut of the first ring
        rings = [[f"pod{ring}-{at}" for at in range(6)] for ring in range(4)]
        links = [link for ring in rings for at in range(6) for link in [(ring[at], ring[at - 1])]]
        links += [link for ring in rings for link in [(ring[0], "spine-a"), (ring[3], "spine-b")]]
        path, spines = self.file("pods", edges_of(links)), ["spine-a", "spine-b"]
        self.assertNotEqual(sorted(tagzirk.status([path]).report.cut), spines)
        said = json.loads(self.tagzirk("status", path, "--json", "--site", "^(pod[0-9])")[0])
        self.assertEqual((said["cut"], sorted(map(len, said["pieces"])), len(said["cut_off"])), (spines, [6] * 4, 18))
        self.assertEqual(said["cut_off"], said["worst"]["cuts"][0]["cut_off"])
        self.assertEqual([it["site"] for it in said["sites"] if it["is_cut_off"]], ["pod1", "pod2", "pod3"])
        self.assertEqual(json.loads(self.tagzirk("each", path, "--json")[0])["cut"], spines)
        # the ten worst, or as many as are asked for, of all that were found
        self.assertEqual((said["worst"]["found"] > 20, len(said["worst"]["cuts"])), (True, 10))
        found = worst(tagzirk.read_dump([path]).graph, most=3)
        self.assertEqual((len(found.cuts), found.found, found.is_all), (3, said["worst"]["found"], True))

    def test_who_is_dead_may_be_named(self):
        lines = self.lines("--without", "fra-9,relay-1")
        self.assertTrue(lines[0].startswith("k is 1: of 13 hosts, a crash of relay-2 cuts off 8 hosts"), lines)
        self.assertEqual(lines[-1], "Left out, as --without says: fra-9.example.net, relay-1.")
        self.assertEqual(self.lines("--without", "fra-9", "--entries")[-1], lines[-1].replace(", relay-1", ""))
        out, _, status = self.tagzirk("each", self.dump, "--without", "fra-9", "--csv")
        self.assertEqual((len(out.splitlines()), status), (15, 0))
        _, err, status = self.tagzirk("status", self.dump, "--group", "fra-9,relay-1")
        told = "--group: fra-9.example.net has no entry, and so is left out, as dead; --no-entries takes such names in"
        self.assertEqual((status, told in err), (1, True), err)

    def test_statuses_of_an_alarm(self):
        split = self.file("split.json", json.dumps(views_of("abcd", [("a", "b"), ("c", "d")])))
        torn = self.file("torn.json", '{"a": ["b"')
        for path, at_least, status, word in (
            (self.dump, 2, 0, "OK"),
            (self.dump, 3, 1, "WARNING"),
            (split, 1, 2, "CRITICAL"),
            (torn, 1, 3, "UNKNOWN"),
            (self.room / "gone.json", 1, 3, "UNKNOWN"),
        ):
            out, _, given = self.tagzirk("status", path, "--at-least", at_least)
            self.assertEqual((given, out.split(" - ")[0]), (status, word), out)
        # where some may be down k may be lower, and what is not read is told; --all says that it is known
        triangle = "source,target,q\na,b,{0}\nb,c,{1}\na,c,{1}\na,d,{1}\nb,d,{1}\nc,d,{1}\n"
        doubtful = self.file("doubtful.csv", triangle.format("A", "B"))
        beside = self.file("beside.csv", triangle.format(3.5, 4.5).replace("q", "cost"))
        for path, words, status, begin in (
            (doubtful, (), 1, "WARNING, taken all, though some may be down: of 6 links q is B (5) or A (1)"),
            (doubtful, ("--all",), 0, "OK - k is 3"),
            (beside, (), 0, "OK, but not read as states: of 6 links cost (4.5: 5, 3.5: 1)"),
            (beside, ("--all",), 0, "OK - k is 3"),
        ):
            out, _, given = self.tagzirk("status", path, "--at-least", 3, *words)
            self.assertEqual((given, out[: len(begin)]), (status, begin))
            self.assertIn(" - k is 3: every two of 4 hosts", out)
        self.assertIn("|k=2;3:;1:;0 hosts=14;;;0 links=24;;;0\n", self.tagzirk("status", self.dump, "--at-least", 3)[0])

    def test_names(self):
        self.assertEqual(
            self.lines("--without", "relay-1,hel-0")[-2],
            "Left out, as --without says: relay-1, hel-0.example.net.",
        )
        listed = self.file("down.txt", "# down since nine\nrelay-1\n\nhel-0.example.net\n")
        self.assertEqual(self.lines("--without", f"@{listed}"), self.lines("--without", "relay-1,hel-0"))
        # two sites are joined by both relays; hosts of one site are all linked
        self.assertRegex(self.lines("--group", "fra-2,hel-2")[0], "^k is 2 for the 2 hosts of the group: Crashing ")
        all_linked = self.lines("--group", ",".join(SITES["fra"]))
        self.assertIn("k is 3: every two of the 4 hosts of the group are linked", all_linked[0])
        # a group of one has k 0 by definition, of which an alarm says nothing
        alone = self.lines("--group", "fra-2")[0]
        self.assertTrue(alone.startswith("k is 0: the group is one host alone, fra-2.example.net"), alone)
        for words in ["--group", "fra-2"], ["--group", "fra-2,hel-2", "--without", "hel-2"]:
            out, err, status = self.tagzirk("status", self.dump, "--at-least", 1, *words)
            wanted = "UNKNOWN - --at-least says nothing of a group of one host, fra-2.example.net, whose k is 0\n"
            self.assertEqual((out, status), (wanted, 3), err)
        self.assertEqual(tagzirk.status([self.dump], group=["fra-2"]).level(1), 3)
        for word, told in (
            ("relay-3", "relay-3 is no host of the dump; did you mean relay-"),
            ("Fra-0", "Fra-0 is no host of the dump; did you mean fra-0"),
            ("", "--without '' names no host"),
        ):
            _, err, status = self.tagzirk("status", self.dump, "--without", word)
            self.assertEqual((status, told in err), (1, True), err)
        few = self.file("few", "a b\nb c\n")
        for name in "status", "each":
            _, err, status = self.tagzirk(name, few, "--without", "a,b,c")
            told = f"tagzirk {name}: --without names all 3 hosts of the dump, so that none is left\n"
            self.assertEqual((status, err), (1, told))
        both = self.file("both", "a.x b\na.y b\n")
        self.assertIn("a is short for 2 hosts: a.x, a.y; name one", self.tagzirk("status", both, "--without", "a")[1])


class Only(Commands):
    def test_each_form(self):
        # three rings of 400 hosts, joined in one place; and so many that they are more than can be analysed
        links = [(f"{site}-{at}", f"{site}-{(at + 1) % 400}") for site in ("ams", "fra", "hel") for at in range(400)]
        links += [("ams-0", "fra-0"), ("fra-1", "hel-1")]
        nodes = sorted(set(itertools.chain(*links)))
        wanted = named_graph([it for it in links if all(name.startswith("ams-") for name in it)]).text_with_names
        for name, text in (
            ("net.edges", edges_of(links)),
            ("net.json", json.dumps(views_of(nodes, links))),
            ("net.dot", "graph {" + "".join(f'"{a}" -- "{b}";' for a, b in links) + "}"),
            ("net.csv", "source,target\n" + "".join(f"{a},{b}\n" for a, b in links)),
        ):
            path = self.file(name, text)
            out, err, status = self.tagzirk("import", path, "--only", "ams-*")
            self.assertEqual((out, status), (wanted, 0), name)
            self.assertIn("looked at alone, as --only ams-* asks: 400 of 1200 hosts", err)
        self.assertIn("--only oslo* matches the name of no host", self.tagzirk("import", path, "--only", "oslo*")[1])
        most = self.file("most.edges", edges_of(links) + edges_of((f"ams-{at}", f"leaf-{at}") for at in range(32768)))
        _, err, status = self.tagzirk("import", most)
        self.assertEqual((status, "--only PATTERN looks at hosts" in err), (1, True), err)
        out, _, status = self.tagzirk("import", most, "--only", "ams-?", "--only", "ams-??", "--only", "ams-[123]??")
        self.assertEqual((out, status), (wanted, 0))

    def test_all_hosts_are_as_without_it(self):
        path = self.file("net.json", dump_with_dead())
        for words in [], ["--entries"], ["--either"], ["--either", "--entries"]:
            out, _, status = self.tagzirk("import", path, *words)
            self.assertEqual((self.tagzirk("import", path, "--only", "*", *words)[0], status), (out, 0))

    def test_graph_file(self):
        path = self.file("net.graph", named_graph(OVERLAY).text_with_names)
        lines = self.tagzirk("status", path, "--only", "fra-*", "--only", "relay-*")[0].splitlines()
        # each relay is linked to one host of the site, and not to the other relay
        self.assertTrue(lines[0].startswith("k is 1: of 6 hosts, a crash of fra-"), lines)


class WithoutAnEntry(Commands):
    """Names that others list and that have no entry: one rule for all questions, and another for `import`."""

    def test_each_question_leaves_them_out(self):
        views = {"a": ["b", "c"], "b": ["a", "c", "dead"], "c": ["a", "b"]}
        path = self.file("net-20261128T0900Z.json", json.dumps(views))
        for words, without, including in (
            (["status", path], "k is 2: every two of 3 hosts", "k is 0"),
            (["diff", path, self.file("old", "a b\nb c\na c\n")], "k is 2, as before", "k is 2, and was 0"),
            (["each", path], "k is 2 now", "k is 0 now"),
            (["history", path], "T09:00:00+00:00,3,3,2", "T09:00:00+00:00,4,3,0"),
            (["metrics", path, "--textfile", "-"], "tagzirk_connectivity 2.0", "tagzirk_connectivity 0.0"),
            (["report", path], "k<b>2</b>", "k<b>0</b>"),
        ):
            with self.subTest(words), mock.patch.dict(os.environ, {"TZ": "UTC"}):
                time.tzset()
                for more, told in ([], without), (["--entries"], without), (["--no-entries"], including):
                    out, err, status = self.tagzirk(*words, *more)
                    self.assertEqual((told in out, status), (True, 0), out + err)
        time.tzset()

    def test_they_are_told(self):
        path = self.file("net.json", '{"a": ["b", "dead"], "b": ["a"]}')
        for command in ["each"], ["report"], ["mend", "--to", "1"]:
            told = "left out, as dead, since it has no entry; --no-entries takes them in"
            self.assertIn(told, self.tagzirk(*command, path)[1], command)
            self.assertNotIn("left out", self.tagzirk(*command, "--entries", path)[1])
        self.assertIn(told, self.tagzirk("report", path)[0])

    def test_import_is_as_overlay_import(self):
        path = self.file("net.json", '{"a": ["b", "dead"], "b": ["a"]}')
        self.assertEqual(self.tagzirk("import", path)[0].count("node"), 3)
        self.assertEqual(self.tagzirk("import", path, "--entries")[0].count("node"), 2)


class History(Commands):
    def test_names_and_ages_that_are_not_as_most(self):
        files = [self.file(f"net-20261128T090{at}Z.edges", "a b\nb c\n") for at in range(4)]
        for at, file in enumerate(files):
            os.utime(file, (1795856400 + 60 * at,) * 2)
        self.assertEqual(self.tagzirk("history", *files)[1], "")
        os.utime(files[2], (1795856400 + 9000,) * 2)
        self.assertIn("net-20261128T0902Z.edges: not read as states: it was changed 2 hours from the time in its name",
                      self.tagzirk("history", *files)[1])
        odd = self.file("net-20261128T0909Z-part.edges", "a b\nb c\n")
        os.utime(odd, (1795856400 + 540,) * 2)
        self.assertIn("T0909Z-part.edges: not read as states: its name is not as net-0T0Z.edges, as most are but for",
                      self.tagzirk("history", *files[:2], odd, *files[3:])[1])

    def test_json(self):
        good = self.file("net-20261128T0900Z.txt", edges_of([("a", "b"), ("b", "c")]))
        torn = self.file("net-20261128T0910Z.json", '{"a": ["b"')
        out, _, status = self.tagzirk("history", torn, good, "--json")
        first, second = json.loads(out)
        self.assertEqual((status, first["k"], first["cut"], first["nodes"], first["fault"]), (1, 1, ["b"], 3, None))
        self.assertEqual((second["k"], second["cut"], second["file"]), (None, None, torn))
        self.assertIn("JSON", second["fault"])


class Worst(unittest.TestCase):
    def test_against_the_definition(self):
        source = random.Random(17)
        for _ in range(30):
            nodes, links = some_graph(source, 9)
            graph = named_graph(views_of(nodes, links))
            found = worst(graph, workers=1)
            k = fewest_that_cut_off(nodes, links, 1)
            if k is None:
                self.assertEqual((found.cuts, found.is_all), ((), True))
                continue
            cuts = {it: number_cut_off(nodes, links, it) for it in itertools.combinations(sorted(nodes), k)}
            cuts = {it: number for it, number in cuts.items() if number}
            self.assertEqual((found.found, found.is_all), (len(cuts), True), links)
            self.assertEqual([len(it.cut_off) for it in found.cuts], sorted(cuts.values(), reverse=True)[:10])
            for it in found.cuts:
                self.assertEqual(cuts[tuple(sorted(it.crashed))], len(it.cut_off))
                self.assertEqual(it.pieces, len(pieces_of(nodes, links, it.crashed)))
            for host in nodes:
                most = max((number for cut, number in cuts.items() if host in cut), default=None)
                self.assertEqual(len(found.of[host].cut_off) if host in found.of else None, most)

    def test_where_not_all_are_tried(self):
        # sixty pods of seven hosts, three of which are linked to three spines
        pods = [[f"pod{pod}-{at}" for at in range(7)] for pod in range(60)]
        links = [link for hosts in pods for link in itertools.combinations(hosts, 2)]
        links += [(hosts[at], f"spine-{spine}") for hosts in pods for at in range(3) for spine in "abc"]
        found = worst(links)
        self.assertFalse(found.is_all)
        self.assertEqual(found.cuts[0].crashed, ("spine-a", "spine-b", "spine-c"))
        self.assertEqual((len(found.cuts[0].cut_off), found.cuts[0].pieces), (59 * 7, 60))


class Racks(unittest.TestCase):
    def test_against_the_definition(self):
        source = random.Random(18)
        for _ in range(20):
            nodes, links = some_graph(source, 9)
            racks = {}
            for node in nodes:
                racks.setdefault(f"R{source.randint(1, 4)}", []).append(node)
            graph = named_graph(views_of(nodes, links))
            loss = fewest_racks(graph, racks)
            for number in range(min(3, len(racks)) + 1):
                lost = {them: [host for rack in them for host in racks[rack]]
                        for them in itertools.combinations(racks, number)}
                split = {them: number_cut_off(nodes, links, hosts) for them, hosts in lost.items()}
                split = {them: away for them, away in split.items() if away}
                if split:
                    self.assertEqual((len(loss.racks), loss.number, loss.tried), (number, len(split), number), links)
                    self.assertEqual((split[loss.racks], len(loss.cut_off)), (max(split.values()), max(split.values())))
                    break
            else:
                self.assertEqual((loss.racks, loss.tried), (None, min(3, len(racks))))


class Large(unittest.TestCase):
    def test_each_of_many_hosts_asks_little(self):
        # a ring in which each host is linked to the two next ones, and a leaf: k is 1, and 4 without the leaf
        ring = [(at, (at + step) % 300) for at in range(300) for step in (1, 2)]
        crashes = {it.name: it for it in tagzirk.each([*ring, (0, 1000)])}
        self.assertEqual({name for name, it in crashes.items() if it.cut_off}, {0})
        self.assertEqual((crashes[0].k, crashes[0].cut_off), (0, (1000,)))
        self.assertEqual({it.k for name, it in crashes.items() if name not in (0, 1000)}, {1})
        self.assertEqual(crashes[1000].k, 4)


if __name__ == "__main__":
    unittest.main()
