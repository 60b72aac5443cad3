"""Tests of what is told of crashes, and of links to add: against the definitions, and what the command prints."""

import itertools
import json
import random
import unittest

import tagzirk
from tagzirk.bounds import number_in, numbers_after
from tagzirk.graphs import named_graph
from tagzirk.reports import analysed

from .test_commands import CLIQUES, Commands, edges_of, views_of


def pieces_of(nodes, links, crashed):
    """The sets of survivors that reach each other."""
    left, pieces = set(nodes) - set(crashed), []
    while left:
        piece, more = set(), [next(iter(left))]
        while more:
            now = more.pop()
            if now in left:
                left.remove(now)
                piece.add(now)
                more += [b if a == now else a for a, b in links if now in (a, b)]
        pieces.append(piece)
    return pieces


def number_cut_off(nodes, links, crashed):
    sizes = [len(it) for it in pieces_of(nodes, links, crashed)]
    return sum(sizes) - max(sizes, default=0)


def fewest_that_cut_off(nodes, links, least):
    """How few crashes cut off so many hosts, by trying all; None if none do."""
    for size in range(len(nodes)):
        if any(number_cut_off(nodes, links, them) >= least for them in itertools.combinations(nodes, size)):
            return size
    return None


def some_graph(source, most):
    """Some nodes and links between them."""
    nodes = [f"h{at}" for at in range(source.randint(4, most))]
    chance = source.choice((0.25, 0.4, 0.6))
    return nodes, [it for it in itertools.combinations(nodes, 2) if source.random() < chance]


class Mend(Commands):
    def test_against_the_definition(self):
        source = random.Random(5)
        for _ in range(12):
            nodes, links = some_graph(source, 9)
            to = source.randint(1, min(4, len(nodes) - 1))
            mended = tagzirk.mend(views_of(nodes, links), to)
            all_links = links + list(mended.links)
            self.assertEqual(len({frozenset(it) for it in all_links}), len(all_links))
            self.assertGreaterEqual(mended.after.k, to)
            self.assertEqual(mended.after.k >= to, (fewest_that_cut_off(nodes, all_links, 1) or len(nodes)) >= to)
            self.assertEqual(
                json.loads(mended.after.certificate)["links"], named_graph(views_of(nodes, all_links)).links
            )
            self.assertTrue(tagzirk.check(mended.after.certificate))
            for link in mended.links:
                self.assertLess(tagzirk.analyse(views_of(nodes, [it for it in all_links if it != link])).k, to)

    def test_most_links(self):
        ring = [(f"h{at:02}", f"h{(at + 1) % 12:02}") for at in range(12)]
        mended = tagzirk.mend(ring, 3, most_links=3)
        self.assertEqual((len(mended.links), mended.after.k), (6, 3))
        star = [("hub", f"leaf{at}") for at in range(6)]
        mended = tagzirk.mend(star, 2, most_links=3)
        self.assertEqual(
            (mended.after.k, {len(it) for it in named_graph([*star, *mended.links]).peers.values()} <= {2, 3, 6}),
            (2, True),
        )
        for to, most, told in (3, 2, "k would be below 3"), (7, None, "at most 6"), (0, None, "can't be 0"):
            with self.assertRaisesRegex(tagzirk.BadGraph, told):
                tagzirk.mend(star, to, most)
        with self.assertRaisesRegex(tagzirk.BadGraph, "found no way"):
            tagzirk.mend([("a", "b"), ("b", "c"), ("c", "a"), ("d", "e"), ("e", "f"), ("f", "d")], 1, 2)

    def test_what_is_printed(self):
        path = self.file("net", "a b\nb c\nc d\n")
        out, err, status = self.tagzirk("mend", path, "--to", 2, "--certificate", "--graph", self.room / "new.graph")
        line, certificate = out.splitlines()
        self.assertEqual((line, err, status), ("add\ta\td", "k is 1, and 2 with 1 more link\n", 0))
        self.assertEqual(tagzirk.check(certificate).answer.k, 2)
        self.assertEqual(
            (self.room / "new.graph").read_text(),
            "# tagzirk mend --to 2\n" + named_graph([("a", "b"), ("b", "c"), ("c", "d"), ("d", "a")]).text_with_names,
        )
        self.assertEqual(
            self.tagzirk("mend", self.room / "new.graph", "--to", 2), ("", "k is 2 already, so no link is needed\n", 0)
        )


class Each(Commands):
    def test_against_the_definition(self):
        source = random.Random(6)
        for _ in range(10):
            nodes, links = some_graph(source, 9)
            crashes = tagzirk.each(views_of(nodes, links), workers=1)
            self.assertEqual({it.name for it in crashes}, set(nodes))
            for it in crashes:
                left = [node for node in nodes if node != it.name]
                kept = [link for link in links if it.name not in link]
                sizes = sorted(map(len, pieces_of(nodes, links, [it.name])))
                self.assertEqual(len(it.cut_off), sum(sizes[:-1]))
                fewest = fewest_that_cut_off(left, kept, 1)
                self.assertEqual(it.k, len(left) - 1 if fewest is None else fewest)
                self.assertEqual(it.is_linked, fewest is None)
            order = [(-len(it.cut_off), it.is_linked, it.k) for it in crashes]
            self.assertEqual(order, sorted(order))

    def test_pairs_against_the_definition(self):
        source = random.Random(16)
        for _ in range(8):
            nodes, links = some_graph(source, 8)
            crashes = tagzirk.each(views_of(nodes, links), is_of_pairs=True, workers=1)
            pairs = set(map(frozenset, itertools.combinations(nodes, 2)))
            self.assertEqual({frozenset(it.name) for it in crashes}, pairs)
            for it in crashes:
                left = [node for node in nodes if node not in it.name]
                kept = [link for link in links if not set(link) & set(it.name)]
                fewest = fewest_that_cut_off(left, kept, 1)
                number = len(left) - 1 if fewest is None else fewest
                self.assertEqual((it.k, it.is_linked), (number, fewest is None), links)
                self.assertEqual(len(it.cut_off), number_cut_off(nodes, links, it.name))

    def test_few_certificates(self):
        # in a ring of rings no crash of a host that has more than three links is in a smallest cut, but for the gates
        ring = [(at, (at + step) % 40) for at in range(40) for step in (1, 2)]
        other = [(a + 100, b + 100) for a, b in ring]
        graph = named_graph([*ring, *other, (0, 100), (10, 110), (20, 120)])
        asked = []

        def ask(of, members):
            asked.append(of)
            return analysed(of, members)

        hosts = [1 << at for at in range(len(graph.ids))]
        numbers = numbers_after(graph, number_in(analysed(graph)), hosts, ask, 1)
        gates = {0, 10, 20, 100, 110, 120}
        for at, host in enumerate(graph.nodes):
            self.assertEqual(numbers[1 << at].k, 2 if host in gates else 3, host)
        self.assertLess(len(asked), len(hosts) / 4)

    def test_racks_that_are_not_in_the_dump(self):
        path, racks = self.file("net", edges_of(CLIQUES)), self.file("racks", "a R1\nx R1\ny R2\n")
        out, err, status = self.tagzirk("each", path, "--racks", racks, "--csv")
        self.assertEqual((out.splitlines()[1:], status), (["R1,1,1,0,0,"], 0))
        self.assertIn(f"{racks}: not in the dump, and so passed over: x, y\n", err)

    def test_racks_of_short_names(self):
        path = self.file("net", edges_of((f"{a}.example.net", f"{b}.example.net") for a, b in CLIQUES))
        racks = self.file("racks", "a R1\nb R1\na.example.net R2\nleaf R3\nx R3\n")
        out, err, status = self.tagzirk("each", path, "--racks", racks, "--csv", "--without", "leaf")
        self.assertEqual((out.splitlines()[1:], status), (["R1,2,0,0,1,c.example.net", "R2,1,1,0,0,"], 0))
        self.assertIn(f"{racks}: not in the dump, and so passed over: x\n", err)

    def test_pairs_of_racks_and_the_fewest(self):
        # c alone cuts off the leaf; of the racks below none does, and R1 with R2 cuts off c and leaf
        path = self.file("net", edges_of(CLIQUES))
        racks = self.file("racks", "a R1\nb R2\nd R3\nf R4\n")
        out, err, status = self.tagzirk("each", path, "--racks", racks, "--pairs", "--site", "^([a-f])$")
        self.assertEqual(status, 0)
        self.assertIn(
            "The fewest racks whose loss splits it are 2: racks R1, R2 cut off 2 hosts: c, leaf; "
            "site c (1 host) is cut off",
            out,
        )
        self.assertIn("R1 + R2                       0  2 hosts: c, leaf; site c (1 host) is cut off\n", out)
        self.assertEqual(len(out.split("\n\n")[1].splitlines()), 1 + 6)
        said = json.loads(self.tagzirk("each", path, "--racks", racks, "--json")[0])
        fewest = said["fewest_racks"]
        self.assertEqual((fewest["racks"], fewest["cut_off"], fewest["tried"]), (["R1", "R2"], ["c", "leaf"], 2))
        self.assertEqual({it["name"]: it["k"] for it in said["crashes"]}, dict.fromkeys(("R1", "R2", "R3", "R4"), 1))

    def test_racks(self):
        path, racks = self.file("net", edges_of(CLIQUES)), self.file("racks", "# host rack\na R1\nb R1\nd,R2\n")
        out, err, status = self.tagzirk("each", path, "--racks", racks, "--csv")
        self.assertEqual(
            (out, status), ("rack,hosts,k,all_linked,cut_off,names_cut_off\nR1,2,0,0,2,c;leaf\nR2,1,1,0,0,\n", 0)
        )
        self.assertEqual(err, "in no rack, and so never crashing here: c, e, f, leaf\n")
        everybody = self.file("racks.json", json.dumps({"all": sorted("abcdef") + ["leaf"]}))
        self.assertIn("all,7,,0,0,\n", self.tagzirk("each", path, "--racks", everybody, "--csv")[0])
        for text, told in (
            ("x R1\n", "none of its 1 hosts is in the dump, as x"),
            ("a\n", "line 1 is no host"),
            ("", "no rack"),
            ("{", "no JSON"),
            ("[" * 100000, "line 1 is no host"),
            ('{"R1": ' + "[" * 100000, "nested too deep"),
            ('{"R1": ["a"], "R1": ["b"]}', "has the key R1 twice"),
            ('{"R1": {"a": 1}}', "R1 should have a list of hosts"),
            ('a,"R1\n', "line 1 is no row of a table"),
            ("a," + "R" * 140000, "field larger than field limit"),
        ):
            _, err, status = self.tagzirk("each", path, "--racks", self.file("bad", text))
            self.assertEqual((status, told in err), (1, True), err)

    def test_what_is_printed(self):
        out, _, status = self.tagzirk("each", self.file("net", edges_of(CLIQUES)))
        self.assertEqual(status, 0)
        self.assertEqual(
            out.splitlines()[:5],
            [
                "k is 1 now: Crashing c separates leaf from a. Fewer crashes separate no two surviving nodes.",
                "No other single crash cuts off anybody.",
                "The fewest crashes that cut off more than one host are 2: a, b cut off 2 hosts: c, leaf.",
                "",
                "after the crash of host  k  cut off",
            ],
        )
        self.assertEqual(out.splitlines()[5], "c                        0  1 host: leaf")
        self.assertIn("a                        1  nobody", out)


class Wide(Commands):
    def test_against_the_definition(self):
        source = random.Random(8)
        for _ in range(14):
            nodes, links = some_graph(source, 8)
            found = tagzirk.widest(views_of(nodes, links), workers=1)
            fewest = fewest_that_cut_off(nodes, links, 2)
            if found is None:
                self.assertIsNone(fewest, links)
            else:
                self.assertEqual(
                    (len(found.crashed), len(found.cut_off), found.is_fewest),
                    (fewest, number_cut_off(nodes, links, found.crashed), True),
                    links,
                )
                self.assertGreaterEqual(len(found.cut_off), 2)

    def test_with_anchors(self):
        # 30 hosts in a ring, each linked to the two next ones: 4 crashes, of which no three cut off two
        ring = [(at, (at + step) % 30) for at in range(30) for step in (1, 2)]
        found = tagzirk.widest([*ring, (0, 100), (100, 1)])
        self.assertEqual((found.is_fewest, len(found.crashed)), (True, 4))


if __name__ == "__main__":
    unittest.main()
