"""Tests of overlays of very many hosts, whose k is known, with programs that take so many; and of what stands for
thousands of hosts where not each can be shown. One of 20,000 hosts is asked about if TAGZIRK_SLOW is set."""

import json
import os
import random
import re
import sys
import unittest
from unittest import mock

import tagzirk
from tagzirk import mending
from tagzirk.bits import Bits
from tagzirk.bounds import Number, numbers_after
from tagzirk.commands.each import name_of
from tagzirk.crashes import each
from tagzirk.discs import LARGEST, MOST_CUT, discs
from tagzirk.graphs import named_graph
from tagzirk.limits import USUAL_HOSTS
from tagzirk.pages import line_of
from tagzirk.reports import Report

from .large_overlays import harary, no_large, spread, two_parts
from .test_commands import Commands

NUMBERS = re.compile(r'class="number">([^<]*)<')
CIRCLES = re.compile(r'<circle class="c(\d)" cx="([\d.]+)" cy="([\d.]+)" r="([\d.]+)"')


def views(links):
    """The views of these links, in less time than those of few hosts are made in."""
    found = {}
    for a, b in links:
        found.setdefault(a, []).append(b)
        found.setdefault(b, []).append(a)
    return found


@unittest.skipIf(no_large(), no_large())
class Large(Commands):
    """An overlay of 3,000 hosts, of which four crashes part 700."""

    @classmethod
    def setUpClass(cls):
        super().setUpClass()
        cls.links, cls.ends = two_parts(3000, 700, 4, of=spread)
        cls.net = json.dumps(views(cls.links))

    def test_status(self):
        out, err, status = self.tagzirk("status", self.file("net.json", self.net), "--site", "^([a-z]+)", "--json")
        self.assertEqual((err, status), ("", 0))
        said = json.loads(out)
        self.assertEqual((said["hosts"], said["links"], said["k"]), (3000, len(self.links), 4))
        crashed, away = (said["worst"]["cuts"][0][it] for it in ("crashed", "cut_off"))
        self.assertEqual((len(crashed), len(away)), (4, 700 - sum(it.startswith("hel") for it in crashed)))
        self.assertEqual((crashed, away), (sorted(crashed), sorted(away)))
        self.assertEqual(len(said["cut_off"]), 700 - sum(it.startswith("hel") for it in said["cut"]))
        self.assertEqual([it["site"] for it in said["sites"]], ["hel"])
        graph = self.file("net.graph", self.tagzirk("import", self.file("net.json", self.net))[0])
        self.assertEqual(json.loads(self.tagzirk("status", graph, "--json")[0])["k"], 4)
        group = ",".join(self.ends)
        self.assertIn("k is 6 for the 2 hosts", self.tagzirk("status", graph, "--group", "ams-00001,ams-00002")[0])
        out = self.tagzirk("status", graph, "--without", group)[0]
        self.assertIn("k is 0: the overlay is split now. Of 2996 hosts, 696", out)

    def test_ids_are_those_of_the_import(self):
        names = sorted(views(self.links))
        graph = self.tagzirk("import", self.file("net.json", self.net))[0]
        self.assertEqual(named_graph(self.links).text_with_names, graph)
        self.assertEqual(re.findall(r"^# \d+ (.*)$", graph, re.MULTILINE)[:3] == names[:3], False)

    def test_a_report_is_confirmed(self):
        report = tagzirk.analyse(self.links)
        self.assertEqual((report.k, json.loads(report.certificate)["version"]), (4, 3))
        self.assertEqual(tagzirk.check(report.certificate).line, line_of(report))
        with self.assertRaisesRegex(tagzirk.BadGraph, "paths are drawn of at most 1,024 nodes"):
            report.picture(fan=self.ends[0])
        other = mock.patch.object(tagzirk.reports, "members_of", return_value=[[1, 2], [[1, 2]]])
        with other, self.assertRaisesRegex(tagzirk.NotConfirmed, "the graph in the certificate is another one"):
            tagzirk.analyse(self.links)
        whole = tagzirk.analyse(self.links, group=sorted(views(self.links)))
        self.assertEqual((whole.k, len(whole.group)), (4, 3000))

    def test_the_page(self):
        out, _, status = self.tagzirk("report", self.file("net.json", self.net))
        self.assertEqual(status, 0)
        self.assertIn("<title>4 crashes part this overlay</title>", out)
        self.assertIn("$ overlay-check-large certificate.json\n", out)
        self.assertIn("$ overlay graph --large certificate.json", out)
        self.assertIn("which are not drawn one by one", out)
        self.assertIn("Of each piece 200 hosts are named.", out)
        self.assertEqual(len(CIRCLES.findall(out)), 2)
        self.assertLess(len(out), 2_000_000)

    def test_metrics(self):
        out, _, status = self.tagzirk("metrics", self.file("net.json", self.net), "--textfile", "-")
        self.assertEqual(status, 0)
        for told in "tagzirk_nodes 3000.0", "tagzirk_connectivity 4.0", 'proved{program="overlay-check-large"}':
            self.assertIn(told, out)

    def test_diff(self):
        # a link between both parts went, and others that don't matter
        at = len(self.links) - 1
        new = [it for it in self.links if it not in (self.links[at], self.links[5], self.links[77])]
        files = self.file("old.json", self.net), self.file("new.json", json.dumps(views(new)))
        it = json.loads(self.tagzirk("diff", *files, "--json")[0])
        self.assertEqual((it["old"]["k"], it["new"]["k"], len(it["links_went"])), (4, 3, 3))
        self.assertEqual(it["restoring"], [{"link": sorted(self.links[at])}])
        self.assertEqual((it["k_with_all_back"], "untried" in it), (4, False))
        with mock.patch.object(sys.modules["tagzirk.differences"], "MOST_ASKED", 0):
            out = self.tagzirk("diff", *files)[0]
        self.assertIn("1 change more might: they were not tried, since there are so many hosts.", out)

    def test_mend(self):
        path = self.file("net.json", self.net)
        out, err, status = self.tagzirk("mend", path, "--to", 5)
        self.assertEqual((len(out.splitlines()), status), (1, 0), err)
        # hosts that have six links need one more each, and no distances are looked at
        with mock.patch.object(mending, "MOST_STEPS", 0), mock.patch.object(mending, "MOST_ASKED", 0):
            out, err, status = self.tagzirk("mend", path, "--to", 7, "--most-links", 8)
        self.assertEqual(status, 0, err)
        self.assertIn("k is 4, and 7 with", err)
        self.assertLess(len(out.splitlines()), 1550)

    def test_each_and_its_bound(self):
        out, _, status = self.tagzirk("each", self.file("net.json", self.net), "--json", "--rows", 8)
        self.assertEqual((status, {it["k"] for it in json.loads(out)["crashes"]}), (0, {3}))
        graph, report = named_graph(self.links), tagzirk.analyse(self.links)
        names = sorted(graph.ids)
        racks = {f"R{at}": names[at::1000] for at in range(1000)}
        racks["all ends"] = self.ends
        with mock.patch("tagzirk.bounds.MOST_ASKED", 3000):
            crashes = {name_of(it): it for it in each(graph, racks, report)}
        self.assertEqual((crashes["all ends"].k, len(crashes["all ends"].cut_off)), (0, 696))
        unknown = [it for it in crashes.values() if it.at_least is not None]
        self.assertTrue(all(it.k is None and it.at_least == 1 and not it.cut_off for it in unknown))
        self.assertGreater(len(unknown), 900)


@unittest.skipIf(no_large(), no_large())
class VeryLarge(Commands):
    @unittest.skipUnless(os.environ.get("TAGZIRK_SLOW"), "TAGZIRK_SLOW is not set: it takes about a minute")
    def test_20000_hosts(self):
        links, _ = two_parts(20_000, 4000, 5, of=spread)
        path = self.file("net.json", json.dumps(views(links)))
        out, err, status = self.tagzirk("status", path, "--json")
        said = json.loads(out)
        self.assertEqual((err, status, said["hosts"], said["k"]), ("", 0, 20_000, 5))
        self.assertLessEqual(3995, len(said["worst"]["cuts"][0]["cut_off"]))
        out, _, status = self.tagzirk("report", path)
        self.assertEqual((status, len(CIRCLES.findall(out))), (0, 2))


class Discs(unittest.TestCase):
    """Pictures of large overlays, without any program."""

    def star(self, sizes, cut):
        """Rings of these sizes, each of whose first hosts is linked to all of a cut."""
        links = [((at, 0), ("cut", host)) for at in range(len(sizes)) for host in range(cut)]
        for at, size in enumerate(sizes):
            links += [((at, host), (at, (host + 1) % size)) for host in range(size) if size > 1]
        return named_graph([(f"{a}", f"{b}") for a, b in links])

    def drawn(self, sizes, cut):
        graph = self.star(sizes, cut)
        ends = [graph.ids[f"({at}, 0)"] for at in (0, 1)]
        ids = [place for name, place in graph.ids.items() if "cut" in name]
        return discs(graph, f"Crashing {cut} nodes separates <a> from b", ids, *ends)

    def test_sides(self):
        text = self.drawn([1500, 400, 30, 1, 1], 3)
        self.assertEqual(NUMBERS.findall(text), ["1,500 hosts", "400 hosts", "32 hosts in 3 pieces"])
        self.assertEqual(re.findall(r"<title>(\('cut'.*?)</title>", text), [])
        self.assertEqual(len(re.findall('<rect class="cut"', text)), 3)
        self.assertIn("Discs stand for 1,932 of 1,935 hosts, which are not drawn one by one", text)
        self.assertIn("separates &lt;a&gt; from b", text)
        circles = [(int(c), float(x), float(y), float(r)) for c, x, y, r in CIRCLES.findall(text)]
        self.assertEqual([it[0] for it in circles], [0, 1, 2])
        # areas are as numbers of hosts, and no disc touches another one or the frame
        self.assertAlmostEqual((circles[1][3] / circles[0][3]) ** 2, 400 / 1500, places=2)
        self.assertEqual(circles[0][3], LARGEST)
        width, height = map(float, re.search(r'width="([\d.]+)" height="([\d.]+)"', text).groups())
        for _, x, y, r in circles:
            self.assertTrue(r <= x <= width - r and r <= y <= height - r, (x, y, r))
        for at, (_, x, y, r) in enumerate(circles):
            for _, other_x, other_y, other_r in circles[:at]:
                self.assertGreater((x - other_x) ** 2 + (y - other_y) ** 2, (r + other_r) ** 2)

    def test_many_in_the_cut(self):
        text = self.drawn([900, 900], 300)
        self.assertEqual(len(re.findall('<rect class="cut"', text)), MOST_CUT)
        self.assertIn("nor 260 hosts of the cut", text)
        self.assertIn(">and 260 more<", text)
        self.assertLess(len(text), 60_000)

    def test_without_a_cut(self):
        linked = named_graph([(a, b) for a in range(40) for b in range(a)])
        text = discs(linked, "Every two nodes are linked", [], None, None)
        self.assertEqual((NUMBERS.findall(text), ">cut<" in text), (["40 hosts"], False))
        split = named_graph([(1, 2), (3, 4), (5, 6)])
        text = discs(split, "separated", [], 1, 3)
        self.assertEqual((NUMBERS.findall(text), ">cut<" in text), (["2 hosts", "2 hosts", "2 hosts"], False))


class Bounded(unittest.TestCase):
    """What is bounded of large graphs, with a stand-in for the programs."""

    def test_pieces_by_lists(self):
        source = random.Random(4)
        for _ in range(100):
            pairs = [source.sample(range(12), 2) for _ in range(source.randint(1, 16))]
            graph = named_graph([tuple(it) for it in pairs])
            crashed = source.getrandbits(len(graph.ids))
            with mock.patch("tagzirk.bits.WIDE", 0):
                by_lists = Bits(graph).pieces(crashed)
            self.assertEqual(by_lists, Bits(graph).pieces(crashed))

    def test_numbers_that_are_not_known(self):
        names = [f"h{at:04}" for at in range(USUAL_HOSTS + 76)]
        graph = named_graph(harary(names, 6))
        bits, asked = Bits(graph), []

        def ask(of, group):
            asked.append(group)
            return Report(6, False, (), None, None, (), None, "", of.ids, "")

        crashes = [bits.of(graph.ids[it] for it in names[at::400][:3]) for at in range(20, 40)]
        base = Number(6, False, tuple(graph.ids[it] for it in [*names[1:4], *names[900:903]]))
        with mock.patch("tagzirk.bounds.MOST_ASKED", 4 * len(names)):
            numbers = numbers_after(graph, base, crashes, ask, 1)
        self.assertEqual((len(asked), set(numbers)), (4, set(crashes)))
        numbers = sorted((it.k, it.is_known) for it in numbers.values())
        self.assertEqual(numbers, [(3, False)] * 16 + [(6, True)] * 4)


if __name__ == "__main__":
    unittest.main()
