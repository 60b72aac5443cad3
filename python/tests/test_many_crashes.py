"""Tests of what many crashes leave, counted all at once, and of `each` on large overlays that fall apart. What is
counted is compared with a plain search after each crash."""

import csv
import io
import json
import random
import unittest
from unittest import mock

from tagzirk.bits import Bits
from tagzirk.commands import each as command
from tagzirk.crashes import CutOff, each
from tagzirk.graphs import numbered
from tagzirk.losses import largest_of, split_by
from tagzirk.racks import fewest_racks

from .large_overlays import no_large
from .test_commands import Commands, edges_of


def some_graph(source, most=11):
    """A graph of a few hosts, joined or not."""
    names = [*range(source.randint(1, most))]
    return numbered(names, [source.choices(names, k=2) for _ in range(source.randint(0, 2 * len(names)))])


def left_of(graph, crashed):
    """The connected components that a crash leaves, the largest first, and of these the one with the lowest id."""
    return sorted(graph.pieces(crashed), key=lambda it: (-len(it), it))


class Counted(unittest.TestCase):
    def test_single_crashes(self):
        source = random.Random(1)
        for _ in range(300):
            graph = some_graph(source)
            for at, host in enumerate(graph.nodes):
                away = sorted(it for piece in left_of(graph, {host})[1:] for it in piece)
                crash = CutOff(graph, 1 << at)
                self.assertEqual((len(crash), [graph.ids[it] for it in crash]), (len(away), away), graph)
                self.assertEqual(graph.bits.is_split(1 << at), bool(away))

    def test_crashes_of_several(self):
        source = random.Random(2)
        for _ in range(300):
            graph = some_graph(source)
            crashes = [source.sample(graph.nodes, source.randint(0, len(graph.nodes))) for _ in range(9)]
            sizes = [[*map(len, left_of(graph, set(it)))] for it in crashes]
            places = [[graph.bits.places[host] for host in it] for it in crashes]
            self.assertEqual(split_by(graph.bits.lists, places), [len(it) > 1 for it in sizes])
            self.assertEqual(largest_of(graph.bits.lists, places), [it[0] if it else 0 for it in sizes])
            with mock.patch("tagzirk.bits.WIDE", 0), mock.patch("tagzirk.bits.MANY", source.choice((0, 16))):
                bits = Bits(graph)
                hosts = [bits.of(it) for it in crashes]
                bits.count_cut_off(hosts)
                self.assertEqual([bits.number_cut_off(it) for it in hosts], [sum(it[1:]) for it in sizes])
                self.assertEqual([bits.is_split(it) for it in hosts], [len(it) > 1 for it in sizes])

    def test_racks_of_a_large_overlay(self):
        source = random.Random(3)
        for _ in range(60):
            graph = some_graph(source)
            racks = {f"R{at}": graph.nodes[at::4] for at in range(4)}
            found = fewest_racks(graph, racks)
            with mock.patch("tagzirk.bits.WIDE", 0), mock.patch("tagzirk.losses.AT_ONCE", 2):
                again = fewest_racks(numbered(graph.ids, graph.links), racks)
            self.assertEqual(found, again)


@unittest.skipIf(no_large(), no_large())
class Large(Commands):
    """A path of 1,200 hosts, each of whose crashes but two splits it."""

    names = [f"h{at:04}" for at in range(1200)]

    def test_a_path(self):
        crashes = each([*zip(self.names, self.names[1:])])
        self.assertEqual([it.k for it in crashes], [0] * 1198 + [1, 1])
        for at in (0, 1, 600, 1197, 1198):
            crash = crashes[at]
            place = self.names.index(crash.name)
            away = min(self.names[:place], self.names[place + 1 :], key=len)
            self.assertEqual((len(crash.cut_off), [*crash.cut_off]), (len(away), away))

    def test_what_is_told_of_it(self):
        path = self.file("net.edges", edges_of(zip(self.names, self.names[1:])))
        out = self.tagzirk("each", path)[0]
        self.assertIn("and 1000 more, none worse; --rows N shows N", out)
        self.assertIn("h0600", out)
        rows = [*csv.DictReader(io.StringIO(self.tagzirk("each", path, "--csv")[0]))]
        self.assertEqual([len(it["names_cut_off"].split(";")) for it in rows[:3]], [599, 599, 598])
        with mock.patch.object(command, "MOST_NAMED", 12_000):
            out, err, _ = self.tagzirk("each", path, "--json")
            few = self.tagzirk("each", path, "--json", "--rows", 3)[1]
        self.assertIn("1178 crashes cut off more than 10 hosts, who are counted and not named: --rows N", err)
        self.assertEqual(few, "")
        told = json.loads(out)["crashes"]
        self.assertEqual((told[0]["cut_off"], told[0]["number_cut_off"], len(told[-3]["cut_off"])), (None, 599, 1))


if __name__ == "__main__":
    unittest.main()
