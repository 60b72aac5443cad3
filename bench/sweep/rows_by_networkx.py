#!/usr/bin/env python3
"""rows_by_networkx.py --overlay PROGRAM [--seed S] [--runs N] OPTIONS..: checks rows of `overlay sweep` by hand.

For each of the seeds, 0 and those after it if no other are named, the scenario of `overlay grow OPTIONS` is run by
`overlay run --strict`. Of the entries that are printed until a report, the nodes that live then and their links are
found here: a link is there if both nodes have each other in their active views. networkx counts the nodes and the
links, the least degree, and the node connectivity. All four must be those of the row. The options are of `overlay
grow`. The status is 1 if a number differs.
"""

import argparse
import csv
import subprocess
import sys

import networkx

PHASES = ("settle", "crash", "heal")


def printed_by(program, *words, given=None):
    """What a program prints on standard output. It must end with status 0."""
    return subprocess.run([program, *words], input=given, stdout=subprocess.PIPE, check=True, text=True).stdout


class Views:
    """The active views of the nodes that live, as entries tell them."""

    def __init__(self):
        self.active = {}

    def take(self, changes):
        """Takes the changes of an entry, which are words."""
        rest = iter(changes)
        for kind in rest:
            if kind == "born":
                self.active[next(rest)] = set()
            elif kind == "gone":
                del self.active[next(rest)]
            elif kind in ("up", "down"):
                node, other = next(rest), next(rest)
                getattr(self.active[node], "add" if kind == "up" else "discard")(other)

    def graph(self):
        """The nodes that live, and a link where two have each other."""
        graph = networkx.Graph()
        graph.add_nodes_from(self.active)
        pairs = ((node, other) for node, others in self.active.items() for other in others)
        graph.add_edges_from(pair for pair in pairs if pair[0] in self.active.get(pair[1], ()))
        return graph


def numbers_of(graph):
    """Nodes, connectivity, least degree and links, by networkx. One node alone can't be split, and has 0."""
    k = networkx.node_connectivity(graph) if len(graph) > 1 else 0
    return [len(graph), k, min(degree for _, degree in graph.degree), graph.number_of_edges()]


def by_hand(program, options):
    """The numbers of each phase, of the scenario that is grown with these options."""
    views, found = Views(), []
    scenario = printed_by(program, "grow", *options)
    for line in printed_by(program, "run", "--strict", given=scenario).splitlines():
        kind, *words = line.split(" ")
        if kind == "entry":
            views.take(words[1:])
        else:
            found.append(numbers_of(views.graph()))
    return found


def told(row):
    """The same numbers, as a row tells them."""
    columns = ("nodes", "k", "least_degree", "links")
    return [[int(row[f"{phase}_{column}"]) for column in columns] for phase in PHASES]


def main():
    parser = argparse.ArgumentParser(description=__doc__, formatter_class=argparse.RawDescriptionHelpFormatter)
    parser.add_argument("--overlay", required=True)
    parser.add_argument("--seed", type=int, default=0)
    parser.add_argument("--runs", type=int, default=3)
    given, options = parser.parse_known_args()
    words = ["sweep", *options, "--seed", str(given.seed), "--runs", str(given.runs)]
    rows = list(csv.DictReader(printed_by(given.overlay, *words).splitlines()))
    for row in rows:
        found = by_hand(given.overlay, [*options, "--seed", row["seed"]])
        if found != told(row):
            print(f"seed {row['seed']}: the row says {told(row)}, and networkx {found}")
            return 1
    print(f"{len(rows)} rows agree; the last says {told(rows[-1])}")
    return 0


if __name__ == "__main__":
    sys.exit(main())
