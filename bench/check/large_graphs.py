#!/usr/bin/env python3
"""large_graphs.py [NAME ..]: writes graphs whose certificates are large as graph files `NAME.graph`, into the folder
that it is run in; without names all of them.

Each has 1,024 nodes. half-1024 and nine-tenths-1024 have so many of all links, at random; two-sides-512 links each of
512 nodes to each of 512 others, and three-parts-1024 is split into three parts as equal as can be, with all links
between nodes of different parts. round-1024 has a certificate as long as can be, but for its fans
(docs/CHECK-A-REPORT.md): its first 633 nodes make a round, in which each is linked to the 121 next ones on each side,
and all other nodes are linked to all. The ids are the numbers from 1 on; of round-1024-long-ids they have ten digits.
Of round-1024-group the last 633 nodes make the round, and are the group, which is written as `round-1024-group.list`.

The k of these three is 633, the links of each node of the round. For what splits them has the 391 nodes that are
linked to all; and if it parts two nodes of the round, then on both ways round between these it has 121 nodes that stand
side by side, or a walk steps over what it has. Two nodes that are not linked are parted by such 633, wherever between
them the 121 stand: so each of 633 paths that share only their ends has one of them, and every node of the graph is on a
path, whichever paths are chosen.
"""

import random
import sys
from itertools import combinations
from pathlib import Path

NODES = 1024
SEED = 1
ROUND, NEXT = 633, 121
LONG_ID = 2 ** 32 - 1 - NODES


def some_of_all(share):
    """So many of all links, at random."""
    every = list(combinations(range(1, NODES + 1), 2))
    return random.Random(SEED).sample(every, round(len(every) * share))


def between_parts(count):
    """All links between nodes of different parts, of which there are so many."""
    bounds = [NODES * part // count for part in range(count + 1)]
    part_of = {node: part for part in range(count) for node in range(bounds[part] + 1, bounds[part + 1] + 1)}
    return [(a, b) for a, b in combinations(range(1, NODES + 1), 2) if part_of[a] != part_of[b]]


def one_round(first):
    """All links but those of nodes of the round, the first of which is given, that stand further apart in it."""
    def is_link(a, b):
        steps = b - a if first <= a and b < first + ROUND else 0
        return min(steps, ROUND - steps) <= NEXT
    return [link for link in combinations(range(1, NODES + 1), 2) if is_link(*link)]


# The members of a group, where it is not that of all nodes.
GROUPS = {"round-1024-group": range(NODES - ROUND + 1, NODES + 1)}
MAKERS = {
    "half-1024": lambda: some_of_all(0.5),
    "nine-tenths-1024": lambda: some_of_all(0.9),
    "two-sides-512": lambda: between_parts(2),
    "three-parts-1024": lambda: between_parts(3),
    "round-1024": lambda: one_round(1),
    "round-1024-long-ids": lambda: [(a + LONG_ID, b + LONG_ID) for a, b in one_round(1)],
    "round-1024-group": lambda: one_round(NODES - ROUND + 1),
}


def write(name, links):
    with open(f"{name}.graph", "w", encoding="ascii") as file:
        file.writelines(f"node {node}\n" for node in sorted({node for link in links for node in link}))
        file.writelines(f"link {low} {high}\n" for low, high in sorted(links))
    if Path(name).name in GROUPS:
        Path(f"{name}.list").write_text("".join(f"{node}\n" for node in GROUPS[Path(name).name]), encoding="ascii")


def main(names):
    if not set(names) <= set(MAKERS):
        sys.exit(f"graphs: {' '.join(MAKERS)}")
    for name in names or MAKERS:
        write(name, MAKERS[name]())


if __name__ == "__main__":
    main(sys.argv[1:])
