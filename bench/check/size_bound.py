#!/usr/bin/env python3
"""size_bound.py: prints how many bytes a certificate of a graph of 1,024 nodes has at most, with the ids 1 to 1024 and
with ids of ten digits, of all nodes and of a group, and the k of which that is so; and how many those of round-1024 and
round-1024-group of large_graphs.py have, but for their fans, which are counted as if they ran through all nodes: of
round-1024 these are 0.6 MB too much.

A member is in at most 1,023 - k pairs, since it has k links or more. The k paths of an entry share no node but their
ends, so each other node is on one of them at most. The first k members have the lowest ids if all nodes are members; of
a group they may have the highest ones, but for those of the members behind them. docs/CHECK-A-REPORT.md says more.
"""

from itertools import accumulate

from large_graphs import NODES, ROUND

# What stands around the ids of a pair and of a fan, and around each path: brackets and commas. The comma or bracket
# behind an id is counted with it, also in `"i":1,`; no comma is behind the last path.
PAIR, FAN, PATH = len('{"i":"j":"paths":[]},') - 1, len('{"j":"paths":[]},') - 1, len("[,")
# The keys of the file, its verdict, and its numbers.
REST = 200


def size(sums, k, later):
    """The bytes of a certificate of this k with so many later members, which have the highest ids, if each of the first
    k members, which have the ids next to these, lacks as many links as it may, all to others of these, and the paths of
    each entry run through all nodes. A width is that of an id with what stands behind it, and sums has for each number
    the widths of so many lowest ids."""
    lacked, behind = min(NODES - 1 - k, k - 1), sums[NODES] - sums[NODES - later]
    every, pairs, ends = sums[NODES], k * lacked // 2, lacked * (sums[NODES - later] - sums[NODES - later - k])
    found = pairs * (PAIR + every + k * PATH) + k * ends
    found += later * (FAN + every + k * PATH) + k * behind
    found += (NODES - 1) * every - ends + (NODES * (NODES - 1) // 2 - pairs) * PATH
    # nodes, group, cut and side
    return found + 3 * every + REST


def bound(sums):
    """No certificate of a graph has more bytes. Of the largest, the bytes and k."""
    return max((size(sums, k, NODES - k), k) for k in range(1, NODES))


def bound_of_group(sums):
    """No certificate of a group has more bytes. If the group has fewer than k members, or the graph fewer nodes, the
    certificate has fewer."""
    return max((size(sums, k, later), k) for k in range(1, NODES) for later in range(NODES - k + 1))


def main():
    short = [len(str(node)) + 1 for node in range(1, NODES + 1)]
    for name, widths in ("1 to 1024", short), ("of ten digits", [11] * NODES):
        sums = list(accumulate(widths, initial=0))
        for whose, (most, k), later in ("all", bound(sums), NODES - ROUND), ("a group", bound_of_group(sums), 0):
            found = size(sums, ROUND, later)
            print(f"ids {name}, of {whose}: at most {most:,} bytes, at k = {k}; with a round nearly {found:,}")


if __name__ == "__main__":
    main()
