#!/usr/bin/env python3
"""Times analyses of graphs of about 1 MB whose ids follow their shape, so that the paths of Even's test are long.

usage: in_order.py OVERLAY [NAME ..]   the program `overlay`, and parts of the names of graphs, or all of them

Prints for each graph the size of its file, the processor time of `analyse --large`, and k, which must be that of its
construction. The last six are made against the program: ids that lay in a ring once they were scattered; wide rings, of
which first members far apart would make many pairs; and rings whose only weak nodes come last, so that each piece
before them is settled at the level that fails.
"""

import itertools
import os
import subprocess
import sys
import tempfile


def ring(count, steps):
    """Each node is linked to those so many ids farther on, in a ring."""
    return {(node, (node - 1 + step) % count + 1) for node in range(1, count + 1) for step in steps}


def strip(count, width):
    """Each node is linked to the next ones, and no ring is closed."""
    return {(node, node + step) for node in range(1, count + 1) for step in range(1, width + 1) if node + step <= count}


def torus(rows, columns):
    """A grid that is closed in both directions, row by row."""
    places = itertools.product(range(rows), range(columns))
    here = {(row, column): row * columns + column + 1 for row, column in places}
    beside = {(node, here[row, (column + 1) % columns]) for (row, column), node in here.items()}
    return beside | {(node, here[(row + 1) % rows, column]) for (row, column), node in here.items()}


def renamed(links, count, step):
    """The same links, of nodes that lie `step` times as far round."""
    return {tuple((node - 1) * step % count + 1 for node in link) for link in links}


def pairs_behind(count, steps, pairs, common):
    """A ring, and behind it pairs of linked nodes that only so many nodes of the ring cut off, two links on each."""
    links = ring(count, steps)
    for pair in range(pairs):
        first = count + 1 + 2 * pair
        near = [1 + (pair * 7919 + 2 * step) % count for step in range(common)]
        links |= {(first, first + 1)} | {(end, node) for end in (first, first + 1) for node in near}
    return links


def graphs():
    """A name for each graph, how many nodes it has, its links, and its k."""
    yield "ring", 32_768, ring(32_768, [1]), 2
    yield "ring, 4 links each", 24_000, ring(24_000, [1, 2]), 4
    yield "ring, 8 links each", 13_000, ring(13_000, [1, 2, 3, 4]), 8
    yield "strip, 10 links each", 11_000, strip(11_000, 5), 5
    yield "torus of 8 rows", 16_000, torus(8, 2000), 4
    yield "torus of 2,000 rows", 16_000, torus(2000, 8), 4
    spokes = {(1, node + 1) for node in range(1, 20_000)}
    yield "hub and ring", 20_000, spokes | {(a + 1, b + 1) for a, b in ring(19_999, [1])}, 3
    # 29,459 times 20,251, the step of scattered ids, is 1 modulo 32,768
    yield "ring against scattered ids", 32_768, renamed(ring(32_768, [1]), 32_768, 29_459), 2
    yield "wide ring of 1,030 nodes", 1030, ring(1030, range(1, 63)), 124
    yield "wide ring of 2,000 nodes", 2000, ring(2000, range(1, 29)), 56
    yield "pairs behind a ring", 32_700, pairs_behind(31_900, [1], 400, 1), 1
    yield "pairs behind a ring, 4 links each", 21_100, pairs_behind(20_500, [1, 2], 300, 3), 3
    yield "ring with a weak last node", 16_000, ring(15_999, [1, 2]) | {(16_000, node) for node in (1, 2, 3)}, 3


def text_of(count, links):
    """The graph file of these links."""
    pairs = sorted((min(link), max(link)) for link in links)
    return "".join([*(f"node {node + 1}\n" for node in range(count)), *(f"link {a} {b}\n" for a, b in pairs)])


def analysed(overlay, text):
    """The processor seconds of an analysis, and its k."""
    with tempfile.TemporaryFile("w+") as given, tempfile.TemporaryFile("w+") as printed:
        given.write(text)
        given.seek(0)
        process = subprocess.Popen([overlay, "analyse", "--large"], stdin=given, stdout=printed)
        _, status, used = os.wait4(process.pid, 0)
        assert status == 0
        printed.seek(0)
        return used.ru_utime + used.ru_stime, int(printed.read().split()[4])


def main(words):
    overlay, names = words[0], words[1:]
    print("| graph | nodes | KB | processor, s | k |")
    print("|---|---:|---:|---:|---:|")
    for name, count, links, expected in graphs():
        if not names or any(part in name for part in names):
            text = text_of(count, links)
            seconds, k = analysed(overlay, text)
            assert k == expected, (name, k)
            print(f"| {name} | {count:,} | {len(text) / 1000:,.0f} | {seconds:.2f} | {k} |", flush=True)


if __name__ == "__main__":
    main(sys.argv[1:])
