#!/usr/bin/env python3
"""many_lines.py LINES [NODES]: writes a scenario of LINES lines. 65,000 of them, or all if there are fewer, are those
of make_scenario.py; the others show nodes, one after another.
"""

import itertools
import random
import sys

from make_scenario import births, turns

EVENTS = 65000


def main(lines, nodes="200"):
    """Writes the scenario."""
    count, choices = int(lines), random.Random(1)
    events = itertools.chain(births(int(nodes), choices), turns(int(nodes), choices))
    print("seed 1")
    for line in itertools.islice(events, min(count, EVENTS)):
        print(line)
    for place in range(count - EVENTS):
        print(f"show {place % int(nodes) + 1}")


if __name__ == "__main__":
    main(*sys.argv[1:])
