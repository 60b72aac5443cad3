#!/usr/bin/env python3
"""one_graph.py FIRST [BYTES] < SCENARIO: writes a scenario of BYTES bytes (1,000,000) that looks at one graph again and
again.

It is SCENARIO, followed by `snapshot` and an analysis of that snapshot, in turn. FIRST is the number of the entry that
the first of these snapshots gets: one more than the last entry that SCENARIO makes.
"""

import sys

# The most entries that a journal may have.
MOST_ENTRIES = 65536


def main(first, size="1000000"):
    """Writes the scenario."""
    text = sys.stdin.read()
    print(text, end="")
    written = len(text)
    for moment in range(int(first), MOST_ENTRIES + 1):
        if written >= int(size):
            break
        lines = f"snapshot\nanalyse {moment}\n"
        print(lines, end="")
        written += len(lines)


if __name__ == "__main__":
    main(*sys.argv[1:])
