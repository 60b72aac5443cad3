#!/usr/bin/env python3
"""tries.py [MOST]: the greatest number of levels that an analysis of n nodes can try, for each n from 2 to MOST
(1,024).

The contract of `LevelSearch::new` says at most 2 k + 1 for fewer than 2^k nodes. Here the rule for the next level
(`next_level` of ov_even/src/level_bounds.rt) is written once more, and every course is gone through: each level turns
out to be good, or to have a cut of any size that the bounds allow. It prints the numbers of nodes for which a course
has more than 2 log2 n levels, the logarithm rounded up; when it was run there were none.
"""

import functools
import math
import sys


def next_level(low, high, guesses):
    """The level to try between a good one and one that is not good."""
    if low + 1 == high:
        return high
    if not guesses:
        return (low + high) // 2
    double = 2 * low + 1
    return double if 2 * double < high else high - 1


@functools.lru_cache(None)
def most_tries(low, high, guesses):
    """The levels that the longest course from these bounds tries."""
    level = next_level(low, high, guesses)
    if level == high:
        # it is just above the good one, and has a cut
        return 1
    tries = most_tries(level, high, guesses)
    if level > low + 1:
        guesses = guesses and level + 1 < high
        tries = max(tries, *(most_tries(low, size + 1, guesses) for size in range(low, level)))
    return 1 + tries


def main(most):
    """Goes through all numbers of nodes."""
    sys.setrecursionlimit(10 * most)
    over, most_of_all = [], 0
    for nodes in range(2, most + 1):
        tries = max(most_tries(0, high, True) for high in range(1, nodes))
        most_of_all = max(most_of_all, tries)
        if tries > 2 * math.ceil(math.log2(nodes)):
            over.append(nodes)
    print(f"at most {most_of_all} levels for up to {most} nodes; more than 2 log2 n for: {over or 'none'}")


if __name__ == "__main__":
    main(int(sys.argv[1]) if len(sys.argv) > 1 else 1024)
