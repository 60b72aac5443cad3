#!/usr/bin/env python3
"""mean_field.py [SIZE ..]: what shares of the nodes have how many links, for active sizes, by the equations of
docs/DESIGN-STUDY.md, in which a neighbour of a node is like any end of a link. Prints a line for each active size.
"""

import sys

WALK = 6
STEP = 0.02
NEAR = 1e-13


def balance(size, shares):
    """How the shares change with a birth, over what a birth weighs; how often a link is lost."""
    mean = sum(links * share for links, share in enumerate(shares))
    walks = sum(min(links, size - 1) * share for links, share in enumerate(shares))
    reached = [links * share / mean for links, share in enumerate(shares)]
    goes_on = 1 - reached[1]
    ends = [goes_on**WALK * it for it in reached]
    ends[1] = 1 - goes_on ** (WALK + 1)
    # how often a node with so many links becomes somebody's neighbour: as a contact, or as the end of a walk
    chosen = [1 + (walks * end / share if share else 0) for end, share in zip(ends, shares)]
    lost = shares[size] * chosen[size] / mean
    change = [-share for share in shares]
    for links, share in enumerate(shares):
        change[1 + min(links, size - 1)] += share
        if links < size:
            change[links] -= chosen[links] * share
            change[links + 1] += chosen[links] * share
        if links > 0:
            change[links] -= lost * links * share
            change[links - 1] += lost * links * share
    return change, lost


def shares_of(size):
    """The shares that stay as they are."""
    shares = [1 / (size + 1)] * (size + 1)
    while True:
        change, _ = balance(size, shares)
        if max(map(abs, change)) < NEAR:
            return shares
        shares = [share + STEP * by for share, by in zip(shares, change)]


if __name__ == "__main__":
    for active in [int(word) for word in sys.argv[1:]] or range(3, 11):
        print(active, *(f"{share:.6f}" for share in shares_of(active)))
