#!/usr/bin/env python3
"""make_scenario.py [LINES [NODES [SEED]]]: writes a scenario of LINES events over NODES nodes for `overlay run`.

The nodes are born first, each by an earlier one at random, with six deliveries after each birth. Then nearly all lines
are deliveries: with the defaults 62,318 of 65,000. The others are shuffles, repetitions of the oldest packet, and
broadcasts of 16 bytes, meant to be so many that packets do not run out. A place is chosen at random among the packets
that are surely on their way: a birth by a contact and a repetition send one packet each, a delivery takes one. If no
packet is sure, the oldest one is delivered. The same words give the same scenario.
"""

import itertools
import random
import sys

# After the births: so many deliveries, then so many shuffles and so many repetitions, again and again.
DELIVERIES = 97
SHUFFLES = 1
REPETITIONS = 1
# A broadcast comes after so many deliveries for each node.
DELIVERIES_PER_NODE = 0.25
# So many deliveries come after a birth.
DELIVERIES_AFTER_BIRTH = 6


def births(nodes, choices):
    """The births, each but the first one by an earlier node, and the deliveries after them."""
    yield "boot 1"
    for node in range(2, nodes + 1):
        yield f"boot {node} by {choices.randrange(1, node)}"
        yield from ["deliver 0"] * DELIVERIES_AFTER_BIRTH


def turns(nodes, choices):
    """The lines after the births, without end."""
    sure = 0
    delivered = 0
    while True:
        for _ in range(DELIVERIES):
            yield f"deliver {choices.randrange(sure) if sure > 0 else 0}"
            sure = max(sure - 1, 0)
            delivered += 1
        for _ in range(SHUFFLES):
            yield f"shuffle {choices.randrange(1, nodes + 1)}"
        for _ in range(REPETITIONS):
            yield "repeat 0"
            sure += 1
        while delivered >= DELIVERIES_PER_NODE * nodes:
            yield f"broadcast {choices.randrange(1, nodes + 1)} sixteen bytes .."
            delivered -= DELIVERIES_PER_NODE * nodes


def main(lines="65000", nodes="200", seed="1"):
    choices = random.Random(int(seed))
    print(f"seed {seed}")
    events = itertools.chain(births(int(nodes), choices), turns(int(nodes), choices))
    for line in itertools.islice(events, int(lines)):
        print(line)


if __name__ == "__main__":
    main(*sys.argv[1:])
