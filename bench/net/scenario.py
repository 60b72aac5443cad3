#!/usr/bin/env python3
"""scenario.py [NODES [EVENTS [DELIVERIES]]]: writes a scenario for `overlay run`.

NODES nodes are born, each by an earlier one. Then they broadcast and shuffle in turn, with DELIVERIES deliveries of
the oldest packet after each broadcast and five after each shuffle, until there are EVENTS events. With few deliveries
the bag fills.
"""

import sys


def lines(nodes, events, deliveries):
    """The lines of events, which may be more than asked for."""
    yield "boot 1"
    for node in range(2, nodes + 1):
        yield f"boot {node} by {node // 2}"
        yield from ["deliver 0"] * 6
    for turn in range(events):
        node = turn % nodes + 1
        yield f"broadcast {node} sixteen bytes .."
        yield from ["deliver 0"] * deliveries
        yield f"shuffle {node}"
        yield from ["deliver 0"] * 5


def main(nodes="200", events="65536", deliveries="20"):
    print("seed 1")
    for line, _ in zip(lines(int(nodes), int(events), int(deliveries)), range(int(events))):
        print(line)


if __name__ == "__main__":
    main(*sys.argv[1:])
