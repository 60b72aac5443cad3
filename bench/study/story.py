#!/usr/bin/env python3
"""story.py NODE OPTIONS: grows an overlay by grow.py, and tells event for event how a node came by its links and lost
them.

Each line is an event that changed the active view of the node, or dropped it: the entry, the line of the scenario, who
got which message of whom, and the changes of active views.
"""

import argparse
import sys

from grow import Growing
from nodes import HANDLERS
from options import add_options, options_of

KINDS = {kind: name.removeprefix("on_").replace("_", "").upper() for kind, name in HANDLERS.items()}


class Told(Growing):
    """An overlay that grows, and tells of one node."""

    def __init__(self, options, node):
        super().__init__(options)
        self.node = node

    def act(self, line, kind, *given):
        """Takes a step, and tells it if it concerns the node's links."""
        receiver, message = self.world.packets[given[0]] if kind == "deliver" else (None, None)
        super().act(line, kind, *given)
        changes = self.printed[-1].split(" ", 2)[2:]
        if not any(self.concerns(change) for change in changes):
            return
        node = self.world.nodes[self.node]
        got = f"{receiver} gets {KINDS[message[0]]} of {message[1]}" if message else line
        active = ",".join(map(str, sorted(node.active))) or "nobody"
        print(f"entry {self.world.entries:5}  {got:32} {changes[0]:24} node {self.node} holds {active}")

    def concerns(self, changes):
        """Whether changes are of links of the node."""
        words = changes.split(" ")
        return str(self.node) in words and ("up" in words or "down" in words or "born" in words)


def main():
    parser = argparse.ArgumentParser(description=__doc__, formatter_class=argparse.RawDescriptionHelpFormatter)
    parser.add_argument("node", type=int)
    add_options(parser)
    given = parser.parse_args()
    Told(options_of(parser, given), given.node).grow()


if __name__ == "__main__":
    sys.exit(main())
