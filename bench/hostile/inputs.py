#!/usr/bin/env python3
"""inputs.py NAME: writes an input that asks `overlay` for much. Without a NAME it lists them.

The lines are short and many, and each asks for something for which a careless program goes through all that it holds,
or keeps much. The same name gives the same bytes.
"""

import itertools
import sys

# The most entries that a journal may have, and the most nodes that a world may bear.
MOST_ENTRIES = 65536
MOST_NODES = 256
# The most sections that a block may have.
MOST_SECTIONS = 64


def missed_moments(size=999_000):
    """As many snapshots as a journal holds, and then analyses and looks that name a moment without one."""
    written = 0
    snapshots = ["snapshot"] * (MOST_ENTRIES - 1)
    for line in itertools.chain(["boot 1"], snapshots, itertools.cycle(["analyse 0", "certificate 0"])):
        if written + len(line) + 1 > size:
            return
        written += len(line) + 1
        yield line


def many_groups(size=823_000):
    """A snapshot of as many nodes as a world may bear, and an analysis of each pair of them, up to the size."""
    written = 0

    def lines():
        yield "boot 1"
        for node in range(2, MOST_NODES + 1):
            yield f"boot {node} by {node // 2}"
            yield "deliver 0"
        moment = 2 * MOST_NODES
        yield "snapshot"
        for pair in itertools.combinations(range(1, MOST_NODES + 1), 2):
            yield f"analyse {moment} group {pair[0]},{pair[1]}"

    for line in lines():
        if written + len(line) + 1 > size:
            return
        written += len(line) + 1
        yield line


def unread_lines(size=100_000_000):
    """Lines of one letter, none of which can be read."""
    return itertools.repeat("x", size // 2)


def blocks(count, sections):
    """This many blocks with as many sections as a block may have, of which the first have these lines."""
    for _ in range(count):
        for place in range(MOST_SECTIONS):
            yield "also" if place else "together"
            yield from sections[place] if place < len(sections) else []
        yield "end"


# The words of the command that reads an input, and its lines.
INPUTS = {
    "missed-moments": (["run", "--explain"], missed_moments),
    "many-groups": (["run"], many_groups),
    "unread-lines": (["run"], unread_lines),
    "unread-graph-lines": (["analyse"], unread_lines),
    "empty-blocks": (["run"], lambda: blocks(3050, [])),
    "single-blocks": (["run"], lambda: blocks(3000, [["lose 0"]])),
    "double-blocks": (["run"], lambda: blocks(3000, [["lose 0"], ["lose 0"]])),
}


def write(name, file):
    """Writes the input of this name."""
    lines = INPUTS[name][1]()
    while part := list(itertools.islice(lines, 100_000)):
        file.write("\n".join(part).encode() + b"\n")


if __name__ == "__main__":
    if len(sys.argv) != 2 or sys.argv[1] not in INPUTS:
        sys.exit("\n".join(["usage: inputs.py NAME, where NAME is one of", *INPUTS]))
    write(sys.argv[1], sys.stdout.buffer)
