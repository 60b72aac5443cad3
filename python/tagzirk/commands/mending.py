"""`tagzirk mend`: links to add."""

from __future__ import annotations

import argparse
import os
import stat
import sys
from typing import IO, TYPE_CHECKING

from ..graphs import shown
from ..mending import Mended, mend
from ..markup import counted
from ..progress import Progress
from .words import Parents, at_least_one, command, dump_of, output, told

if TYPE_CHECKING:
    from .words import Commands

# How a graph file begins that this command wrote.
MARK = "# tagzirk mend"


def add(commands: Commands, parents: Parents) -> None:
    """Adds the words of `mend`."""
    text = "find links to add, so that no fewer than K crashes split the overlay"
    it = command(commands, "mend", run_mend, text, parents.dump, parents.forced)
    it.add_argument("--to", type=at_least_one, metavar="K", required=True, help="how many crashes k is to be")
    it.add_argument("--most-links", type=at_least_one, metavar="D", help="no host gets more than D links by these")
    it.add_argument("--certificate", action="store_true", help="print the certificate of the new k, as the last line")
    it.add_argument("--graph", metavar="GRAPHFILE", help="write the graph file with these links too")


def is_pipe(stream: IO[str]) -> bool:
    """Whether another program reads what is printed."""
    try:
        return stat.S_ISFIFO(os.fstat(stream.fileno()).st_mode)
    except OSError:
        return False


def run_mend(words: argparse.Namespace) -> int:
    """Prints links to add."""
    written = output(words, "--graph", words.graph, MARK, words.files) if words.graph else None
    graph = dump_of(words).graph
    with Progress() as progress:
        mended: Mended[str] = mend(graph, words.to, words.most_links, progress=progress)
    for one, other in mended.links:
        print(f"add\t{shown(one)}\t{shown(other)}")
    if written:
        written.write(f"{MARK} --to {words.to}\n{mended.after.graph_file}")
    if words.certificate:
        print(mended.after.certificate)
    before, after = mended.before.k, mended.after.k
    if words.certificate and mended.links and is_pipe(sys.stdout):
        told("the certificate is the last line: | tail -n 1 | overlay-check")
    if mended.links:
        told(f"k is {before}, and {after} with {counted(len(mended.links), 'more link')}")
        if mended.untried:
            told(f"{mended.untried} of them may be to spare: of so many hosts not each was tried without")
    else:
        told(f"k is {before} already, so no link is needed")
    return 0
