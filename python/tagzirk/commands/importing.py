"""`tagzirk import`: a dump as a graph file."""

from __future__ import annotations

import argparse
import sys
from typing import TYPE_CHECKING

from ..dumps import read_dump
from .words import Parents, command, options_of, places_of, tell_notes, told

if TYPE_CHECKING:
    from .words import Commands


def add(commands: Commands, parents: Parents) -> None:
    """Adds the words of `import`."""
    command(
        commands,
        "import",
        run_import,
        "print the graph file that `overlay import` makes of a dump in any form",
        parents.dump,
    )


def run_import(words: argparse.Namespace) -> int:
    """Prints the graph file."""
    dump = read_dump(places_of(words), options_of(words), is_graph_taken=False)
    tell_notes(dump)
    if not words.files and not dump.has_nodes:
        told("no FILE was named, so standard input was read: tagzirk import FILE")
    sys.stdout.write(dump.graph_file)
    return 0
