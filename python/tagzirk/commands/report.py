"""`tagzirk report`: a page about a dump."""

from __future__ import annotations

import argparse
import sys
from typing import TYPE_CHECKING

from ..dumps import last_change
from ..histories import moment_at
from ..pages import page
from ..progress import Progress
from .words import Parents, at_least_one, command, dump_of

if TYPE_CHECKING:
    from .words import Commands


def add(commands: Commands, parents: Parents) -> None:
    """Adds the words of `report`."""
    text = "print a page of HTML about a dump, which needs nothing else"
    it = command(commands, "report", run_report, text, parents.dump)
    it.add_argument("--to", type=at_least_one, metavar="K", help="links to add are for this k, not for one more")
    it.add_argument("--site", metavar="REGEX", help="the site of a host, by its name: `^([a-z]+)-` is hel of hel-7")


def run_report(words: argparse.Namespace) -> int:
    """Prints the page."""
    dump = dump_of(words)
    changed = last_change(words.files)
    taken = None if changed is None else moment_at(changed)
    with Progress() as progress:
        text = page(dump, words.to, taken=taken, site=words.site, progress=progress)
    sys.stdout.write(text)
    return 0
