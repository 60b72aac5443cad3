"""`tagzirk history`: a row for each of many dumps."""

from __future__ import annotations

import argparse
import json
import os
import pathlib
import sys
from typing import TYPE_CHECKING, List

from ..errors import BadDump
from ..histories import SVG, history, need_matplotlib, picture_of, write_rows
from ..outputs import demand_apart
from ..progress import Progress
from .words import Parents, command, options_of, output, told

if TYPE_CHECKING:
    from .words import Commands


def add(commands: Commands, parents: Parents) -> None:
    """Adds the words of `history`."""
    text = "print a row of CSV for each of many dumps, in the order of time"
    it = command(commands, "history", run_history, text, parents.dump, parents.at_once, parents.forced, is_of_many=True)
    it.add_argument("--json", action="store_true", help="print the rows as a list in JSON, and nothing else")
    it.add_argument("--svg", metavar="PICTURE", help="write a picture too, by matplotlib")


def dumps_in(places: List[str]) -> List[str]:
    """The dumps of a history. One folder stands for the dumps in it; of several names each is a dump."""
    if len(places) != 1 or not os.path.isdir(places[0]):
        return places
    found = [str(it) for it in sorted(pathlib.Path(places[0]).iterdir()) if it.name[0] != "."]
    if not found:
        raise BadDump(f"{places[0]}: the folder has no dumps")
    return found


def run_history(words: argparse.Namespace) -> int:
    """Prints the rows, and draws them."""
    dumps = dumps_in(words.files)
    demand_apart([*words.files, *dumps])
    picture = output(words, "--svg", words.svg, SVG, [*words.files, *dumps]) if words.svg else None
    if picture:
        need_matplotlib()
    with Progress() as progress:
        moments = history(dumps, options_of(words), workers=words.workers, progress=progress)
    if words.json:
        print(json.dumps([it.value for it in moments], ensure_ascii=False))
    else:
        write_rows(moments, sys.stdout)
    for it in moments:
        if it.fault:
            told(f"tagzirk history: {it.fault}")
    doubtful = [it for it in moments if it.doubts]
    if doubtful:
        more = f"; and so of {len(doubtful) - 1} more dumps" if len(doubtful) > 1 else ""
        told(f"{doubtful[0].file}: {'; '.join(doubtful[0].doubts)}{more}")
    if picture:
        picture.write(picture_of(moments))
    return 1 if any(it.fault for it in moments) else 0
