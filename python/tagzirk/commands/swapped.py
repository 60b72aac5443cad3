"""A dump and a file of racks that are named in the place of each other."""

from __future__ import annotations

import argparse
import pathlib
from typing import Dict, List, Optional

from ..dumps import read_dump
from ..errors import TagzirkError
from ..graphs import NamedGraph
from ..racks import racks_of
from .words import options_of


def swapped(words: argparse.Namespace) -> Optional[str]:
    """What is told if the file that is to be the dump has racks of hosts, and that of racks links these hosts."""
    if len(words.files) != 1 or not words.racks or words.files[0] == "-":
        return None
    racks, graph = racks_in(words.files[0]), graph_in(words)
    hosts = {host for them in racks.values() for host in them}
    known = graph.ids.keys() if graph and graph.links else set()
    if known & racks.keys() or 2 * len(hosts & known) <= len(hosts):
        return None
    return (
        f"{words.files[0]} is likely to be the racks, and {words.racks} the dump: tagzirk each {words.racks} --racks "
        f"{words.files[0]}"
    )


def racks_in(place: str) -> Dict[str, List[str]]:
    """The racks in a file, or none."""
    try:
        return racks_of(pathlib.Path(place).read_bytes().decode("utf-8-sig"), place)
    except (TagzirkError, OSError, UnicodeDecodeError):
        return {}


def graph_in(words: argparse.Namespace) -> Optional[NamedGraph[str]]:
    """The graph in the file that is to be the racks, if there is one."""
    try:
        return read_dump([words.racks], options_of(words)._replace(either=True)).graph
    except (TagzirkError, OSError):
        return None
