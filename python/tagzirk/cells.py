"""Cells of tables that have all peers of a host: `n2;n3`, `{n2,n3}` or `["n2", "n3"]`."""

from __future__ import annotations

import re
from typing import List, NamedTuple, Tuple

# What stands between two peers, and brackets around all of them or around one.
BETWEEN = re.compile(r"\s*[,;|]\s*|\s+")
QUOTES = "\"'"
AROUND = {"[": "]", "{": "}", "(": ")"}


class Peer(NamedTuple):
    """A peer in a cell, and how it is written: in quotes or not, and beside which sign. One alone has no sign."""

    name: str
    way: str


def peers_in_cell(cell: str) -> List[Peer]:
    """The peers that a cell names.

    >>> [it.name for it in peers_in_cell("{n2,n3}")], [it.name for it in peers_in_cell("b c(down)")]
    (['n2', 'n3'], ['b', 'c(down)'])
    """
    inner = cell.strip()
    while inner and inner[-1] == AROUND.get(inner[0]):
        inner = inner[1:-1].strip()
    signs = ["", *(it.strip() or "a blank" for it in BETWEEN.findall(inner))]
    found, before = [], ""  # type: List[Tuple[str, str]], str
    for name, sign in zip(BETWEEN.split(inner), signs):
        before += sign
        if name.strip(QUOTES):
            found.append((name, before))
            before = ""
    first = next((sign for _, sign in found if sign), "")
    return [Peer(name.strip(QUOTES), way_of(name, sign or first)) for name, sign in found]


def way_of(name: str, sign: str) -> str:
    """How one peer of a cell is written."""
    return f"a name beside {sign}{', in quotes' * (name[0] in QUOTES)}" if sign else ""
