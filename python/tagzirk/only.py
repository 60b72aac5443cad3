"""The hosts of a dump that are looked at alone, by patterns of their names: so a dump may have more hosts than can be
analysed."""

from __future__ import annotations

import fnmatch
from typing import Iterable, List, Sequence, Set, Tuple

from .beside import plain_lines
from .documents import views_of
from .dot import of_dot
from .errors import BadDump
from .graphs import NamedGraph, shown
from .json_files import json_of
from .rows import rows_of
from .taken import without_hosts
from .values import Views


def matching(names: Iterable[str], patterns: Sequence[str]) -> Tuple[Set[str], str]:
    """The names that one of the patterns matches at least, in which `*` is any text, `?` any sign and `[ab]` one of
    these; and what is to be told.

    >>> matching(["ams-1", "ams-2", "fra-1"], ["ams-*"])[1]
    'looked at alone, as --only ams-* asks: 2 of 3 hosts, and the links between them'
    """
    every = list(dict.fromkeys(names))
    kept = {name for name in every if any(fnmatch.fnmatchcase(name, it) for it in patterns)}
    asked = " ".join(patterns)
    if not kept:
        first = f", as {shown(every[0])}" if every else ""
        raise BadDump(f"--only {asked} matches the name of no host{first}; `*` in it is any text: --only 'ams-*'")
    number = f"{len(kept)} of {len(every)} hosts"
    return kept, f"looked at alone, as --only {asked} asks: {number}, and the links between them"


def only_views(views: Views, patterns: Sequence[str]) -> Tuple[Views, List[str]]:
    """What hosts of such names list of each other, and what is to be told; all of it, if there are no patterns."""
    if not patterns:
        return views, []
    names = [*views.peers, *(peer for peers in views.peers.values() for peer in peers)]
    kept, told = matching(names, patterns)
    return without_hosts(views, set(names) - kept), [told]


def only_graph(graph: NamedGraph[str], patterns: Sequence[str]) -> Tuple[NamedGraph[str], str]:
    """A graph of such hosts alone, and what is to be told."""
    kept, told = matching(graph.ids, patterns)
    return graph.without({host for name, host in graph.ids.items() if name not in kept}), told


def plain_views(text: str, form: str) -> Views:
    """What a dump says that is of a form of `overlay import`: views in JSON, DOT, or lines of two names."""
    if form in ("views", "json"):
        views = views_of(json_of(text))
        views.kind = "views"
        return views
    if form == "dot":
        return of_dot(text)
    for row in rows_of(text):
        if len(row.words) != 2 or not all(row.words):
            raise BadDump(f"line {row.number} is no pair of names: {shown(row.text[:200])}")
    return plain_lines(text)
