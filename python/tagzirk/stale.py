"""Which hosts have listings that the other end does not answer: `one_sided`; and whom others list who has no entry:
`without_entry`."""

from __future__ import annotations

from collections import Counter
from typing import Dict, FrozenSet, List, Optional, Sequence, Set

from .dumps import Dump, read_graph_file
from .graphs import NamedGraph
from .programs import Program, call_for_any, demand_end, find


def one_sided(dump: Dump, overlay: Optional[Program] = None) -> Dict[str, int]:
    """Of how many listings, which the other end does not answer, each host is an end; the most first. Of a dead or
    stale host they are many, and of each of its neighbours one.

    `overlay import` is asked for the links that one end is enough for, and for those that both ends say: what stands
    between is listed by one end only.

    >>> from tagzirk.dumps import dump_of
    >>> one_sided(dump_of(b'{"a": ["b", "c"], "b": ["a"], "c": []}', "net.json"))
    {'a': 1, 'c': 1}
    """
    if not dump.one_sided:
        return {}
    data, words = dump.given
    form = [it for it in words if it not in ("--either", "--entries")]
    by_one, by_both = links_in(data, [*form, "--either"], overlay), links_in(data, form, overlay)
    number = Counter(host for pair in by_one - by_both for host in pair)
    return {host: number[host] for host in sorted(number, key=lambda it: (-number[it], it))}


def without_entry(dump: Dump, overlay: Optional[Program] = None) -> List[str]:
    """The names that hosts list and that have no entry, as of dead peers.

    >>> from tagzirk.dumps import dump_of
    >>> without_entry(dump_of(b'{"a": ["b", "gone"], "b": ["a"]}', "net.json"))
    ['gone']
    """
    if not dump.without_entry:
        return []
    data, words = dump.given
    form = [it for it in words if it != "--entries"]
    living = graph_of(data, [*form, "--entries"], overlay).ids
    return [it for it in graph_of(data, form, overlay).ids if it not in living]


def links_in(data: bytes, words: Sequence[str], overlay: Optional[Program]) -> Set[FrozenSet[str]]:
    """The links that `overlay import` finds in a dump, by names."""
    graph = graph_of(data, words, overlay)
    return {frozenset(graph.names[it] for it in link) for link in graph.links}


def graph_of(data: bytes, words: Sequence[str], overlay: Optional[Program]) -> NamedGraph[str]:
    """The graph that `overlay import` finds in a dump."""
    ended = call_for_any(find("overlay", overlay), ["import", *words], data)
    demand_end(ended)
    return read_graph_file(ended.out)
