"""GML: nested lists of keys with values."""

from __future__ import annotations

import html
import re
from typing import Dict, Iterator, List, NamedTuple, Optional, Tuple, Union

from .errors import BadDump
from .graph_files import Graph
from .limits import DEEPEST, need_short
from .values import Scalar

TOKEN = re.compile(r'(?P<space>\s+|#[^\n]*)|(?P<text>"[^"]*")|(?P<mark>[\[\]])|(?P<word>[^\s\[\]"#]+)')


class Pair(NamedTuple):
    """A key with its value: a text, a word, or a list of pairs; and the line where it stands."""

    key: str
    value: Union[str, List[Pair]]
    line: int


def tokens_of(text: str, has_space: bool = False) -> Iterator[Tuple[str, str, int]]:
    """The words of a text of GML: the kind of each, its text, and its line. With space and comments, if asked for."""
    at, line = 0, 1
    while at < len(text):
        found = TOKEN.match(text, at)
        if not found:
            raise BadDump(f"line {line}: it is no GML: a text in quotes has no end")
        if found.lastgroup != "space" or has_space:
            yield str(found.lastgroup), found[0], line
        line += found[0].count("\n")
        at = found.end()


def pairs_of(text: str) -> List[Pair]:
    """The pairs of a whole text of GML."""
    open_lists: List[List[Pair]] = [[]]
    key: Optional[str] = None
    line = 1
    for kind, said, line in tokens_of(text):
        if kind == "mark" and said == "]":
            open_lists.pop()
            if key is not None or not open_lists:
                raise BadDump(f"line {line}: it is no GML: ] stands in place of a value or without [")
        elif key is None:
            if kind != "word":
                raise BadDump(f"line {line}: it is no GML: a key should stand here, and not {said[:40]}")
            key = said
        elif said == "[" and kind == "mark":
            if len(open_lists) > DEEPEST:
                raise BadDump(f"line {line}: its GML is nested more than {DEEPEST} deep")
            inner: List[Pair] = []
            open_lists[-1].append(Pair(key, inner, line))
            open_lists.append(inner)
            key = None
        else:
            value = html.unescape(said[1:-1]) if kind == "text" else said
            open_lists[-1].append(Pair(key, value, line))
            key = None
    if key is not None or len(open_lists) != 1:
        raise BadDump(f"line {line}: it is no GML: a list has no end: is it torn?")
    return open_lists[0]


def scalars(pairs: List[Pair]) -> Dict[str, Scalar]:
    """The values that are no lists, and those in lists by both keys with a dot between; of a key that stands several
    times all values as one text."""
    said: Dict[str, List[str]] = {}
    more = [("", iter(pairs))]
    while more:
        before, items = more[-1]
        it = next(items, None)
        if it is None:
            more.pop()
        elif isinstance(it.value, str):
            said.setdefault(f"{before}{it.key}", []).append(it.value)
        else:
            more.append((f"{need_short(before + it.key)}.", iter(it.value)))
    return {key: ",".join(values) for key, values in said.items()}


def gml_graph(text: str) -> Graph:
    """The graph that a text of GML says. Hosts are called by their labels, if each has one.

    >>> graph = gml_graph('graph [ node [ id 1 label "a" ] node [ id 2 label "b" ] edge [ source 1 target 2 w 3 ] ]')
    >>> graph.names(None), graph.links
    ({'1': 'a', '2': 'b'}, [Link(one='1', other='2', is_directed=False, said={'w': '3'}, way='')])
    """
    whole = pairs_of(text)
    graphs = [it for it in whole if it.key == "graph" and not isinstance(it.value, str)]
    if len(graphs) != 1:
        raise BadDump(f"its GML has {len(graphs)} graphs: give a file of one graph")
    inner = graphs[0].value
    graph = Graph("GML", label="label")
    pairs = inner if isinstance(inner, list) else []
    others = [it for it in pairs if it.key not in ("node", "edge") or isinstance(it.value, str)]
    head = scalars(others)
    is_directed = head.pop("directed", "0") == "1"
    around = scalars([it for it in whole if it is not graphs[0]])
    comments = [("comments", said.strip()) for kind, said, _ in tokens_of(text, True) if kind == "space"]
    graph.beside += [*around.items(), *head.items(), *(it for it in comments if it[1].strip("# "))]
    for it in pairs:
        if it.key not in ("node", "edge") or isinstance(it.value, str):
            continue
        said, place = scalars(it.value), f"line {it.line}: "
        keys = ("id",) if it.key == "node" else ("source", "target")
        if any(inner.key in ("graph", "node") and not isinstance(inner.value, str) for inner in it.value):
            raise BadDump(f"{place}a node has a graph in it: which are hosts, and which groups, it does not say")
        if not set(keys) <= set(said):
            raise BadDump(f"{place}each {it.key} of GML needs {' and '.join(keys)}")
        ends = [str(said.pop(key)) for key in keys]
        if it.key == "node":
            graph.host(ends[0], said, place)
        else:
            graph.link(ends[0], ends[1], is_directed, said)
    return graph
