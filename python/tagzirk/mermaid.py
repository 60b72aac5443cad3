"""Mermaid's flow charts: lines of nodes with arrows between them."""

from __future__ import annotations

import re
from typing import List, Tuple

from .errors import BadDump
from .graph_files import Graph
from .limits import need_few_implied
from .sections import Line, lines_of

BEGIN = re.compile(r"(?:%%[^\n]*\n\s*)*(?:graph|flowchart)[ \t]+(?:TB|TD|BT|LR|RL)[ \t]*(?:;|\r?\n)(?!\s*\{)")
# A node, whose text in brackets and class are passed over; and an arrow, which may have a text.
NODE = re.compile(r"\s*([^\s\[\](){}<>|&;:@~=-](?:[^\s\[\](){}<>|&;:@~=-]|-(?![-.]))*)")
SHAPE = re.compile(r"\s*(?:\[[^\]]*\]+|\([^)]*\)+|\{[^}]*\}+|:::\w+)")
SPACE = re.compile(r"\s*")
ARROW = re.compile(r"\s*(<?(?:-{2,}|={2,}|-\.+-)[>ox]?)(?:\s*\|([^|]*)\|)?")
# Words that begin a line which says no link.
OTHERS = ("subgraph", "end", "classDef", "class", "style", "linkStyle", "click", "direction", "accTitle", "accDescr")


def mermaid(text: str) -> Graph:
    """The graph of a flow chart: `---` and `<-->` are links, and `-->` is a listing.

    >>> graph = mermaid("graph TD\\n  a[Oslo] --- b & c\\n  b -->|slow| a\\n")
    >>> [(it.one, it.other, it.is_directed) for it in graph.links]
    [('a', 'b', False), ('a', 'c', False), ('b', 'a', True)]
    """
    graph, is_begun = Graph("Mermaid", is_open=True), False
    for line in lines_of(text, "%%", graph):
        for part in line.text.split(";"):
            word, *behind = part.split(None, 1) or ["end"]
            if not is_begun:
                is_begun = True
            elif word not in OTHERS:
                read_chain(graph, Line(line.number, part))
            elif behind and word != "direction":
                graph.pass_over(word, behind[0].strip())
    if len({it.setdefault("shape", "[]") for it in graph.hosts.values()}) == 1:
        # all shapes are alike, as a box without a label has that of one with it
        for said in graph.hosts.values():
            del said["shape"]
    if len({it.said.get("arrow") for it in graph.links}) == 1:
        # all arrows are alike
        for it in graph.links:
            dict.pop(it.said, "arrow", None)  # type: ignore[arg-type]
    return graph


def read_chain(graph: Graph, line: Line) -> None:
    """Takes in one statement: nodes, with arrows between them."""
    ones, at = nodes_at(graph, line, 0)
    while behind_space(line, at) < len(line.text):
        found = ARROW.match(line.text, at)
        if not found:
            raise BadDump(f"{line.place}no arrow of Mermaid begins at {line.text[at:].strip()[:40]}")
        others, at = nodes_at(graph, line, found.end())
        need_few_implied(len(ones) * len(others), "nodes that & joins stand for many links")
        said = {"arrow": found[1].strip("<>"), **({"label": found[2].strip()} if found[2] else {})}
        for one in ones:
            for other in others:
                graph.link(one, other, found[1].endswith(">") and not found[1].startswith("<"), said)
        ones = others


def nodes_at(graph: Graph, line: Line, at: int) -> Tuple[List[str], int]:
    """The nodes at a place of a line, with `&` between them, and where they end."""
    nodes: List[str] = []
    while True:
        found = NODE.match(line.text, at)
        if not found:
            raise BadDump(f"{line.place}no node of Mermaid begins at {line.text[at:].strip()[:40] or 'its end'}")
        nodes.append(found[1])
        said = graph.hosts.setdefault(found[1], {})
        at = found.end()
        shape = SHAPE.match(line.text, at)
        while shape:
            at = shape.end()
            text = shape[0].strip(" []()<>{}/\\\t\"")
            said["class" if text.startswith(":::") else "label"] = text.strip(":")
            if not text.startswith(":::"):
                said["shape"] = shape_of(shape[0].strip())
            shape = SHAPE.match(line.text, at)
        begin = behind_space(line, at)
        if not line.text.startswith("&", begin):
            return nodes, at
        at = begin + 1


def shape_of(text: str) -> str:
    """The brackets of a node's shape, without its text.

    >>> shape_of("[/Oslo/]"), shape_of("((rome))")
    ('[//]', '(())')
    """
    begin = text[: len(text) - len(text.lstrip("[({/\\"))]
    inner = text[len(begin) :]
    return begin + inner[len(inner.rstrip("])}/\\")) :]


def behind_space(line: Line, at: int) -> int:
    """Where the next character stands from some place on that is no space."""
    found = SPACE.match(line.text, at)
    return found.end() if found else at
