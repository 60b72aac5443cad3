"""Which form a dump has, and what hosts list by it. What `overlay import` reads itself is left to it."""

from __future__ import annotations

import json
import re
from typing import Any, Callable, Dict, List, Optional, Tuple

from .asked import Asked
from .documents import is_views, key_around, views_of
from .errors import BadDump
from .gml import gml_graph
from .graph_files import Graph
from .json_files import Twice, is_json, json_of
from .lines import of_lines
from .matrices import graph6_of, matrix_graph, matrix_of
from .mermaid import BEGIN as MERMAID, mermaid
from .neighbours import lgl, metis, multiline
from .rows import comments_in, rows_of
from .sections import dimacs, gdf, is_tgf, leda, lemon, looks_like_tgf, matrix_market, pajek, plain, tgf
from .texts import decoded
from .values import PEER_KEYS, Scalar, Views, key_in
from .xml_graphs import XML, xml_graph
from .yaml_files import begins_yaml, yaml_of


def square(text: str) -> Optional[Graph]:
    """The graph of a text that is to be an adjacency matrix, however small."""
    matrix = matrix_of(text, 1)
    return matrix_graph(matrix) if matrix else None


def lists_of_many_lines(text: str) -> Optional[Graph]:
    """The graph of a text that is to be lists of many lines, as networkx writes them."""
    graph = multiline(rows_of(text))
    for it in comments_in(text) if graph else ():
        graph.pass_over("comments", it)
    return graph


# The forms that can be asked for: those of `overlay import`, which are its own; those of lines and of values; and those
# of graph files, each with its reader, which may find that a text is none.
NATIVE = ("views", "edges", "dot")
GRAPHS: Dict[str, Callable[[str], Optional[Graph]]] = {
    "graphml": xml_graph,
    "gexf": xml_graph,
    "gml": gml_graph,
    "pajek": pajek,
    "lemon": lemon,
    "leda": leda,
    "gdf": gdf,
    "tgf": tgf,
    "plain": plain,
    "dimacs": dimacs,
    "matrixmarket": matrix_market,
    "metis": metis,
    "lgl": lgl,
    "multiline": lists_of_many_lines,
    "graph6": graph6_of,
    "matrix": square,
    "mermaid": mermaid,
}
FORMS = (*NATIVE, "json", "yaml", "csv", "weighted", "adjacency", *GRAPHS)
# How a text begins in a form, where this leaves no doubt.
GML = re.compile(
    r"(?:\s*#[^\n]*\n|\s*(?:creator|version|comment|directed|label)\b[^\n]*\n)*\s*graph\s*\[", re.IGNORECASE
)
BEGINS = (
    ("graphml", XML),
    ("gml", GML),
    ("mermaid", MERMAID),
    ("plain", re.compile(r"graph(?: [0-9.]+){3}\s*\nnode ")),
    ("json", re.compile(r"(?://[^\n]*\n\s*|/\*[^*]*(?:\*(?!/)[^*]*)*\*/\s*)+[\[{]")),
    ("dot", re.compile(r'(?:/\*|(?://[^\n]*\n\s*)*(?:strict|graph|digraph)(?=[\s{"<]))', re.IGNORECASE)),
    ("matrixmarket", re.compile("%%MatrixMarket", re.IGNORECASE)),
    ("pajek", re.compile(r"(?:%[^\n]*\n\s*)*\*(?:vertices|network)\b", re.IGNORECASE)),
    ("lemon", re.compile(r"(?:#[^\n]*\n\s*)*@nodes\b")),
    ("leda", re.compile(r"(?:#[^\n]*\n\s*)*LEDA\.GRAPH\b")),
    ("gdf", re.compile("nodedef>", re.IGNORECASE)),
    ("dimacs", re.compile(r"(?:c(?:[ \t][^\n]*)?\n\s*)*p[ \t]+[a-z]+[ \t]+[0-9]+[ \t]+[0-9]+\s*\n")),
    ("graph6", re.compile(">>graph6<<")),
)


# A text as Markdown has it within a document.
FENCED = re.compile(r"\s*```\w*\n(.*?)\n```\s*", re.DOTALL)


def form_of(text: str, place: str) -> str:
    """Which form a dump has, of those above; `edges` stands for all lines, and `json` for all JSON."""
    begin = text.lstrip()
    if place.endswith((".yaml", ".yml")) or begin.startswith(("---\n", "%YAML")):
        return "yaml"
    for form, begins in BEGINS:
        if begins.match(begin):
            return form
    if begins_yaml(text):
        return "yaml"
    if begin.startswith("{") or re.match(r"\[(?:[\"'(\[{\]\s]|$)", begin):
        return "json"
    if is_tgf(text):
        return "tgf"
    if looks_like_tgf(text):
        raise BadDump("it looks like TGF and does not fit: it needs one line #, and a line of its own for each host "
                      "that is linked; --form edges reads each line as a link")
    return "edges"


def listings_of(data: bytes, place: str, asked: Asked) -> Optional[Views]:
    """What hosts list by a dump, or None if `overlay import` is to read it as it is."""
    if asked.form in NATIVE:
        return None
    if not asked.form and form_of(data.decode("utf-8-sig", "replace"), place) == "dot":
        return None
    fenced = FENCED.fullmatch(decoded(data))
    text = "\n" + fenced[1] if fenced else decoded(data)
    form = asked.form or form_of(text, place)
    if form == "yaml":
        beside: List[Tuple[str, Scalar]] = []
        views = views_of(yaml_of(text, beside), asked)
        views.beside += beside
        return views
    if form in GRAPHS:
        graph = GRAPHS[form](text)
        if not graph:
            raise BadDump(f"it does not have the form {form}")
        return graph.views(asked.by)
    if form != "json":
        return of_lines(text, asked.form, asked.columns)
    return of_json(text, asked)


def of_json(text: str, asked: Asked) -> Optional[Views]:
    """What hosts list by JSON. Views are for `overlay import`, which also says what is wrong with a certificate or with
    what is no JSON."""
    if '"verdict"' in text and not asked.form:
        return None
    beside: List[Tuple[str, Scalar]] = []
    try:
        value = json_of(text, beside)
    except json.JSONDecodeError as why:
        if asked.form:
            raise BadDump(f"line {why.lineno}: it is no JSON: {why.msg}") from None
        return None
    except Twice:
        # overlay says of views which name stands twice, and where
        if is_surely_views(text):
            return None
        raise
    is_of_one = isinstance(value, dict) and len(value) == 1 and not asked.links and key_in(value, PEER_KEYS)
    if is_of_one and not key_around(value):
        raise BadDump(
            f"it has the {key_in(value, PEER_KEYS)} of one host, and does not say of which: give the files of "
            "all hosts, or their folder; the name of each is then the host's"
        )
    if is_views(value) and is_json(text) and not says_more(value):
        return None
    views = views_of(value, asked)
    views.beside += beside
    return views


def says_more(value: Dict[str, Any]) -> bool:
    """Whether views say more than names: some list has one twice, nobody, or numbers and texts of digits; or who is
    listed has no entry anywhere, as of racks."""
    lists = [it for it in value.values() if it]
    names = [name for it in lists for name in it]
    if len(names) > 1 and not any(str(it) in value for it in names):
        return True
    is_twice = any(len(set(map(str, it))) < len(it) for it in lists)
    has_digits = any(isinstance(it, str) and it.isdigit() for it in names)
    return is_twice or None in names or has_digits and any(isinstance(it, int) for it in names)


def is_surely_views(text: str) -> bool:
    """Whether a text is views in JSON, whatever keys stand twice."""
    try:
        return is_views(json.loads(text))
    except ValueError:
        return False
