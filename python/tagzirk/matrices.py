"""Adjacency matrices, with names or without, and graph6, which packs one into printable characters."""

from __future__ import annotations

import math
import re
from typing import Dict, List, NamedTuple, Optional

from .errors import BadDump
from .graph_files import Graph
from .limits import need_few_implied
from .rows import NUMBER
from .values import Said

MATRIX = "an adjacency matrix"
GRAPH6 = re.compile(r"(?:>>graph6<<)?([?-~]+)")
# The fewest rows of a matrix without names that are told from lists of neighbours and from weighted links.
LEAST_ROWS = 4


class Matrix(NamedTuple):
    """A square of cells, the names of its rows, which are those of its columns, and comments."""

    names: List[str]
    cells: List[List[str]]
    comments: List[str]


def cells_of(lines: List[str]) -> List[List[str]]:
    """The cells of lines between commas, `;`, tabs or white space, without brackets around them."""
    between = next((it for it in ("\t", ";", ",") if lines and it in lines[0]), None)
    rows = []
    for line in lines:
        bare = line.strip("\r") if between == "\t" else line.strip().strip("[],;") if "[" in line else line.strip()
        rows.append([it.strip().strip('"') for it in bare.split(between)])
    return rows


def is_number(cell: str) -> bool:
    return bool(NUMBER.fullmatch(cell)) or cell.lower() in ("inf", "nan", "-inf")


def matrix_of(text: str, least: int = LEAST_ROWS) -> Optional[Matrix]:
    """The adjacency matrix that a text is, or None: numbers alone in a square of some size, or with a row above it and
    a column before it that have the same names."""
    every = [line for line in text.split("\n") if line.strip()]
    lines = [line for line in every if line.lstrip()[0] not in "#%"]
    comments = [line.strip() for line in every if line.lstrip()[0] in "#%" and line.strip("#% \t\r")]
    if not lines or len(cells_of(lines[:1])[0]) not in (len(lines), len(lines) - 1):
        return None
    rows = cells_of(lines)
    if len(rows) < least or any(len(row) not in (len(rows), len(rows[0])) for row in rows):
        return None
    head, below = rows[0], rows[1:]
    first = [row[0] for row in below]
    for names in () if all(map(is_number, head)) and len(head) == len(rows) else (head[1:], head):
        has_names = len(set(names)) == len(below) and names == first and all(len(it) == len(names) + 1 for it in below)
        if has_names and all(is_number(cell) or not cell for row in below for cell in row[1:]):
            return Matrix(names, [row[1:] for row in below], comments)
    if all(len(row) == len(rows) and all(map(is_number, row)) for row in rows):
        return Matrix([str(at) for at in range(1, len(rows) + 1)], rows, comments)
    return None


def matrix_graph(matrix: Matrix) -> Graph:
    """The graph of an adjacency matrix: a cell that is not 0 is a link, or a listing if that across the diagonal is 0.

    >>> matrix = matrix_of(",a,b,c\\na,0,1,0\\nb,1,0,1\\nc,0,1,0\\n", 2)
    >>> matrix_graph(matrix).views().value
    {'a': ['b'], 'b': ['a', 'c'], 'c': ['b']}
    """
    names, cells, comments = matrix
    values = [[float(cell or 0) for cell in row] for row in cells]
    beside = [value for at, row in enumerate(values) for to, value in enumerate(row) if at != to]
    if not all(value >= 0 and math.isfinite(value) for value in beside):
        raise BadDump("its matrix has cells below 0 or without a number: which of them are links, it does not say")
    if set(beside) - {0.0, 1.0} and all(beside):
        raise BadDump("no cell of its matrix is 0, and some are not 1: which of them are links, it does not say")
    are_answered = all(bool(values[at][to]) == bool(values[to][at]) for at in range(len(names)) for to in range(at))
    graph, has_values = Graph(MATRIX), not set(beside) <= {0.0, 1.0}
    said: Dict[str, Said] = {it: {"value": it} if has_values else {} for row in cells for it in row}
    graph.beside += [("comments", it) for it in comments]
    has_diagonal = any(values[at][at] for at in range(len(names)))
    for at, name in enumerate(names):
        graph.host(name, {"diagonal": cells[at][at]} if has_diagonal else {})
    for at, row in enumerate(values):
        for to, value in enumerate(row):
            across = cells[to][at] if are_answered and cells[to][at] != cells[at][to] else None
            beside = said[cells[at][to]] if across is None else {**said[cells[at][to]], "across": across}
            if value and (to > at or not are_answered):
                graph.link(names[at], names[to], not are_answered, beside)
    return graph


def bits_of(text: str) -> List[int]:
    """The bits that printable characters stand for, six each."""
    return [(ord(it) - 63) >> at & 1 for it in text for at in range(5, -1, -1)]


def graph6_of(text: str) -> Optional[Graph]:
    """The graph of a text of graph6, with hosts 0, 1, 2 and so on; or None if the text is none.

    >>> graph6_of("Bw").views().value
    {'0': ['1', '2'], '1': ['0', '2'], '2': ['0', '1']}
    """
    found = GRAPH6.fullmatch(text.strip())
    said = found[1] if found else ""
    if said[:2] == "~~" or not said:
        return None
    count, begin = (ord(said[0]) - 63, 1) if said[0] != "~" else (number_of(said[1:4]), 4)
    if len(said) != begin + (count * (count - 1) // 2 + 5) // 6:
        return None
    bits = bits_of(said[begin:])
    need_few_implied(sum(bits), "graph6 stands for many links")
    graph, at = Graph("graph6"), 0
    for other in range(count):
        graph.host(str(other))
        for one in range(other):
            if bits[at]:
                graph.link(str(one), str(other))
            at += 1
    return graph if graph.links and not any(bits[at:]) else None


def number_of(text: str) -> int:
    number = 0
    for bit in bits_of(text):
        number = number * 2 + bit
    return number
