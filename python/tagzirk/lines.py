"""Dumps that are lines of text, in forms that `overlay import` does not read: tables, weights, arrows, `;`, brackets
and quotes, and lists of neighbours."""

from __future__ import annotations

import re
from typing import Dict, List, NamedTuple, Optional

from .beside import said_behind, with_comments, with_what_is_behind
from .errors import BadDump
from .graph_files import Graph
from .matrices import MATRIX, graph6_of, matrix_graph, matrix_of
from .neighbours import LGL, METIS, is_adjacency, is_metis, lgl, metis, multiline, of_adjacency
from .registers import demand_links
from .rows import LIST, NUMBER, Row, rows_of, unquoted
from .tables import of_table, table_of
from .values import Scalar, Views
from .written import Written

# An arrow, or a line, between two names; a line of two marks needs space around it, since names may have such.
ARROW = re.compile(r" ?(<-{1,3}>|<=>|-{1,3}>|={1,2}>) ?| (-{2,3}) ")
# A line that is a comment by another mark than `#`.
COMMENTS = re.compile(r"^[ \t]*(?://|%|;|--)(?:\s|$)", re.MULTILINE)
# Two names in brackets, with quotes or without.
# A host and those that it lists, behind an arrow, with commas between.
ARROW_LIST = re.compile(r"(\S+)\s+->\s+((?:[^\s,<>]+\s*,\s*)*[^\s,<>]+)")
PAIR = re.compile(r"\(\s*(['\"]?)([^'\",\s()]+)\1\s*,\s*(['\"]?)([^'\",\s()]+)\3\s*\)\s*[,;]?")

# The first line of KONECT's files.
KONECT = re.compile(r"\s*%\s*(sym|asym|bip)\b")


class Chain(NamedTuple):
    """The names on a line, and the arrow between each two."""

    names: List[str]
    arrows: List[str]


def of_lines(text: str, form: Optional[str] = None, columns: Optional[str] = None) -> Optional[Views]:
    """What hosts list by lines of text, or None if these are for `overlay import --edges`.

    >>> of_lines("source;target;cost\\noslo-1;oslo-2;5\\n").value
    {'oslo-1': ['oslo-2'], 'oslo-2': ['oslo-1']}
    >>> of_lines("a: b c\\nb: a\\nc:\\n").value
    {'a': ['b', 'c'], 'b': ['a'], 'c': []}
    >>> of_lines("('a', 'b')\\n('b', 'c')\\n").value
    {'a': ['b'], 'b': ['a', 'c'], 'c': ['b']}
    >>> of_lines("a b\\nb c\\n") is None
    True
    """
    rows = rows_of(text)
    views = of_rows(text, rows, form, columns) if rows else None
    # in LGL such lines are hosts, and two others have their own comments
    return views if views is None or views.kind in (LGL, METIS, MATRIX) else with_comments(views, text)


def of_rows(text: str, rows: List[Row], form: Optional[str], columns: Optional[str]) -> Optional[Views]:
    """The same of its rows, without the lines among them that are comments."""
    table = table_of(text, columns) if form in (None, "csv") else None
    if table:
        return of_table(*table)
    if form == "csv":
        raise BadDump("its first line is no known header: --columns FROM,TO names the columns of both ends")
    if form == "adjacency":
        return of_adjacency(rows)
    if form == "weighted":
        return of_weighted(rows)
    demand_links([words_of(row) for row in rows])
    konect = KONECT.match(text)
    if konect:
        return of_konect(rows, konect[1])
    return of_shape(text, rows)


def of_shape(text: str, rows: List[Row]) -> Optional[Views]:
    """What hosts list by lines whose shape alone says how they are meant."""
    if all(len(chain_of(row.text).names) > 1 for row in rows):
        return of_arrows(rows)
    lists = [ARROW_LIST.fullmatch(row.text) for row in rows]
    if all(lists):
        return of_adjacency([row._replace(text=f"{it[1]}: {it[2]}") for row, it in zip(rows, lists) if it])
    if all(PAIR.fullmatch(row.text) for row in rows):
        return of_pairs(rows)
    if all(";" in row.text for row in rows):
        return of_weighted(rows)
    graph = graph_of(text, rows)
    if graph:
        return graph.views()
    if all(LIST.fullmatch(row.text) for row in rows) or is_adjacency(rows) and not is_weighted(rows):
        return of_adjacency(rows)
    if is_weighted(rows) or COMMENTS.search(text) and all(len(row.words) == 2 for row in rows):
        return of_weighted(rows)
    return with_what_is_behind(rows)


def graph_of(text: str, rows: List[Row]) -> Optional[Graph]:
    """The graph that a text says in one of the forms that leave no doubt."""
    if is_metis(text, rows[0]):
        if all(len(row.words) == 2 for row in rows):
            raise BadDump("each line may be an edge or a list of neighbours: say --form edges or --form metis")
        return metis(text)
    matrix = matrix_of(text)
    if matrix:
        return matrix_graph(matrix)
    return lgl(text) or multiline(rows) or (graph6_of(text) if len(rows) == 1 else None)


def of_konect(rows: List[Row], kind: str) -> Views:
    """KONECT's lines of two hosts, whose first comment says whether they have a direction."""
    if kind == "bip":
        raise BadDump("its first line says that it is bipartite: its columns number hosts of two kinds")
    return of_weighted(rows, is_directed=kind == "asym")


def words_of(row: Row) -> List[str]:
    """The words of a row, of which `;` or a comma may stand between two, and quotes around each."""
    if ";" in row.text:
        return [it.strip().strip('"') for it in row.text.rstrip(";").split(";")]
    return has_quotes(row) and unquoted(row.text) or row.words


def has_quotes(row: Row) -> bool:
    return '"' in row.text or "'" in row.text


def is_weighted(rows: List[Row]) -> bool:
    """Whether each line is two names and a number that is no name, or names in quotes."""
    count, quoted = len(words_of(rows[0])), [row for row in rows if has_quotes(row)]
    if any(";" in row.text for row in rows) or count == 2 and not quoted:
        return False
    if count == 2:
        return all(len(row.words) == 2 for row in rows if not has_quotes(row)) and are_pairs_in_quotes(quoted)
    words = [words_of(row) for row in rows]
    if not all(len(it) == 3 and NUMBER.fullmatch(it[2]) for it in words):
        return False
    names = {name for it in words for name in it[:2]}
    if len({it[0] for it in words}) == 1 < len(words) and all(NUMBER.fullmatch(it[1]) for it in words):
        raise BadDump(
            f"each line begins with {words[0][0]}: if it is no host, --columns 2,3 takes the names behind it, and if "
            "it is one, say --form weighted"
        )
    if all(it[2] in names for it in words):
        raise BadDump(
            "each line may be an edge with its weight or a list of neighbours: say --form weighted or "
            "--form adjacency"
        )
    return True


def are_pairs_in_quotes(rows: List[Row]) -> bool:
    """Whether each line has two names, and quotes stand round some that are no part of it."""
    differs = False
    for row in rows:
        words = words_of(row)
        if len(words) != 2:
            return False
        differs = differs or words != row.words
    return differs


def of_weighted(rows: List[Row], is_directed: bool = False) -> Views:
    """Lines of two names, with or without a number behind them; each a link, or a listing of the first name."""
    views, has_weights = Views(), False
    written = Written(views)
    for row in rows:
        words = words_of(row)
        if len(words) < 2 or not all(words) or not all(map(NUMBER.fullmatch, words[2:])):
            raise BadDump(
                f"line {row.number} is not two names with a number behind them: {row.text[:200]}; --columns 1,2 takes "
                "two columns of a table without a header"
            )
        has_weights = has_weights or len(words) > 2
        said: Dict[str, Scalar] = {str(at): word for at, word in enumerate(words[2:], 3)}
        written.next_is(way_of(row))
        views.edge(words[0], words[1], is_directed, {**said, **said_behind(row)})
    written.tell()
    views.kind = "lines of two names" + ", each a listing" * is_directed
    views.kind += ", whose weights are passed over" * has_weights
    return views


def chain_of(text: str) -> Chain:
    """The names on a line between which arrows stand.

    >>> chain_of("a -> b->c;"), chain_of("x--1 -- b").names, chain_of("a b -> c").names
    (Chain(names=['a', 'b', 'c'], arrows=['->', '->']), ['x--1', 'b'], [])
    """
    parts = ARROW.split(" ".join(text.split()).rstrip("; "))
    names, arrows = parts[::3], [one or other for one, other in zip(parts[1::3], parts[2::3])]
    return Chain(names, arrows) if all(it and " " not in it for it in names) else Chain([], [])


def of_arrows(rows: List[Row]) -> Views:
    """Names with arrows between them; of a chain each arrow is by itself."""
    views = Views("lines of names with an arrow: a -> b says that a lists b")
    chains = [chain_of(row.text) for row in rows]
    written = Written(views)
    all_arrows = {arrow for chain in chains for arrow in chain.arrows}
    for row, chain in zip(rows, chains):
        for one, arrow, other in zip(chain.names, chain.arrows, chain.names[1:]):
            said = {**said_behind(row), **({"arrow": arrow} if len(all_arrows) > 1 else {})}
            written.next_is(way_of(row))
            views.edge(one, other, arrow.endswith(">") and not arrow.startswith("<"), said)
    written.tell()
    if all(it.startswith("<") or not it.endswith(">") for it in all_arrows):
        views.kind = "lines of two names, each a link"
    return views


def of_pairs(rows: List[Row]) -> Views:
    """Two names in brackets on each line."""
    views = Views("two names on a line, in brackets, each line a link")
    written = Written(views)
    for row in rows:
        said = PAIR.fullmatch(row.text)
        if said:
            written.next_is(way_of(row))
            views.link(said[2], said[4], said_behind(row))
    written.tell()
    return views


def way_of(row: Row) -> str:
    """How a line is written: with a sign at its end or not."""
    return f"a line that ends with {row.text[-1]}" if row.text[-1] in ";," else "a line"
