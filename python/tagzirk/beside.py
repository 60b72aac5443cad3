"""What stands behind two names on a line: attributes in brackets, as networkx writes them, and a comment."""

from __future__ import annotations

import ast
from typing import Dict, List, Optional

from .fields import fields_of
from .rows import MARKED, Row, comments_in, rows_of
from .states import Kind, kind_of
from .values import UNSAID, Said, Scalar, Views, said_of
from .written import Written

# Brackets with more than this are not read.
MOST_LONG = 4096


def attributes_in(text: str) -> Dict[str, Scalar]:
    """The attributes in brackets that stand behind names.

    >>> attributes_in("{'state': 'down', 'weight': 3}"), attributes_in("{down}"), attributes_in("{}")
    ({'state': 'down', 'weight': 3}, {'attributes': '{down}'}, {'attributes': '{}'})
    """
    if not text or text == "{}":
        return {"attributes": text} if text else {}
    try:
        value = ast.literal_eval(text) if len(text) <= MOST_LONG else None
    except (ValueError, TypeError, SyntaxError, MemoryError, RecursionError):
        value = None
    return said_of(value) if isinstance(value, dict) and value else {"attributes": text[:MOST_LONG]}


def said_behind(row: Row) -> Said:
    """What stands behind the names on a line: attributes, and a comment."""
    if not row.attributes and not row.comment:
        return UNSAID
    return {**attributes_in(row.attributes), **({"comment": row.comment} if row.comment else {})}


def with_comments(views: Views, text: str) -> Views:
    """What is said by lines of a text, with the lines among them that are comments."""
    for it in comments_in(text):
        views.pass_over("comments", it)
    return views


def may_say_more(text: str) -> bool:
    """Whether lines of two names may have comments, or something behind the names; or are not written alike.

    >>> may_say_more("a b\\nb c\\n"), may_say_more("a b\\n; of today\\n"), may_say_more("a b\\nb c\\nb a\\n")
    (False, True, True)
    """
    return "#" in text or "}" in text or MARKED.search(text) is not None or not are_alike(text)


def are_alike(text: str) -> bool:
    """Whether lines of two names have the same sign between them, and each two names stand on one line."""
    lines = [it for it in map(str.strip, text.split("\n")) if it]
    if any(sign in text and not all(sign in it for it in lines) for sign in ",\t"):
        return False
    pairs = set()
    for it in lines:
        pair = tuple(sorted(it.replace(",", " ").split()))
        if pair in pairs:
            return False
        pairs.add(pair)
    return True


def plain_lines(text: str) -> Views:
    """What lines of two names say, and what stands behind and between them; other lines are left out."""
    views = Views("lines of two names, each a link")
    written = Written(views)
    for row in rows_of(text):
        words = row.words
        if len(words) == 2 and all(words):
            written.next_is(between(row))
            views.link(words[0], words[1], said_behind(row))
    written.tell()
    return with_comments(views, text)


def between(row: Row) -> str:
    """What stands between the names on a line."""
    return "names with a comma" if "," in row.text else "names with a tab" if "\t" in row.text else "names with a blank"


def with_what_is_behind(rows: List[Row]) -> Optional[Views]:
    """The links that lines of two names say, with what stands behind them; None if no state may stand there, or if
    lines are others."""
    said = [said_behind(row) for row in rows]
    if not any(said) or not all(len(row.words) == 2 and all(row.words) for row in rows):
        return None
    views = Views("lines of two names, each a link")
    for row, beside in zip(rows, said):
        views.link(row.words[0], row.words[1], beside)
    return views if any(kind_of(it) is not Kind.NONE for it in fields_of(views)) else None
