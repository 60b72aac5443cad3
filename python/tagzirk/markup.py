"""Pieces of HTML: names, tables, and files to save."""

from __future__ import annotations

import base64
import html
from typing import Any, Iterable, Optional, Sequence, Tuple

from .graphs import in_line, shown

# So many names stand in a line; the rest opens below.
MOST_NAMES = 24
# A longer name may be broken between two lines.
LONG = 28
# So many characters of a doubt are shown on a page, or in the line for Nagios.
MOST_DOUBT = 240


def counted(number: int, one: str, more: str = "") -> str:
    """A number with its word.

    >>> counted(1, "crash", "crashes"), counted(2, "crash", "crashes"), counted(0, "host")
    ('1 crash', '2 crashes', '0 hosts')
    """
    return f"{number} {one if number == 1 else more or one + 's'}"


def shown_html(name: Any) -> str:
    """A name, as HTML has it."""
    return html.escape(shown(name))


def joined_html(names: Iterable[Any]) -> str:
    """Names with a comma between two. No line begins with a comma, and no name that is short is broken."""
    told = list(map(shown, names))
    commas = [","] * (len(told) - 1) + [""]
    return " ".join(name_html(name + comma, len(name)) for name, comma in zip(told, commas))


def name_html(name: str, length: int) -> str:
    """One name, with what is written at it."""
    return f'<span class="t-name{" t-long" if length > LONG else ""}">{html.escape(name)}</span>'


def names_html(names: Iterable[Any], most: Optional[int] = None) -> str:
    """Names in a line; if they are many, the rest opens below, or if they are more than `most`, it is counted."""
    told, few = list(names), most or MOST_NAMES
    first = joined_html(told[:few])
    if len(told) <= few:
        return first
    if most:
        return f"{first} and {len(told) - few} more"
    return f"{first}<details><summary>and {len(told) - few} more</summary>{joined_html(told[few:])}</details>"


def doubts_html(doubts: Iterable[str]) -> str:
    """Why the number of a dump may be too high, in paragraphs; of a long note the begin."""
    texts = map(in_line, doubts)
    short = (text if len(text) <= MOST_DOUBT else f"{text[:MOST_DOUBT]}.." for text in texts)
    return "".join(f'<p class="t-doubt">k may be too high: {html.escape(it)}</p>' for it in short)


def table(head: Sequence[str], rows: Iterable[Sequence[str]], numbers: Tuple[int, ...] = ()) -> str:
    """A table of cells that are HTML; columns of numbers stand to the right."""

    def line(cells: Sequence[str], kind: str) -> str:
        classes = [' class="t-number"' if at in numbers else "" for at in range(len(cells))]
        return "<tr>" + "".join(f"<{kind}{it}>{cell}</{kind}>" for it, cell in zip(classes, cells)) + "</tr>"

    return f'<div class="t-scroll"><table>{line(head, "th")}{"".join(line(row, "td") for row in rows)}</table></div>'


def file_link(name: str, kind: str, text: str) -> str:
    """A link that saves a file which is in the page."""
    data = base64.b64encode(text.encode(errors="backslashreplace")).decode()
    return f'<a download="{name}" href="data:{kind};base64,{data}">{name}</a> ({len(text):,} bytes)'
