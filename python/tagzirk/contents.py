"""What a file is that is no dump, by how it begins."""

from __future__ import annotations

import re
from typing import Optional, Tuple

# So many bytes of a file are looked at.
FIRST = 4096
# How a file begins, behind blanks, that is surely no dump: what it is, and what is done with it.
NO_DUMPS: Tuple[Tuple[bytes, str], ...] = (
    (rb"<(?:!doctype )?html", "a page of HTML; that of `tagzirk report` has the graph as a file to save"),
    (rb"<(?:\?xml|!--|!doctype svg|svg)[^\x00]*?<svg|<svg", "a picture"),
    (rb"\x89png|\xff\xd8\xff|gif8", "a picture"),
    (rb"%pdf", "a document in PDF"),
    (rb"\x7felf", "a program"),
    (rb"#!", "a script"),
    (rb"pk\x03\x04", "a zip archive: unpack it first"),
    (rb"\xfd7zxz", "packed by xz: `xzcat FILE | tagzirk COMMAND` reads it"),
    (rb"bzh", "packed by bzip2: `bzcat FILE | tagzirk COMMAND` reads it"),
    (rb"\x28\xb5\x2f\xfd", "packed by zstd: `zstdcat FILE | tagzirk COMMAND` reads it"),
    (rb"sqlite format 3", "a database of SQLite: a query to it can print rows of two names"),
    (rb"# (?:help|type) ", "a file of metrics for Prometheus, which `tagzirk metrics` makes of a dump"),
    (rb"\[unit\]", "a unit of systemd"),
    (rb"report \d+ (?:split|linked|alone)", "an answer of `overlay analyse`, whose last line may be a certificate"),
    (rb"(?:holds|fails) \d+ (?:split|linked|alone)", "an answer of `overlay-check`"),
    (rb"time,nodes,links,k,cut,", "a table of `tagzirk history`"),
    (rb"(?:host|rack),hosts,k,all_linked,", "a table of `tagzirk each --csv`"),
    (rb"add\t[^\t\n]+\t[^\t\n]+\n", "links to add; `tagzirk mend --graph GRAPHFILE` writes the graph with them"),
)
# How a file begins that could not be read, and may be something else.
PERHAPS: Tuple[Tuple[bytes, str], ...] = (
    (rb"groups:[ \t\r]*\n[ \t]*- name:", "rules for Prometheus"),
)


def of_contents(data: bytes, is_surely: bool = True) -> Optional[str]:
    """What a file is that is surely no dump, or with `is_surely` false perhaps none, by how it begins; None if nothing
    is known of it.

    >>> of_contents(b"<!DOCTYPE html>")[:14], of_contents(b"oslo rome")
    ('a page of HTML', None)
    """
    begin = without_mark(data)
    for pattern, what in NO_DUMPS if is_surely else (*NO_DUMPS, *PERHAPS):
        if re.match(pattern, begin, re.IGNORECASE):
            return what
    if is_surely:
        return None
    strange = sum(it < 9 or 13 < it < 32 or it == 127 for it in begin)
    return "no text" if strange * 20 > len(begin) and not is_utf_16(begin) else None


def is_utf_16(data: bytes) -> bool:
    """Whether bytes are likely to be text in UTF-16: many zeros stand at every other place."""
    zeros = data[::2].count(0), data[1::2].count(0)
    return min(zeros) * 8 < max(zeros) > len(data) // 8


def without_mark(data: bytes) -> bytes:
    """How a file begins, without a mark of byte order and blanks."""
    return data[:FIRST].removeprefix(b"\xef\xbb\xbf").lstrip()


def is_dump(data: bytes) -> bool:
    """Whether a file that is to be lines `HOST RACK` is a dump: JSON, a graph file, DOT or XML."""
    lines = (line.strip() for line in without_mark(data).split(b"\n"))
    first = next((line for line in lines if line and not line.startswith(b"#")), b"")
    return re.match(rb"[\[{<]|(?:node|link) \d|(?:strict |di)*graph\b", first) is not None
