"""The bytes of a dump as a text: unpacked, in UTF-8, without the lines that are to be skipped."""

from __future__ import annotations

from typing import List, NamedTuple, Tuple

from .errors import BadDump
from .limits import GZIP, unpacked
from .values import Scalar

# So many characters of a text in the header of gzip are told.
MOST_SHOWN = 200

# How files begin that are no text.
PACKED = (
    (b"PK\x03\x04", "zip: `unzip` unpacks it"),
    (b"\xfd7zXZ", "xz: `xzcat` unpacks it"),
    (b"BZh", "bzip2: `bzcat` unpacks it"),
    (b"(\xb5/\xfd", "zstd: `zstdcat` unpacks it"),
    (b"%PDF", "PDF"),
    (b"\x89PNG", "PNG"),
    (b"\x7fELF", "a program"),
    (b"SQLite format 3", "a database of SQLite: print a table of it"),
)


class Text(NamedTuple):
    """The bytes of a dump in UTF-8, what is to be told of how they were read, and what stands beside them."""

    data: bytes
    told: List[str]
    beside: List[Tuple[str, Scalar]]


def text_of(data: bytes, skip: int = 0, name: str = "") -> Text:
    """The text of a dump: gzip is unpacked, UTF-16 that begins with its mark is turned into UTF-8, and the first lines
    that are to be skipped are empty, so that the others keep their numbers.

    >>> text_of(b"seen at noon\\na b\\n", skip=1).data
    b'\\na b\\n'
    """
    told, heads = [], []  # type: List[str], List[bytes]
    if data.startswith(GZIP):
        told.append("it was unpacked by gzip")
        data = unpacked(data, heads)
    for begin, what in PACKED:
        if data.startswith(begin):
            raise BadDump(f"it is no text, and looks like {what}")
    if data[:2] in (b"\xff\xfe", b"\xfe\xff"):
        try:
            data = data.decode("utf-16").encode()
        except UnicodeError:
            raise BadDump("it begins like UTF-16, and can't be read so") from None
        told.append("it was read as UTF-16")
    if b"\0" in data[:4]:
        raise BadDump(
            "it has zero bytes, as UTF-16 without a mark has: `iconv -f UTF-16LE -t UTF-8` turns it into UTF-8"
        )
    beside = [it for head in heads for it in said_by_gzip(head, name)]
    return Text(without_lines(data, skip), told, [*beside, *said_by_ends(data)])


def said_by_ends(data: bytes) -> List[Tuple[str, Scalar]]:
    """How many lines end in either way, if some end with CR LF and others with LF alone.

    >>> said_by_ends(b"a b\\nb c\\r\\na c\\n"), said_by_ends(b"a b\\r\\nb c\\r\\na c")
    ([('ends of lines', 'LF: 2, CR LF: 1')], [])
    """
    of_two, lines = data.count(b"\r\n"), data.count(b"\n")
    return [("ends of lines", f"LF: {lines - of_two}, CR LF: {of_two}")] if 0 < of_two < lines else []


def said_by_gzip(data: bytes, name: str) -> List[Tuple[str, Scalar]]:
    """What a header of gzip says beside: further fields, a comment, and the name of a file if it is not the dump's.

    >>> said_by_gzip(b"\\x1f\\x8b\\x08\\x10" + bytes(6) + b"n3 is away\\0", "net.gz")
    [('comment of gzip', 'n3 is away')]
    """
    flags, at, found = data[3] if len(data) > 3 else 0, 10, []  # type: int, int, List[Tuple[str, Scalar]]
    if flags & 4:
        at += 2 + int.from_bytes(data[10:12], "little")
        found.append(("further field of gzip", data[12:at].decode("latin-1")[:MOST_SHOWN]))
    for bit, what in ((8, "name in gzip"), (16, "comment of gzip")):
        if flags & bit:
            text, _, _ = data[at:].partition(b"\0")
            at += len(text) + 1
            said = text.decode("latin-1")
            is_own = bit == 8 and f"{said}.gz" == name.rpartition("/")[2]
            found += [(what, said[:MOST_SHOWN])] if said and not is_own else []
    return found


def without_lines(data: bytes, skip: int) -> bytes:
    """The same, with its first lines empty."""
    lines = data.split(b"\n", skip) if skip else []
    if skip and len(lines) <= skip:
        raise BadDump(f"it has fewer than {skip + 1} lines, so --skip {skip} leaves nothing")
    return b"\n" * skip + lines[-1] if skip else data


def decoded(data: bytes) -> str:
    """The text of bytes in UTF-8, without a mark at its begin."""
    try:
        return data.decode("utf-8-sig")
    except UnicodeDecodeError as why:
        line = data[: why.start].count(b"\n") + 1
        raise BadDump(f"line {line} is not UTF-8") from None
