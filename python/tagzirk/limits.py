"""How much a dump may ask for. A graph has at most 32,768 hosts; what asks for far more is refused before it takes much
time or memory, and not read half."""

from __future__ import annotations

import zlib
from typing import List, Optional

from .errors import BadDump

# How many hosts a graph may have, and up to how many the programs take it without a word.
MOST_HOSTS, USUAL_HOSTS = 32_768, 1024
# How many hosts, or values that stand for many, are taken in; and how many links or rows.
MOST, MOST_LINKS = 600_000, 2_000_000
# How many links, hosts or values a short text may stand for: by subgraphs as ends in DOT, by aliases in YAML, by a
# count of hosts.
MOST_IMPLIED = 100_000
# How often a node may be put into a subgraph of DOT, or something be said of all nodes of one.
MOST_MEMBERS = 1_000_000
# How many bytes a packed dump may have when it is unpacked: so many, or so many times as many as are packed, but never
# more. A dump that says much of each link is packed to a fiftieth, and a bomb to a thousandth.
ANY_UNPACKED, MOST_TIMES, MOST_UNPACKED = 1_000_000, 100, 32_000_000
# So many bytes are unpacked at once, at most to so many.
PIECE, BLOCK = 1 << 14, 1 << 20
# How many bytes of the begin of a packed file are looked at.
MOST_HEAD = 70_000
# How many bytes of YAML are read where libyaml is not there, in Python alone.
MOST_SLOW_YAML = 300_000
# How long the name of a field, or of what values stand in, may be: it stands before the name of each of them.
MOST_NAME = 200
# How deep values may be nested.
DEEPEST = 100

GZIP = b"\x1f\x8b"


def need_few(count: int, kind: str, most: int = MOST) -> None:
    """Refuses far more hosts or links than a graph has that can be analysed."""
    if count >= most:
        raise BadDump(f"it has more than {most:,} {kind}; a graph has at most {MOST_HOSTS:,} hosts")


def need_few_implied(count: int, what: str) -> None:
    """Refuses what a short text stands for, if that is too much."""
    if count > MOST_IMPLIED:
        raise BadDump(f"its {what}, more than {MOST_IMPLIED:,}: write them out")


def need_short(name: str) -> str:
    """The name of a field, or of what values stand in. Refused is a very long one."""
    if len(name) > MOST_NAME:
        raise BadDump(f"values stand below a name of {len(name):,} characters, which begins {name[:40]}")
    return name


def need_few_members(count: int) -> None:
    """Refuses subgraphs in one another, or said again and again, that stand for very many nodes."""
    if count > MOST_MEMBERS:
        raise BadDump(f"its subgraphs name or have nodes more than {MOST_MEMBERS:,} times: write them out once")


def need_declarable(count: int) -> None:
    """Refuses a number of hosts that a file declares in a few bytes, if it is far too large."""
    if not 0 <= count <= MOST_IMPLIED:
        raise BadDump(f"it declares {count:,} hosts; a graph has at most {MOST_HOSTS:,}")


def unpacked(data: bytes, heads: Optional[List[bytes]] = None) -> bytes:
    """What gzip has packed, of one file or of several, one behind the other. How each of them begins is put into a list
    of heads.

    >>> import gzip
    >>> unpacked(gzip.compress(b"a b") + gzip.compress(b" c"))
    b'a b c'
    """
    found, most, at = bytearray(), min(max(ANY_UNPACKED, MOST_TIMES * len(data)), MOST_UNPACKED), 0
    bomb = f"its {len(data):,} bytes are packed by gzip, and unpack to more than {most:,}, so it may be a bomb"
    try:
        while at < len(data):
            packer, begin = zlib.decompressobj(16 + zlib.MAX_WBITS), at
            while at < len(data) and not packer.eof:
                piece = data[at : at + PIECE]
                found += packer.decompress(piece, BLOCK)
                at += len(piece) - len(packer.unused_data) - len(packer.unconsumed_tail)
                if len(found) > most:
                    raise BadDump(f"{bomb}: `zcat FILE | tagzirk COMMAND` reads it all the same")
            if not packer.eof:
                raise BadDump("it is packed by gzip, and torn")
            if heads is not None:
                heads.append(data[begin : min(at, begin + MOST_HEAD)])
            # zeros may fill a block up
            while data[at : at + 1] == b"\0":
                at += 1
    except zlib.error as why:
        raise BadDump(f"it begins like gzip, and can't be unpacked: {why}") from None
    return bytes(found)
