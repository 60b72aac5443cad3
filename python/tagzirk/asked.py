"""What a person asks for about a dump: how it is to be read, and what of it counts."""

from __future__ import annotations

from typing import NamedTuple, Optional, Tuple

from .errors import BadDump


class Asked(NamedTuple):
    """How a dump is to be read: its form, the field that names hosts, the columns or fields of both ends of a link, the
    key below which each host's peers stand, that below which all links stand; and which of them are up: `up` has texts
    `FIELD=VALUE[,VALUE]`, and with `all` what a dump says of states is passed over. So many first lines are skipped."""

    form: Optional[str] = None
    by: Optional[str] = None
    columns: Optional[str] = None
    peers: Optional[str] = None
    links: Optional[str] = None
    up: Tuple[str, ...] = ()
    all: bool = False
    skip: int = 0


# The options that not all forms take.
NOT_FOR_ALL = ("form", "by", "columns", "peers", "links", "up", "skip")


def demand_used(asked: Asked, what: str, *used: str) -> None:
    """Refuses an option that says nothing of what is read. What is read is told.

    >>> demand_used(Asked(by="id"), "it is a graph file", "up")
    Traceback (most recent call last):
    tagzirk.errors.BadDump: --by id is of no use here: it is a graph file
    """
    for option in NOT_FOR_ALL:
        value = getattr(asked, option)
        if value and option not in used:
            shown = value if isinstance(value, (str, int)) else " ".join(value)
            raise BadDump(f"--{option} {shown} is of no use here: {what}")
