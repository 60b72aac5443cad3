"""Which programs are asked, and whether they are proved, as far as this machine knows."""

from __future__ import annotations

import hashlib
import os
import pathlib
import re
import shutil
from typing import Dict, List, Mapping, NamedTuple, Optional

from .errors import ProgramMissing, TagzirkError
from .limits import USUAL_HOSTS
from .programs import CHECKOUT, Program, call, find

VERSION = "1.0"
# Where bin/install tells of the programs that it put into PREFIX/bin, as seen from that folder.
RECORD = pathlib.Path("..", "share", "tagzirk", "programs")
LINE = re.compile(r"([0-9a-f]{64}) (proved|unproved) (\S+)")
LARGE = "overlay_check_large"
NAMES = {
    "overlay": "overlay",
    "overlay_check": "overlay-check",
    LARGE: "overlay-check-large",
}


class Known(NamedTuple):
    """A program that is asked: its path, and whether it is proved; None if nothing says so."""

    place: str
    is_proved: Optional[bool]

    def __str__(self) -> str:
        words = {True: "proved", False: "NOT PROVED", None: "not known whether it is proved"}
        return f"{self.place}: {words[self.is_proved]}"


def checker_for(nodes: int) -> str:
    """The name of the checker of certificates of so many nodes."""
    return NAMES[LARGE if nodes > USUAL_HOSTS else "overlay_check"]


def asked_of(
    nodes: int, overlay: Optional[Program] = None, overlay_check: Optional[Program] = None
) -> Dict[str, Known]:
    """Both programs that are asked about a graph of so many nodes, by their names; a checker that is given is asked
    about any. One that is not there is left out."""
    checker = LARGE if nodes > USUAL_HOSTS else "overlay_check"
    return programs({"overlay": overlay, checker: overlay_check})


def programs(given: Mapping[str, Optional[Program]]) -> Dict[str, Known]:
    """The programs of these crates, by their names, or those that are given for them. One that is not there is left
    out."""
    found = {}
    for crate, program in given.items():
        try:
            place = find(crate, program)
        except ProgramMissing:
            continue
        found[NAMES[crate]] = Known(place, is_proved(pathlib.Path(place), crate))
    return found


def is_proved(place: pathlib.Path, crate: str) -> Optional[bool]:
    """Whether a program is proved: by where it lies in a checkout, or by what bin/install wrote when it put it there,
    as long as the program is still the same."""
    place = place.resolve()
    if place == CHECKOUT / "crates" / crate / "out" / crate:
        return True
    if "unproved" in place.parts:
        return False
    try:
        record = (place.parent / RECORD).read_text()
        checksum = hashlib.sha256(place.read_bytes()).hexdigest()
    except OSError:
        return None
    for said in LINE.finditer(record):
        if (said[1], said[3]) == (checksum, NAMES[crate]):
            return said[2] == "proved"
    return None


def versions() -> str:
    """The version of the package, and the programs that it asks, a line each."""
    found = programs(dict.fromkeys(NAMES))
    lines = [f"tagzirk {VERSION}"]
    for crate, name in NAMES.items():
        variable = f"TAGZIRK_{crate.upper()}"
        if name not in found:
            of = f", which more than {USUAL_HOSTS:,} nodes need," if crate == LARGE else ""
            lines.append(
                f"{name}{of} was not found: put it on PATH by bin/install, or set the variable {variable} to it"
            )
        elif not shutil.which(found[name].place):
            lines.append(f"{name} was not found: {variable} is {found[name].place}, which is no program")
        else:
            said = re.search(rf"^{name} (\d[^\s,]*)", what_it_says(found[name].place), re.MULTILINE)
            lines.append(f"{name}{f' {said[1]}' if said else ''}, {found[name]}")
    return "".join(f"{line}\n" for line in lines)


def what_it_says(place: str) -> str:
    """What a program says of its version, or nothing."""
    try:
        ended = call(place, ["--version"], b"")
    except TagzirkError:
        return ""
    return f"{ended.out}\n{ended.err}"


def strangers() -> List[str]:
    """What is said of a program that does not call itself as the one whose place it takes."""
    told = []
    for name, known in programs(dict.fromkeys(NAMES)).items():
        if not re.search(rf"\b{name}(?!-)\b", what_it_says(known.place)):
            variable = f"TAGZIRK_{name.replace('-', '_').upper()}"
            by = f", which {variable} names," if os.environ.get(variable) else ""
            told.append(f"{known.place}{by} does not say that it is {name}: `tagzirk --version` tells all programs")
    return told
