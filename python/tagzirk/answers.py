"""What the lines `report ..` and `holds ..` say."""

from __future__ import annotations

import re
from dataclasses import dataclass
from typing import Optional, Tuple

Ids = Tuple[int, ...]

ANSWER = re.compile(
    r"(?P<moment>\d+) (?P<verdict>linked|split) k (?P<k>\d+)"
    r"(?: cut (?P<cut>[\d,]+|-) near (?P<near>\d+) far (?P<far>\d+) side (?P<side>[\d,]+|-))?"
    r"(?: group (?P<group>[\d,]+))?"
)


@dataclass(frozen=True)
class Answer:
    """How many crashes split a graph, or a group of its nodes, by ids.

    `moment` is the moment of a simulated world, or 0. If `is_linked`, every two members are linked, `k` is one less
    than their number, `near` and `far` are None, and `cut` and `side` are empty. Else crashing the `k` nodes of `cut`
    separates `near` from `far`, `side` has the nodes that `near` still reaches, and crashing fewer than `k` nodes
    separates no two surviving members. `group` is None if all nodes are members.
    """

    moment: int
    k: int
    is_linked: bool
    cut: Ids
    near: Optional[int]
    far: Optional[int]
    side: Ids
    group: Optional[Ids]


def ids_of(text: Optional[str]) -> Ids:
    """The ids of a list as the programs print it."""
    return () if text is None or text == "-" else tuple(map(int, text.split(",")))


def read_answer(line: str, word: str) -> Optional[Answer]:
    """What a line says that begins with this word, `report` or `holds`. None if it is no such line.

    >>> read_answer("report 6 linked k 1", "report").k
    1
    >>> read_answer("report 0 split k 2 cut 4,5 near 6 far 1 side 6,7,8", "report").cut
    (4, 5)
    """
    first, _, rest = line.partition(" ")
    said = ANSWER.fullmatch(rest) if first == word else None
    if not said or (said["verdict"] == "split") != (said["near"] is not None):
        return None
    near, far = (None if said[key] is None else int(said[key]) for key in ("near", "far"))
    group = ids_of(said["group"]) if said["group"] else None
    return Answer(int(said["moment"]), int(said["k"]), said["verdict"] == "linked", ids_of(said["cut"]), near, far,
                  ids_of(said["side"]), group)
