"""How each host, listing and link of a dump is written: by which keys, as which kind of value, and how often it stands
there. Where all are alike it says nothing; else it is a field of theirs, since somebody wrote them so."""

from __future__ import annotations

import array
import collections
from typing import Any, Counter, Dict, List, Optional, Sequence, Set, Tuple

from .values import NAME_KEYS, Said, Statement, Views, key_in, naming_keys, naming_part

# What these fields are called.
WRITTEN, REPEATED = "written as", "stands there"
# How a name is written that has digits alone: of one dump all are so or so, or it is told.
PLAIN, QUOTED = "a number", "a number in quotes"
# Both ends of a link or a listing, and whether it is a link.
Key = Tuple[str, str, bool]
NAME, KEY, LIST = "a name", "a key", "a list"
# How often a link stands there, by how often either way; a listing stands there one way.
OFTEN = {(1, 0): "once", (0, 1): "once", (1, 1): "from both ends", (2, 0): "twice", (0, 2): "twice"}


def way_of(name: Any, by: Optional[str] = None) -> str:
    """How the name of a host is written: as a text, a number, or an object with it below some key.

    >>> way_of("oslo"), way_of(7), way_of({"id": "7"}), way_of({"id": {"name": "oslo"}})
    ('a name', 'a number', 'id, a number in quotes', 'name in id')
    """
    if isinstance(name, dict):
        inner = naming_part(name, by)
        key = (by and key_in(inner, naming_keys(by))) or key_in(inner, NAME_KEYS) or ""
        held = inner.get(key)
        way = f"{way_of(held, by)} in {key}" if isinstance(held, dict) else key
        digits = "" if isinstance(held, dict) or way_of(held) == NAME else f", {way_of(held)}"
        return way + " in data" * (inner is not name) + digits
    if isinstance(name, int):
        return PLAIN
    return QUOTED if isinstance(name, str) and name.isdigit() else NAME


def way_of_ends(keys: Sequence[str], ends: Sequence[Any], is_below: bool) -> str:
    """How a link is written: by which keys, and how its ends are.

    >>> way_of_ends(("from", "to"), ("oslo", {"id": "rome"}), False)
    'from and to, a name and id'
    """
    ways = [way_of(it) for it in ends]
    said = " and ".join(keys) + " in data" * is_below
    return said if set(ways) == {NAME} else f"{said}, {' and '.join(dict.fromkeys(ways))}"


class Written:
    """How some statements of a dump are written, by their places."""

    def __init__(self, views: Views) -> None:
        self.views = views
        self.places = array.array("q")
        self.ways: List[str] = []

    def next_is(self, way: str) -> None:
        """What is said next is written in this way; without one, as most others."""
        self.places.append(len(self.views.statements))
        self.ways.append(way)

    def tell(self) -> None:
        """Makes it a field of hosts, or of listings and links, if these are written in several ways."""
        kinds: Dict[bool, Counter[str]] = {True: collections.Counter(), False: collections.Counter()}
        for place, way in zip(self.places, self.ways):
            kinds[self.views.statements[place].other is None][way] += 1
        known = {kind: told_of(ways) for kind, ways in kinds.items()}
        if not any(known.values()):
            return
        for place, way in zip(self.places, self.ways):
            ways = known[self.views.statements[place].other is None]
            if ways:
                self.views.say(place, {WRITTEN: ways[way]})


def told_of(ways: Counter[str]) -> Dict[str, str]:
    """How each of these ways is told; nothing, if all are alike."""
    known = short([it for it in ways if it])
    usual = next((it for it, _ in ways.most_common() if it), "")
    return {it: known[it or usual] for it in ways} if len(set(known.values())) > 1 else {}


def short(ways: Sequence[str]) -> Dict[str, str]:
    """Ways as they are told. Whether a name has digits alone says nothing, unless some such are in quotes, and others
    are not.

    >>> short(["a name", "a number"]), short(["a number", "a number in quotes"])["a number"]
    ({'a name': 'a name', 'a number': 'a name'}, 'a number')
    """
    parts = {part for way in ways for part in way.replace(" and ", ", ").split(", ")}
    if {PLAIN, QUOTED} <= parts:
        return without_common({it: it for it in ways})
    told = {}
    for way in ways:
        text = way.replace(QUOTED, NAME).replace(PLAIN, NAME).replace(f"{NAME} and {NAME}", NAME)
        told[way] = text.removesuffix(f", {NAME}")
    return without_common(told)


def without_common(told: Dict[str, str]) -> Dict[str, str]:
    """Ways without those parts that all have.

    >>> without_common({"peers, by id": "peers, by id", "links, by id": "links, by id"})
    {'peers, by id': 'peers', 'links, by id': 'links'}
    """
    parts = {way: text.split(", ") for way, text in told.items()}
    every: List[Set[str]] = [set(them) for them in parts.values()]
    common = set.intersection(*every) if len(every) > 1 else set()
    left = {way: [it for it in them if it not in common] for way, them in parts.items()}
    if not all(left.values()):
        left = {way: [parts[way][0], *(it for it in them if it != parts[way][0])] for way, them in left.items()}
    return {way: ", ".join(them) for way, them in left.items()}


def tell_how_often(views: Views) -> None:
    """Makes a field of which links and which listings stand there more often than others; and of which are links, and
    which are listings, if both are there."""
    if views.is_counted:
        return
    views.is_counted = True
    count: Counter[Key] = collections.Counter(key_of(it) for it in views.statements if it.other is not None)
    often, kinds = how_often(count), {is_link for _, _, is_link in count}
    shared: Dict[str, Said] = {}
    for at, it in enumerate(views.statements if often or len(kinds) > 1 else ()):
        if it.other is None:
            continue
        said, kind = it.said, "a link" if it.is_link else "a listing"
        if len(kinds) > 1 and kind not in str(said.get(WRITTEN, "")):
            said = {**said, WRITTEN: f"{said[WRITTEN]}, {kind}" if WRITTEN in said else kind}
        if it.is_link in often:
            text = often[it.is_link][key_of(it)]
            said = {**said, REPEATED: text} if said else shared.setdefault(text, {REPEATED: text})
        views.statements[at] = Statement(it.one, it.other, it.is_link, said)


def key_of(statement: Statement) -> Key:
    """Both ends of a link or a listing, and which of both it is."""
    return statement.one, str(statement.other), statement.is_link


def how_often(count: Counter[Key]) -> Dict[bool, Dict[Key, str]]:
    """How often each link, and each listing, stands there, by whether it is a link; neither, if all stand there equally
    often. Of links it is asked from which end."""
    found: Dict[bool, Dict[Key, str]] = {}
    if all(it == 1 for it in count.values()) and not any((b, a, True) in count for a, b, is_link in count if is_link):
        return found
    for is_link in True, False:
        texts: Dict[Key, str] = {}
        for key in (it for it in count if it[2] == is_link):
            a, b, _ = key
            other = count[b, a, True] if is_link and a != b else 0
            texts[key] = OFTEN.get((count[key], other), f"{count[key] + other} times")
        if len({text for (a, b, _), text in texts.items() if a != b or not is_link}) > 1:
            found[is_link] = texts
    return found
