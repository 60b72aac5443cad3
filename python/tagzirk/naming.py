"""Hosts that a person names: by their names, by what is short for one, or in a file."""

from __future__ import annotations

import difflib
import pathlib
from typing import Container, Dict, Iterable, List, Sequence, Tuple

from .errors import BadDump
from .graphs import NamedGraph, shown

# What ends a short name: the rest is a domain or a port.
ENDS = ".:"
MOST_TOLD = 5
# No short name has so many characters.
MOST_LONG = 200


def hosts_of(words: Iterable[str], names: Sequence[str], option: str) -> List[str]:
    """The hosts that the words of an option name: each with a comma between two, or `@FILE` of lines. A name may be
    short, up to a dot or a colon, if one host alone is so called.

    >>> hosts_of(["fra-1,hel-1"], ["fra-1.example.net", "hel-1.example.net"], "--without")
    ['fra-1.example.net', 'hel-1.example.net']
    """
    known = {**{shown(name): name for name in names}, **{name: name for name in names}}
    short = short_names(names)
    found: Dict[str, None] = {}
    for word in words:
        for part in [word] if word in known else parts_of(word, option):
            found[known[part] if part in known else full_name(part, short, names, option)] = None
    return list(found)


def without_hosts(
    graph: NamedGraph[str], words: Iterable[str], dead: Iterable[str] = ()
) -> Tuple[NamedGraph[str], List[str]]:
    """A graph without the hosts that the words of `--without` name, and these. Some host must be left. Who is `dead` is
    not in the graph, and may be named too."""
    gone = [it for it in dead if it not in graph.ids]
    left_out = hosts_of(words, [*graph.ids, *gone], "--without")
    places = {graph.ids[it] for it in left_out if it in graph.ids}
    if places and len(places) == len(graph.ids):
        raise BadDump(f"--without names all {len(places)} hosts of the dump, so that none is left")
    return graph.without(places), left_out


def parts_of(word: str, option: str) -> List[str]:
    """The names in a word of an option. In a file, lines that begin with # are passed over."""
    lines = [word]
    if word.startswith("@"):
        try:
            text = pathlib.Path(word[1:]).read_bytes().decode("utf-8-sig")
        except UnicodeDecodeError:
            raise BadDump(f"{word[1:]}: it is not UTF-8") from None
        lines = [line for line in text.splitlines() if not line.lstrip().startswith("#")]
    parts = [part.strip() for line in lines for part in line.split(",")]
    named = [part for part in parts if part]
    if not named and not word.startswith("@"):
        raise BadDump(f"{option} {word!r} names no host")
    return named


def short_names(names: Iterable[str]) -> Dict[str, List[str]]:
    """What each begin of a name that ends before a dot or a colon is short for.

    >>> short_names(["a.x.org", "a.y.org"])
    {'a': ['a.x.org', 'a.y.org'], 'a.x': ['a.x.org'], 'a.y': ['a.y.org']}
    """
    short: Dict[str, List[str]] = {}
    for name in names:
        for at, sign in enumerate(name[:MOST_LONG]):
            if sign in ENDS and at:
                short.setdefault(name[:at], []).append(name)
    return short


def known_by(said: str, names: Container[str], short: Dict[str, List[str]]) -> str:
    """The host that somebody may mean by a name that need not be one here: the name as it is said, if it is that of a
    host, or short for no single one.

    >>> names = ["a.x", "b.x", "b.y"]
    >>> [known_by(it, names, short_names(names)) for it in ("a", "a.x", "b", "c")]
    ['a.x', 'a.x', 'b', 'c']
    """
    meant = short.get(said, [])
    return meant[0] if said not in names and len(meant) == 1 else said


def full_name(part: str, short: Dict[str, List[str]], names: Sequence[str], option: str) -> str:
    """The host that a name is short for."""
    meant = short.get(part, [])
    if len(meant) == 1:
        return meant[0]
    if meant:
        first = ", ".join(map(shown, meant[:MOST_TOLD]))
        more = f" and {len(meant) - MOST_TOLD} more" if len(meant) > MOST_TOLD else ""
        raise BadDump(f"{option}: {shown(part)} is short for {len(meant)} hosts: {first}{more}; name one of them")
    near = nearest(part, [*names, *short])
    tip = f"; did you mean {' or '.join(map(shown, near))}?" if near else ""
    file = f"; a list in a file is @{part}" if pathlib.Path(part).is_file() else ""
    if len(part.split()) > 1 and {*names, *short}.issuperset(part.split()):
        tip = f"; names have commas between them: {option} {','.join(map(shown, part.split()))}"
    raise BadDump(f"{option}: {shown(part)} is no host of the dump{tip}{file}")


def nearest(part: str, names: Iterable[str]) -> List[str]:
    """The names that are most like what was typed, at most three.

    >>> nearest("fra-gosip-04", ["fra-gossip-04", "fra-gossip-05", "relay"])
    ['fra-gossip-04', 'fra-gossip-05']
    """
    lower: Dict[str, str] = {}
    for name in names:
        lower.setdefault(name.lower(), name)
    return [lower[it] for it in difflib.get_close_matches(part.lower(), list(lower), n=3, cutoff=0.75)]
