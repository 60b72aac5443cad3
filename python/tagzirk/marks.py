"""What the names of hosts say beside: marks by which some differ from all others, as of `~~oslo-1~~`, and words of a
state."""

from __future__ import annotations

import collections
import re
import string
import unicodedata
from typing import Callable, Counter, Iterable, List, Sequence, Set

from .fields import words_of
from .graphs import shown
from .states import STATE_WORDS

# So many names are told; of fewer names than this nothing is; and of longer names not each character is looked at.
MOST_TOLD, LEAST, MOST_LONG = 3, 3, 1000
NUMBERS = re.compile("[0-9]+")
LETTERS = str.maketrans({it: "A" if it.isupper() else "a" for it in string.ascii_letters})
# What goes on with a part of a name, or with nothing.
NO_SIGN = re.compile("[a-zA-Z0]?")
# What the notes call them.
MARKS, WORDS = "marks in names", "words of a state in names"


def said_by_names(names: Sequence[str]) -> List[str]:
    """What fewer than half of the names say beside.

    >>> said_by_names(["n1", "n2", "~~n3~~", "n4", "n5-down"])
    ['marks in names (~~n3~~)', 'words of a state in names (n5-down)']
    >>> said_by_names(["oslo-1", "oslo-2", "relay", "[::1]:7000"])
    []
    """
    if len(names) < LEAST:
        return []
    worded = [it for it in names if words_of(it) & STATE_WORDS]
    others = [it for it in marked(names) if it not in worded]
    return [told(what, some) for what, some in ((MARKS, others), (WORDS, worded)) if some and is_rare(some, names)]


def told(what: str, names: Sequence[str]) -> str:
    more = f" and {len(names) - MOST_TOLD} more" if len(names) > MOST_TOLD else ""
    return f"{what} ({', '.join(map(shown, names[:MOST_TOLD]))}{more})"


def is_rare(some: Sequence[str], names: Sequence[str]) -> bool:
    return 2 * len(some) < len(names)


def marked(names: Sequence[str]) -> List[str]:
    """The names that fit in with others once their marks are gone: signs at their ends that stand inside of no name and
    at the ends of few, signs that are drawn over others, signs of another width or script, and capitals. If all others
    have one shape, what stands beside such a name is a mark too."""
    signs = rare_signs(names)
    without: List[Callable[[str], str]] = [lambda name: bare(name, signs)]
    if is_rare([it for it in names if it != it.lower()], names):
        without.append(lambda name: bare(name, signs).lower())
    found: List[str] = []
    for way in without:
        ways = {it: way(it) for it in names if it not in found}
        shapes = {shape(it) for it in ways if ways[it] == it}
        found += [name for name, rest in ways.items() if rest not in ("", name) and shape(rest) in shapes]
    (usual, number), *_ = collections.Counter(map(shape, names)).most_common(1)
    odd = [it for it in names if it not in found and shape(it) != usual]
    if number + len(odd) + len(found) == len(names):
        found += [it for it in odd if stands_beside(usual, shape(it))]
    return found


def stands_beside(usual: str, other: str) -> bool:
    """Whether a shape is the usual one, and a sign with anything in front of it or behind it.

    >>> stands_beside("aaaa-0", "aaaa-0.a"), stands_beside("aaaa-0", "aaaa-0a")
    (True, False)
    """
    behind, before = other[len(usual) : len(usual) + 1], other[-len(usual) - 1 : -len(usual)]
    is_begin = other.startswith(usual) and not NO_SIGN.fullmatch(behind)
    return is_begin or other.endswith(usual) and not NO_SIGN.fullmatch(before)


def shape(name: str) -> str:
    """A name, as far as those of many hosts are alike: small and large letters, signs, and numbers.

    >>> shape("oslo-17"), shape("N3")
    ('aaaa-0', 'A0')
    """
    if name.isascii():
        return NUMBERS.sub("0", name.translate(LETTERS))
    letters = "".join("A" if it.isupper() else "a" if it.isalpha() else it for it in name)
    return NUMBERS.sub("0", letters)


def rare_signs(names: Iterable[str]) -> Set[str]:
    """Signs that stand at the ends of few names, and inside of none."""
    every = list(names)
    ends: Counter[str] = collections.Counter()
    inside: Set[str] = set()
    for name in every:
        inner = name.strip("".join({it for it in set(name) if not it.isalnum()}))
        inside.update(inner)
        first = name.partition(inner)[0] if inner else name
        ends.update(set(first + name[len(first) + len(inner) :]))
    return {it for it, number in ends.items() if it not in inside and 2 * number < len(every)}


def bare(name: str, signs: Set[str]) -> str:
    """A name without such signs at its ends, and without what is drawn over a letter or not seen."""
    seen = name
    if not (name.isascii() and name.isprintable()) and len(name) <= MOST_LONG:
        plain = unicodedata.normalize("NFKC", unicodedata.normalize("NFC", name))[:MOST_LONG]
        seen = "".join(latin(it) for it in plain if unicodedata.category(it)[0] not in "MC")
    return seen.strip("".join(signs)) if signs else seen


def latin(sign: str) -> str:
    """A letter or a digit of another script as one that is like those of others; any other sign as it is.

    >>> latin("\u043f"), latin("\u0663"), latin("\xf6")
    ('x', '3', '\xf6')
    """
    if sign.isascii() or not sign.isalnum() or "LATIN" in unicodedata.name(sign, ""):
        return sign
    return str(unicodedata.digit(sign, "x"))
