"""What is likely to be a fault of a dump, or to be meant otherwise, by its graph and its lines. Nothing of it changes
how the dump is read."""

from __future__ import annotations

import collections
import re
import string
import unicodedata
from typing import Callable, Counter, Dict, FrozenSet, List, NamedTuple, Sequence, Set, Tuple

from .graphs import NamedGraph, shown
from .values import HOST_FIELDS, LINK_ENDS, PEER_FIELDS

# So many names, or pairs of names, are told; of longer names not each character is looked at.
MOST_TOLD, MOST_LONG = 3, 1000
# Words of a line that counts what the others have.
COUNTING = frozenset("total sum count links edges nodes hosts rows lines records entries peers".split())
# Words of a header, or of a line that counts.
OF_HEADERS = COUNTING.union(HOST_FIELDS, PEER_FIELDS, *LINK_ENDS)
LETTERS, DIGITS = re.compile(r"[^\W\d_]+"), re.compile("[0-9]+")
PORT = re.compile(r"(.+):[0-9]{1,5}")
ADDRESS = re.compile(r"[0-9.]+")


class Line(NamedTuple):
    """A line of a dump: its number, and its words."""

    number: int
    words: List[str]


def lines_in(text: str) -> List[Line]:
    """The lines of a text that are no comments and not blank."""
    found = []
    for number, line in enumerate(text.split("\n"), 1):
        bare = line.strip()
        if bare and bare[0] != "#":
            words = bare.replace(",", " ").replace(";", " ").split()
            found.append(Line(number, [it.strip("\"'") for it in words] if '"' in bare or "'" in bare else words))
    return found


def notes_on(
    graph: NamedGraph[str], lines: Sequence[Line] = (), without_entry: int = 0, is_header_told: bool = False
) -> List[str]:
    """The notes on a dump that was read as this graph, and on its lines if it is a text of lines."""
    told = [*without_links(graph, without_entry), *alike(graph)]
    if len(lines) > 3:
        told += [*parted(graph, lines, is_header_told), *counting(graph, lines), *marked(graph, lines)]
    return told + (in_two_columns(graph, lines) if len(lines) > 2 else [])


def some(names: Sequence[str]) -> str:
    """The first names of several, and how many more there are."""
    first = ", ".join(map(shown, names[:MOST_TOLD]))
    return first if len(names) <= MOST_TOLD else f"{first} and {len(names) - MOST_TOLD} more"


def without_links(graph: NamedGraph[str], without_entry: int) -> List[str]:
    """Hosts without any link, beside others that are linked. Those that are listed without an entry are told before."""
    lone = [name for name, place in graph.ids.items() if not graph.peers[place]]
    if not graph.links or len(lone) <= without_entry:
        return []
    return [f"without any link, though others are linked: {len(lone)} of {len(graph.ids)} hosts: {some(lone)}"]


def bare(name: str) -> str:
    """A name without characters that nobody sees, and with such of one look alike.

    >>> bare("n1\\u200b") == "n1"
    True
    """
    if name.isascii() and name.isprintable() or len(name) > MOST_LONG:
        return name.strip()
    return "".join(it for it in unicodedata.normalize("NFKC", name) if unicodedata.category(it)[0] != "C").strip()


def without_port(name: str) -> str:
    found = PORT.fullmatch(name)
    return found[1] if found else name


# Signs that may mark a name at its ends; a dot there is told apart.
SIGNS = string.punctuation.replace(".", "")
# What names may differ in alone, though they may be of one host.
ALIKE: Sequence[Tuple[str, Callable[[str], str]]] = (
    ("capitals", str.casefold),
    ("a dot at their end", lambda name: name.rstrip(".") or name),
    ("characters that are not seen", bare),
    ("signs at their ends", lambda name: name.strip(SIGNS) or name),
    ("a port", without_port),
)


def alike(graph: NamedGraph[str]) -> List[str]:
    """Names that differ in so little that they may be of one host. Several ports at each address are several hosts."""
    told = []
    for what, way in ALIKE:
        groups = grouped(graph, way)
        several = [it for it in groups if len(it) > 1]
        if several and not (what == "a port" and len(several) == len(groups)):
            told.append(differing(what, several))
    labels = {name: name.partition(".")[0] for name in graph.ids if not ADDRESS.fullmatch(name)}
    domains = [[label, name] for name, label in labels.items() if label != name.rstrip(".") and label in graph.ids]
    return told + [differing("a domain", domains)] if domains else told


def grouped(graph: NamedGraph[str], way: Callable[[str], str]) -> List[List[str]]:
    """The names that are the same in this way, together."""
    found: Dict[str, List[str]] = {}
    for name in graph.ids:
        found.setdefault(way(name), []).append(name)
    return list(found.values())


def differing(what: str, groups: Sequence[Sequence[str]]) -> str:
    """What is told of names that differ in this alone."""
    pairs = some([" and ".join(it[:2]) for it in groups])
    return f"names that differ in {what} alone, and are hosts of their own here: {pairs}"


def shape_of(name: str) -> str:
    """A name with each number in it as one sign, and each word as another.

    >>> shape_of("ams-gw-07"), shape_of("fra-db-1") == shape_of("ams-gw-07")
    ('a-a-#', True)
    """
    return LETTERS.sub("a", DIGITS.sub("#", name))


def is_plain_link(names: Set[str], places: Sequence[Line], graph: NamedGraph[str]) -> bool:
    """Whether lines that two names stand in alone are surely no header and no footer: the names are as those of other
    hosts, none of them is a word of headers or counts, and the lines are not the same twice."""
    first = [tuple(it.words[:2]) for it in places]
    if len(first) > 1 and len(set(first)) == 1 or not OF_HEADERS.isdisjoint(map(str.casefold, names)):
        return False
    others = {shape_of(it) for it in graph.ids if it not in names}
    return all(shape_of(it) in others for it in names)


def parted(graph: NamedGraph[str], lines: Sequence[Line], is_header_told: bool) -> List[str]:
    """Two names that are linked to each other alone, beside at least three others: a header or a footer may say them.
    What the first line says so once may be told before; and a word that counts, in the last line alone."""
    told = []
    pairs = [it for it in graph.pieces() if len(it) == 2 and graph.peers[it[0]]] if len(graph.ids) >= 5 else []
    places: Dict[FrozenSet[str], List[Line]] = {}
    for line in lines if pairs else ():
        places.setdefault(frozenset(line.words[:2]), []).append(line)
    for pair in pairs:
        names = {graph.names[it] for it in pair}
        at = places.get(frozenset(names), [])
        is_told = at == [lines[0]] and is_header_told
        if at and not is_told and not is_plain_link(names, at, graph):
            both = " and ".join(sorted(names))
            told.append(f"{in_lines([it.number for it in at])}: {both} stand in no other line: a header or a footer?")
    last = [it.casefold() for it in lines[-1].words[:2]]
    words = set(last) & COUNTING & set(map(str.casefold, graph.ids)) if any(map(str.isdigit, last)) else set()
    once = [it for it in words if sum(it in map(str.casefold, line.words) for line in lines) == 1]
    if once and not told:
        told.append(f"line {lines[-1].number}: {once[0]} stands in no other line: is it a footer?")
    return told[:MOST_TOLD]


def in_lines(numbers: Sequence[int]) -> str:
    if len(numbers) == 1:
        return f"line {numbers[0]}"
    return f"lines {', '.join(map(str, numbers[:-1]))} and {numbers[-1]}"


def counting(graph: NamedGraph[str], lines: Sequence[Line]) -> List[str]:
    """A first line of two or three numbers that are just those of the hosts and of the lines below it."""
    first, below = lines[0], lines[1:]
    if len(first.words) not in (2, 3) or not all(it.isdigit() and len(it) < 10 for it in first.words):
        return []
    hosts = {name for it in below for name in it.words[:2]}
    if int(first.words[0]) != len(hosts) or int(first.words[-1]) != len(below) or first.words[0] not in graph.ids:
        return []
    return [
        f"line {first.number}: {' '.join(first.words)} may be how many hosts and links there are: --skip "
        f"{first.number} passes it over"
    ]


def marked(graph: NamedGraph[str], lines: Sequence[Line]) -> List[str]:
    """One word that begins each line of three or more, and is linked to all others here."""
    mark = lines[0].words[0] if lines[0].words else ""
    if mark not in graph.ids or any(len(it.words) < 3 or it.words[0] != mark for it in lines):
        return []
    if len(graph.peers[graph.ids[mark]]) < len(graph.ids) - 1:
        return []
    return [f"each line begins with {mark}, which is a host here: --columns 2,3 takes the words behind it"]


def in_two_columns(graph: NamedGraph[str], lines: Sequence[Line]) -> List[str]:
    """Lines of two columns or more without a name that stands in both."""
    if any(len(it.words) < 2 for it in lines):
        return []
    columns: List[Set[str]] = [{it.words[at] for it in lines} for at in range(2)]
    if columns[0] & columns[1] or not columns[0] | columns[1] <= set(graph.ids):
        return []
    most: Counter[str] = collections.Counter(it.words[1] for it in lines)
    return [
        f"no name stands in both columns, as {lines[0].words[0]} and {most.most_common(1)[0][0]}: are these links?"
    ]
