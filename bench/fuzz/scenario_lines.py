"""Reads scenario files and graph files line by line, by the rules of docs/FORMATS.md alone."""

import re

from nodes import REFILLS
from world import SCALES

MOST_SECTIONS = MOST_WORDS = MOST_WORKERS = 64
MOST_NODES = 1024
DIGITS = re.compile(rb"[0-9]+")
BROADCAST = re.compile(rb" *broadcast +([0-9]+)(?: (.*))?", re.DOTALL)
# The events that take numbers alone, and how many.
EVENTS = {b"deliver": 1, b"lose": 1, b"repeat": 1, b"crash": 1, b"report": 2, b"shuffle": 1, b"timer": 3,
          b"snapshot": 0}
IS_EVENT = {"boot", "broadcast", *(word.decode() for word in EVENTS)}
ALONE = {b"packets", b"together", b"also", b"end"}
DEFAULT_PARAMS = (5, 30, 6, 3, 3, 4, 4)


class Refused(Exception):
    """A file is refused: the first line on standard error."""


class Unreadable(Exception):
    """A line can't be read."""


def split_lines(data):
    """The lines of a file, without their ends."""
    *ended, last = data.split(b"\n")
    lines = [line[:-1] if line.endswith(b"\r") else line for line in ended]
    return lines + [last] if last else lines


def is_skipped(line):
    """Whether a line is skipped."""
    rest = line.lstrip(b" ")
    return not rest or rest.startswith(b"#")


def number(word, bits=32):
    """The number that a word is."""
    # a long word would take long to read
    digits = word.lstrip(b"0") or b"0"
    if not DIGITS.fullmatch(word) or len(digits) > 20 or int(digits) >= 2**bits:
        raise Unreadable
    return int(digits)


def numbers(words, least, most, bits=32):
    """The numbers that these words are, if there are at least and at most so many."""
    if not least <= len(words) <= most:
        raise Unreadable
    return tuple(number(word, bits) for word in words)


def ids(word):
    """One id or more, with one comma between two."""
    return tuple(number(part) for part in word.split(b","))


def analysis(words):
    """`M`, and behind it `workers W`, `group IDS` or both in this order: the moment, the workers, the group."""
    if not words:
        raise Unreadable
    moment, rest, workers, group = number(words[0]), words[1:], None, None
    if len(rest) > 1 and rest[0] == b"workers":
        workers, rest = number(rest[1]), rest[2:]
        if not 1 <= workers <= MOST_WORKERS:
            raise Unreadable
    if len(rest) > 1 and rest[0] == b"group":
        group, rest = ids(rest[1]), rest[2:]
    if rest:
        raise Unreadable
    return moment, workers, group


def boot(words):
    """`N` or `N by C`: the node, and its contact if there is one."""
    if len(words) == 3 and words[1] == b"by":
        return number(words[0]), number(words[2])
    return *numbers(words, 1, 1), None


def broadcast(line):
    """The node and the payload, which is all behind the one space that follows the node."""
    match = BROADCAST.fullmatch(line)
    if not match:
        raise Unreadable
    return number(match[1]), match[2] or b""


def refill(words):
    """The rule at DISCONNECT, which is one word."""
    rule = words[0].decode("latin-1") if len(words) == 1 else None
    if rule not in REFILLS:
        raise Unreadable
    return rule


def scale(words):
    """The scale, which is one word."""
    word = words[0].decode("latin-1") if len(words) == 1 else None
    if word not in SCALES:
        raise Unreadable
    return word


def statement(line):
    """What a line says that is not skipped: its kind, and what follows."""
    word, *rest = [part for part in line.split(b" ") if part]
    kind = word.decode("latin-1")
    if word == b"broadcast":
        return kind, *broadcast(line)
    if word == b"boot":
        return kind, *boot(rest)
    if word in EVENTS:
        return kind, *numbers(rest, EVENTS[word], EVENTS[word])
    if word == b"params":
        return kind, *numbers(rest, 7, 7)
    if word == b"seed":
        return kind, *numbers(rest, 1, 1, 64)
    if word == b"refill":
        return kind, refill(rest)
    if word == b"scale":
        return kind, scale(rest)
    if word == b"words":
        return kind, *numbers(rest, 1, MOST_WORDS, 64)
    if word == b"show":
        return kind, *numbers(rest, 1, 1)
    if word == b"analyse":
        return kind, *analysis(rest)
    if word == b"certificate":
        moment, workers, group = analysis(rest)
        if workers is not None:
            raise Unreadable
        return kind, moment, group
    if word in ALONE and not rest:
        return kind,
    raise Unreadable


def read_statement(line):
    """What a line says, or None if it can't be read."""
    try:
        return statement(line)
    except Unreadable:
        return None


def are_in_limits(active, passive, walk, passive_walk, of_active, of_passive, shuffle):
    """Whether the seven parameters are within the limits of docs/PROTOCOL.md."""
    return (1 <= active <= 16 and 1 <= passive <= 64 and walk <= 15 and passive_walk <= walk
            and of_active <= 8 and of_passive <= 8 and 1 <= shuffle <= 15)


class ScenarioReader:
    """Judges the lines of a scenario in their order, and keeps what they say.

    `lines` has, for each line that runs, what it says, the random words that the file gives it or None, and its place
    in the file. A block of sections stands there as `("sections", [lines of a section, ..])`.
    """

    def __init__(self, data):
        every = [(at, line) for at, line in enumerate(split_lines(data), 1) if not is_skipped(line)]
        self.places = [at for at, _ in every]
        self.said = [read_statement(line) for _, line in every]
        self.last_end = max((at for at, said in enumerate(self.said) if said == ("end",)), default=-1)
        self.lines, self.params, self.seed, self.refill, self.scale, self.sections = [], None, None, None, None, None
        self.has_event, self.words = False, None
        for at, said in enumerate(self.said):
            self.take(at, said)

    def demand(self, true, at, fault=70):
        """Refuses the file at a line."""
        if not true:
            raise Refused(f"line {self.places[at]}: refused {fault}")

    def is_event(self, at):
        """Whether there is such a line, and it says an event."""
        said = self.said[at] if at < len(self.said) else None
        return said is not None and said[0] in IS_EVENT

    def take(self, at, said):
        """Judges a line, and keeps what it says."""
        self.demand(said is not None, at)
        kind = said[0]
        if kind in ("together", "also", "end"):
            self.take_mark(at, kind)
        elif kind == "words":
            self.demand(self.is_event(at + 1), at)
            self.words = said[1:]
        elif kind in IS_EVENT:
            self.has_event = True
            self.put(at, said)
        elif self.sections is not None:
            self.demand(kind == "analyse" and said[2:] == (None, None), at)
            self.put(at, said)
        elif kind in ("params", "seed", "refill", "scale"):
            self.take_setting(at, kind, said[1:])
        else:
            self.put(at, said)

    def put(self, at, said):
        """Keeps what a line says, in its section if it is in one."""
        lines = self.lines if self.sections is None else self.sections[-1]
        lines.append((said, self.words, self.places[at]))
        self.words = None

    def take_mark(self, at, kind):
        """One of the lines that begin and end sections."""
        if kind == "together":
            self.demand(self.sections is None and at < self.last_end, at)
            self.sections = [[]]
        elif kind == "also":
            self.demand(self.sections is not None and len(self.sections) < MOST_SECTIONS, at)
            self.sections.append([])
        else:
            self.demand(self.sections is not None, at)
            self.lines.append((("sections", self.sections), None, self.places[at]))
            self.sections = None

    def take_setting(self, at, kind, given):
        """`params`, `seed`, `refill` and `scale`."""
        self.demand(getattr(self, kind) is None and not self.has_event, at)
        self.demand(kind != "params" or are_in_limits(*given), at, 21)
        setattr(self, kind, given)


def read_graph(data):
    """The nodes and the links of a graph file."""
    nodes, links = [], []
    for at, line in enumerate(split_lines(data), 1):
        if is_skipped(line):
            continue
        word, *rest = [part for part in line.split(b" ") if part]
        size = {b"node": 1, b"link": 2}.get(word, -1)
        try:
            said = numbers(rest, size, size)
        except Unreadable:
            raise Refused(f"line {at}: refused 70") from None
        if word == b"node":
            nodes.append(said[0])
        else:
            links.append(said)
    judge_graph(nodes, links)
    return nodes, links


def judge_graph(nodes, links):
    """Whether these are the nodes and links of a graph: 31, 32 and 33 of docs/FAULTS.md, in their order."""
    if len(nodes) > MOST_NODES:
        raise Refused("refused 31")
    if any(b <= a for a, b in zip(nodes, nodes[1:])):
        raise Refused("refused 32")
    known, before = set(nodes), (-1, -1)
    for a, b in links:
        if a >= b or a not in known or b not in known:
            raise Refused("refused 33")
        if (a, b) <= before:
            raise Refused("refused 32")
        before = a, b
