"""Scenarios of a simulated world: `run`, and what it prints."""

from __future__ import annotations

import os
import re
from dataclasses import dataclass, field
from functools import cached_property
from typing import Callable, Iterable, List, Optional, Tuple, Type, TypeVar, Union

from .answers import Answer, Ids, ids_of, read_answer
from .certificates import members_of
from .checks import check
from .errors import NotConfirmed
from .programs import Program, bytes_of, call, find, lines_of, refuse
from .reports import confirmed


@dataclass(frozen=True)
class Delivery:
    """Node `node` delivered the message `number` of node `origin`."""

    node: int
    origin: int
    number: int


@dataclass(frozen=True)
class Change:
    """A change of an overlay: node `node` was `born` or is `gone`, or it took `peer` into its active view, `up`, or out
    of it, `down`."""

    kind: str
    node: int
    peer: Optional[int] = None


@dataclass(frozen=True)
class Entry:
    """An event that was accepted: its number in the journal, the changes in their order, and what was delivered."""

    number: int
    changes: Tuple[Change, ...]
    delivery: Optional[Delivery]


@dataclass(frozen=True)
class FiledReport:
    """The line of a report that was filed. `answer` says what it says; its certificate was not looked at."""

    answer: Answer


@dataclass(frozen=True)
class Refusal:
    """A line of the scenario that was refused: the number of the reason, as in docs/FAULTS.md. Nothing has changed."""

    number: int


@dataclass(frozen=True)
class View:
    """What a node holds: its two views, and its links in the broadcast tree."""

    node: int
    active: Ids
    passive: Ids
    eager: Ids
    lazy: Ids


@dataclass(frozen=True)
class Packet:
    """A packet on its way: its place among the packets, its receiver, and its bytes."""

    place: int
    to: int
    content: bytes


@dataclass(frozen=True)
class Sections:
    """A block of sections that ran at once: how many, and how many of their lines were accepted and refused."""

    number: int
    accepted: int
    refused: int


@dataclass(frozen=True)
class Certificate:
    """The text of a certificate file. It was not checked: `Run.certificate` gives one that was."""

    text: str


@dataclass(frozen=True)
class OtherLine:
    """A line of a form that this package does not know."""

    text: str


Line = Union[Entry, FiledReport, Refusal, View, Packet, Sections, Certificate, OtherLine]
Kind = TypeVar("Kind", bound=Line)

CHANGE = re.compile(r" (\w+) (\d+)(?: (\d+))?")


def entry_of(said: re.Match[str]) -> Entry:
    found = CHANGE.findall(said[2])
    changes = tuple(Change(kind, int(node), int(peer) if peer else None) for kind, node, peer in found)
    delivery = Delivery(int(said[3]), int(said[4]), int(said[5])) if said[3] else None
    return Entry(int(said[1]), changes, delivery)


def view_of(said: re.Match[str]) -> View:
    return View(int(said[1]), *(ids_of(it) for it in said.groups()[1:]))


# How each line is read but that of a report.
FORMS: Tuple[Tuple[re.Pattern[str], Callable[[re.Match[str]], Line]], ...] = (
    (re.compile(r"entry (\d+)((?: (?:born|gone) \d+| (?:up|down) \d+ \d+)*)(?: delivered (\d+) (\d+) (\d+))?"),
     entry_of),
    (re.compile(r"refused (\d+)"), lambda said: Refusal(int(said[1]))),
    (re.compile(r"node (\d+) active (\S+) passive (\S+) eager (\S+) lazy (\S+)"), view_of),
    (re.compile(r"packet (\d+) to (\d+) ([0-9a-f]*)"),
     lambda said: Packet(int(said[1]), int(said[2]), bytes.fromhex(said[3]))),
    (re.compile(r"together (\d+) accepted (\d+) refused (\d+)"), lambda said: Sections(*map(int, said.groups()))),
    (re.compile(r"\{.*\}"), lambda said: Certificate(said[0])),
)


def read_line(text: str) -> Line:
    """What a line says that `overlay run` prints.

    >>> read_line("entry 19 delivered 1 1 0").delivery
    Delivery(node=1, origin=1, number=0)
    >>> read_line("entry 3 up 1 2 down 1 4").changes[1]
    Change(kind='down', node=1, peer=4)
    """
    answer = read_answer(text, "report")
    if answer:
        return FiledReport(answer)
    for form, made in FORMS:
        said = form.fullmatch(text)
        if said:
            return made(said)
    return OtherLine(text)


@dataclass(frozen=True)
class Run:
    """What a scenario printed, line by line.

    `texts` has the lines as they were printed, and `lines` what they say. `explanations` has what the program says of
    refused lines, with the number of each line in the scenario, and at the end how many events were accepted.
    """

    texts: Tuple[str, ...]
    explanations: Tuple[str, ...]
    scenario: bytes = field(repr=False)
    overlay: str = field(repr=False)
    overlay_check: Optional[Program] = field(repr=False)

    @cached_property
    def lines(self) -> Tuple[Line, ...]:
        """What each line says."""
        return tuple(map(read_line, self.texts))

    def of_kind(self, kind: Type[Kind]) -> Tuple[Kind, ...]:
        """The lines of one kind, such as `Packet`."""
        return tuple(line for line in self.lines if isinstance(line, kind))

    @property
    def entries(self) -> Tuple[Entry, ...]:
        """The events that were accepted."""
        return self.of_kind(Entry)

    @property
    def reports(self) -> Tuple[Answer, ...]:
        """What the reports say that were filed by lines `analyse`."""
        return tuple(line.answer for line in self.of_kind(FiledReport))

    @property
    def refusals(self) -> Tuple[Refusal, ...]:
        """The lines that were refused, those in sections left out."""
        return self.of_kind(Refusal)

    def certificate(self, moment: int, group: Optional[Iterable[int]] = None) -> str:
        """The certificate of the report that is filed for a moment, and a group of ids or all nodes.

        The scenario is run once more, with the line that asks for it. The text is given only if the lines before are
        the same, overlay-check says yes to it, and it says what the report says; else this raises `NotConfirmed`. That
        its graph was the overlay at that moment is proved of a program overlay that bin/build made, and is not checked
        here. `Refused`, with the number 50, says that there is no such report.
        """
        members = None if group is None else sorted(set(group))
        asked = "" if members is None else f" group {','.join(map(str, members))}"
        *before, text = self.run_again(f"certificate {moment}{asked}")
        if before != list(self.texts):
            raise NotConfirmed("run again, the scenario printed something else, as sections may let it")
        if text.startswith("refused "):
            refuse(text, f"there is no report of moment {moment}{asked}")
        answer = confirmed(check(text, overlay_check=self.overlay_check))
        (nodes,) = members_of(text, "nodes")
        if answer.moment != moment or (answer.group or tuple(nodes)) != tuple(members or nodes):
            raise NotConfirmed("the certificate is of another moment or group")
        if any(it != answer for it in self.reports if (it.moment, it.group) == (moment, answer.group)):
            raise NotConfirmed("the report is not that of the certificate")
        return text

    def run_again(self, line: str) -> List[str]:
        """The lines that the scenario prints if one more line follows."""
        return lines_of(call(self.overlay, ["run"], self.scenario + f"\n{line}\n".encode())) or [""]


def run(scenario: Union[str, bytes, "os.PathLike[str]"], *, overlay: Optional[Program] = None,
        overlay_check: Optional[Program] = None) -> Run:
    """Runs a scenario: its text, its bytes, or the path of a scenario file.

    >>> story = run("boot 1\\nboot 2 by 1\\ndeliver 0\\ndeliver 0\\nsnapshot\\nanalyse 5\\nshow 3\\n")
    >>> len(story.entries), story.reports[0].is_linked, story.refusals
    (5, True, (Refusal(number=10),))
    >>> story.explanations[0]
    'line 7: no node 3 was born'

    A line that is refused is no error, and the run goes on. A scenario that can't be read is `Refused`.
    """
    program, data = find("overlay", overlay), bytes_of(scenario)
    ended = call(program, ["run", "--explain"], data)
    return Run(tuple(lines_of(ended)), tuple(ended.err.split("\n")[:-1]), data, program, overlay_check)
