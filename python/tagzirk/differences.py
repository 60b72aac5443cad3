"""What changed between two dumps, and what of it lowered k: `differences`."""

from __future__ import annotations

import contextlib
import itertools
from dataclasses import dataclass
from typing import Callable, Dict, FrozenSet, Iterable, List, Optional, Sequence, Set, Tuple

from .dumps import Dump, Options, read_dump
from .errors import Refused
from .graphs import NamedGraph, numbered
from .limits import USUAL_HOSTS
from .programs import Program
from .progress import Progress
from .reports import Report, analysed
from .worst import Cut, worst

Link = Tuple[str, str]
Ask = Callable[[NamedGraph[str]], Report[str]]
# Changes of a large overlay are asked about as long as so many hosts are asked about in all.
MOST_ASKED = 60_000


@dataclass(frozen=True)
class Side:
    """One of both dumps: its hosts that have an entry with their links, the report of these, and the worst of the
    smallest cuts that were found, which has nobody if every two hosts are linked."""

    dump: Dump
    graph: NamedGraph[str]
    report: Report[str]
    cut: Cut[str]


@dataclass(frozen=True)
class Difference:
    """What changed from an old dump to a new one.

    `hosts_came` and `hosts_went` are hosts that one dump alone has. `links_came` and `links_went` are links between
    hosts that both have, of which one alone has them. If k is lower than it was, `restoring` has each host or link that
    went and that alone, put back, gives the old k again; a host comes back with its links to hosts that are there.
    `burdening` has each host that came and without which alone k is so high again. `with_all_back` is what k is with
    all hosts and links put back; it is None if k is not lower, or if these are too many hosts. Of a large graph
    `untried` changes were not asked about.
    """

    old: Side
    new: Side
    hosts_came: Tuple[str, ...]
    hosts_went: Tuple[str, ...]
    links_came: Tuple[Link, ...]
    links_went: Tuple[Link, ...]
    restoring: Tuple[Tuple[str, ...], ...]
    burdening: Tuple[str, ...]
    with_all_back: Optional[int]
    untried: int = 0

    @property
    def is_lower(self) -> bool:
        """Whether fewer crashes than before split the overlay."""
        return self.new.report.k < self.old.report.k


@dataclass(frozen=True)
class Plain:
    """A graph as sets of names and of links."""

    hosts: FrozenSet[str]
    links: FrozenSet[Link]

    @property
    def named(self) -> NamedGraph[str]:
        """The graph as it is asked about."""
        return numbered(sorted(self.hosts), self.links)

    def with_host(self, host: str, links: Iterable[Link]) -> Plain:
        """The graph with a host more, and those of its links whose other end is there."""
        hosts = self.hosts | {host}
        return Plain(hosts, self.links | {it for it in links if host in it and hosts.issuperset(it)})

    def with_link(self, link: Link) -> Plain:
        """The graph with a link more."""
        return Plain(self.hosts, self.links | {link})

    def without(self, host: str) -> Plain:
        """The graph without a host."""
        return Plain(self.hosts - {host}, frozenset(it for it in self.links if host not in it))


def plain(graph: NamedGraph[str]) -> Plain:
    """A graph by names."""
    names = graph.names
    return Plain(frozenset(graph.ids), frozenset(link_of(names[a], names[b]) for a, b in graph.links))


def link_of(one: str, other: str) -> Link:
    """A link, whichever end is said first."""
    return (one, other) if one <= other else (other, one)


def differences(
    old: Sequence[str],
    new: Sequence[str],
    options: Options = Options(),
    *,
    overlay: Optional[Program] = None,
    overlay_check: Optional[Program] = None,
    progress: Optional[Progress] = None,
) -> Difference:
    """What changed from an old dump to a new one. Names that have no entry are left out, so a host that went may be one
    that others list still.

    >>> import pathlib, tempfile
    >>> with tempfile.TemporaryDirectory() as room:
    ...     files = [pathlib.Path(room, name) for name in ("old", "new")]
    ...     _ = files[0].write_text("a b\\nb c\\nc d\\nd a\\n"), files[1].write_text("a b\\nb c\\nc d\\nd e\\n")
    ...     it = differences([str(files[0])], [str(files[1])])
    >>> it.old.report.k, it.new.report.k, it.hosts_came, it.links_went, it.restoring, it.with_all_back
    (2, 1, ('e',), (('a', 'd'),), (), 1)
    """

    def ask(graph: NamedGraph[str]) -> Report[str]:
        return analysed(graph, overlay=overlay, overlay_check=overlay_check)

    def side(places: Sequence[str]) -> Side:
        dump = read_dump(places, options.living, overlay=overlay)
        graph = dump.graph
        report = ask(graph)
        found = worst(graph, report, 1, overlay=overlay, overlay_check=overlay_check, progress=progress)
        return Side(dump, graph, report, found.cuts[0] if found.cuts else Cut((), (), 1))

    before, now = side(old), side(new)
    return compared(before, now, ask, progress)


def compared(old: Side, new: Side, ask: Ask, progress: Optional[Progress]) -> Difference:
    """The difference of two dumps that were read."""
    then, now = plain(old.graph), plain(new.graph)
    both = then.hosts & now.hosts
    went, came = sorted(then.hosts - now.hosts), sorted(now.hosts - then.hosts)
    lost = sorted(it for it in then.links - now.links if both.issuperset(it))
    gained = sorted(it for it in now.links - then.links if both.issuperset(it))
    restoring: List[Tuple[str, ...]] = []
    burdening: List[str] = []
    with_all_back, untried = None, 0
    if new.report.k < old.report.k:
        trial = Trial(old.report.k, new, now, ask, progress)
        of_hosts = links_of(went, then.links)
        restoring += [(host,) for host in went if trial.host_is_enough(host, of_hosts)]
        restoring += [link for link in lost if trial.link_is_enough(link)]
        burdening += [host for host in came if len(now.hosts) > 1 and trial.is_enough_without(host)]
        untried = trial.untried
        with contextlib.suppress(Refused):
            # both together may be more hosts than can be analysed
            with_all_back = ask(Plain(then.hosts | now.hosts, then.links | now.links).named).k
    return Difference(
        old,
        new,
        tuple(came),
        tuple(went),
        tuple(gained),
        tuple(lost),
        tuple(restoring),
        tuple(burdening),
        with_all_back,
        untried,
    )


def links_of(hosts: Sequence[str], links: Iterable[Link]) -> Dict[str, List[Link]]:
    """The links of each of these hosts."""
    found: Dict[str, List[Link]] = {host: [] for host in hosts}
    for link in links:
        for host in link:
            if host in found:
                found[host].append(link)
    return found


@dataclass(frozen=True)
class Parted:
    """What a crash leaves of the new overlay: in which connected component each host is, and how many hosts each has.
    It has two components at least."""

    crashed: FrozenSet[str]
    at: Dict[str, int]
    sizes: List[int]

    def stays_with_link(self, link: Link) -> bool:
        """Whether the crash parts the overlay also with a link more."""
        one, other = (self.at.get(it) for it in link)
        return one is None or other is None or one == other or len(self.sizes) > 2

    def stays_with_host(self, host: str, links: Iterable[Link]) -> bool:
        """The same with a host more."""
        joined = {self.at[it] for link in links for it in link if it in self.at}
        return host in self.crashed or not joined or len(self.sizes) - len(joined) + 1 > 1

    def stays_without(self, host: str) -> bool:
        """The same without a host."""
        return host not in self.at or self.sizes[self.at[host]] > 1 or len(self.sizes) > 2


class Trial:
    """Tries which single change gives the old k. A cut that was found with fewer crashes, and that splits the changed
    overlay too, answers without a question."""

    def __init__(self, wanted: int, new: Side, now: Plain, ask: Ask, progress: Optional[Progress]) -> None:
        self.wanted, self.graph, self.now, self.ask, self.progress = wanted, new.graph, now, ask, progress
        self.cuts: List[Set[str]] = []
        self.parted: List[Parted] = []
        self.learn(set(new.report.cut))
        self.tried = itertools.count(1)
        hosts = len(now.hosts)
        # of a large overlay so many questions are asked; of others any number
        self.left = MOST_ASKED // hosts if hosts > USUAL_HOSTS else None
        self.untried = 0

    def learn(self, cut: Set[str]) -> None:
        """A cut with fewer crashes than the old k, of the new overlay or of a changed one."""
        self.cuts.append(cut)
        pieces = self.graph.pieces({self.graph.ids[it] for it in cut if it in self.graph.ids})
        if len(pieces) > 1:
            names = self.graph.names
            at = {names[host]: place for place, piece in enumerate(pieces) for host in piece}
            self.parted.append(Parted(frozenset(cut), at, list(map(len, pieces))))

    def host_is_enough(self, host: str, links: Dict[str, List[Link]]) -> bool:
        """Whether a host, put back, gives the old k again."""
        if any(it.stays_with_host(host, links[host]) for it in self.parted):
            return False
        return self.is_enough(self.now.with_host(host, links[host]))

    def link_is_enough(self, link: Link) -> bool:
        """The same of a link."""
        return not any(it.stays_with_link(link) for it in self.parted) and self.is_enough(self.now.with_link(link))

    def is_enough_without(self, host: str) -> bool:
        """Whether the overlay without a host has the old k."""
        return not any(it.stays_without(host) for it in self.parted) and self.is_enough(self.now.without(host))

    def is_enough(self, changed: Plain) -> bool:
        """Whether no fewer crashes than the old k split the changed overlay. It is not known, and so no, where no more
        may be asked."""
        if self.progress:
            self.progress.tell(f"changes: {next(self.tried)} tried")
        if self.left == 0:
            self.untried += 1
            return False
        graph = changed.named
        for cut in self.cuts:
            crashed = {graph.ids[it] for it in cut if it in graph.ids}
            if len(graph.pieces(crashed)) > 1:
                return False
        self.left = None if self.left is None else self.left - 1
        report = self.ask(graph)
        if report.k < self.wanted and not report.is_linked:
            self.learn(set(report.cut))
        return report.k >= self.wanted
