"""Which links to add, so that an overlay survives more crashes: `mend`."""

from __future__ import annotations

import heapq
from dataclasses import dataclass, field
from typing import Any, Callable, Dict, Generic, List, Optional, Set, Tuple

from .errors import BadGraph
from .graphs import SCATTER, Graph, NamedGraph, Node, named_graph, shown
from .limits import MOST_HOSTS, USUAL_HOSTS
from .programs import Program
from .progress import Progress
from .reports import Report, analysed

Link = Tuple[int, int]
# Partners are looked for far away as long as that takes so many steps from a host to a host in all, some seconds; and
# where a graph is large, links are tried without as long as so many hosts are asked about in all.
MOST_STEPS, MOST_ASKED = 10_000_000, 60_000
# So many hosts at most are each linked to one that needs no link, if they find none that does.
FEW = 64


@dataclass(frozen=True)
class Mended(Generic[Node]):
    """Links that raise the number of a graph: `links`, by name; the report of the graph `before`, and that `after` they
    were added. Each of the reports was confirmed by overlay-check. Of a large graph `untried` links may be to spare: it
    was not tried whether less is enough."""

    links: Tuple[Tuple[Node, Node], ...]
    before: Report[Node] = field(repr=False)
    after: Report[Node] = field(repr=False)
    untried: int = 0


class Mending:
    """A graph while links are added to it."""

    def __init__(self, graph: NamedGraph[Any], to: int, most_links: Optional[int]) -> None:
        self.graph, self.to = graph, to
        self.most = len(graph.ids) if most_links is None else most_links
        self.peers: Dict[int, Set[int]] = {place: set(peers) for place, peers in graph.peers.items()}
        self.added: List[Link] = []
        self.steps = MOST_STEPS

    @property
    def mended(self) -> NamedGraph[Any]:
        """The graph with all links that were added."""
        return self.graph.with_links(self.added)

    def need(self, host: int) -> int:
        """How many links a host lacks: with fewer than `to` of them, a crash of all it is linked to cuts it off."""
        return max(0, self.to - len(self.peers[host]))

    def has_room(self, host: int) -> bool:
        return len(self.peers[host]) < self.most

    def add(self, one: int, other: int) -> None:
        self.peers[one].add(other)
        self.peers[other].add(one)
        self.added.append((min(one, other), max(one, other)))

    def take_out(self, link: Link) -> None:
        one, other = link
        self.peers[one].remove(other)
        self.peers[other].remove(one)
        self.added.remove(link)

    def eager(self, host: int) -> Tuple[int, int, int]:
        """How a host stands among those that could take a link, the first being the least: who needs most, then who has
        fewest links."""
        return -self.need(host), len(self.peers[host]), host

    def distances(self, start: int) -> Dict[int, int]:
        """How many links away each host is that can be reached."""
        found, more = {start: 0}, [start]
        self.steps -= 2 * (len(self.graph.links) + len(self.added))
        for host in more:
            for peer in self.peers[host]:
                if peer not in found:
                    found[peer] = found[host] + 1
                    more.append(peer)
        return found

    def partner(self, host: int) -> int:
        """Whom a host is to be linked to: one that needs a link too, then one that is far away, as long as there are
        steps to look for such."""
        far, beyond = self.distances(host) if self.steps > 0 else {}, len(self.peers)
        others = [it for it in self.peers if it != host and it not in self.peers[host] and self.has_room(it)]
        if not others:
            raise self.no_way(host)
        return min(others, key=lambda it: (not self.need(it), -far.get(it, beyond), self.eager(it)))

    def no_way(self, host: int) -> BadGraph:
        name = shown(self.graph.names[host])
        return BadGraph(
            f"found no way: {name} would need one more link, and all that it could be linked to have "
            f"{self.most} links already; --most-links allows that many"
        )

    def fill(self) -> None:
        """Adds links at hosts that have fewer than `to`, each to one that needs a link too, if there is any."""
        coming, is_slow = self.needy(), True
        while coming:
            if is_slow and self.steps <= 0:
                self.fill_by_rounds()
                coming, is_slow = self.needy(), False
                continue
            eager, host = heapq.heappop(coming)
            if not self.need(host) or eager != self.eager(host):
                # another entry of it was put there since
                continue
            if not self.has_room(host):
                raise self.no_way(host)
            other = self.partner(host)
            self.add(host, other)
            for it in (host, other):
                if self.need(it):
                    heapq.heappush(coming, (self.eager(it), it))

    def needy(self) -> List[Tuple[Tuple[int, int, int], int]]:
        """All hosts that need a link, as a heap."""
        found = [(self.eager(it), it) for it in self.peers if self.need(it)]
        heapq.heapify(found)
        return found

    def fill_by_rounds(self) -> None:
        """The same for very many hosts, all at once: half of those that need a link are linked to the other half, in an
        order that has nothing to do with what they are linked to; until few are left, or none can be linked so."""
        idle, turn = 0, 0
        while idle < 3:
            needy = sorted((it for it in self.peers if self.need(it)), key=lambda it: (it * SCATTER % MOST_HOSTS, it))
            if len(needy) <= FEW:
                return
            ones, others = needy[: len(needy) // 2], needy[len(needy) // 2:]
            turn, before = turn * 2 + 1, len(self.added)
            at = turn % len(others)
            for one, other in zip(ones, others[at:] + others[:at]):
                if other not in self.peers[one]:
                    self.add(one, other)
            idle = 0 if len(self.added) > before else idle + 1

    def join(self, cut: Set[int]) -> None:
        """Joins the pieces that a cut leaves, one to the next. A host that takes a link is the one of its piece that
        needs it most."""
        pieces, end, is_joined = self.mended.pieces(cut), None, False  # type: List[List[int]], Optional[int], bool
        for piece in pieces:
            able = sorted((it for it in piece if self.has_room(it)), key=self.eager)
            if able and end is not None and self.has_room(end):
                self.add(end, able[0])
                is_joined = True
                # the next link is taken by another host of the piece, if there is one
                able = sorted((it for it in able if self.has_room(it)), key=self.eager)
            end = able[0] if able else end
        if not is_joined:
            names = self.graph.names
            told = ", ".join(shown(names[it]) for it in sorted(cut)[:10]) or "no host"
            raise BadGraph(
                f"found no way: past {told}, no two hosts that the crash parts have fewer than {self.most} "
                "links; --most-links allows that many"
            )


def mend(
    graph: Graph[Node],
    to: int,
    most_links: Optional[int] = None,
    *,
    overlay: Optional[Program] = None,
    overlay_check: Optional[Program] = None,
    progress: Optional[Progress] = None,
) -> Mended[Node]:
    """Finds links to add, so that no fewer than `to` crashes split a graph: few, though not proved fewest. No host gets
    more than `most_links` links by them. If one of them is left out that is not `untried`, fewer crashes split it.

    >>> mended = mend([("a", "b"), ("b", "c"), ("c", "d")], to=2)
    >>> mended.links, mended.before.k, mended.after.k
    ((('a', 'd'),), 1, 2)

    `BadGraph` says that there are no such links, or that none were found: where `most_links` is low, there may be some.
    """
    named: NamedGraph[Node] = graph if isinstance(graph, NamedGraph) else named_graph(graph)

    def asked(of: NamedGraph[Node]) -> Report[Node]:
        return analysed(of, overlay=overlay, overlay_check=overlay_check)

    before = now = asked(named)
    if not 1 <= to < len(named.ids):
        raise BadGraph(f"k of {len(named.ids)} hosts is at most {len(named.ids) - 1}, so it can't be {to}")
    if most_links is not None and most_links < to:
        raise BadGraph(f"a host with {most_links} links is cut off by as many crashes, so k would be below {to}")
    mending = Mending(named, to, most_links)
    if now.k < to:
        mending.fill()
        now = asked(mending.mended)
    while now.k < to:
        mending.join({named.ids[it] for it in now.cut})
        now = asked(mending.mended)
        if progress:
            progress.tell(f"{len(mending.added)} links, k {now.k}")
    now, untried = take_out_spare(mending, now, asked, progress)
    names = named.names
    return Mended(tuple((names[a], names[b]) for a, b in sorted(mending.added)), before, now, untried)


def take_out_spare(
    mending: Mending,
    now: Report[Node],
    asked: Callable[[NamedGraph[Node]], Report[Node]],
    progress: Optional[Progress],
) -> Tuple[Report[Node], int]:
    """Takes out each link that was added and is not needed: the report of the graph without them, and how many links
    were not tried."""
    # by the number of its links alone a host needs each that would leave it fewer than `to`
    spare = [link for link in mending.added if all(len(mending.peers[it]) > mending.to for it in link)]
    hosts = len(mending.graph.ids)
    most = len(spare) if hosts <= USUAL_HOSTS else MOST_ASKED // hosts
    for at, link in enumerate(spare[:most], 1):
        if all(len(mending.peers[it]) > mending.to for it in link):
            mending.take_out(link)
            fewer = asked(mending.mended)
            if fewer.k < mending.to:
                mending.add(*link)
            else:
                now = fewer
        if progress:
            progress.tell(f"{len(mending.added)} links, of which {at} of {len(spare)} were tried without")
    left = [it for it in spare[most:] if all(len(mending.peers[host]) > mending.to for host in it)]
    return now, len(left)
