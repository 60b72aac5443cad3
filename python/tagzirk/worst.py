"""The worst of the smallest cuts: among the crashes of k hosts that split an overlay, those which cut off most."""

from __future__ import annotations

import itertools
import math
from dataclasses import dataclass, field
from functools import lru_cache
from typing import Any, Callable, Dict, Generic, Iterable, Iterator, List, Optional, Sequence, Set, Tuple

from .bits import Hosts, number_of, places_of
from .graphs import Graph, NamedGraph, Node, named_graph
from .limits import USUAL_HOSTS
from .programs import Program
from .progress import Progress, each_at_once, processors
from .reports import Report, analysed

# All cuts are found if that takes at most so many steps from a host to a host, some seconds; for k of 1 and 2 always up
# to so many hosts. Else the search ends after fewer steps.
MOST_STEPS, MOST_HOSTS, ENOUGH_STEPS = 3_000_000, 400, 300_000
# So many hosts, at most one more, are taken two by two, to ask for a smallest cut that parts them; and of so many hosts
# with k links these are taken for a cut.
SPREAD, MOST_WEAK = 6, 64
# Of a large overlay it is told of so many cuts at most whom they cut off, as far as that takes no more than so many
# steps from a host to a host.
MOST_OF, STEPS_OF = 200, 2_000_000
# A pair is asked about four times or so, and each time all links are read: so many pairs at most are taken that so many
# links are read, and of a large overlay fewer.
MOST_READ, MOST_READ_OF_LARGE = 1_000_000, 300_000

Ask = Callable[[NamedGraph[Any], Optional[List[int]]], Report[Any]]


@dataclass(frozen=True)
class Cut(Generic[Node]):
    """A smallest cut: whom the crash strikes, who no longer reaches the largest connected component then, and how many
    connected components it leaves."""

    crashed: Tuple[Node, ...]
    cut_off: Tuple[Node, ...]
    pieces: int


@dataclass(frozen=True)
class Worst(Generic[Node]):
    """The smallest cuts that cut off most of those that were `found`, which is a number; the worst first. If `is_all`,
    these are all smallest cuts that there are. `of` has for each host that is in one of them the worst of these; of a
    large overlay it has hosts of the worst ones alone."""

    cuts: Tuple[Cut[Node], ...]
    found: int
    is_all: bool
    of: Dict[Node, Cut[Node]] = field(repr=False, compare=False)

    def worse_than(self, k: int, cut_off: int) -> Optional[Cut[Node]]:
        """The worst cut, if it cuts off more hosts than so many, and something must crash."""
        return self.cuts[0] if k and self.cuts and len(self.cuts[0].cut_off) > cut_off else None


def parting(peers: Sequence[Sequence[int]], gone: Iterable[int]) -> Dict[int, int]:
    """The hosts whose crash, after that of `gone`, parts what is left, with how many each cuts off from the largest
    connected component. What `gone` leaves must be joined.

    This is the search for cut vertices of Hopcroft and Tarjan, in depth: `order` has the place of each host, and `low`
    the lowest place that is linked to the tree below it. `peers` has whom each is linked to, by numbers from 0 on.

    >>> parting([[1], [0, 2, 3], [1, 3], [1, 2]], [])
    {1: 1}
    """
    order, low, size = [0] * len(peers), [0] * len(peers), [1] * len(peers)
    parts: Dict[int, List[int]] = {}
    for host in gone:
        order[host] = -1
    root = next((at for at, place in enumerate(order) if place == 0), None)
    if root is None:
        return {}
    count = order[root] = low[root] = 1
    path, coming = [root], [iter(peers[root])]
    while path:
        host = path[-1]
        for peer in coming[-1]:
            if order[peer] == 0:
                count += 1
                order[peer] = low[peer] = count
                path.append(peer)
                coming.append(iter(peers[peer]))
                break
            if 0 < order[peer] < low[host]:
                low[host] = order[peer]
        else:
            path.pop()
            coming.pop()
            if path:
                above = path[-1]
                size[above] += size[host]
                low[above] = min(low[above], low[host])
                if low[host] >= order[above]:
                    parts.setdefault(above, []).append(size[host])
    return cut_off_by_parts(parts, root, count)


def cut_off_by_parts(parts: Dict[int, List[int]], root: int, count: int) -> Dict[int, int]:
    """How many hosts each host cuts off, by the sizes of the parts below it that have no other way out. All that is
    neither in these nor the host itself is one part more, but for the root, which has none above it."""
    found = {}
    for host, sizes in parts.items():
        rest = count - 1 - sum(sizes)
        if host != root or len(sizes) > 1:
            found[host] = count - 1 - max(*sizes, rest)
    return found


class Hunt:
    """The smallest cuts of an overlay that were found, and how many hosts each cuts off. The overlay must be joined,
    and some two hosts not linked."""

    def __init__(self, graph: NamedGraph[Any], report: Report[Any], ask: Ask) -> None:
        self.graph, self.ask, self.k = graph, ask, report.k
        self.bits = graph.bits
        self.peers = self.bits.lists
        self.steps_of_search = len(self.peers) + 2 * len(graph.links)
        self.found: Dict[Hosts, int] = {}
        self.note(self.bits.of(graph.ids[it] for it in report.cut))

    def note(self, cut: Hosts) -> None:
        """Keeps a crash, if it is a smallest cut."""
        if number_of(cut) == self.k and cut not in self.found:
            sizes = list(map(number_of, self.bits.pieces(cut)))
            if len(sizes) > 1:
                self.found[cut] = sum(sizes) - max(sizes)

    def with_one_more(self, hosts: Sequence[int]) -> None:
        """Finds all smallest cuts that have these hosts, one fewer than k, by their places."""
        begin = sum(1 << at for at in hosts)
        for at, number in parting(self.peers, hosts).items():
            self.found[begin | 1 << at] = number

    def find_all(self, progress: Optional[Progress]) -> bool:
        """Finds all smallest cuts, if that does not take too long, and answers whether it did."""
        searches = math.comb(len(self.peers), self.k - 1)
        is_small = self.k <= 2 and len(self.peers) <= MOST_HOSTS
        if not is_small and searches * self.steps_of_search > MOST_STEPS:
            return False
        for at, hosts in enumerate(itertools.combinations(range(len(self.peers)), self.k - 1), 1):
            self.with_one_more(hosts)
            if progress:
                progress.tell(f"smallest cuts: {at} of {searches}")
        return True

    def find_some(self, workers: int, progress: Optional[Progress]) -> None:
        """Finds some: the links of hosts that have k, cuts that part the surroundings of hosts here and there, and
        those that differ by one host from one that was found, the worst first."""
        for at in [at for at, peers in enumerate(self.peers) if len(peers) == self.k][:MOST_WEAK]:
            self.note(self.bits.peers[at])
        spread = self.bits.nodes[:: max(1, len(self.peers) // SPREAD)]
        cut = self.parting_two(self.graph, spread)
        self.note(cut)
        # if no smallest cut parts two of these, none parts what is around them
        pairs = self.few([*itertools.combinations(spread, 2)]) if cut else []
        for cut in each_at_once(lambda it: self.between(*it), pairs, workers, "smallest cuts: between hosts", progress):
            self.note(cut)
        self.exchange(progress)

    def few(self, pairs: List[Tuple[int, int]]) -> List[Tuple[int, int]]:
        """Those of these pairs that there is time for: all, unless there are very many links."""
        links = MOST_READ if len(self.peers) <= USUAL_HOSTS else MOST_READ_OF_LARGE
        most = max(1, links // (4 * len(self.graph.links)))
        return pairs[:: -(-len(pairs) // most)] if pairs else pairs

    def exchange(self, progress: Optional[Progress]) -> None:
        """Finds cuts that differ by one host from one that was found, the worst first, as long as there are steps."""
        left, seen = ENOUGH_STEPS // (self.k * self.steps_of_search), set()  # type: int, Set[Hosts]
        while left > 0:
            coming = sorted((it for it in self.found if it not in seen), key=self.badness)[: min(left, 10)]
            if not coming:
                return
            for cut in coming:
                for at in places_of(cut):
                    self.with_one_more(list(places_of(cut & ~(1 << at))))
            seen.update(coming)
            left -= len(coming)
            if progress:
                progress.tell(f"smallest cuts: {len(self.found)} found")

    def badness(self, cut: Hosts) -> Tuple[int, Hosts]:
        """Where a cut stands among others, the worst first."""
        return -self.found[cut], cut

    def parting_two(self, graph: NamedGraph[Any], members: Sequence[int]) -> Hosts:
        """A smallest cut that parts two of these hosts in a graph; nobody if there is none."""
        report = self.ask(graph, sorted(members))
        if report.is_linked or report.k > self.k:
            return 0
        return self.bits.of(self.graph.ids[it] for it in report.cut)

    def between(self, a: int, b: int) -> Hosts:
        """A smallest cut that parts two hosts with what is around them, the wider the better; nobody if no such cut
        parts them."""
        if b in self.graph.peers[a] or not self.parting_two(self.graph, [a, b]):
            return 0
        found = (self.parting_two(self.merged(near, far), [a, b]) for near, far in self.surroundings(a, b))
        return next((cut for cut in found if cut), 0)

    def surroundings(self, a: int, b: int) -> Iterator[Tuple[Dict[int, int], Dict[int, int]]]:
        """Whom one host and another one have around them, the widest first: hosts that are nearer to it than to the
        other one, by two links or more, so that no link goes from one surroundings to the other. Each host has the one
        that it stands for."""
        of_a, of_b = (self.balls(self.bits.of([host])) for host in (a, b))
        radius = max(len(of_a), len(of_b)) - 1
        while True:
            yield self.nearer(a, of_a, of_b, radius), self.nearer(b, of_b, of_a, radius)
            if radius == 0:
                return
            radius //= 2

    def nearer(self, host: int, own: List[Hosts], others: List[Hosts], radius: int) -> Dict[int, int]:
        """The surroundings of a host up to so many links away."""
        around = own[0]
        for at, ball in enumerate(own[: radius + 1]):
            around |= ball & ~others[min(at + 1, len(others) - 1)]
        return dict.fromkeys(self.bits.ids(around), host)

    def balls(self, host: Hosts) -> List[Hosts]:
        """All hosts that are so many links away from one, or fewer: of none, one, two links and so on."""
        balls = [host]
        while balls[-1] != self.bits.all:
            balls.append(balls[-1] | self.bits.around(balls[-1]))
        return balls

    def merged(self, near: Dict[int, int], far: Dict[int, int]) -> NamedGraph[Any]:
        """The graph in which all surroundings of a host are that host."""
        node = {**{it: it for it in self.bits.nodes}, **near, **far}
        ids = {name: it for name, it in self.graph.ids.items() if node[it] == it}
        return NamedGraph(ids, self.graph.links_as(node))


def worst(
    graph: Graph[Node],
    report: Optional[Report[Node]] = None,
    most: int = 10,
    *,
    workers: Optional[int] = None,
    overlay: Optional[Program] = None,
    overlay_check: Optional[Program] = None,
    progress: Optional[Progress] = None,
) -> Worst[Node]:
    """The smallest cuts that cut off most hosts from the largest connected component, at most so many. `report` is that
    of the graph, if it is there. If k is 1 or 2 and there are at most 400 hosts, or all is small, all smallest cuts are
    tried; else some are found, and `is_all` is false.

    That fewer than k crashes split nothing was confirmed by overlay-check; who is cut off is counted here.

    >>> pods = [("a", "b"), ("b", "c"), ("c", "a"), ("c", "hub"), ("hub", "d"), ("d", "e"), ("e", "f"), ("f", "d")]
    >>> found = worst([*pods, ("hub", "leaf")])
    >>> [(it.crashed, it.cut_off, it.pieces) for it in found.cuts][:2], found.found, found.is_all
    ([(('hub',), ('d', 'e', 'f', 'leaf'), 3), (('c',), ('a', 'b'), 2)], 3, True)
    """
    named: NamedGraph[Node] = graph if isinstance(graph, NamedGraph) else named_graph(graph)

    def ask(of: NamedGraph[Any], members: Optional[List[int]] = None) -> Report[Any]:
        return analysed(of, members, overlay=overlay, overlay_check=overlay_check)

    report = report or ask(named)
    if report.is_linked:
        return Worst((), 0, True, {})
    hunt = Hunt(named, report, ask)
    is_all = report.k == 0 or hunt.find_all(progress)
    if not is_all:
        hunt.find_some(workers or processors(), progress)
    return worst_of(hunt, named, most, is_all)


def worst_of(hunt: Hunt, graph: NamedGraph[Node], most: int, is_all: bool) -> Worst[Node]:
    """What a search found, by names."""
    bits, names = hunt.bits, graph.names

    @lru_cache(maxsize=None)
    def cut_of(hosts: Hosts) -> Cut[Node]:
        pieces = bits.pieces(hosts)
        crashed, away = (
            graph.named(bits.ids(them)) for them in (hosts, bits.all & ~hosts & ~max(pieces, key=number_of))
        )
        return Cut(crashed, away, len(pieces))

    cuts = sorted(hunt.found, key=hunt.badness)
    worst_with: Dict[int, Hosts] = {}
    looked_at = cuts
    if len(bits.nodes) > USUAL_HOSTS:
        looked_at = cuts[: max(1, min(MOST_OF, STEPS_OF // hunt.steps_of_search))]
    for cut in looked_at:
        for at in places_of(cut):
            worst_with.setdefault(at, cut)
    of = {names[bits.nodes[at]]: cut_of(cut) for at, cut in sorted(worst_with.items())}
    return Worst(tuple(map(cut_of, looked_at[:most])), len(cuts), is_all, of)
