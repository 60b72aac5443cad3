"""What k is after each of many crashes, by few certificates: `numbers_after`.

A graph *withstands* m if a crash of fewer than m hosts, whichever they are, leaves all survivors joined. k is the
greatest m that a graph withstands, unless every two hosts are linked: then it withstands every m. Let G withstand k,
and let X be the hosts of a crash.

- From below: G without X withstands k less the number of hosts of X. For a crash of the rest is, together with X, a
  crash of G.
- From above: let C be hosts whose crash leaves two connected components of G or more. After the crash of X, a crash of
  the hosts of C that are not in X parts any two components that have a host outside X. So k is at most their number
  then. The links of a host that is not linked to all others are such a C.
- So a host h that is in a smallest cut leaves k - 1, and from above others leave k, but for one that every smallest cut
  cuts off alone. That h is in no smallest cut is what must be confirmed, and one certificate does that for many hosts:
- Let h be a host such that k crashes in G separate no two surviving peers of h. Then G without h withstands k. For let
  C, fewer than k hosts without h, crash. All survivors in G are joined, so a survivor other than h is joined without h
  either to every other one, or to a peer of h. But C and h are k crashes at most, which separate no two peers of h.
- If k crashes separate two peers of h, then h is among them, since it is linked to both. So the peers of a host that is
  in no smallest cut lie on one side of each: in one component that it leaves, or in the cut.
- So the peers of many hosts are one group, and overlay-check confirms that k crashes separate no two of the group, or
  there is a cut that does. Then its hosts leave k - 1, and the others are shared out by the side of their peers.

Where both bounds meet, k is known. Else the crash is asked about by itself. From below everything rests on certificates
that overlay-check confirmed, but for 1, which says no more than that all that are left reach each other. That is
counted here, and so is all from above: it rests on hosts that don't reach each other.
"""

from __future__ import annotations

import collections
import itertools
import sys
from dataclasses import dataclass
from typing import Any, Callable, Dict, Iterable, List, Optional, Sequence, Tuple

from .bits import Hosts, number_of, places_of
from .graphs import NamedGraph
from .limits import USUAL_HOSTS
from .progress import Progress, each_at_once
from .reports import Report

# Of a large graph questions are asked as long as so many hosts are asked about in all, some seconds.
MOST_ASKED = 100_000
# The hosts of a cut, by their places.
Places = Tuple[int, ...]
# Asks about a graph, and a group in it.
Ask = Callable[[NamedGraph[Any], Optional[List[int]]], Report[Any]]


@dataclass(frozen=True)
class Number:
    """How few crashes split a graph, and the ids of such a cut; or that every two hosts are linked. If it is not known,
    `k` is so many that fewer do not."""

    k: int
    is_linked: bool
    cut: Tuple[int, ...]
    is_known: bool = True


def number_in(report: Report[Any]) -> Number:
    """The number of a graph in its report."""
    return Number(report.k, report.is_linked, tuple(report.ids[it] for it in report.cut))


class Bounds:
    """What is known of k after crashes of a graph that withstands k: `least` and a cut in `most` of each that is not
    known yet, and `numbers` of the others. `most` is None where no cut is known."""

    def __init__(self, graph: NamedGraph[Any], base: Number, crashes: Iterable[Hosts]) -> None:
        self.graph, self.k, self.bits = graph, base.k, graph.bits
        self.links = [len(it) for it in self.bits.lists]
        self.by_links = sorted(range(len(self.links)), key=self.links.__getitem__)
        self.least = {crash: max(0, base.k - number_of(crash)) for crash in crashes}
        self.most = {crash: self.links_cut(crash) for crash in self.least}
        self.numbers: Dict[Hosts, Number] = {}
        hosts = len(self.bits.nodes)
        self.questions = MOST_ASKED // hosts if hosts > USUAL_HOSTS else sys.maxsize
        self.learn_cut(self.bits.of(base.cut))

    def links_cut(self, crash: Hosts) -> Optional[Places]:
        """The fewest links that a host has after a crash, of those that are not linked to all others that are left."""
        crashed = list(places_of(crash))
        lost = collections.Counter(peer for at in crashed for peer in self.bits.lists[at])
        # who is linked to none that crashes keeps all links, so the first of those by links is enough
        far = next((at for at in self.by_links if at not in lost and not crash >> at & 1), None)
        left = [at for at in lost if not crash >> at & 1] + ([] if far is None else [far])
        others = len(self.links) - len(crashed) - 1
        number, host = min(((self.links[at] - lost[at], at) for at in left), default=(others, 0))
        if number == others:
            # each of these is linked to all others, and so is any host with more links
            return None
        return tuple(at for at in self.bits.lists[host] if not crash >> at & 1)

    def settle(self, crash: Hosts) -> None:
        """Both bounds of a crash may have met."""
        cut = self.most[crash]
        if cut is not None and len(cut) <= self.least[crash]:
            self.know(crash, Number(len(cut), False, tuple(self.bits.nodes[at] for at in cut)))

    def know(self, crash: Hosts, number: Number) -> None:
        """The number after a crash is known."""
        self.numbers[crash] = number
        del self.least[crash], self.most[crash]

    def learn_cut(self, cut: Hosts) -> List[Hosts]:
        """A crash of these hosts may part others, which bounds numbers from above. Gives the components that it
        leaves."""
        pieces, places = self.bits.pieces(cut), list(places_of(cut))
        for crash, known in list(self.most.items()):
            if known is None or number_of(cut & ~crash) < len(known):
                if len(list(itertools.islice((it for it in pieces if it & ~crash), 2))) > 1:
                    self.most[crash] = tuple(at for at in places if not crash >> at & 1)
            self.settle(crash)
        return pieces

    def learn_joined(self, crashes: Iterable[Hosts]) -> None:
        """k crashes separate no two peers of each of these hosts."""
        for crash in crashes:
            if crash in self.least:
                self.least[crash] = self.k
                self.settle(crash)

    def ask_groups(self, ask: Ask, workers: int, progress: Optional[Progress]) -> None:
        """Settles the crashes of single hosts by groups of their peers."""
        parts = [[it for it in self.least if number_of(it) == 1 and self.least[it] < self.k]]
        while any(parts) and self.questions > 0:
            parts = [part for part in parts if part][: self.questions]
            self.questions -= len(parts)
            groups = [self.bits.ids(self.bits.around(sum(part))) for part in parts]
            answers = each_at_once(lambda group: ask(self.graph, group), groups, workers)
            parts = [rest for part, report in zip(parts, answers) for rest in self.shared_out(part, report)]
            if progress:
                progress.tell(f"crashes: {len(self.least)} left")

    def shared_out(self, part: List[Hosts], report: Report[Any]) -> List[List[Hosts]]:
        """The hosts of a part whose crash must be asked about further, by the sides of a cut on which their peers are;
        nobody, if the report of their peers says that k crashes separate no two of them."""
        if report.is_linked or report.k > self.k:
            self.learn_joined(part)
            return []
        cut = self.bits.of(self.graph.ids[it] for it in report.cut)
        sides = [piece | cut for piece in self.learn_cut(cut)]
        parts: List[List[Hosts]] = [[] for _ in sides]
        for host in part:
            if host in self.least:
                peers = self.bits.around(host)
                parts[next(at for at, side in enumerate(sides) if not peers & ~side)].append(host)
        return parts

    def ask_alone(self, ask: Ask, workers: int, progress: Optional[Progress]) -> None:
        """Asks about each crash by itself that is not known yet: of a large graph about those alone that may leave the
        lowest numbers, as long as there are questions."""
        crashes = sorted(self.least, key=lambda it: self.least[it])[: self.questions]
        asked = (self.graph.without(set(self.bits.ids(crash))) for crash in crashes)
        answers = each_at_once(lambda graph: number_in(ask(graph, None)), asked, workers, "crash", progress)
        for crash, number in zip(crashes, answers):
            self.know(crash, number)
        for crash, least in list(self.least.items()):
            self.know(crash, Number(least, False, (), is_known=False))

    def count_split(self) -> None:
        """Settles the crashes that split a graph, by plain reachability; others leave 1 at least."""
        crashes = [it for it, least in self.least.items() if least == 0]
        self.bits.count_cut_off(crashes)
        for crash in crashes:
            if self.bits.is_split(crash):
                self.know(crash, Number(0, False, ()))
            else:
                self.least[crash] = 1
                self.settle(crash)


def numbers_after(
    graph: NamedGraph[Any],
    base: Number,
    crashes: Sequence[Hosts],
    ask: Ask,
    workers: int,
    progress: Optional[Progress] = None,
) -> Dict[Hosts, Number]:
    """What k is after each of these crashes, each of which leaves a host. `base` is the number of the graph."""
    if base.is_linked:
        return {crash: Number(len(graph.ids) - number_of(crash) - 1, True, ()) for crash in crashes}
    bounds = Bounds(graph, base, crashes)
    bounds.count_split()
    bounds.ask_groups(ask, workers, progress)
    bounds.ask_alone(ask, workers, progress)
    return bounds.numbers


def numbers_after_two(
    graph: NamedGraph[Any], singles: Dict[Hosts, Number], ask: Ask, workers: int, progress: Optional[Progress] = None
) -> Dict[Hosts, Number]:
    """What k is after each crash of two hosts, if they leave one. `singles` has the numbers after each single crash: a
    crash of two is a single one of what the first of them leaves."""
    bits = graph.bits

    def after(first: int) -> Dict[Hosts, Number]:
        left = graph.without({bits.nodes[first]})
        inner = left.bits
        # a later host stands one place earlier there
        hosts = [1 << at - 1 for at in range(first + 1, len(bits.nodes))]
        numbers = numbers_after(left, singles[1 << first], hosts, ask, 1)
        return {1 << first | bits.of(inner.ids(host)): number for host, number in numbers.items()}

    firsts = range(len(bits.nodes) - 1) if len(bits.nodes) > 2 else []
    parts = each_at_once(after, firsts, workers, "crashes of two: with host", progress)
    return {crash: number for part in parts for crash, number in part.items()}
