"""Who is cut off by the crash of each single host, by one search of the whole overlay: `Singles`."""

from __future__ import annotations

from typing import Iterator, List, NamedTuple, Sequence, Tuple


class Span(NamedTuple):
    """Hosts that stand one after the other in the order of a search, from a place in it up to another one, and which of
    them stands first among the hosts of the overlay."""

    begin: int
    end: int
    first: int

    @property
    def size(self) -> int:
        """How many hosts it has."""
        return self.end - self.begin

    @property
    def rank(self) -> Tuple[int, int]:
        """Where it stands among connected components, the largest first, and of several the first one."""
        return -self.size, self.first


class Singles:
    """What each single crash leaves of an overlay. `peers` has whom each host is linked to, by places from 0 on.

    It is the search for cut vertices of Hopcroft and Tarjan, in depth, from the first host of each connected component.
    All that the search reaches from a host first follows the host in `order`, without a gap. So what a crash parts from
    the host from which the crashed one was reached is some spans of the order, and the rest of its component.

    >>> path = Singles([[1], [0, 2], [1, 3], [2]])
    >>> [list(path.cut_off(at)) for at in range(4)], [path.number(at) for at in range(4)]
    ([[], [0], [3], []], [0, 1, 1, 0])
    """

    def __init__(self, peers: Sequence[Sequence[int]]) -> None:
        hosts = range(len(peers))
        self.order: List[int] = []
        self.parts: List[Span] = []
        self.part_of, self.below = [0 for _ in hosts], [[] for _ in hosts]  # type: List[int], List[List[Span]]
        at = [-1 for _ in hosts]
        for root in hosts:
            if at[root] < 0:
                begin = len(self.order)
                self.search(root, peers, at)
                for host in self.order[begin:]:
                    self.part_of[host] = len(self.parts)
                self.parts.append(Span(begin, len(self.order), root))
        self.largest = sorted(self.parts, key=lambda it: it.rank)[:2]

    def search(self, root: int, peers: Sequence[Sequence[int]], at: List[int]) -> None:
        """Goes through the component of a host. `at` has the place of each host in the order, or -1. `low` has the
        lowest place that is linked to those below a host, and `first` the first of these."""
        path, coming, low, first = [root], [iter(peers[root])], {root: len(self.order)}, {root: root}
        at[root] = len(self.order)
        self.order.append(root)
        while path:
            host = path[-1]
            for peer in coming[-1]:
                if at[peer] < 0:
                    at[peer] = low[peer] = len(self.order)
                    first[peer] = peer
                    self.order.append(peer)
                    path.append(peer)
                    coming.append(iter(peers[peer]))
                    break
                if at[peer] < low[host]:
                    low[host] = at[peer]
            else:
                path.pop()
                coming.pop()
                if path:
                    above = path[-1]
                    if low[host] >= at[above]:
                        self.below[above].append(Span(at[host], len(self.order), first[host]))
                    low[above] = min(low[above], low[host])
                    first[above] = min(first[above], first[host])

    def kept(self, host: int) -> Span:
        """The largest connected component that the crash of a host leaves, or the first of the largest ones: a span, or
        that of the component of the host, of which all is left but the spans below the host."""
        whole, below = self.parts[self.part_of[host]], self.below[host]
        rest = whole.size - 1 - sum(it.size for it in below)
        others = [*(it for it in self.largest if it is not whole), *below]
        # the first host of the component is in the rest, if that is not empty
        return min([Span(whole.begin, whole.begin + rest, whole.first), *others], key=lambda it: it.rank)

    def number(self, host: int) -> int:
        """How many hosts no longer reach the largest connected component once a host has crashed."""
        return len(self.order) - 1 - self.kept(host).size

    def cut_off(self, host: int) -> Iterator[int]:
        """These hosts, by their places."""
        whole, kept, end = self.parts[self.part_of[host]], self.kept(host), len(self.order)
        spans = [(0, kept.begin), (kept.end, end)]
        if kept.first == whole.first and kept.begin == whole.begin:
            spans = [(0, whole.begin), *((it.begin, it.end) for it in self.below[host]), (whole.end, end)]
        return (at for begin, past in spans for at in self.order[begin:past] if at != host)
