"""Sets of hosts as whole numbers, one bit a host: what is left, who is linked, and connected components, at once."""

from __future__ import annotations

import sys
from functools import cached_property
from itertools import islice
from typing import TYPE_CHECKING, Any, Dict, Iterable, Iterator, List, Sequence

from .losses import AT_ONCE, largest_of, split_by
from .singles import Singles

if TYPE_CHECKING:
    from .graphs import NamedGraph

# A set of hosts: bit i is the host at place i among the nodes of a graph, in the order of their ids.
Hosts = int
# Of a set with more places it is faster to look at its bits as a text than to take its lowest one away again and again.
# A set of few hosts is made by adding up, whatever their places are.
WIDE, FEW = 1024, 64
# Where crashes strike each host so many times or more, on the average, each crash is looked at alone.
MANY = 16


def number_of(hosts: Hosts) -> int:
    """How many hosts a set has.

    >>> number_of(0b1011)
    3
    """
    return hosts.bit_count() if sys.version_info >= (3, 10) else bin(hosts).count("1")


def places_of(hosts: Hosts) -> Iterator[int]:
    """The places of the hosts of a set, ascending.

    >>> list(places_of(0b1011))
    [0, 1, 3]
    >>> list(places_of(1 << 5000 | 1 << 7 | 1))
    [0, 7, 5000]
    """
    if hosts.bit_length() > WIDE:
        signs = f"{hosts:b}"[::-1]
        at = signs.find("1")
        while at >= 0:
            yield at
            at = signs.find("1", at + 1)
        return
    while hosts:
        lowest = hosts & -hosts
        yield lowest.bit_length() - 1
        hosts ^= lowest


def set_of(places: Iterable[int]) -> Hosts:
    """The set of the hosts at these places.

    >>> bin(set_of([0, 1, 3])), set_of([7, 5000]) == 1 << 5000 | 1 << 7
    ('0b1011', True)
    """
    found = set(places)
    if max(found, default=0) < WIDE or len(found) < FEW:
        return sum(1 << at for at in found)
    signs = bytearray(b"0") * (max(found) + 1)
    for at in found:
        signs[-1 - at] = ord("1")
    return int(signs, 2)


class SetsOfLists(Sequence[Hosts]):
    """The sets of these places, each made when it is asked for: of many hosts all at once would take much memory."""

    def __init__(self, lists: Sequence[Sequence[int]]) -> None:
        self.lists = lists

    def __len__(self) -> int:
        return len(self.lists)

    def __getitem__(self, at: Any) -> Any:
        return set_of(self.lists[at])


class Bits:
    """A graph by such sets: `peers` has whom each host is linked to, by its place, and `all` has all hosts. `lists` has
    the places of those to whom each host is linked, ascending."""

    def __init__(self, graph: NamedGraph[Any]) -> None:
        self.nodes = graph.nodes
        self.places = {host: at for at, host in enumerate(self.nodes)}
        self.all: Hosts = (1 << len(self.nodes)) - 1
        self.lists = [[self.places[it] for it in sorted(graph.peers[host])] for host in self.nodes]
        sets = SetsOfLists(self.lists)
        self.peers: Sequence[Hosts] = sets if len(self.nodes) > WIDE else list(sets)
        # whom crashes of several hosts cut off, as far as that was counted
        self.numbers: Dict[Hosts, int] = {}

    def of(self, ids: Iterable[int]) -> Hosts:
        """The set of the hosts with these ids."""
        return set_of(self.places[host] for host in ids)

    def ids(self, hosts: Hosts) -> List[int]:
        """The ids of the hosts of a set, ascending."""
        return [self.nodes[at] for at in places_of(hosts)]

    def around(self, hosts: Hosts) -> Hosts:
        """All that some host of a set is linked to, in the set or outside."""
        if len(self.nodes) > WIDE:
            return set_of(peer for at in places_of(hosts) for peer in self.lists[at])
        found = 0
        for at in places_of(hosts):
            found |= self.peers[at]
        return found

    def piece(self, start: Hosts, left: Hosts) -> Hosts:
        """All that are reached from a set of hosts, where only the hosts `left` are left."""
        if len(self.nodes) > WIDE:
            return set_of(self.reached(list(places_of(start)), self.signs(left)))
        piece = more = start
        while more:
            more = self.around(more) & left & ~piece
            piece |= more
        return piece

    def signs(self, hosts: Hosts) -> bytearray:
        """A sign for each host: whether it is in a set."""
        return bytearray(f"{hosts:0{len(self.nodes)}b}".encode())[::-1]

    def reached(self, start: List[int], free: bytearray) -> List[int]:
        """The same of many hosts, link by link, by their places: so it takes no longer where they are far from each
        other. Who is reached is no longer free."""
        yes, no = ord("1"), ord("0")
        found = start
        for at in found:
            free[at] = no
        for at in found:
            for peer in self.lists[at]:
                if free[peer] == yes:
                    free[peer] = no
                    found.append(peer)
        return found

    @cached_property
    def singles(self) -> Singles:
        """What the crash of each single host leaves."""
        return Singles(self.lists)

    def pieces(self, crashed: Hosts = 0) -> List[Hosts]:
        """The connected components that a crash leaves, in the order of their lowest ids."""
        left, pieces = self.all & ~crashed, []
        if len(self.nodes) > WIDE:
            free = self.signs(left)
            return [set_of(self.reached([at], free)) for at in range(len(free)) if free[at] == ord("1")]
        while left:
            piece = self.piece(left & -left, left)
            pieces.append(piece)
            left &= ~piece
        return pieces

    def split_by(self, crashes: Iterable[Hosts]) -> Iterator[bool]:
        """Whether two hosts that each of these crashes leaves can't reach each other."""
        if len(self.nodes) <= WIDE:
            yield from (self.is_split(it) for it in crashes)
            return
        coming = iter(crashes)
        while True:
            part = [list(places_of(it)) for it in islice(coming, AT_ONCE)]
            if not part:
                return
            yield from split_by(self.lists, part)

    def is_split(self, crashed: Hosts) -> bool:
        """Whether two hosts that a crash leaves can't reach each other."""
        if number_of(crashed) == 1 or crashed in self.numbers:
            return self.number_cut_off(crashed) > 0
        left = self.all & ~crashed
        return left != self.piece(left & -left, left)

    def count_cut_off(self, crashes: Iterable[Hosts]) -> None:
        """Counts for many crashes of an overlay of many hosts whom each cuts off, all at once."""
        several = [it for it in crashes if number_of(it) > 1 and len(self.nodes) > WIDE]
        self.numbers.update(dict.fromkeys(several, 0))
        split = [crash for crash, is_split in zip(several, self.split_by(several)) if is_split]
        places = [list(places_of(it)) for it in split]
        if sum(map(len, places)) <= MANY * len(self.nodes):
            for crash, of, size in zip(split, places, largest_of(self.lists, places)):
                self.numbers[crash] = len(self.nodes) - len(of) - size
        else:
            self.numbers.update((it, number_of(self.cut_off(it))) for it in split)

    def number_cut_off(self, crashed: Hosts) -> int:
        """How many no longer reach the largest connected component that a crash leaves."""
        if number_of(crashed) == 1:
            return self.singles.number(crashed.bit_length() - 1)
        known = self.numbers.get(crashed)
        return number_of(self.cut_off(crashed)) if known is None else known

    def cut_off(self, crashed: Hosts) -> Hosts:
        """Who no longer reaches the largest connected component that a crash leaves, or the first of the largest."""
        if number_of(crashed) == 1:
            return set_of(self.singles.cut_off(crashed.bit_length() - 1))
        pieces = self.pieces(crashed)
        largest = max(pieces, key=number_of, default=0)
        return self.all & ~crashed & ~largest
