"""What each of many crashes of several hosts leaves of an overlay, of all of them at once: `split_by` and `largest_of`.
Hosts are the places 0, 1, 2 and so on, and a crash is the places of its hosts."""

from __future__ import annotations

import collections
from typing import Collection, Deque, Iterator, List, Sequence, Set, Tuple

Crash = Collection[int]
# Both ends of a link, and by which crashes it is struck.
Link = Tuple[int, int, List[int]]
# So many crashes are looked at together.
AT_ONCE = 4096


def split_by(lists: Sequence[Sequence[int]], crashes: Sequence[Crash]) -> List[bool]:
    """Whether each of these crashes leaves two hosts that can't reach each other. `lists` has whom each host is linked
    to.

    >>> split_by([[1], [0, 2], [1, 3], [2]], [[0], [1], [0, 1], [0, 2], range(4)])
    [False, True, False, True, False]
    """
    found: List[bool] = []
    for begin in range(0, len(crashes), AT_ONCE):
        part = crashes[begin : begin + AT_ONCE]
        split = split_at_once(lists, part)
        found += [split >> at & 1 == 1 for at in range(len(part))]
    return found


def split_at_once(lists: Sequence[Sequence[int]], crashes: Sequence[Crash]) -> int:
    """The same, as a number with a bit for each crash. So has what is kept of each host: the crashes that it outlives,
    and those after which it is reached from the first host that outlives them."""
    every = (1 << len(crashes)) - 1
    left, reached = [every] * len(lists), [0] * len(lists)
    more: Deque[int] = collections.deque()
    for at, crash in enumerate(crashes):
        for host in crash:
            left[host] ^= 1 << at
    for host, alive in enumerate(left):
        reached[host] = alive & every
        every ^= reached[host]
        if reached[host]:
            more.append(host)
        if not every:
            break
    waiting = set(more)
    while more:
        host = more.popleft()
        waiting.remove(host)
        for peer in lists[host]:
            fresh = reached[host] & left[peer] & ~reached[peer]
            if fresh:
                reached[peer] |= fresh
                if peer not in waiting:
                    waiting.add(peer)
                    more.append(peer)
    split = 0
    for alive, here in zip(left, reached):
        split |= alive ^ here
    return split


def largest_of(lists: Sequence[Sequence[int]], crashes: Sequence[Crash]) -> List[int]:
    """How many hosts the largest connected component has that each of these crashes leaves.

    Half of the crashes at a time, all links are joined that none of them strikes; then, of these, half at a time; and
    what was joined is parted again. So a link is joined only as often as it is struck, a few times over.

    >>> largest_of([[1], [0, 2], [1, 3], [2]], [[0], [1], [0, 1], [0, 2], range(4)])
    [3, 2, 2, 1, 0]
    """
    struck: List[Set[int]] = [set() for _ in lists]
    for at, crash in enumerate(crashes):
        for host in crash:
            struck[host].add(at)
    links = [(a, b, sorted(struck[a] | struck[b])) for a, peers in enumerate(lists) for b in peers if a < b]
    sizes = Joined(len(lists)).of(links, 0, len(crashes))
    # a host that crashed is a tree of its own
    return [min(size, len(lists) - len(crash)) for size, crash in zip(sizes, crashes)]


class Joined:
    """Hosts that are joined, as trees, and the size of the largest one; the last ones joined can be parted again."""

    def __init__(self, hosts: int) -> None:
        self.above, self.size, self.largest = [*range(hosts)], [1] * hosts, 1

    def root(self, host: int) -> int:
        """The host that stands for the tree of a host."""
        while self.above[host] != host:
            host = self.above[host]
        return host

    def of(self, links: List[Link], begin: int, end: int) -> Iterator[int]:
        """The size of the largest tree after each of these crashes, with the links that it does not strike. `links` are
        those that are not joined yet."""
        done, largest, later = [], self.largest, []  # type: List[int], int, List[Link]
        for link in links:
            a, b, struck = link
            if any(begin <= it < end for it in struck):
                later.append(link)
                continue
            a, b = sorted((self.root(a), self.root(b)), key=self.size.__getitem__)
            if a != b:
                self.above[a] = b
                self.size[b] += self.size[a]
                self.largest = max(self.largest, self.size[b])
                done.append(a)
        if end - begin == 1:
            yield self.largest
        elif end > begin:
            middle = (begin + end) // 2
            yield from self.of(later, begin, middle)
            yield from self.of(later, middle, end)
        for a in reversed(done):
            self.size[self.above[a]] -= self.size[a]
            self.above[a] = a
        self.largest = largest
