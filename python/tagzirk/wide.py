"""The fewest crashes that cut off more than one host: `widest`.

One of the smallest cuts often isolates a single host, by a crash of all that it is linked to. That a crash cuts off
more than one host, and that no crash of fewer hosts does, follows from these:

- If all that are cut off are single hosts, the crash strikes all that some two of them are linked to. This is counted
  for every two hosts.
- Else two components have two hosts or more, and so each has a link of which the crash strikes neither end. It parts
  these two links. If both ends of a link are made one node, it parts these two nodes; and fewest crashes that part the
  two nodes part the links. The program overlay finds them, and overlay-check confirms that fewer do not.
- Not every two links need be asked about. Of t links that share no host, the anchors, a crash of fewer than t hosts
  leaves one as it is. So it is enough that no link is parted from an anchor, nor two anchors from each other. Since a
  link may share hosts with two anchors, there are three sets of anchors, and it has no host of one of them.
- If many links become nodes at once, fewer crashes may part two of them, never more. So many are asked about at once,
  and one by one only where the number is too low.
"""

from __future__ import annotations

import itertools
import threading
from dataclasses import dataclass
from typing import Any, Callable, Generic, Iterable, List, Optional, Sequence, Set, Tuple

from .bits import Bits, number_of, places_of
from .crashes import cut_off_by
from .graphs import Graph, NamedGraph, Node, named_graph
from .limits import USUAL_HOSTS
from .programs import Program
from .progress import Progress, each_at_once, processors
from .reports import Report, analysed

Link = Tuple[int, int]
# What links are asked about, and the anchors.
Question = Tuple[List[Link], List[Link]]
# So many links at most are asked about two by two, and so many pairs. Of many links at once no more is asked than takes
# some ten seconds where there are 300 hosts: this is the most questions, times the crashes in question.
MOST_LINKS, MOST_PAIRS, MOST_WORK = 400, 2000, 3000
# Of a large graph no more is asked than reads so many links.
MOST_READ = 150_000


@dataclass(frozen=True)
class Wide(Generic[Node]):
    """Crashes that cut off more than one host: whom they strike, and who no longer reaches the largest component then.
    If `is_fewest`, fewer crashes cut off one host at most, as overlay-check confirmed. Else it is confirmed only that
    fewer than `at_least` do."""

    crashed: Tuple[Node, ...]
    cut_off: Tuple[Node, ...]
    is_fewest: bool
    at_least: int


class Search:
    """What is known so far: the best crash that cuts off more than one host."""

    def __init__(self, graph: NamedGraph[Any], ask: Callable[..., Report[Any]]) -> None:
        self.graph, self.ask = graph, ask
        self.best: Optional[Set[int]] = None
        self.lock = threading.Lock()

    def is_better(self, crashed: Set[int]) -> bool:
        """Whether a crash cuts off more than one host with fewer crashes; it is the best one then."""
        if len(cut_off_by(self.graph, crashed)) < 2:
            return False
        with self.lock:
            if self.best is not None and len(crashed) >= len(self.best):
                return False
            self.best = crashed
            return True

    def around(self, *hosts: int) -> Set[int]:
        """All that these hosts are linked to, without themselves."""
        found: Set[int] = set()
        return found.union(*(self.graph.peers[it] for it in hosts)).difference(hosts)

    def count_pairs(self, least: int) -> None:
        """Finds the best crash of all that some two hosts are linked to, or one of so few that no fewer do. Of two
        hosts that are not linked and share no peer it strikes as many as both have links, so of these only hosts with
        few links are looked at."""
        bits = self.graph.bits
        links = [len(it) for it in bits.lists]
        order = sorted(range(len(links)), key=links.__getitem__)
        for a in order:
            if self.most_useful(len(links)) <= least:
                return
            near = bits.around(bits.peers[a]) | bits.peers[a]
            most = self.most_useful(len(links))
            for b in places_of(near >> a + 1 << a + 1):
                number = number_of((bits.peers[a] | bits.peers[b]) & ~(1 << a | 1 << b))
                if number < most:
                    self.try_pair(bits, a, b, number)
                    most = self.most_useful(len(links))
            for b in order:
                if links[a] + links[b] >= self.most_useful(len(links)):
                    break
                if a != b and not near >> b & 1:
                    self.try_pair(bits, a, b, links[a] + links[b])

    def most_useful(self, hosts: int) -> int:
        """So many crashes are no better than the best. Of three hosts that are left, two can be cut off."""
        return hosts - 2 if self.best is None else len(self.best)

    def try_pair(self, bits: Bits, a: int, b: int, number: int) -> None:
        """Two hosts, by their places, may be cut off by a crash of so many."""
        if number < self.most_useful(len(bits.nodes)):
            self.is_better(self.around(bits.nodes[a], bits.nodes[b]))

    def cut_between(self, links: Sequence[Link]) -> Optional[Set[int]]:
        """A smallest cut of nodes that parts two of these links, which share no host, where both ends of each are one
        node. None if no two can be parted."""
        node = {it: it for it in self.graph.nodes}
        node.update((host, min(link)) for link in links for host in link)
        merged = NamedGraph({it: it for it in sorted(set(node.values()))}, self.graph.links_as(node))
        report = self.ask(merged, sorted(min(it) for it in links))
        return None if report.is_linked else set(report.cut)

    def anchors(self, number: int) -> List[List[Link]]:
        """Three sets of so many links, no two of which share a host, or fewer if there are not as many: those whose
        ends are linked to most, and that are not linked to each other if that can be."""
        if 6 * number > len(self.graph.ids):
            return [[], [], []]
        order = sorted(self.graph.pairs, key=lambda it: -len(self.around(*it)))
        chosen: List[Link] = []
        for is_apart in True, False:
            taken = {host for link in chosen for host in (*link, *(self.around(*link) if is_apart else ()))}
            for a, b in order:
                if len(chosen) < 3 * number and a not in taken and b not in taken:
                    chosen.append((a, b))
                    taken |= {a, b, *(self.around(a, b) if is_apart else ())}
        return [chosen[at::3] for at in range(3)]

    def batches(self, anchors: List[List[Link]], most: int) -> Optional[List[Question]]:
        """All links, in lists of such as are not linked to each other, each with anchors that they have no host of; or
        None, if these are more than so many lists."""
        batches: List[Tuple[List[Link], List[Link], Set[int]]] = []
        hosts = [{host for link in them for host in link} for them in anchors]
        own = {link for them in anchors for link in them}
        for a, b in self.graph.pairs:
            if (a, b) in own:
                continue
            at = next(at for at in range(3) if hosts[at].isdisjoint((a, b)))
            batch = next((it for it in batches if it[1] is anchors[at] and it[2].isdisjoint((a, b))), None)
            if batch is None:
                if len(batches) >= most:
                    return None
                batch = [], anchors[at], set()
                batches.append(batch)
            batch[0].append((a, b))
            batch[2].update((a, b), self.around(a, b))
        return [(links, them) for links, them, _ in batches]

    def is_parted(self, links: Sequence[Link], anchors: Sequence[Link]) -> bool:
        """Whether fewer crashes than the best part one of these links from an anchor; this finds better ones then."""
        assert self.best is not None
        number = len(self.best)
        cut = self.cut_between([*links, *anchors])
        if cut is None or len(cut) >= number:
            return False
        ends = {min(link): link for link in (*links, *anchors)}
        if self.is_better({host for it in cut for host in ends.get(it, (it,))}):
            return True
        if not links:
            return any(self.is_parted_pair(*pair) for pair in itertools.combinations(anchors, 2))
        if len(links) > 1:
            middle = len(links) // 2
            return self.is_parted(links[:middle], anchors) or self.is_parted(links[middle:], anchors)
        return any(self.is_parted_pair(one, other) for one in links for other in anchors)

    def is_parted_pair(self, one: Link, other: Link) -> bool:
        """Whether fewer crashes than the best part two links, by a question about these two alone."""
        assert self.best is not None
        cut = None if set(one) & set(other) else self.cut_between([one, other])
        return cut is not None and self.is_better(cut)


def widest(
    graph: Graph[Node],
    report: Optional[Report[Node]] = None,
    known: Iterable[Node] = (),
    *,
    workers: Optional[int] = None,
    overlay: Optional[Program] = None,
    overlay_check: Optional[Program] = None,
    progress: Optional[Progress] = None,
) -> Optional[Wide[Node]]:
    """The fewest crashes that cut off more than one host, or None if none do: as when every two hosts are linked.
    `report` is that of the graph, if it is there, and `known` is a crash that may cut off more than one host.

    >>> triangles = [("a", "b"), ("b", "c"), ("c", "a"), ("d", "e"), ("e", "f"), ("f", "d")]
    >>> found = widest([*triangles, ("a", "d"), ("b", "e"), ("c", "leaf")])
    >>> found.crashed, found.cut_off, found.is_fewest
    (('a', 'b'), ('c', 'leaf'), True)
    """
    named: NamedGraph[Node] = graph if isinstance(graph, NamedGraph) else named_graph(graph)

    def ask(of: NamedGraph[Any], members: Optional[List[int]] = None) -> Report[Any]:
        return analysed(of, members, overlay=overlay, overlay_check=overlay_check)

    report = report or ask(named)
    search = Search(named, ask)
    search.is_better({named.ids[it] for it in known})
    search.is_better({named.ids[it] for it in report.cut})
    if search.best is None:
        search.count_pairs(report.k)
    if search.best is None:
        return None
    is_fewest = settle(search, report.k, workers or processors(), progress)
    at = len(search.best)
    return Wide(
        named.named(sorted(search.best)),
        named.named(cut_off_by(named, search.best)),
        is_fewest,
        at if is_fewest else report.k,
    )


def settle(search: Search, least: int, workers: int, progress: Optional[Progress]) -> bool:
    """Asks until the best crash is known to be the fewest, and answers whether that could be known."""
    while search.best is not None and len(search.best) > least:
        questions = questions_of(search)
        if questions is None:
            return False
        found = any(each_at_once(lambda it: search.is_parted(*it), questions, workers, "question", progress))
        if not found:
            return True
    return True


def questions_of(search: Search) -> Optional[List[Question]]:
    """What is to be asked, so that no crash with fewer than the best is left, or None if that is too much."""
    assert search.best is not None
    number = len(search.best)
    anchors = search.anchors(number)
    if all(len(it) == number for it in anchors):
        most = MOST_WORK // number
        if len(search.graph.ids) > USUAL_HOSTS:
            most = min(most, MOST_READ // len(search.graph.links))
        batches = search.batches(anchors, most - 1)
        return None if batches is None else [([], [link for them in anchors for link in them]), *batches]
    if len(search.graph.links) > MOST_LINKS:
        return None
    around = {link: search.around(*link) for link in search.graph.pairs}
    questions = []
    for one, other in itertools.combinations(around, 2):
        # links that share a host, or are linked, stay together; a host that is linked to both must crash
        is_apart = not set(one) & set(other) and around[one].isdisjoint(other)
        if is_apart and len(around[one] & around[other]) < number:
            questions.append(([one], [other]))
    return questions if len(questions) <= MOST_PAIRS else None
