"""What each single crash does to an overlay, of a host or of a rack: `each`."""

from __future__ import annotations

import itertools
from dataclasses import dataclass
from functools import partial
from typing import Any, Dict, Generic, Iterable, Iterator, List, Mapping, Optional, Sequence, Set, Tuple

from .bits import Bits, Hosts
from .bounds import Number, number_in, numbers_after, numbers_after_two
from .errors import BadGraph
from .graphs import Graph, NamedGraph, Node, named_graph
from .limits import USUAL_HOSTS
from .programs import Program
from .progress import Progress, processors
from .racks import ids_of_rack
from .reports import Report, analysed

# Every two of so many hosts or racks at most are crashed together.
MOST_PAIRED = 400


@dataclass(frozen=True)
class Crash(Generic[Node]):
    """What the crash of a host or a rack does: `name`, that of the host or the rack, and the hosts that it has.

    `k` is how few further crashes of hosts split what is left, and `is_linked` says that none do, as every two hosts
    that are left are linked. `k` is None if no host is left. That no fewer crashes do was confirmed by overlay-check,
    of the rest or of graphs that tell of it (`tagzirk/bounds.py` has the argument). `cut_off` has the hosts that no
    longer reach the largest connected component, in the order of their ids. Of a large overlay `k` is None too where
    too many crashes would be asked about: then fewer than `at_least` crashes split nothing.
    """

    name: Any
    hosts: Tuple[Node, ...]
    k: Optional[int]
    is_linked: bool
    cut_off: Sequence[Node]
    at_least: Optional[int] = None


class CutOff(Sequence[Node]):
    """The names of the hosts that a crash cuts off, as `graph.named` has them. They are looked for when somebody looks
    at them, since of a large overlay many crashes may cut off thousands each; how many they are is known."""

    def __init__(self, graph: NamedGraph[Node], crashed: Hosts) -> None:
        self.graph, self.crashed = graph, crashed
        self.number = graph.bits.number_cut_off(crashed)

    @property
    def names(self) -> Tuple[Node, ...]:
        """All of them."""
        bits = self.graph.bits
        return self.graph.named(bits.ids(bits.cut_off(self.crashed)))

    def __len__(self) -> int:
        return self.number

    def __iter__(self) -> Iterator[Node]:
        return iter(self.names)

    def __getitem__(self, at: Any) -> Any:
        return self.names[at]

    def __eq__(self, other: object) -> bool:
        return isinstance(other, (tuple, CutOff)) and len(self) == len(other) and self.names == tuple(other)


def cut_off_by(graph: NamedGraph[Node], crashed: Set[int]) -> List[int]:
    """Who no longer reaches the largest connected component that a crash leaves, or the first of the largest ones."""
    pieces = graph.pieces(crashed)
    largest: List[int] = max(pieces, key=len, default=[])
    return sorted(host for piece in pieces if piece is not largest for host in piece)


def each(
    graph: Graph[Node],
    racks: Optional[Mapping[Any, Iterable[Node]]] = None,
    report: Optional[Report[Node]] = None,
    *,
    is_of_pairs: bool = False,
    workers: Optional[int] = None,
    overlay: Optional[Program] = None,
    overlay_check: Optional[Program] = None,
    progress: Optional[Progress] = None,
) -> List[Crash[Node]]:
    """What each single crash does, the worst first: who cuts off most hosts, then who leaves the lowest `k`.

    Without `racks` each host crashes by itself. `racks` has the hosts of each rack; then all hosts of a rack crash at
    once, and `k` still counts hosts. If `is_of_pairs`, every two hosts or racks crash together, and `name` has both
    names. `report` is that of the graph, if it is there.

    >>> worst = each([("a", "b"), ("b", "c"), ("c", "d"), ("d", "b")])[0]
    >>> worst.name, worst.k, worst.cut_off
    ('b', 0, ('a',))
    >>> [(it.name, it.k) for it in each([("a", "b"), ("b", "c"), ("c", "a")], racks={"R1": ["a", "b"]})]
    [('R1', 0)]
    """
    named: NamedGraph[Node] = graph if isinstance(graph, NamedGraph) else named_graph(graph)
    ask = partial(analysed, overlay=overlay, overlay_check=overlay_check)
    bits, numbers = named.bits, {}  # type: Bits, Dict[Hosts, Number]
    crashes = crashes_of(named, bits, racks)
    base, at_once = number_in(report or ask(named)), workers or processors()
    if is_of_pairs:
        demand_few_pairs(crashes)
        if racks is None:
            singles = numbers_after(named, base, left_by(crashes, bits), ask, at_once, progress)
            numbers = numbers_after_two(named, singles, ask, at_once, progress)
        crashes = [((a, b), one | other) for (a, one), (b, other) in itertools.combinations(crashes, 2)]
    if not numbers:
        numbers = numbers_after(named, base, left_by(crashes, bits), ask, at_once, progress)
    return sorted((crash_of(name, hosts, numbers.get(hosts), bits, named) for name, hosts in crashes), key=badness)


def crashes_of(
    graph: NamedGraph[Node], bits: Bits, racks: Optional[Mapping[Any, Iterable[Node]]]
) -> List[Tuple[Any, Hosts]]:
    """The crashes that are asked about: of each host, or of each rack."""
    if racks is None:
        return [(name, bits.of([host])) for name, host in graph.ids.items()]
    return [(rack, bits.of(ids_of_rack(graph, rack, hosts))) for rack, hosts in racks.items()]


def crash_of(
    name: Any, hosts: Hosts, number: Optional[Number], bits: Bits, graph: NamedGraph[Node]
) -> Crash[Node]:
    """A crash, and what it does: the number of what is left, if a host is."""
    # where k is above 0 all that are left are joined
    is_known = number is not None and number.is_known
    is_split = number is not None and is_known and number.k == 0 and not number.is_linked
    cut_off = away_after(hosts, bits, graph) if is_split else ()
    return Crash(
        name,
        graph.named(bits.ids(hosts)),
        number.k if number and is_known else None,
        number is not None and number.is_linked,
        cut_off,
        number.k if number and not is_known else None,
    )


def away_after(hosts: Hosts, bits: Bits, graph: NamedGraph[Node]) -> Sequence[Node]:
    """Who no longer reaches the largest connected component. In a large overlay they are looked for when somebody looks
    at them."""
    away = CutOff(graph, hosts)
    return away if len(bits.nodes) > USUAL_HOSTS else away.names


def left_by(crashes: Sequence[Tuple[Any, Hosts]], bits: Bits) -> List[Hosts]:
    """The hosts of those crashes that leave a host, each once."""
    return list(dict.fromkeys(hosts for _, hosts in crashes if hosts != bits.all))


def demand_few_pairs(crashes: Sequence[Tuple[Any, Hosts]]) -> None:
    """Refuses more pairs than a minute is enough for."""
    if len(crashes) > MOST_PAIRED:
        raise BadGraph(
            f"every two of {len(crashes)} are too many pairs: pairs are tried of {MOST_PAIRED} hosts or racks at most"
        )


def badness(crash: Crash[Any]) -> Tuple[int, bool, int]:
    """Where a crash stands among others, the worst first."""
    known = crash.at_least if crash.k is None else crash.k
    return -len(crash.cut_off), crash.is_linked, -1 if known is None else known
