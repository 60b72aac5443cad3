"""Hosts that crash at once, as those of a rack: who they are, and the fewest racks whose loss splits an overlay."""

from __future__ import annotations

import csv
import itertools
import json
import math
from dataclasses import dataclass
from typing import Any, Dict, Generic, Iterable, Iterator, List, Mapping, Optional, Set, Tuple

from .bits import Hosts
from .errors import BadDump, BadGraph
from .graphs import NamedGraph, Node, is_name, shown
from .json_files import parsed
from .limits import USUAL_HOSTS
from .progress import Progress

# So many racks at most are lost at once, and so many sets of racks are tried.
MOST_RACKS, MOST_SETS = 3, 200_000
# Of a large overlay several racks at once are lost only where so many hosts are looked at in all.
MOST_READ = 40_000_000


@dataclass(frozen=True)
class Loss(Generic[Node]):
    """The fewest racks whose loss leaves hosts that don't reach each other. `racks` are those that cut off most; whom
    they strike is in `crashed`, and who no longer reaches the largest connected component in `cut_off`. `number` is how
    many sets of so many racks split the overlay. If no racks do, `racks` is None; no `tried` racks at once were found
    to, by trying all."""

    racks: Optional[Tuple[Any, ...]]
    crashed: Tuple[Node, ...]
    cut_off: Tuple[Node, ...]
    number: int
    tried: int


def fewest_racks(
    graph: NamedGraph[Node], racks: Mapping[Any, Iterable[Node]], progress: Optional[Progress] = None
) -> Loss[Node]:
    """The fewest racks whose loss splits an overlay, by trying all: none, each, every two, and every three.

    >>> from tagzirk.graphs import named_graph
    >>> ring = named_graph([("a", "b"), ("b", "c"), ("c", "d"), ("d", "e"), ("e", "a")])
    >>> fewest_racks(ring, {"R1": ["a"], "R2": ["b"], "R3": ["d", "e"], "R4": ["c"]})
    Loss(racks=('R1', 'R4'), crashed=('a', 'c'), cut_off=('b',), number=2, tried=2)
    """
    bits = graph.bits
    groups = [(rack, bits.of(ids_of_rack(graph, rack, hosts))) for rack, hosts in racks.items()]
    tried = -1
    for number in range(min(MOST_RACKS, len(groups)) + 1):
        sets = math.comb(len(groups), number)
        if sets > MOST_SETS or number > 1 and len(bits.nodes) > USUAL_HOSTS and sets * len(bits.nodes) > MOST_READ:
            break
        ones, others = itertools.tee(sets_of(groups, number, progress))
        lost = [it for it, is_split in zip(ones, bits.split_by(crashed for _, crashed in others)) if is_split]
        tried = number
        if lost:
            bits.count_cut_off(crashed for _, crashed in lost)
            them, crashed = max(lost, key=lambda it: bits.number_cut_off(it[1]))
            struck, cut_off = (graph.named(bits.ids(of)) for of in (crashed, bits.cut_off(crashed)))
            return Loss(them, struck, cut_off, len(lost), tried)
    return Loss(None, (), (), 0, tried)


def sets_of(
    groups: List[Tuple[Any, Hosts]], number: int, progress: Optional[Progress]
) -> Iterable[Tuple[Tuple[Any, ...], Hosts]]:
    """Every so many racks, with all their hosts."""
    for at, them in enumerate(itertools.combinations(groups, number), 1):
        hosts = 0
        for _, of_rack in them:
            hosts |= of_rack
        if progress:
            progress.tell(f"every {number} racks: {at}")
        yield tuple(rack for rack, _ in them), hosts


def ids_of_rack(graph: NamedGraph[Any], rack: Any, hosts: Iterable[Any]) -> Set[int]:
    """The ids of the hosts of a rack."""
    found = set()
    for host in hosts:
        if not is_name(host) or host not in graph.ids:
            raise BadGraph(f"the rack {shown(rack)} has {shown(host)}, which is no host of the overlay")
        found.add(graph.ids[host])
    return found


def racks_of(text: str, name: str) -> Dict[str, List[str]]:
    """The hosts of each rack, by a file: lines `HOST RACK`, or with a comma or a tab between; or a JSON object, of each
    rack's list of hosts or of each host's rack.

    >>> racks_of("oslo-1 R1\\noslo-2 R1\\nberlin-1 R2\\n", "racks")
    {'R1': ['oslo-1', 'oslo-2'], 'R2': ['berlin-1']}
    >>> racks_of('{"R1": ["oslo-1"], "oslo-2": "R1"}', "racks")
    {'R1': ['oslo-1', 'oslo-2']}
    """
    pairs = pairs_of_json(text, name) if text.lstrip().startswith("{") else pairs_of_lines(text, name)
    racks: Dict[str, List[str]] = {}
    for host, rack in pairs:
        racks.setdefault(rack, []).append(host)
    return racks


def pairs_of_json(text: str, name: str) -> Iterator[Tuple[str, str]]:
    """Each host with its rack, by a JSON object."""
    try:
        said = parsed(text)
    except json.JSONDecodeError as why:
        raise BadDump(f"{name}: line {why.lineno}: it is no JSON: {why.msg}") from None
    except BadDump as why:
        raise BadDump(f"{name}: {why}") from None
    for key, value in said.items():
        for it in value if isinstance(value, list) else [value]:
            if not isinstance(it, (str, int)) or isinstance(it, bool):
                raise BadDump(f"{name}: {shown(key)} should have a list of hosts, or be a host with its rack")
            yield (str(it), key) if isinstance(value, list) else (key, str(it))


def pairs_of_lines(text: str, name: str) -> Iterator[Tuple[str, str]]:
    """Each host with its rack, by lines of both."""
    for number, line in enumerate(text.splitlines(), 1):
        bare = line.strip()
        if not bare or bare.startswith("#"):
            continue
        between = next((it for it in "\t;," if it in bare), None)
        try:
            cells = next(csv.reader([bare], delimiter=between, strict=True)) if between else bare.split()
        except csv.Error as why:
            raise BadDump(f"{name}: line {number} is no row of a table: {why}") from None
        words = [it.strip() for it in cells]
        if len(words) != 2 or not all(words):
            raise BadDump(f"{name}: line {number} is no host with its rack: {shown(bare[:200])}")
        yield words[0], words[1]
