"""Graphs as callers have them, with names for nodes, and as the programs read them, with ids."""

from __future__ import annotations

import re
import warnings
from dataclasses import dataclass
from functools import cached_property, lru_cache
from typing import (AbstractSet, Any, Dict, Generic, Hashable, Iterable, List, Mapping, Optional, Sequence, Set, Tuple,
                    TypeVar, Union, cast)

from .bits import Bits
from .errors import BadGraph, ViewsDiffer
from .limits import MOST_HOSTS, USUAL_HOSTS

Node = TypeVar("Node", bound=Hashable)
# A networkx graph is not named, since networkx need not be there.
Graph = Union[Any, Iterable[Sequence[Node]], Mapping[Node, Iterable[Node]]]

MOST_ID = 2**32 - 1
# By this number, modulo 32,768, the key of each place goes on from that before, where the ids of nodes are scattered.
SCATTER = 20251
# How many names, or listings, a message tells at most.
MOST_TOLD = 10
# Control characters, and halves of surrogate pairs, which a graph file shows as codes; and what a person does not see,
# or what lets a text look like another one: spaces without width, what turns the direction of text, ends of lines.
CONTROLS = "\0-\x1f\x7f-\x9f\ud800-\udfff"
OF_FILES = re.compile(f"[{CONTROLS}]")
CODES = re.compile(r"\\u\{(?:(5c)(?=\}u\{)|([0-9a-f]{1,4}))\}")
UNSHOWN = re.compile(f"[{CONTROLS}\u061c\u200b\u200e\u200f\u2028-\u202e\u2060-\u206f\ufeff]")


def in_file(name: Any) -> str:
    """A name as one line, as `overlay import` writes it: control characters, and a backslash before `u{`, as codes. So
    are halves of surrogate pairs, which UTF-8 has not."""
    return as_line(str(name))


# One graph is written again and again, of at most so many hosts.
@lru_cache(maxsize=MOST_HOSTS)
def as_line(text: str) -> str:
    """The same of a text."""
    return OF_FILES.sub(code, text.replace("\\u{", "\\u{5c}u{"))


def of_file(text: str) -> str:
    """The name that stands in a graph file as one line.

    >>> of_file("a\\\\u{a}b") == "a\\nb", print(of_file(in_file("a\\\\u{a}")), of_file("\\\\u{41}"))
    a\\u{a} \\u{41}
    (True, None)
    """
    return CODES.sub(of_code, text) if "\\u{" in text else text


def of_code(found: "re.Match[str]") -> str:
    """The character of a code, if names have such in graph files."""
    sign = chr(int(found[1] or found[2], 16))
    return sign if found[1] or OF_FILES.match(sign) else found[0]


def shown(name: Any) -> str:
    """A name as a person is shown it: as in a graph file, and what is not seen as codes too.

    >>> print(shown("a\\nb"), shown("a\\\\u{a}b"), shown("oslo\\u202e1-"))
    a\\u{a}b a\\u{5c}u{a}b oslo\\u{202e}1-
    """
    return in_line(in_file(name))


def in_line(text: str) -> str:
    """A text in which names are shown already, with what is not seen as codes.

    >>> print(in_line(shown("a\\nb") + ", c\\n"))
    a\\u{a}b, c\\u{a}
    """
    return UNSHOWN.sub(code, text)


def code(found: "re.Match[str]") -> str:
    """A character as its code."""
    return f"\\u{{{ord(found[0]):x}}}"


@dataclass(frozen=True)
class NamedGraph(Generic[Node]):
    """A graph with the caller's names: the id of each node, and the links by ids. Each link goes from a lower id to a
    higher one, and they ascend."""

    ids: Dict[Node, int]
    links: List[List[int]]

    @cached_property
    def names(self) -> Dict[int, Node]:
        """The name that each id has."""
        return {place: name for name, place in self.ids.items()}

    def named(self, ids: Iterable[int]) -> Tuple[Node, ...]:
        """The names of these nodes: of a large graph, whose ids are scattered, in the order of names if all are texts,
        and else in the order in which they are given."""
        names: List[Any] = [self.names[it] for it in ids]
        if len(self.ids) > USUAL_HOSTS and all(isinstance(it, str) for it in names):
            names.sort()
        return tuple(names)

    @property
    def nodes(self) -> List[int]:
        """The ids of all nodes, ascending."""
        return sorted(self.ids.values())

    @property
    def text(self) -> str:
        """The graph as a graph file, without names."""
        return "".join([*(f"node {a}\n" for a in self.nodes), self._link_lines])

    @property
    def text_with_names(self) -> str:
        """The graph as a graph file, with a comment before the line of each node, which names it.

        >>> print(named_graph([("b", "a")]).text_with_names, end="")
        # 1 a
        node 1
        # 2 b
        node 2
        link 1 2
        """
        names = self.names
        nodes = (f"# {a} {in_file(names[a])}\nnode {a}\n" for a in self.nodes)
        return "".join([*nodes, self._link_lines])

    @cached_property
    def _link_lines(self) -> str:
        return "".join([f"link {a} {b}\n" for a, b in self.links])

    @property
    def pairs(self) -> List[Tuple[int, int]]:
        """The links as pairs of ids."""
        return [(a, b) for a, b in self.links]

    @cached_property
    def peers(self) -> Dict[int, Set[int]]:
        """The ids of the nodes that each node is linked to."""
        peers: Dict[int, Set[int]] = {place: set() for place in self.nodes}
        for a, b in self.links:
            peers[a].add(b)
            peers[b].add(a)
        return peers

    @cached_property
    def bits(self) -> Bits:
        """The graph by sets of hosts."""
        return Bits(self)

    def without(self, crashed: AbstractSet[int]) -> NamedGraph[Node]:
        """The graph that a crash of these nodes leaves, with the same ids."""
        ids = {name: place for name, place in self.ids.items() if place not in crashed}
        return NamedGraph(ids, [link for link in self.links if crashed.isdisjoint(link)])

    def with_links(self, added: Iterable[Tuple[int, int]]) -> NamedGraph[Node]:
        """The graph with further links between its nodes."""
        pairs = sorted({*self.pairs, *((min(it), max(it)) for it in added)})
        return NamedGraph(self.ids, [[a, b] for a, b in pairs])

    def links_as(self, node: Mapping[int, int]) -> List[List[int]]:
        """The links, where each node is that for which it stands.

        >>> named_graph([(1, 2), (2, 3), (3, 4)]).links_as({1: 1, 2: 1, 3: 3, 4: 1})
        [[1, 3]]
        """
        pairs = ((node[a], node[b]) for a, b in self.links)
        return [list(it) for it in sorted({(a, b) if a < b else (b, a) for a, b in pairs if a != b})]

    def pieces(self, crashed: AbstractSet[int] = frozenset()) -> List[List[int]]:
        """The connected components that a crash of these nodes leaves, in the order of their lowest ids.

        >>> named_graph([(1, 2), (2, 3), (3, 4)]).pieces({2})
        [[1], [3, 4]]
        """
        seen, pieces = set(crashed), []
        for start in self.nodes:
            if start in seen:
                continue
            piece, more = [start], [start]
            seen.add(start)
            while more:
                found = self.peers[more.pop()] - seen
                seen |= found
                piece += found
                more += found
            pieces.append(sorted(piece))
        return pieces

    def members(self, group: Optional[Iterable[Node]]) -> Optional[List[int]]:
        """The ids of a group, ascending. None is all nodes."""
        if group is None:
            return None
        if isinstance(group, (str, bytes)):
            raise BadGraph(f"a group is a collection of nodes, and not a text: {group!r}")
        members = set()
        for name in group:
            if not is_name(name) or name not in self.ids:
                raise BadGraph(f"the group has {name!r}, which is no node of the graph")
            members.add(self.ids[name])
        if not members:
            raise BadGraph("the group has no members")
        return sorted(members)


def is_name(name: Any) -> bool:
    try:
        hash(name)
    except TypeError:
        return False
    return True


def in_order(names: Iterable[Node]) -> List[Node]:
    """These names, each once: in the order of their bytes in UTF-8 if all are texts, and else as they are given."""
    different = list(dict.fromkeys(names))
    if all(isinstance(name, str) for name in different):
        different.sort(key=lambda name: cast(str, name).encode(errors="surrogatepass"))
    return different


def ids_of_places(number: int) -> List[int]:
    """The ids of so many nodes by their places, as `overlay import` gives them: 1, 2, 3, .., and of more than 1,024
    nodes in the order of keys that are scattered. So names that follow each other have ids far apart, and what is
    near each other by name, and often by links, does not come one after the other in an analysis.

    >>> ids_of_places(3), ids_of_places(1025)[:4]
    ([1, 2, 3], [1, 634, 243, 876])
    """
    if number <= USUAL_HOSTS:
        return [*range(1, number + 1)]
    ids = [0] * number
    for at, place in enumerate(sorted(range(number), key=lambda it: it * SCATTER % MOST_HOSTS), 1):
        ids[place] = at
    return ids


def numbered(names: Iterable[Node], pairs: Iterable[Tuple[Node, Node]]) -> NamedGraph[Node]:
    """A graph of these nodes and links. Its ids are the names, if all of these are ids, and else those of their places:
    in the order of the bytes of names in UTF-8 if all are texts, as `overlay import` has it, and else as they are
    given. A link of a name to itself is passed over."""
    names = in_order(names)
    if all(type(name) is int and 0 <= name <= MOST_ID for name in names):
        ids: Dict[Node, int] = {name: name for name in names}  # type: ignore[misc]
    else:
        ids = dict(zip(names, ids_of_places(len(names))))
    links: Set[Tuple[int, int]] = set()
    for one, other in pairs:
        a, b = sorted((ids[one], ids[other]))
        if a < b:
            links.add((a, b))
    return NamedGraph(ids, [list(link) for link in sorted(links)])


def warn(notes: Sequence[str]) -> None:
    """Warns of what should be known of a graph, if there is something."""
    if notes:
        # it is told of the line that calls `analyse`, which calls `named_graph`, which calls who calls this
        warnings.warn("\n".join(notes), ViewsDiffer, stacklevel=5)


def of_networkx(graph: Any) -> NamedGraph[Any]:
    if graph.is_directed():
        raise BadGraph("the graph is directed: give graph.to_undirected(reciprocal=True) if a link needs both "
                       "directions, and graph.to_undirected() if one is enough")
    edges = [(edge[0], edge[1]) for edge in graph.edges()]
    warn(notes_of_loops(edges))
    return numbered(graph.nodes(), edges)


def of_views(views: Mapping[Node, Iterable[Node]]) -> NamedGraph[Node]:
    peers: Dict[Node, Dict[Node, None]] = {}
    for name, view in views.items():
        if isinstance(view, (str, bytes)):
            raise BadGraph(f"a view is a collection of nodes, and that of {name!r} is a text: {view!r}")
        try:
            peers[name] = dict.fromkeys(view)
        except TypeError:
            raise BadGraph(f"the view of {name!r} is no collection of names: {view!r}") from None
    graph = numbered(peers, ((a, b) for a, view in peers.items() for b in view if a in peers.get(b, ())))
    warn([*notes_of(peers), *notes_of_loops((a, b) for a, view in peers.items() for b in view)])
    return graph


def notes_of(peers: Mapping[Node, Mapping[Node, None]]) -> List[str]:
    """What should be known of views, in the words of `overlay import --entries`: how many listings the other end does
    not answer, and how many names are listed and have no view; the first ten of each. Names are shown as in a graph
    file, so a backslash before `u{` is shown as a code too."""
    alone = [(a, b) for a, view in peers.items() for b in view if a not in peers.get(b, ())]
    gone = in_order(b for _, b in alone if b not in peers)
    notes = [f"listed by one end only: {len(alone)}"] if alone else []
    for one, other in alone[:MOST_TOLD]:
        a, b = shown(one), shown(other)
        notes.append(f"{a} lists {b}, and {b} does not list {a}")
    notes += [f"listed without an entry: {len(gone)}"] if gone else []
    return notes + [f"{shown(name)} is listed and has no entry" for name in gone[:MOST_TOLD]]


def notes_of_loops(pairs: Iterable[Tuple[Any, Any]]) -> List[str]:
    """How many names list themselves, and the first ten, in the words of `overlay import`."""
    names = in_order(one for one, other in pairs if one == other)
    if not names:
        return []
    told = [f"{shown(name)} lists itself" for name in names[:MOST_TOLD]]
    return [f"lists itself: {len(names)}", *told, "a link of a name to itself is passed over"]


def of_edges(edges: Iterable[Sequence[Node]]) -> NamedGraph[Node]:
    pairs = []
    for edge in edges:
        ends = () if isinstance(edge, (str, bytes)) else tuple(edge) if isinstance(edge, Iterable) else ()
        if len(ends) != 2 or not all(map(is_name, ends)):
            raise BadGraph(f"an edge is a pair of names, and this is none: {edge!r}")
        pairs.append((ends[0], ends[1]))
    warn(notes_of_loops(pairs))
    return numbered((name for pair in pairs for name in pair), pairs)


def named_graph(graph: Graph[Any]) -> NamedGraph[Any]:
    """The graph that a caller gives: a networkx graph, a dict of views, or a list of edges.

    >>> named_graph({"c": [], "b": ["a"], "a": ["b"]}).text.splitlines()
    ['node 1', 'node 2', 'node 3', 'link 1 2']
    >>> named_graph([(7, 5), (5, 7), (5, 9)]).text.splitlines()
    ['node 5', 'node 7', 'node 9', 'link 5 7', 'link 5 9']
    """
    if all(hasattr(graph, part) for part in ("nodes", "edges", "is_directed")):
        return of_networkx(graph)
    if isinstance(graph, Mapping):
        return of_views(graph)
    if isinstance(graph, Iterable) and not isinstance(graph, (str, bytes)):
        return of_edges(graph)
    raise BadGraph(f"a graph is a networkx graph, a dict of views or a list of edges, and not {type(graph).__name__}")
