"""Links of JSON that stand below a key which a person names, with the nodes that stand beside them."""

from __future__ import annotations

from typing import Any, Callable, Dict, List, Mapping, NamedTuple, Optional, Set, Tuple

from .asked import Asked
from .errors import BadDump
from .values import Said, at_path, name_of, said_of, short

# How a node that stands below a key is called.
Way = Callable[[str, Any], str]
# Deeper than this no key is looked for.
MOST_DEEP = 8


class Place(NamedTuple):
    """Where links stand: the object that has the key, and the list or object that stands below it."""

    around: Mapping[str, Any]
    inner: Any

    @property
    def items(self) -> List[Tuple[Optional[str], Any]]:
        """The values that stand there, and their keys if they have such."""
        return [*self.inner.items()] if isinstance(self.inner, dict) else [(None, it) for it in self.inner]


class Nodes(NamedTuple):
    """The nodes that stand beside links, and the list or object that has them."""

    listed: List[Node]
    inner: Any


class Node(NamedTuple):
    """A node that stands beside links: what their ends call it, its name, and what is said of it."""

    end: str
    name: str
    said: Said


def place_of(value: Any, key: str) -> Place:
    """Where links stand below a key: right there, below several keys with dots between, or in one place further in.

    >>> place_of({"net": {"channels": [1, 2]}}, "channels").inner
    [1, 2]
    """
    found: List[Place] = []
    try:
        inner, around = at_path(value, key), at_path(value, key.rpartition(".")[0]) if "." in key else value
        found.append(Place(around, inner))
    except KeyError:
        found += [Place(it, it[key]) for it in objects_in(value, MOST_DEEP) if key in it]
    if not found:
        raise BadDump(f"there is no key {key}, that --links asks for")
    if len(found) > 1:
        raise BadDump(f"the key {key} stands in {len(found)} places: say with dots which, as --links NET.{key}")
    if not isinstance(found[0].inner, (list, dict)):
        raise BadDump(f"below {key} stands no list of links: {short(found[0].inner)}")
    return found[0]


def objects_in(value: Any, deep: int) -> List[Dict[str, Any]]:
    """The objects in a value, and itself if it is one."""
    if not deep or not isinstance(value, (dict, list)):
        return []
    inner = list(value.values()) if isinstance(value, dict) else value
    return [value] * isinstance(value, dict) + [it for other in inner for it in objects_in(other, deep - 1)]


def nodes_beside(place: Place, ends: Set[str], asked: Asked) -> Nodes:
    """The nodes that stand beside links: a list, or an object, with all ends of the links in one of its fields. None if
    nothing is such a list, so that there are no nodes but the ends."""
    for inner in place.around.values():
        if inner is place.inner or not isinstance(inner, (list, dict)) or not inner:
            continue
        nodes = [(key, it) for key, it in inner.items()] if isinstance(inner, dict) else [("", it) for it in inner]
        for field, end in ways_of(nodes):
            called = [end(key, it) for key, it in nodes]
            if ends <= set(called) and len(set(called)) == len(nodes):
                return Nodes([named(call, it, asked, field) for call, (_, it) in zip(called, nodes)], inner)
    return Nodes([], None)


def ways_of(nodes: List[Tuple[str, Any]]) -> List[Tuple[str, Way]]:
    """The ways in which nodes may be called by ends of links: by key, as they are, or by a field of the first, which is
    told."""
    first = nodes[0][1]
    ways: List[Tuple[str, Way]] = [("", lambda key, it: key or (it if isinstance(it, str) else ""))]
    return ways + [(field, called_by(field)) for field in (said_of(first) if isinstance(first, dict) else ())]


def called_by(field: str) -> Callable[[str, Any], str]:
    """How a node is called by one of its fields."""
    return lambda key, it: str(said_of(it).get(field, "")) if isinstance(it, dict) else ""


def named(end: str, node: Any, asked: Asked, field: str) -> Node:
    """A node by the field that is asked for, or as ends of links call it, by a field or by a key."""
    if isinstance(node, dict):
        said = said_of(node, field)
    else:
        said = said_of({"value": node}) if node not in (None, end) else {}
    return Node(end, name_of(node, asked.by) if asked.by else end, said)
