"""Dumps that are JSON, or another text that says values as JSON does: the shapes in which links stand in it."""

from __future__ import annotations

from typing import Any, Dict, List, NamedTuple, Optional, Set, Tuple

from .asked import Asked
from .errors import BadDump
from .hosts import Entry, enter_all, peers_as_text
from .leftovers import Used, take_leftovers
from .linked import MOST_DEEP, nodes_beside, objects_in, place_of, ways_of
from .matrices import LEAST_ROWS, Matrix, matrix_graph
from .values import (
    LINK_ENDS,
    LISTING_ENDS,
    NAME_KEYS,
    PEER_KEYS,
    Said,
    Views,
    at_path,
    both,
    is_list_of_names,
    is_yes,
    item_of,
    key_in,
    name_of,
    naming_keys,
    naming_part,
    one_of,
    said_of,
    short,
)
from .written import LIST, Written, way_of, way_of_ends

# What the links of a graph of nodes and links are called.
LINK_KEYS = ("links", "edges")
GRAPH_KEYS = (*LINK_KEYS, "adjacency")
# Keys of each graph that Graphviz writes as JSON. Its ends are numbers, and clusters stand among its nodes.
OF_GRAPHVIZ = {"_subgraph_cnt", "directed", "strict"}


class Ends(NamedTuple):
    """Both ends of a link that a value says, or a host and a peer that it lists; what stands beside them, and how it is
    written."""

    one: Any
    other: Any
    is_listing: bool
    said: Said
    way: str


def ends_in(value: Any, asked: Asked = Asked()) -> Optional[Ends]:
    """Both ends that an object says, by the fields that are asked for or by those that are known.

    >>> ends_in({"source": "a", "target": "b", "state": "up"})
    Ends(one='a', other='b', is_listing=False, said={'state': 'up'}, way='source and target')
    """
    if not isinstance(value, dict):
        return None
    found = ends_of(value, {}, asked)
    if not found and isinstance(value.get("data"), dict):
        found = ends_of(value["data"], said_of(value, "data"), asked, is_below=True)
    return found


def ends_of(inner: Dict[str, Any], around: Said, asked: Asked, is_below: bool = False) -> Optional[Ends]:
    """Both ends that an object says, with what is said around it."""
    for one, other in asked_ends(asked) or LINK_ENDS:
        try:
            ends = at_path(inner, one), at_path(inner, other)
        except KeyError:
            continue
        said = said_of(inner, one, other)
        for field, end in zip((one, other), ends):
            beside = said_of(end, key_in(end, ("id", *NAME_KEYS)) or "") if isinstance(end, dict) else {}
            said.update((f"{field}.{key}", it) for key, it in beside.items())
        return Ends(*ends, False, both(around, said), way_of_ends((one, other), ends, is_below))
    if not asked.columns and not key_in(inner, PEER_KEYS):
        for one, other in LISTING_ENDS:
            if isinstance(inner.get(one), (str, int)) and isinstance(inner.get(other), (str, int)):
                way = way_of_ends((one, other), (inner[one], inner[other]), is_below)
                return Ends(inner[one], inner[other], True, both(around, said_of(inner, one, other)), way)
    return None


def asked_ends(asked: Asked) -> Tuple[Tuple[str, str], ...]:
    """The two fields of ends that are asked for, if any."""
    if not asked.columns:
        return ()
    names = tuple(it.strip() for it in asked.columns.split(","))
    if len(names) != 2:
        raise BadDump(f"--columns takes two fields of a link, FROM,TO, and not {asked.columns}")
    return ((names[0], names[1]),)


def is_views(value: Any) -> bool:
    """Whether `overlay import --views` reads it: an object of lists, or of nothing. One that has nodes and links is
    no such object, nor one that has nodes alone."""
    if not isinstance(value, dict) or "nodes" in value and (key_in(value, GRAPH_KEYS) or len(value) == 1):
        return False
    return all(it is None or is_list_of_names(it) for it in value.values())


def views_of(value: Any, asked: Asked = Asked()) -> Views:
    """What hosts list by a JSON value, in any form but that of `overlay import --views`.

    >>> views_of({"a": {"peers": ["b"], "port": 655}, "b": {"peers": ["a"]}}).value
    {'a': ['b'], 'b': ['a']}
    >>> graph = views_of({"nodes": [{"id": "a"}, {"id": "b"}], "links": [{"source": "a", "target": "b"}]})
    >>> graph.kind, graph.value
    ('a graph of nodes and links', {'a': ['b'], 'b': ['a']})
    """
    if isinstance(value, dict) and OF_GRAPHVIZ <= set(value):
        raise BadDump("it is what `dot -Tjson` writes: give the DOT that it was made of, or what `dot -Tplain` writes")
    demand_there(value, asked)
    views, used = read_in(value, asked)
    take_leftovers(views, value, used)
    return views


def read_in(value: Any, asked: Asked) -> Tuple[Views, Used]:
    """The same, and which parts of the value say it."""
    if asked.links:
        return of_links_below(value, asked)
    if isinstance(value, dict):
        return of_object(value, asked)
    if isinstance(value, list):
        return of_list(value, asked)
    raise BadDump(f"{short(value)} is no dump: an object or a list should stand here")


def demand_there(value: Any, asked: Asked) -> None:
    """Refuses a field that is asked for and that no object has."""
    columns = [("--columns", it) for ends in asked_ends(asked) for it in ends]
    names = [("--by", it) for it in naming_keys(asked.by)] if asked.by else []
    wanted = [(option, it) for option, it in (*names, ("--peers", asked.peers), *columns) if it]
    objects = objects_in(value, MOST_DEEP) if wanted else []
    for option, field in wanted:
        if not any(has_path(it, field) for it in objects):
            there = list(dict.fromkeys(key for it in objects for key in it))
            raise BadDump(f"no object has the field {field}, that {option} asks for; there are {', '.join(there[:12])}")


def has_path(value: Any, path: str) -> bool:
    """Whether something stands below a key, or below several with dots between."""
    try:
        at_path(value, path)
    except KeyError:
        return False
    return True


def of_object(value: Dict[str, Any], asked: Asked) -> Tuple[Views, Used]:
    if value.get("type") == "NetworkCollection":
        collection = value.get("collection")
        listed = collection if isinstance(collection, list) else []
        graphs = [it for it in listed if isinstance(it, dict) and it.get("type") == "NetworkGraph"]
        if len(graphs) != 1:
            raise BadDump(f"the collection has {len(graphs)} graphs: give a file of one")
        return of_object(graphs[0], asked)
    for inner in (value.get("graph"), value.get("elements")):
        if isinstance(inner, dict) and "nodes" in inner or inner is value.get("elements") and isinstance(inner, list):
            return read_in(inner, asked)
    if says_graph(value):
        return of_graph(value, asked)
    around = key_around(value, asked)
    if around:
        hosts, used = read_in(value[around], asked)
        hosts.kind += f", below {around}"
        return hosts, used
    views = Views("objects with peers")
    enter_all(views, [Entry(name, entry) for name, entry in value.items()], asked)
    return views, Used([value])


def says_graph(value: Any) -> bool:
    """Whether an object has nodes and links."""
    return isinstance(value, dict) and "nodes" in value and key_in(value, GRAPH_KEYS) is not None


def says_links(key: str, inner: Any) -> bool:
    """Whether what stands below a key says links of several hosts: hosts with their peers, links, or a graph of nodes
    and links. A list of the peers of the one host that the key names does not."""
    if says_graph(inner):
        return True
    if has_peers(inner):
        return False
    items = list(inner.values()) if isinstance(inner, dict) else inner if isinstance(inner, list) else []
    if isinstance(inner, list) and key in LINK_KEYS and inner and all(map(is_pair, inner)):
        return True
    if key in PEER_KEYS:
        return isinstance(inner, list) and any(ends_in(it) for it in items)
    return any(ends_in(it) or has_peers(it) for it in items)


def has_peers(value: Any) -> bool:
    """Whether it is an object that says the peers of a host."""
    key = key_in(value, PEER_KEYS) if isinstance(value, dict) else None
    return key is not None and isinstance(value[key], (dict, list))


def key_around(value: Dict[str, Any], asked: Asked = Asked(), deep: int = MOST_DEEP) -> Optional[str]:
    """The one key below which all hosts or links stand, which names no host, then. None if each key names a host.
    Refused is what says who is there and nobody's peers, as far as one knows.

    >>> key_around({"taken": "09:00", "hosts": [{"name": "a", "peers": ["b"]}, {"name": "b", "peers": ["a"]}]})
    'hosts'
    >>> key_around({"a": {"peers": ["b"]}, "b": {"peers": ["a"]}}) is None
    True
    """
    nested = [key for key, inner in value.items() if isinstance(inner, (dict, list))]
    around = next((key for key in nested if says_links(key, value[key])), None)
    if around and len(nested) > 1:
        beside = next(key for key in nested if key != around)
        raise BadDump(f"below {around} stand hosts or links, and {beside} stands beside it: say --links {around}")
    inner = value[nested[0]] if len(nested) == 1 and not around else None
    if inner and asked.peers and any(has_path(it, asked.peers) for it in inner if isinstance(inner, list)):
        return nested[0]
    if isinstance(inner, dict) and deep and not has_peers(inner) and key_around(inner, asked, deep - 1):
        return nested[0]
    is_of_objects = isinstance(inner, list) and bool(inner) and all(isinstance(it, dict) for it in inner)
    told = next(filter(None, map(peers_as_text, inner or ())), None) if is_of_objects else None
    if told:
        raise BadDump(f"below {nested[0]}, {told}")
    if inner is not None and nested[0] == "nodes":
        raise BadDump(f"it has nodes, and neither {one_of(GRAPH_KEYS)}, nor peers of each node")
    if is_of_objects:
        raise BadDump(
            f"its one list, {nested[0]}, has objects without {one_of(PEER_KEYS)}, so nobody lists anybody; if they are "
            f"links, say --links {nested[0]} --columns FROM,TO by their fields, and if they are hosts, --peers KEY; "
            f"{told_fields(inner)}"
        )
    if isinstance(inner, dict) and is_views(inner) and inner and any(inner.values()) and len(value) > 1:
        return nested[0]
    return around


def told_fields(objects: List[Any]) -> str:
    """Which fields objects have, and of a list of two names how both are called."""
    first = next(it for it in objects if isinstance(it, dict))
    two = next((f"{key}.1,{key}.2" for key, it in first.items() if is_list_of_names(it) and len(it) == 2), None)
    return f"the first has {', '.join(map(str, list(first)[:12]))}" + (f"; {two} are the two in a list" if two else "")


def of_graph(value: Dict[str, Any], asked: Asked) -> Tuple[Views, Used]:
    """A graph of nodes and links. If it has several lists of links, which one is meant is asked."""
    nodes = value["nodes"]
    entries = [entry_of(key, inner) for key, inner in nodes.items()] if isinstance(nodes, dict) else nodes
    if not isinstance(entries, list):
        raise BadDump("its nodes are no list")
    lists = [key for key, inner in value.items() if key in LINK_KEYS or key != "nodes" and is_list_of_links(inner)]
    if len(lists) > 1:
        raise BadDump(f"{' and '.join(lists)} may each be its links: say --links KEY")
    if not lists:
        return of_adjacency(entries, value["adjacency"], asked), Used([nodes, value["adjacency"]])
    views, keys = of_nodes(entries, value[lists[0]], is_yes(value.get("directed")), asked)
    return views, Used([nodes, value[lists[0]]], keys)


def entry_of(key: str, inner: Any) -> Dict[str, Any]:
    """A node that stands below its key, as an object."""
    if not isinstance(inner, dict):
        return {"id": key} if inner is None else {"id": key, "value": inner}
    more = {"id.below": inner["id"]} if inner.get("id", key) != key else {}
    return {**inner, **more, "id": key}


def is_list_of_links(value: Any) -> bool:
    """Whether it is a list with links in it."""
    return isinstance(value, list) and any(ends_in(it) or is_pair(it) for it in value)


def is_pair(value: Any) -> bool:
    """Whether it is a list of two names, with a number or an object behind them or not."""
    if not isinstance(value, list) or len(value) not in (2, 3) or not is_list_of_names(value[:2]):
        return False
    return len(value) == 2 or isinstance(value[2], (int, float, dict)) or value[2] is None


def link_in(value: Any, asked: Asked) -> Optional[Ends]:
    """The link that an object or a list of two names says."""
    if is_pair(value):
        third = value[2:]
        beside = said_of(third[0]) if third and isinstance(third[0], dict) else {"3": it for it in third}
        return Ends(value[0], value[1], False, beside, way_of_ends((LIST,), value[:2], False))
    return ends_in(value, asked)


def key_of(node: Any, by: Optional[str] = None) -> str:
    """What the ends of links call a node: its id, or if it has none its name, or else what a person says names it."""
    inner = naming_part(node) if isinstance(node, dict) else {}
    return name_of(inner["id"]) if "id" in inner else name_of(node, None if key_in(inner, NAME_KEYS) else by)


def of_nodes(nodes: List[Any], links: Any, is_directed: bool, asked: Asked) -> Tuple[Views, Dict[str, str]]:
    """Node-link JSON of networkx, d3, cytoscape or NetJSON. The ends of links are ids, or places among the nodes. With
    the names of nodes by what ends of links call them."""
    views = Views("a graph of nodes and links" + (", whose directions are listings" if is_directed else ""))
    names = {key_of(it, asked.by): name_of(it, asked.by) if asked.by else key_of(it) for it in nodes}
    pairs = links_in(links if isinstance(links, list) else [links], asked)
    ends = [end for it in pairs for end in (it.one, it.other)]
    called = {key_of(end, asked.by) for end in ends}
    if not called <= set(names):
        names = names_by_place(names, ends) or names_by_field(nodes, called, asked) or names
    if len(set(names.values())) != len(nodes):
        raise BadDump("two of its nodes have one name")
    unknown = [it for it in called if it not in names]
    if unknown:
        raise BadDump(f"a link has the end {unknown[0]}, which is no node")
    written = Written(views)
    for name, node in zip(names.values(), nodes):
        written.next_is(way_of(node, "id" if isinstance(node, dict) and "id" in naming_part(node) else asked.by))
        views.enter(name, item_of(node, asked.by)[1] if asked.by or name == key_of(node) else said_of(node))
    for it in pairs:
        written.next_is(it.way)
        one, other = (names[key_of(end, asked.by)] for end in (it.one, it.other))
        views.edge(one, other, is_directed or it.is_listing, it.said)
    written.tell()
    return views, names


def links_in(listed: List[Any], asked: Asked) -> List[Ends]:
    """The links of a graph of nodes and links."""
    said = [link_in(it, asked) for it in listed]
    if None in said:
        first = listed[said.index(None)]
        told = f"{short(first)}, {told_fields([first])}" if isinstance(first, dict) else short(first)
        raise BadDump(
            f"a link should have the fields {' and '.join(asked_ends(asked)[0] if asked.columns else LINK_ENDS[0])}, "
            f"and this has not: {told}; --columns FROM,TO names other fields"
        )
    return [it for it in said if it]


def names_by_place(names: Dict[str, str], ends: List[Any]) -> Dict[str, str]:
    """The names of nodes by their places, if all ends of links are such, as older versions of d3 have it."""
    is_each = all(type(end) is int and 0 <= end < len(names) for end in ends)
    return {str(at): name for at, name in enumerate(names.values())} if is_each else {}


def names_by_field(nodes: List[Any], ends: Set[str], asked: Asked) -> Dict[str, str]:
    """The names of nodes by that field of theirs which has all ends of links, and a value of its own for each."""
    for _, end in ways_of([("", it) for it in nodes]):
        called = [end("", it) for it in nodes]
        if ends <= set(called) and len(set(called)) == len(nodes):
            return {it: name_of(node, asked.by) if asked.by else it for it, node in zip(called, nodes)}
    return {}


def of_adjacency(nodes: List[Any], lists: Any, asked: Asked) -> Views:
    """Adjacency JSON of networkx: the list at each place is of the node at this place."""
    views = Views("adjacency lists of nodes")
    if not isinstance(lists, list) or len(lists) != len(nodes):
        raise BadDump("it should have a list of neighbours for each node")
    enter_all(views, [Entry(name_of(node, asked.by), peers) for node, peers in zip(nodes, lists)], asked)
    for node in nodes:
        views.enter(*item_of(node, asked.by))
    return views


def of_list(value: List[Any], asked: Asked) -> Tuple[Views, Used]:
    """A list of edges, of hosts with their peers, or of both ends' names; or of the elements of cytoscape."""
    if len(value) == 1 and says_graph(value[0]):
        return of_object(value[0], asked)
    views, entries = Views("a list of hosts with peers"), []  # type: Views, List[Entry]
    written = Written(views)
    if is_matrix(value):
        rows = [[str(it) for it in row] for row in value]
        return matrix_graph(Matrix([str(at) for at in range(1, len(rows) + 1)], rows, [])).views(), Used([value])
    for it in value:
        ends = link_in(it, asked)
        if ends:
            views.kind = "a list of links"
            written.next_is(ends.way)
            one, other = name_of(ends.one, asked.by), name_of(ends.other, asked.by)
            views.listing(one, other, ends.said) if ends.is_listing else views.link(one, other, ends.said)
        elif asked.columns and isinstance(it, dict) and key_in(naming_part(it, asked.by), naming_keys(asked.by)):
            views.enter(*item_of(it, asked.by))
        elif asked.columns:
            raise BadDump(f"{short(it)} is no link with the fields {asked.columns}; --by FIELD takes such for a host")
        elif isinstance(it, list):
            raise BadDump(f"a link is a list of two names: {short(it)}")
        elif isinstance(it, dict):
            entries += entries_in(views, it, asked)
        else:
            raise BadDump(f"{short(it)} is neither a link nor a host with its peers")
    written.tell()
    enter_all(views, entries, asked)
    return views, Used([value])


def is_matrix(value: List[Any]) -> bool:
    """Whether a list is a square of numbers, too large for links."""
    return len(value) >= LEAST_ROWS and all(
        isinstance(row, list) and len(row) == len(value) and all(type(it) in (int, float) for it in row)
        for row in value
    )


def entries_in(views: Views, it: Dict[str, Any], asked: Asked) -> List[Entry]:
    """The host that an object of a list says, with its peers; or all hosts, if it has such by their names."""
    names = naming_keys(asked.by)
    is_named = key_in(naming_part(it, asked.by), names)
    if not is_named and any(isinstance(inner, (str, int, float)) for inner in it.values()):
        raise BadDump(
            f"an object of its list has no field {one_of(names)} that names a host, nor both ends of a link: say "
            f"--columns FROM,TO if it is a link, and --by FIELD, maybe with --peers KEY, if it is a host; "
            f"{told_fields([it])}"
        )
    if not is_named and it:
        return [Entry(name, inner) for name, inner in it.items()]
    name, said = item_of(it, asked.by)
    if naming_part(it, asked.by) is not it and not key_in(it, PEER_KEYS):
        views.enter(name, said)
        return []
    naming = key_in(it, names)
    return [Entry(name, {key: inner for key, inner in it.items() if key != naming}, f", by {way_of(it, asked.by)}")]


def says_hosts(value: Any, asked: Asked) -> bool:
    """Whether what stands below a key says hosts with their peers: objects with such a list, or lists by names."""
    items = list(value.values()) if isinstance(value, dict) else value
    if any(has_peers(it) or asked.peers and has_path(it, asked.peers) for it in items):
        return True
    return isinstance(value, dict) and is_views(value) and any(items)


def of_links_below(value: Any, asked: Asked) -> Tuple[Views, Used]:
    """The links below the key that is asked for, with the nodes that stand beside them."""
    place = place_of(value, asked.links or "")
    if says_hosts(place.inner, asked) and not asked.columns:
        views, used = read_in(place.inner, asked._replace(links=None))
        views.kind += f", below {asked.links}"
        return views, used
    is_directed = is_yes(place.around.get("directed")) if isinstance(place.around, dict) else False
    pairs = []
    for key, it in place.items:
        said = link_in(it, asked)
        if said is None:
            told = f"it has the fields {', '.join(said_of(it))}" if isinstance(it, dict) else f"it is {short(it)}"
            raise BadDump(
                f"below {asked.links} stands what is no link with known ends, and {told}: say --columns FROM,TO"
            )
        beside = said.said if key is None else {"key": key, **said.said}
        pairs.append((name_of(said.one), name_of(said.other), said._replace(said=beside)))
    views = Views(f"links below {asked.links}")
    nodes = nodes_beside(place, {end for it in pairs for end in it[:2]}, asked)
    names = {it.end: it.name for it in nodes.listed}
    if len(set(names.values())) != len(names):
        raise BadDump(f"two nodes have one name, by {asked.by}")
    for node in nodes.listed:
        views.enter(node.name, node.said)
    written = Written(views)
    for one, other, said in pairs:
        written.next_is(said.way)
        views.edge(names.get(one, one), names.get(other, other), is_directed or said.is_listing, said.said)
    written.tell()
    return views, Used([place.inner, nodes.inner], names)
