"""What a dump says: who lists whom, what stands beside it, and the names and fields of values as JSON has them."""

from __future__ import annotations

import itertools
import json
from typing import AbstractSet, Any, Dict, Iterable, List, Mapping, NamedTuple, Optional, Sequence, Set, Tuple, Union

from .errors import BadDump
from .limits import need_short

# What the list of peers of a host is called, and the host itself, in the order in which they are looked for.
PEER_KEYS = ("peers", "neighbors", "neighbours", "active_view", "connections", "links")
NAME_KEYS = ("name", "id", "host", "hostname", "node", "address", "addr", "key")
# So many fields of an object, and of objects so deep in it, are fields by themselves; further ones are one text.
MOST_FIELDS, MOST_DEEP, FURTHER = 64, 6, "further fields"
# So many different fields are told apart at most; all that is said in others is one.
MOST_DIFFERENT = 10_000
# So are those of objects in a list of so many; a list counts as so many objects in one another.
MOST_LONG, OF_LISTS = 16, 3
# What both ends of a link are called, as fields or columns; and of a listing a host and a peer that it lists.
LINK_ENDS = (
    ("source", "target"),
    ("from", "to"),
    ("src", "dst"),
    ("src", "dest"),
    ("source", "destination"),
    ("node1", "node2"),
    ("node_a", "node_b"),
    ("from_node", "to_node"),
    ("source_id", "target_id"),
    ("from_id", "to_id"),
    (":start_id", ":end_id"),
)
HOST_FIELDS = ("host", "hostname", "node", "name", "local")
PEER_FIELDS = ("peer", "neighbor", "neighbour", "remote")
LISTING_ENDS = tuple(itertools.product(HOST_FIELDS, PEER_FIELDS))


# What a dump says beside a listing, a link or a host: the value of each other field, column or attribute.
Scalar = Union[str, int, float, bool, None]
Said = Mapping[str, Scalar]
# What is said of what nothing is said of.
UNSAID: Said = {}


class Statement(NamedTuple):
    """What one place of a dump says: that a host has an entry (`other` is None), that `one` lists `other`, or that both
    are linked; and what stands beside it."""

    one: str
    other: Optional[str]
    is_link: bool
    said: Said


class Views:
    """What each host lists: the dump as `overlay import --views` reads it. `kind` says how the file was read, and
    `statements` has all that was said, in its order, with what stands beside it. `beside` has all else that stands in
    the dump: what it is, and a value of it. `columns` has the names of columns in their order."""

    def __init__(self, kind: str = "", beside: Optional[List[Tuple[str, Scalar]]] = None) -> None:
        self.peers: Dict[str, Dict[str, None]] = {}
        self.statements: List[Statement] = []
        self.kind = kind
        self.beside: List[Tuple[str, Scalar]] = [] if beside is None else beside
        self.columns: Sequence[str] = ()
        # how many statements are of links and listings
        self.links = 0
        # the hosts of statements that say nothing but that these have an entry
        self.bare: Set[str] = set()
        # what lists are called that stand beside those of the peers that a person named
        self.other_lists: Set[str] = set()
        # whether it was asked how often each link and listing stands there
        self.is_counted = False

    def emptied(self) -> Views:
        """The same dump without any host."""
        views = Views(self.kind, self.beside)
        views.columns, views.other_lists = self.columns, self.other_lists
        return views

    def pass_over(self, what: str, value: Scalar) -> None:
        """Something stands in the dump that says neither a host nor a link, and belongs to none."""
        self.beside.append((what, value))

    def enter(self, name: str, said: Optional[Said] = None) -> None:
        """A host has an entry. `said` is what the dump says of it otherwise."""
        self.peers.setdefault(name, {})
        if said or name not in self.bare:
            self.statements.append(Statement(name, None, False, said or UNSAID))
        if not said:
            self.bare.add(name)

    def listing(self, name: str, peer: str, said: Optional[Said] = None) -> None:
        """A host, which has an entry then, lists a peer, which this gives no entry. `said` is what stands beside it."""
        self.peers.setdefault(name, {})[peer] = None
        self.statements.append(Statement(name, peer, False, said or UNSAID))
        self.links += 1

    def link(self, one: str, other: str, said: Optional[Said] = None) -> None:
        """Two hosts list each other."""
        self.peers.setdefault(one, {})[other] = None
        self.peers.setdefault(other, {})[one] = None
        self.statements.append(Statement(one, other, True, said or UNSAID))
        self.links += 1

    def edge(self, one: str, other: str, is_directed: bool, said: Optional[Said] = None) -> None:
        """An edge: a link, or if it has a direction the listing of its first end; then both have an entry."""
        if is_directed:
            self.listing(one, other, said)
            self.enter(other)
        else:
            self.link(one, other, said)

    def say(self, place: int, said: Said) -> None:
        """More is said of what a statement says."""
        before = self.statements[place]
        self.statements[place] = before._replace(said={**before.said, **said})

    def take(self, statement: Statement) -> None:
        """Says again what a statement says."""
        if statement.other is None:
            self.enter(statement.one, statement.said)
        elif statement.is_link:
            self.link(statement.one, statement.other, statement.said)
        else:
            self.listing(statement.one, statement.other, statement.said)

    def column(self, name: str) -> str:
        """The name of the column that is meant: by its number from 1 on, or by its name."""
        is_number = name.isascii() and name.isdigit() and name[0] != "0" and len(name) < 10
        return self.columns[int(name) - 1] if is_number and int(name) <= len(self.columns) else name

    @property
    def has_known(self) -> bool:
        """Whether some host that is listed has an entry, or none is listed at all."""
        listed = {peer for peers in self.peers.values() for peer in peers}
        return not listed or not listed.isdisjoint(self.peers)

    @property
    def value(self) -> Dict[str, List[str]]:
        """What JSON has of it."""
        return {name: list(peers) for name, peers in self.peers.items()}


def name_of(value: Any, by: Optional[str] = None) -> str:
    """The name that a value says: a text, a whole number, or an object by its field `by`, or by the first known one.

    >>> name_of(7), name_of({"address": "10.0.0.1", "port": 655})
    ('7', '10.0.0.1')
    """
    if isinstance(value, str):
        return value
    if isinstance(value, int) and not isinstance(value, bool):
        return str(value)
    if isinstance(value, dict):
        inner = naming_part(value, by)
        for key in naming_keys(by):
            if isinstance(inner.get(key), (str, int, dict)):
                return name_of(inner[key], by)
        told = ", ".join(map(str, list(inner)[:10])) or "no field"
        wanted = f"the field {one_of(naming_keys(by))}" if by else f"a field {one_of(NAME_KEYS)}"
        raise BadDump(f"an object should name a host by {wanted}, and it has {told}; --by FIELD names another field")
    raise BadDump(f"{short(value)} is no name of a host")


def naming_keys(by: Optional[str]) -> Sequence[str]:
    """The fields of which the first that is there names a host: those that are asked for, or the known ones."""
    return [it.strip() for it in by.split(",")] if by else NAME_KEYS


def naming_part(value: Dict[str, Any], by: Optional[str] = None) -> Dict[str, Any]:
    """That part of an object which has its name: itself, or what stands below `data`, as cytoscape writes it."""
    data = value.get("data")
    is_own = key_in(value, naming_keys(by)) is not None or not isinstance(data, dict)
    return value if is_own else dict(data or {})


def short(value: Any) -> str:
    """A value, shortened for a message."""
    text = repr(value)
    return text if len(text) <= 60 else f"{text[:57]}.."


def said_of(value: Mapping[Any, Any], *without: str) -> Dict[str, Scalar]:
    """What an object says, but for some fields: its scalars, those of objects in it by their keys with dots between,
    and of lists all scalars, or objects, as one text. What is deeper, or behind the 64th field, is one text too.

    >>> said_of({"name": "b", "state": {"up": True, "since": 7}, "flags": ["a", "b"]}, "name", "state.since")
    {'state.up': True, 'flags': 'a,b'}
    """
    said: Dict[str, Scalar] = {}
    take_in(said, "", value, frozenset(without), MOST_DEEP)
    return said


def take_in(
    said: Dict[str, Scalar], before: str, value: Mapping[Any, Any], without: AbstractSet[str], deep: int
) -> None:
    """Takes in what an object says below such a key."""
    need_short(before)
    items = [(f"{before}{key}", inner) for key, inner in value.items() if f"{before}{key}" not in without]
    for at, (name, inner) in enumerate(items):
        if len(said) >= MOST_FIELDS:
            more = text_in(dict(items[at:]))
            said[FURTHER] = f"{said[FURTHER]}, {more}" if FURTHER in said else more
            return
        if isinstance(inner, dict) and inner and deep:
            take_in(said, f"{name}.", inner, without, deep - 1)
        elif isinstance(inner, list):
            said.update((f"{name}{other}", it) for other, it in joined(inner, deep).items())
        else:
            said[name] = inner if is_scalar(inner) else text_in(inner)


def is_scalar(value: Any) -> bool:
    return value is None or isinstance(value, (str, int, float))


def text_in(value: Any) -> str:
    """A value that is no scalar, as one text: as JSON has it, or as its own class has it, as a date of YAML.

    >>> text_in({"a": [1]}), text_in({})
    ('{"a": [1]}', '{}')
    """
    if not isinstance(value, (dict, list)):
        return str(value)
    try:
        return json.dumps(value, ensure_ascii=False, default=str)
    except RecursionError:
        return "values in one another"


def joined(values: List[Any], deep: int) -> Dict[str, Scalar]:
    """What a list says as one object: scalars as one text, and of few objects each field so, with a dot before it.

    >>> joined([1, "a"], 6), joined([{"up": True}, {"up": False, "n": 1}, {"up": True}], 6)
    ({'': '1,a'}, {'.up': 'True,False', '.n': '1'})
    """
    if is_list_of_names(values):
        return {"": ",".join(map(str, values))}
    if deep < OF_LISTS or len(values) > MOST_LONG or not all(isinstance(it, dict) for it in values):
        return {"": text_in(values)}
    found: Dict[str, Dict[str, None]] = {}
    for it in values:
        inner: Dict[str, Scalar] = {}
        take_in(inner, ".", it, frozenset(), deep - OF_LISTS)
        for key, value in inner.items():
            found.setdefault(key, {})[str(value)] = None
    return {key: ",".join(texts) for key, texts in found.items()}


def both(around: Said, inner: Said) -> Dict[str, Scalar]:
    """What is said in two places of one thing. What the inner one says otherwise is told below `data`.

    >>> both({"state": "down", "w": 1}, {"state": "up", "w": 1})
    {'state': 'down', 'w': 1, 'data.state': 'up'}
    """
    differ = {key for key in inner if key in around and around[key] != inner[key]}
    return {**around, **{f"data.{key}" if key in differ else key: value for key, value in inner.items()}}


def item_of(value: Any, by: Optional[str] = None) -> Tuple[str, Said]:
    """The name that a value says as `name_of` has it, and what an object says beside it."""
    name = name_of(value, by)
    if not isinstance(value, dict):
        return name, {}
    inner = naming_part(value, by)
    naming = next(key for key in naming_keys(by) if isinstance(inner.get(key), (str, int, dict)))
    said = said_of(inner, naming)
    if isinstance(inner[naming], dict):
        said.update((f"{naming}.{key}", it) for key, it in item_of(inner[naming], by)[1].items())
    return name, said if inner is value else both(said_of(value, "data"), said)


def items_of(value: Any, by: Optional[str] = None) -> List[Tuple[str, Said]]:
    """The names in a list of peers, and what stands beside each. Nothing, as JSON's `null`, is nobody; of an object its
    keys are the names."""
    if value is None:
        return []
    if isinstance(value, dict):
        return [(key, said_of(it) if isinstance(it, dict) else said_of({"value": it})) for key, it in value.items()]
    if not isinstance(value, list):
        raise BadDump(f"{short(value)} is no list of peers")
    return [item_of(it, by) for it in value if it is not None]


def key_in(value: Dict[str, Any], keys: Iterable[str]) -> Optional[str]:
    """The first of these keys that an object has."""
    return next((key for key in keys if key in value), None)


def at_path(value: Any, path: str) -> Any:
    """What stands below a key of an object, or below several with dots between; a number is the place in a list, from
    1. KeyError if there is none.

    >>> at_path({"a": {"b": 7}, "a.c": 8}, "a.b"), at_path({"a": {"b": 7}, "a.c": 8}, "a.c"), at_path({"a": [9]}, "a.1")
    (7, 8, 9)
    """
    if isinstance(value, dict) and path in value:
        return value[path]
    first, dot, rest = path.partition(".")
    if isinstance(value, list) and first in map(str, range(1, min(len(value), MOST_LONG) + 1)):
        return at_path(value[int(first) - 1], rest) if dot else value[int(first) - 1]
    if not dot or not isinstance(value, dict) or first not in value:
        raise KeyError(path)
    return at_path(value[first], rest)


def is_yes(value: Any) -> bool:
    """Whether a value says yes, also as a text, as YAML has it here.

    >>> is_yes(True), is_yes("false"), is_yes(None)
    (True, False, False)
    """
    return bool(value) and str(value).lower() not in ("false", "no", "off", "0")


def is_list_of_names(value: Any) -> bool:
    """Whether it is a list without lists and objects in it."""
    return isinstance(value, list) and not any(isinstance(it, (dict, list)) for it in value)


def one_of(keys: Sequence[str]) -> str:
    """Keys as a message names them: one of these.

    >>> one_of(["links", "edges", "adjacency"])
    'links, edges or adjacency'
    """
    return f"{', '.join(keys[:-1])} or {keys[-1]}" if len(keys) > 1 else "".join(keys)
