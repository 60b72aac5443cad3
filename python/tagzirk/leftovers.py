"""What stands in JSON beside the hosts and links that were read of it. What names hosts, or says something of each host
or link, is said of these; all else stands beside."""

from __future__ import annotations

from typing import Any, List, Mapping, NamedTuple, Optional, Set, Tuple

from .errors import BadDump
from .hosts import LISTED
from .limits import need_short
from .values import Said, Scalar, Views, is_scalar, item_of, said_of, text_in

# Deeper than this nothing is read by itself.
MOST_DEEP = 10

# Keys that say how a form is to be read, with the values that do so.
OF_FORMS = {
    "directed": (True, False, 0, 1, "true", "false"),
    "multigraph": (True, False, 0, 1, "true", "false"),
    "type": ("NetworkGraph", "NetworkCollection"),
}
NOTHING: Tuple[Any, ...] = (None, "", [], {})


class Used(NamedTuple):
    """The lists and objects of a value that were read, and the names of hosts by what the value calls them."""

    parts: List[Any]
    names: Mapping[str, str] = {}


def take_leftovers(views: Views, value: Any, used: Used) -> None:
    """Takes in what stands beside the parts of a value that were read.

    >>> views = Views()
    >>> views.link("a", "b")
    >>> links = []
    >>> take_leftovers(views, {"links": links, "at": 7, "lost": ["b"]}, Used([links], {"a": "a", "b": "b"}))
    >>> views.beside, views.statements[-1].said
    ([('at', 7)], {'lost': 'listed'})
    """
    names = used.names or {it: it for it in views.peers}
    parts = {id(it) for it in used.parts if it is not None}
    for key, inner in left_in(value, parts, "", MOST_DEEP) or ():
        take(views, key, inner, names, MOST_DEEP)


def take(views: Views, key: str, value: Any, names: Mapping[str, str], deep: int) -> None:
    """Takes in what stands below a key, or below those of an object there."""
    if value in NOTHING or is_scalar(value) and value in OF_FORMS.get(key.rpartition(".")[2], ()):
        return
    of_hosts = said_of_hosts(value, names)
    of_links = said_of_links(value, views) if not of_hosts else []
    for name, said in of_hosts:
        views.enter(name, below(key, said))
    for place, said in of_links:
        views.say(place, below(key, said))
    if of_hosts or of_links:
        return
    inner = value if isinstance(value, dict) and deep else {}
    need_short(key if inner else "")
    for other, it in inner.items():
        if isinstance(it, (dict, list)):
            take(views, f"{key}.{other}", it, names, deep - 1)
    scalars = {other: it for other, it in inner.items() if is_scalar(it)}
    for text in texts_of(scalars if inner else value):
        views.pass_over(key, text)


def left_in(value: Any, parts: Set[int], path: str, deep: int) -> Optional[List[Tuple[str, Any]]]:
    """What stands in a value beside some of its parts, with its keys; None if it has none of these."""
    if id(value) in parts:
        return []
    if not deep or not isinstance(value, (dict, list)):
        return None
    inner = value.items() if isinstance(value, dict) else (("", it) for it in value)
    need_short(path)
    keyed = [(".".join(filter(None, (path, str(key)))), it) for key, it in inner]
    found = [(key, it, left_in(it, parts, key, deep - 1)) for key, it in keyed]
    if all(left is None for _, _, left in found):
        return None
    return [more for key, it, left in found for more in ([(key or "beside", it)] if left is None else left)]


def said_of_hosts(value: Any, names: Mapping[str, str]) -> List[Tuple[str, Said]]:
    """What an object says by the names of hosts, or that a list names them; nothing, if it has other names too."""
    if isinstance(value, dict):
        said = [(str(key), said_of(it) if isinstance(it, dict) else said_of({"": it})) for key, it in value.items()]
    elif isinstance(value, list):
        said = list(map(named, value))
    else:
        return []
    is_of_hosts = all(name in names for name, _ in said)
    return [(names[name], it or {"": LISTED}) for name, it in said] if is_of_hosts else []


def named(value: Any) -> Tuple[str, Said]:
    """The name that an item of a list says, and what stands beside it; without a name the empty one."""
    try:
        return item_of(value)
    except BadDump:
        return "", {}


def said_of_links(value: Any, views: Views) -> List[Tuple[int, Said]]:
    """What a list says of each link, if it has as many values."""
    if not isinstance(value, list) or len(value) != views.links or views.links < 2:
        return []
    places = [at for at, it in enumerate(views.statements) if it.other is not None]
    return [(at, said_of(it) if isinstance(it, dict) else said_of({"": it})) for at, it in zip(places, value)]


def below(key: str, said: Said) -> Said:
    """What is said, by fields below a key."""
    return {f"{key}.{field}" if field else key: it for field, it in said.items()}


def texts_of(value: Any) -> List[Scalar]:
    """Each value of a list or an object, as it is shown."""
    if isinstance(value, dict):
        return [f"{key}: {it if is_scalar(it) else text_in(it)}" for key, it in value.items()]
    return [it if is_scalar(it) else text_in(it) for it in value] if isinstance(value, list) else [value]
