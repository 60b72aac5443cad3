"""Hosts with their peers, as values of JSON say them: which list has the peers of a host, and what is said of each."""

from __future__ import annotations

import contextlib
from typing import Any, Dict, List, NamedTuple, Optional, Sequence, Set

from .asked import Asked
from .errors import BadDump
from .limits import need_short
from .values import (
    PEER_KEYS,
    Said,
    Scalar,
    Views,
    at_path,
    is_list_of_names,
    items_of,
    key_in,
    one_of,
    said_of,
    short,
    text_in,
)
from .written import KEY, LIST, Written, way_of


# So many lists are told.
MOST_TOLD = 24
# What stands in the place of a list without anybody.
NOTHING: Sequence[Any] = ([], {}, None)
# What a further list says of each peer that it names.
LISTED = "listed"


class SeveralLists(BadDump):
    """Hosts have several lists, any of which may have their peers."""


class Entry(NamedTuple):
    """A host, and what stands there of it: the list of its peers, or an object that has it; and how it is written."""

    name: str
    value: Any
    way: str = ""


class Lists(NamedTuple):
    """The lists of a host: the key of that which has its peers, or None, if the host has none; further ones that may
    have them; and what further ones say of each peer, by its name, with the keys of these, which are `used`."""

    key: Optional[str]
    others: List[str]
    beside: Dict[str, Dict[str, Scalar]]
    used: List[str]


def enter_all(views: Views, entries: Sequence[Entry], asked: Asked) -> None:
    """Takes in hosts with their peers. Each host stands there once."""
    hosts: Set[str] = set()
    for it in entries:
        if it.name in hosts:
            raise BadDump(
                f"the host {it.name} stands there twice; --by FIELD names hosts by another field, and "
                "--columns FROM,TO both ends of links"
            )
        hosts.add(it.name)
    written = Written(views)
    if not asked.peers and is_peers_by_peers(entries, hosts):
        for it in entries:
            enter(views, Host(it, "", {}, it.value, {}), asked, written)
        return
    said = [lists_of(it, hosts, asked) if isinstance(it.value, dict) else None for it in entries]
    demand_one_list([it for it in said if it], asked)
    with_empty_ones(entries, said)
    for it, lists in zip(entries, said):
        if lists is None:
            enter(views, Host(it, LIST if it.value else "nobody", {}, it.value, {}), asked, written)
        else:
            of_host, inner = said_of(it.value, lists.key or "", *lists.others, *lists.used), lists_in(it.value)
            peers = at_path(it.value, lists.key) if lists.key else None
            enter(views, Host(it, lists.key or "nobody", of_host, peers, lists.beside), asked, written)
            for key in filter(inner.get, lists.others):
                views.pass_over(key, text_in(inner[key]))
                views.other_lists.add(key)
    written.tell()


def with_empty_ones(entries: Sequence[Entry], said: Sequence[Optional[Lists]]) -> None:
    """A list that may have the peers of some hosts is such a list of others too where it is empty."""
    keys = {key for it in said if it for key in it.others}
    for entry, lists in zip(entries, said):
        for key in keys.difference(lists.others) if lists else ():
            with contextlib.suppress(KeyError):
                if lists and at_path(entry.value, key) in NOTHING:
                    lists.others.append(key)


class Host(NamedTuple):
    """A host: its entry, the key of its list of peers, or what it has in the place of one; what is said of it, its
    peers, and what is said of each of these elsewhere."""

    entry: Entry
    key: str
    said: Said
    peers: Any
    beside: Dict[str, Dict[str, Scalar]]


def enter(views: Views, host: Host, asked: Asked, written: Written) -> None:
    """Takes in a host and its listings."""
    name, peers = host.entry.name, host.peers
    if isinstance(peers, (str, int, float)):
        raise BadDump(
            f"the entry of {name} is no list of peers: {short(peers)}; --links KEY takes hosts or links below a key"
        )
    # it stands there, even if what stands before said so
    views.bare.discard(name)
    written.next_is(host.key + host.entry.way)
    views.enter(name, host.said)
    listed = peers if isinstance(peers, list) else ()
    ways = [way_of(it, asked.by) for it in listed if it is not None]
    if len(ways) < len(listed):
        views.pass_over("null among peers", f"of {name}")
    of_peers = by_peer(host.beside)
    for at, (peer, said) in enumerate(items_of(peers, asked.by)):
        written.next_is(ways[at] if ways else KEY)
        views.listing(name, peer, {**said, **of_peers.get(peer, {})})


def by_peer(beside: Dict[str, Dict[str, Scalar]]) -> Dict[str, Dict[str, Scalar]]:
    """What is said of each peer, by fields, of values by fields and peers."""
    found: Dict[str, Dict[str, Scalar]] = {}
    for field, values in beside.items():
        for peer, value in values.items():
            found.setdefault(peer, {})[field] = value
    return found


def is_peers_by_peers(entries: Sequence[Entry], hosts: Set[str]) -> bool:
    """Whether each host is an object whose keys are its peers, as networkx writes a dict of dicts: at least half of
    these keys are hosts, and either all or none of what stands below them are objects or lists."""
    objects = [it.value for it in entries if it.value is not None]
    if not all(isinstance(it, dict) and not set(PEER_KEYS) & set(it) for it in objects):
        return False
    peers = {peer for it in objects for peer in it}
    kinds = {isinstance(inner, (dict, list)) for it in objects for inner in it.values() if inner is not None}
    return bool(peers) and 2 * len(peers & hosts) >= len(peers) and len(kinds) < 2


def lists_in(value: Dict[str, Any]) -> Dict[str, Any]:
    """The lists and objects in an object, by their keys; and the lists in these objects, by both keys with a dot."""
    found: Dict[str, Any] = {}
    for key, inner in value.items():
        if isinstance(inner, (list, dict)) or inner is None and key in PEER_KEYS:
            found[key] = inner
        for other, it in inner.items() if isinstance(inner, dict) else ():
            if isinstance(it, (list, dict)):
                found[f"{need_short(key)}.{other}"] = it
    return found


def names_in(value: Any, hosts: Set[str], by: Optional[str]) -> Optional[Set[str]]:
    """The names in a list or an object. Of objects that have no name, as far as one can know, those texts are names
    that are hosts; None if there are objects, and none such."""
    try:
        return {name for name, _ in items_of(value, by)}
    except BadDump:
        texts = {str(text) for it in value if isinstance(it, dict) for text in said_of(it).values()}
        return texts & hosts or None


def lists_of(entry: Entry, hosts: Set[str], asked: Asked) -> Lists:
    """Which of the lists of a host has its peers: that which is asked for, or the first that is called so. Any other
    list that names hosts, and not just the same ones, may be meant too."""
    lists = lists_in(entry.value)
    if asked.peers and asked.peers not in lists:
        with contextlib.suppress(KeyError):
            deep = at_path(entry.value, asked.peers)
            lists.update({asked.peers: deep} if isinstance(deep, (list, dict)) else {})
    names = {key: names_in(it, hosts, asked.by) for key, it in lists.items()}
    called = [it for key in PEER_KEYS if key in lists for it in opened(key, names, hosts)]
    key = (asked.peers if asked.peers in lists else None) if asked.peers else called[0] if called else None
    if not asked.peers and key is None:
        raise BadDump(without_peers(entry, lists))
    if key is None:
        return Lists(None, [], {}, [])
    peers, found, also_called = names[key] or set(), Lists(key, [], {}, []), set(called)
    for other, inner in lists.items():
        if other == key or key.startswith(f"{other}.") or other.startswith(f"{key}."):
            continue
        # where one list was named, another one of hosts says nothing of each of its peers
        is_apart = asked.peers and (names[other] or set()) & hosts and peers.isdisjoint(names[other] or ())
        of_each = said_of_each(lists[key], inner, peers, names[other], other in PEER_KEYS, asked.by)
        of_each = None if is_apart and is_list_of_names(inner) else of_each
        if of_each is not None:
            found.beside.update({f"{other}.{field}" if field else other: it for field, it in of_each.items()})
            found.used.append(other)
        elif other in also_called or any(it in hosts and it != entry.name for it in names[other] or ()):
            found.others.append(other)
    return found


def opened(key: str, names: Dict[str, Optional[Set[str]]], hosts: Set[str]) -> List[str]:
    """The key of a list of peers; or if it has an object whose keys are no hosts, and lists in it are of hosts, the
    keys of these lists."""
    inner = [it for it in names if it.startswith(f"{key}.") and (names[it] or set()) & hosts]
    return inner if inner and not (names[key] or set()) & hosts else [key]


def said_of_each(
    peers: Any, value: Any, names: Set[str], others: Optional[Set[str]], is_called_peers: bool, by: Optional[str]
) -> Optional[Dict[str, Dict[str, Scalar]]]:
    """What a further list says of each peer, by field and name of the peer; None if it is no such list. It is an object
    with scalars by peers, or names just the same ones, or is as long as the list of peers and names nobody."""
    if isinstance(value, dict) and names and others and others <= names and (others == names or not is_called_peers):
        if others == names or not any(isinstance(it, (dict, list)) for it in value.values()):
            return by_field(items_of(value, by))
    if names and others == names:
        return by_field(items_of(value, by)) if not is_list_of_names(value) else {"": dict.fromkeys(names, LISTED)}
    if is_list_of_names(value) and isinstance(peers, list) and len(value) == len(peers) > 1:
        if not (others or set()) & names:
            return {"": {name: it for (name, _), it in zip(items_of(peers, by), value)}}
    return None


def by_field(items: Sequence[Any]) -> Dict[str, Dict[str, Scalar]]:
    """What is said of each name, by fields. What stands below a key right away has no field."""
    found: Dict[str, Dict[str, Scalar]] = {}
    for name, said in items:
        for field, value in said.items():
            found.setdefault("" if field == "value" else field, {})[name] = value
    return found


def without_peers(entry: Entry, lists: Dict[str, Any]) -> str:
    """What is told of a host without a list of peers."""
    told = ", ".join(map(str, list(entry.value)[:10])) or "nothing"
    keys = [key for key, it in lists.items() if isinstance(it, (list, dict)) and it]
    told_keys = f"; --peers KEY takes another key, as {one_of(keys[:6])}, and --links KEY takes links below one"
    more = told_keys if keys else ""
    text = next(filter(None, map(peers_as_text, (entry.value, *entry.value.values()))), None)
    if text:
        return f"of the host {entry.name}, {text}{more}"
    return f"the host {entry.name} should have the list {one_of(PEER_KEYS)}, and it has {told}{more}"


def peers_as_text(value: Any) -> Optional[str]:
    """What is told of an object that has a text or a number where its list of peers should stand; None if it has none.

    >>> peers_as_text({"name": "a", "neighbors": "b,c"})
    "neighbors is 'b,c', and should be a list of names"
    """
    key = key_in(value, PEER_KEYS) if isinstance(value, dict) else None
    is_one = key is not None and isinstance(value[key], (str, int, float))
    return f"{key} is {short(value[key])}, and should be a list of names" if is_one else None


def demand_one_list(said: Sequence[Lists], asked: Asked) -> None:
    """Refuses hosts with several lists, any of which may have the peers; and a key that is asked for and not there."""
    if asked.peers:
        if said and all(it.key is None for it in said):
            raise BadDump(f"no host has the key {asked.peers} that --peers asks for, with a list or an object below it")
        return
    keys = {key: None for it in said if it.others for key in (it.key or "", *it.others)}
    if keys:
        count, first = sum(bool(it.others) for it in said), list(keys)[:MOST_TOLD]
        told = one_of(first if len(keys) <= MOST_TOLD else [*first, f"{len(keys) - MOST_TOLD} more"])
        raise SeveralLists(
            f"{told.replace(' or ', ' and ')} may each be the list of a host's peers, and they differ "
            f"(in {count} of {len(said)} hosts): say --peers KEY"
        )
