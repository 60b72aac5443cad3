"""What graph files say, whatever their form: hosts by their keys, and links between them, with all else that is said of
each. Each reader of a form fills such a `Graph`."""

from __future__ import annotations

import re
from typing import Dict, List, Mapping, NamedTuple, Optional, Tuple

from .errors import BadDump
from .limits import MOST_LINKS, need_few
from .values import Said, Scalar, Views
from .written import Written

# How many names a message tells.
MOST_TOLD = 4
# What the name that a graph has by itself is called, where it stands beside hosts and links.
NAME_OF_GRAPH = "name of the graph"
# And which program wrote the file, and when.
WRITTEN_BY, WRITTEN_AT = "written by", "written at"


class Link(NamedTuple):
    """A link of two hosts by their keys, or if it has a direction a listing; what is said of it, and how it is
    written."""

    one: str
    other: str
    is_directed: bool
    said: Said
    way: str = ""


class Graph:
    """The hosts and links of a graph file. `kind` names its form. The ends of links are keys of hosts, and with
    `is_open` these need not be declared. A host is called by its key, or by the field `label`, if this is named and
    each host has one."""

    def __init__(self, kind: str, label: Optional[str] = None, is_open: bool = False) -> None:
        self.kind, self.label, self.is_open = kind, label, is_open
        self.hosts: Dict[str, Dict[str, Scalar]] = {}
        self.links: List[Link] = []
        # what stands in the file otherwise, and its values
        self.beside: List[Tuple[str, Scalar]] = []

    def host(self, key: str, said: Optional[Said] = None, place: str = "") -> None:
        """A host is declared: once, since of two hosts with one key one would be lost."""
        if key in self.hosts:
            raise BadDump(f"{place}the host {key} stands there twice")
        need_few(len(self.hosts), "hosts")
        self.hosts[key] = dict(said or {})

    def link(
        self, one: str, other: str, is_directed: bool = False, said: Optional[Said] = None, way: str = ""
    ) -> None:
        """A link, or a listing of the first end, and how it is written."""
        if self.is_open:
            for key in (one, other):
                self.hosts.setdefault(key, {})
        need_few(len(self.hosts), "hosts")
        need_few(len(self.links), "links", MOST_LINKS)
        self.links.append(Link(one, other, is_directed, said or {}, way))

    def pass_over(self, what: str, value: Scalar) -> None:
        """Something stands in the file that says neither a host nor a link, and belongs to none."""
        self.beside.append((what, value))

    def drop_numbers(self, field: str) -> None:
        """Drops a field that numbers all links in their order, with the same text before each number: it says no more.

        >>> graph = Graph("XML", is_open=True)
        >>> for at in range(3):
        ...     graph.link("a", "b", said={"id": f"e{at}", "w": 1})
        >>> graph.drop_numbers("id")
        >>> graph.links[2].said
        {'w': 1}
        """
        ids = [str(it.said.get(field, "")) for it in self.links]
        first = re.fullmatch(r"(.*?)([0-9]{1,9})", ids[0]) if ids else None
        if first and all(it == f"{first[1]}{at}" for at, it in enumerate(ids, int(first[2]))):
            self.links = [it._replace(said={key: value for key, value in it.said.items() if key != field})
                          for it in self.links]

    def need_counts(self, hosts: Optional[int] = None, links: Optional[int] = None) -> None:
        """Refuses a file that declares other counts than it has, as a torn one does."""
        for count, found, kind in ((hosts, len(self.hosts), "hosts"), (links, len(self.links), "links")):
            if count is not None and count != found:
                raise BadDump(f"it declares {count} {kind} and has {found}: is it torn?")

    def views(self, by: Optional[str] = None) -> Views:
        """What each host lists. `by` is the field that names hosts, or `id`, which is their key."""
        has_arrows = any(link.is_directed for link in self.links)
        has_links = any(not link.is_directed for link in self.links)
        told = ", whose arrows are listings" if has_links else ", whose directions are listings"
        views, names = Views(self.kind + (told if has_arrows else ""), self.beside), self.names(by)
        if not by and names and all(said.get("label", names[key]) != names[key] for key, said in self.hosts.items()):
            views.kind += ", with hosts by their ids; --by label takes their labels"
        for key, name in names.items():
            views.enter(name, self.hosts[key])
        # one after the other goes, so that they do not stand there twice
        links, self.links = self.links[::-1], []
        written = Written(views)
        while links:
            link = links.pop()
            gone = next((end for end in link[:2] if end not in names), None)
            if gone is not None:
                raise BadDump(f"a link has the end {gone}, which is no node")
            written.next_is(link.way)
            views.edge(names[link.one], names[link.other], link.is_directed, link.said)
        written.tell()
        return views

    def names(self, by: Optional[str]) -> Dict[str, str]:
        """What each host is called, by its key."""
        field = by or self.label
        keys = {key: key for key in self.hosts}
        if not field or by == "id":
            return keys
        names = {key: str(said.get(field) or "") for key, said in self.hosts.items()}
        lacking = next((key for key, name in names.items() if not name), None)
        if lacking is not None and not by:
            return keys
        if lacking is not None:
            raise BadDump(f"the host {lacking} has no field {by}; it has {fields_of(self.hosts[lacking])}")
        holder: Dict[str, str] = {}
        for key, name in names.items():
            if holder.setdefault(name, key) != key:
                raise BadDump(
                    f"the hosts {holder[name]} and {key} have the {field} {name} both: --by id names hosts by their ids"
                )
        return names


def fields_of(said: Mapping[str, Scalar]) -> str:
    """The names of fields, for a message."""
    names = list(said)
    more = " .." if len(names) > MOST_TOLD else ""
    return "none" if not names else "the fields " + ", ".join(names[:MOST_TOLD]) + more
