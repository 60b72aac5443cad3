"""DOT, Graphviz's language, with all that stands beside nodes and edges. It is read here, and not by Graphviz, which is
not on servers, draws what is only to be read, and does not say which node has a statement of its own."""

from __future__ import annotations

import itertools
import re
from typing import Dict, Iterable, Iterator, List, NamedTuple, Optional, Tuple

from .errors import BadDump
from .graph_files import NAME_OF_GRAPH
from .limits import DEEPEST, MOST_IMPLIED, MOST_NAME, need_few, need_few_implied, need_few_members, need_short
from .rows import WORDS as OF_COMMENTS
from .values import Scalar, Views

NAME = r"[A-Za-z_\x80-\U0010ffff][A-Za-z0-9_\x80-\U0010ffff]*"
TOKEN = re.compile(
    rf"""(?P<space>[\s\ufeff]+|//[^\n]*|/\*[^*]*(?:\*(?!/)[^*]*)*\*/|(?<![^\n])\#[^\n]*)
    |(?P<text>"[^"\\]*(?:\\.[^"\\]*)*")|(?P<name>{NAME}|-?(?:\.[0-9]+|[0-9]+(?:\.[0-9]*)?))
    |(?P<arrow>--|->)|(?P<mark>[{{}}\[\];,=:+])|(?P<html><)""",
    re.VERBOSE | re.DOTALL,
)
HTML = re.compile("[<>]")
# How many attributes nodes or edges may have by default.
MOST_DEFAULTS = 100
WORDS = ("graph", "digraph", "strict", "node", "edge", "subgraph")
Attributes = Dict[str, Scalar]


class Token(NamedTuple):
    """A word of DOT: its kind (`name`, which is any name or value; `word`, which has a meaning; `mark`), its text, and
    where it begins."""

    kind: str
    text: str
    at: int


def line_at(text: str, at: int) -> str:
    """The line of a place in a text, as a message begins."""
    return f"line {text.count(chr(10), 0, at) + 1}: "


def tokens_of(text: str) -> Iterator[Token]:
    """The words of a text of DOT, and at its end one of the kind `end`."""
    at, last = 0, Token("mark", "", 0)
    while at < len(text):
        found = TOKEN.match(text, at)
        if not found:
            raise BadDump(f"{line_at(text, at)}nothing of DOT begins here, or it has no end: a name needs quotes")
        kind, begin, at = str(found.lastgroup), at, found.end()
        if kind == "space":
            last = Token("mark", "", begin)
            continue
        said = found[0]
        if kind == "html":
            at = end_of_html(text, begin)
            token = Token("html", text[begin:at], begin)
        elif kind == "text":
            token = Token("name", re.sub(r'\\(?:\r?\n|(?="))', "", said[1:-1]), begin)
        elif kind == "name" and last.kind in ("name", "word"):
            raise BadDump(f"{line_at(text, begin)}it is several words to DOT: a name as oslo-1 or 5f3a needs quotes")
        else:
            kind = "word" if said.lower() in WORDS else "name" if kind == "name" else "mark"
            token = Token(kind, said.lower() if kind == "word" else said, begin)
        last = token
        yield token
    yield Token("end", "the end", at)


def end_of_html(text: str, begin: int) -> int:
    """Where a text in `<` and `>` ends that has such pairs in it."""
    depth = 0
    for found in HTML.finditer(text, begin):
        depth += 1 if found[0] == "<" else -1
        if not depth:
            return found.end()
    raise BadDump(f"{line_at(text, begin)}an HTML text has no end")


class Part:
    """A graph or subgraph: its nodes, its subgraphs that have names, and the attributes that nodes and edges have by
    default from here on. `chain` has the ends, each of one node or of all of a subgraph, of an edge that goes on."""

    def __init__(self, outer: Optional[Part] = None, name: Optional[str] = None) -> None:
        self.nodes: Dict[str, None] = {}
        self.name: str = need_short(name or (outer.name if outer else ""))
        self.named: Dict[str, Part] = {}
        self.chain: List[Iterable[str]] = []
        # what edges have that say nothing themselves
        self.of_edges: Optional[Attributes] = None
        self.defaults: Dict[str, Attributes] = {
            it: outer.defaults[it] if outer else {} for it in ("node", "edge", "graph")
        }
        # the defaults that no node, or no edge, was made with so far
        self.idle: Dict[str, Attributes] = {"node": {}, "edge": {}}

    def inside(self) -> Attributes:
        """The name of the subgraph that it is, or that it is in, as an attribute of what stands in it."""
        return {"subgraph": self.name} if self.name else {}


class Reader:
    """Reads the statements of a text of DOT: `attributes` of each node, which nodes have a statement of their `own`,
    and the `edges`."""

    def __init__(self, text: str) -> None:
        self.text, self.tokens, self.arrow = text, tokens_of(text), "--"
        self.token = next(self.tokens)
        self.parts = [Part()]
        self.attributes: Dict[str, Attributes] = {}
        self.own: Dict[str, None] = {}
        self.edges: List[Tuple[str, str, Attributes]] = []
        self.ports: Dict[str, str] = {}
        self.implied, self.unnamed = 0, 0
        # how often a node was put into a subgraph, or something was said of one as a member; and values of both
        self.members, self.by_default = 0, 0
        # what is neither a node nor an edge, nor said of one
        self.beside: List[Tuple[str, Scalar]] = []

    def leave(self, what: str, value: Scalar) -> None:
        """Something stands here that belongs to no node and no edge."""
        if value:
            self.beside.append((what, value))

    def fault(self, told: str) -> BadDump:
        return BadDump(f"{line_at(self.text, self.token.at)}{told}")

    def take(self, *texts: str) -> Optional[str]:
        """The next word, if it is one of these marks or words."""
        if self.token.kind in ("mark", "word") and self.token.text in texts:
            said = self.token.text
            self.token = next(self.tokens)
            return said
        return None

    def need(self, *texts: str) -> str:
        said = self.take(*texts)
        if said is None:
            raise self.fault(f"DOT needs {' or '.join(texts)} here, and finds {self.token.text[:40]}")
        return said

    def name(self) -> Optional[str]:
        """The next name or value, if there is one; texts may be joined by `+`."""
        if self.token.kind not in ("name", "html"):
            return None
        said = self.token.text
        self.token = next(self.tokens)
        while self.take("+"):
            if self.token.kind != "name":
                raise self.fault("DOT needs a text behind +")
            said += self.token.text
            self.token = next(self.tokens)
        return said

    def read(self) -> bool:
        """Reads the whole text. Whether its arrows are `->`."""
        self.take("strict")
        self.arrow = "->" if self.need("graph", "digraph") == "digraph" else "--"
        self.leave(NAME_OF_GRAPH, self.name())
        self.need("{")
        while self.parts:
            self.statement(self.parts[-1])
        if self.token.kind != "end":
            raise self.fault("behind the graph stands something else: give a file of one graph")
        return self.arrow == "->"

    def statement(self, part: Part) -> None:
        """Reads the next statement, or the begin or the end of a subgraph."""
        kind = self.token.text
        if self.take(";", ","):
            return
        if self.take("}"):
            self.parts.pop()
            for kind in part.idle:
                self.leave_idle(part, kind, part.idle[kind])
            if self.parts:
                self.end(self.parts[-1], part.nodes)
        elif self.take("subgraph"):
            self.subgraph(part, self.name())
        elif self.token.kind == "mark" and kind == "{":
            self.subgraph(part, None)
        elif self.take("node", "edge", "graph"):
            if part.chain or self.token.text != "[":
                raise self.fault(f"{kind} has a meaning in DOT: a host of this name needs quotes")
            self.set_defaults(part, kind, self.list())
        else:
            self.node_or_value(part)

    def set_defaults(self, part: Part, kind: str, said: Attributes) -> None:
        """What nodes, or edges, have from here on; or what is said of the graph."""
        if kind == "graph":
            for key, value in said.items():
                self.leave(f"{part.name or 'graph'}.{key}", value)
        else:
            self.leave_idle(part, kind, {key: it for key, it in part.idle[kind].items() if key in said})
            part.idle[kind].update(said)
        part.defaults[kind] = {**part.defaults[kind], **said}
        part.of_edges = None
        for name in self.members_of(part.nodes) if kind == "node" and len(self.parts) > 1 else ():
            more = self.of_members(part, name, said)
            self.attributes[name].update(more)
            for key in more:
                part.idle[kind].pop(key.removeprefix("subgraph."), None)
        if len(part.defaults[kind]) > MOST_DEFAULTS:
            raise self.fault(f"there are more than {MOST_DEFAULTS} attributes by default")

    def leave_idle(self, part: Part, kind: str, said: Attributes) -> None:
        """Defaults that no node, or no edge, was made with stand beside."""
        for key, value in said.items():
            self.leave(f"{part.name + '.' if part.name else ''}{kind}.{key}", value)

    def subgraph(self, part: Part, name: Optional[str]) -> None:
        """A subgraph begins, or one that is there already is named as the end of an edge."""
        inner = Part(part) if name is None else part.named.setdefault(name, Part(part, name))
        if not self.take("{"):
            self.end(part, inner.nodes)
        elif len(self.parts) > DEEPEST:
            raise self.fault(f"subgraphs are nested more than {DEEPEST} deep")
        else:
            self.parts.append(inner)

    def node_or_value(self, part: Part) -> None:
        """A node, alone or as the end of an edge; or a value of the graph, which stands beside."""
        name = self.name()
        if name is None:
            raise self.fault(f"no statement of DOT begins with {self.token.text[:40]}")
        if not part.chain and self.take("="):
            value = self.name()
            if value is None:
                raise self.fault("DOT needs a value behind =")
            self.leave(f"{part.name or 'graph'}.{name}", value)
            return
        if name not in self.attributes:
            need_few(len(self.attributes), "hosts")
            self.attributes[name] = {**part.inside(), **part.defaults["node"]}
            self.count_values(len(part.defaults["node"]))
            for it in self.parts:
                it.idle["node"].clear()
        else:
            self.attributes[name].update(self.of_members(part, name, part.defaults["node"]))
        for it in self.parts:
            if name not in it.nodes:
                it.nodes[name] = None
                self.members += 1
        need_few_members(self.members)
        for is_first in (True, False):
            if self.take(":"):
                self.port(name, is_first)
        self.end(part, (name,), own=name)

    def members_of(self, nodes: Iterable[str]) -> Iterable[str]:
        """Nodes of a subgraph, of which something is said now. A short text may say it again and again of many."""
        named = list(nodes)
        self.members += len(named)
        need_few_members(self.members)
        return named

    def of_members(self, part: Part, name: str, defaults: Attributes) -> Attributes:
        """What being in a subgraph says of a node that was there before. Graphviz draws it without these defaults."""
        if len(self.parts) == 1:
            return {}
        before, outer = self.attributes[name], self.parts[0].defaults["node"]
        own = {key: value for key, value in defaults.items() if outer.get(key) != value != before.get(key)}
        said: Attributes = {key if key not in before else f"subgraph.{key}": value for key, value in own.items()}
        return {**said, **({} if "subgraph" in before else part.inside())}

    def port(self, name: str, is_first: bool) -> None:
        """A port behind a name stands beside, unless it may well be a part of the name."""
        port = self.name()
        if port is None:
            raise self.fault("DOT needs a port behind :")
        self.leave("ports", port)
        other = self.ports.setdefault(name, port) if is_first else port
        if other != port and (port + other).isdigit():
            raise self.fault(f"{name}:{port} and {name}:{other} are one node to DOT: such names need quotes")

    def end(self, part: Part, nodes: Iterable[str], own: Optional[str] = None) -> None:
        """An end of an edge, or a whole statement, was read: the edge goes on, or ends with its attributes."""
        part.chain.append(nodes)
        if self.token.kind == "mark" and self.token.text in ("--", "->"):
            self.need(self.arrow)
            return
        chain, part.chain = part.chain, []
        said = self.list()
        if len(chain) == 1 and own is not None:
            self.own[own] = None
            self.attributes[own].update(said)
        elif len(chain) == 1:
            self.unnamed += 1
            for name in self.members_of(nodes):
                self.attributes[name].setdefault("subgraph", f"unnamed {self.unnamed}")
        beside = self.beside_edge(part, said) if len(chain) > 1 else said
        for it in self.parts if len(chain) > 1 else ():
            it.idle["edge"].clear()
        for ones, others in zip(chain, chain[1:]):
            pairs = [*itertools.islice(itertools.product(ones, others), MOST_IMPLIED + 1)]
            self.implied += len(pairs) if len(pairs) > 1 else 0
            need_few_implied(self.implied, "subgraphs as ends stand for many edges")
            self.count_values(len(pairs) * len(beside))
            self.edges += [(one, other, beside) for one, other in pairs]

    def beside_edge(self, part: Part, said: Attributes) -> Attributes:
        """What stands beside an edge. Edges that say nothing themselves have the same in common."""
        if part.of_edges is None:
            part.of_edges = {**part.inside(), **part.defaults["edge"]}
        if not said:
            return part.of_edges
        return {**part.of_edges, **said}

    def count_values(self, number: int) -> None:
        """Refuses very many values of nodes and edges, which a short text may say of all of them."""
        self.by_default += number
        need_few(self.by_default, "values of nodes and edges")

    def list(self) -> Attributes:
        """The attributes in brackets, if such stand here."""
        said: Attributes = {}
        while self.take("["):
            if self.token.text == "]" and self.token.kind == "mark":
                said["brackets"] = "[]"
            while not self.take("]"):
                key = self.name()
                if key is None:
                    raise self.fault(f"an attribute of DOT needs a name, and this is {self.token.text[:40]}")
                said[key] = self.name() if self.take("=") else "true"
                if said[key] is None:
                    raise self.fault("DOT needs a value behind =")
                self.take(",", ";")
        return said


def of_dot(text: str) -> Views:
    """What a text of DOT says. A node's own statement gives it an entry, as do its edges but those that point at it.

    >>> of_dot('digraph { a -> {b c} [weight=3]; b -> "a" }').value
    {'b': ['a'], 'c': [], 'a': ['b', 'c']}
    """
    reader = Reader(text)
    is_directed = reader.read()
    views = Views("DOT" + (", whose arrows are listings" if is_directed else ""))
    if reader.ports:
        views.kind += ", and ports as in a:b are passed over"
    html = next((it for it in reader.attributes if it[:1] == "<" and it[1:-1] in reader.attributes), None)
    if html:
        raise BadDump(f"a node has the HTML text {html} as its name, and another one the same text in quotes")
    views.beside += [*reader.beside, *(("comments", it) for it in comments_in(text))]
    linked = {name for edge in reader.edges for name in edge[:2]}
    is_of_some = not is_directed and linked - set(reader.own)
    for name in reader.own:
        is_marked = is_of_some and name in linked and not reader.attributes[name]
        views.enter(name, {"statement": "of its own"} if is_marked else reader.attributes[name])
    for one, other, said in reader.edges:
        if is_directed:
            views.listing(one, other, said)
        else:
            views.link(one, other, said)
    for name, attributes in reader.attributes.items():
        if attributes and name not in reader.own and name in views.peers:
            views.enter(name, attributes)
        elif name not in views.peers:
            # it is listed alone, and so has no entry
            views.beside += [(f"{key} of {name[:MOST_NAME]}", value) for key, value in attributes.items()]
    return views


def comments_in(text: str) -> List[str]:
    """The comments in a text of DOT that have a word in them."""
    spaces, at = [], 0 if any(it in text for it in ("#", "//", "/*")) else len(text)
    while at < len(text):
        found = TOKEN.match(text, at)
        kind = found.lastgroup if found else None
        if found and kind == "space":
            spaces.append(found[0].strip())
        at = found.end() if found and kind != "html" else end_of_html(text, at)
    return [it for it in spaces if OF_COMMENTS.search(it)]
