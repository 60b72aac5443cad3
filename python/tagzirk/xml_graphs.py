"""Graph files that are XML: GraphML, GEXF, XGMML, GXL, DGML and what else has elements of nodes and of edges."""

from __future__ import annotations

import collections
import re
from typing import Dict, List, Optional, Set, Tuple
from xml.parsers import expat

from .errors import BadDump
from .fields import words_of
from .graph_files import NAME_OF_GRAPH, WRITTEN_AT, WRITTEN_BY, Graph
from .limits import DEEPEST, need_few, need_short
from .states import STATE_WORDS
from .values import Scalar, both

FORMS = {"graphml": "GraphML", "gexf": "GEXF", "gxl": "GXL", "directedgraph": "DGML", "graph": "XML"}
# How a text of XML begins, whose first element is one of these.
XML = re.compile(r"\s*<(?:\?xml\b|!--|!doctype\b|(?:\w+:)?(?:graphml|gexf|gxl|directedgraph|graph)\b)", re.IGNORECASE)
NODES, EDGES = ("node",), ("edge", "link")
# What both ends of an edge are called.
ENDS = (("source", "target"), ("from", "to"))
# What says that edges have a direction, and which values of it say so.
DIRECTED = ("edgedefault", "defaultedgetype", "edgemode", "directed")
YES, NO = ("directed", "defaultdirected", "true", "1"), ("undirected", "mutual", "false", "0")
# Elements that hold the value of a field of a node or an edge, and what names the field.
VALUES = {"data": "key", "attvalue": "for", "att": "name", "attr": "name"}
# Elements in which nodes and edges stand, by the first element of the file; in XML of no known form all of these.
AROUND = {"graphml": ("graph",), "gexf": ("graph", "nodes", "edges"), "gxl": ("graph",), "graph": ("graph",),
          "directedgraph": ("nodes", "links")}
OF_ALL = ("graph", "nodes", "edges", "links")
# Elements that say nothing if they are empty.
EMPTY = frozenset("""attvalues attributes spells slices parents meta keywords description creator desc options default
    nodes edges links categories properties styles paths type string int float bool enum seq set bag tup""".split())
# What says how a file of GEXF was written.
OF_GEXF = {"creator": WRITTEN_BY, "meta.lastmodifieddate": WRITTEN_AT}
TAGS = re.compile(r"<((?:[^\s<>/!?:]+:)?(?:(node)|edge|link))[\s/>]", re.IGNORECASE)
# Attributes of these, and of elements that are none of nodes, edges and values, that say how the file is to be read.
OF_VALUES = ("key", "for", "name", "id", "value", "type")
OF_FORM = ("version", "mode", "edgeids", *DIRECTED)


class Item:
    """A node or an edge that is being read: its attributes, how these are written, and the fields that stand in it."""

    def __init__(self, tag: str, line: int, attributes: Dict[str, str], written: List[str]) -> None:
        self.tag, self.line, self.attributes, self.written = tag, line, attributes, written
        self.fields: Dict[str, Scalar] = {}

    def say(self, name: str, value: str) -> None:
        """A value of a field, which may have several."""
        self.fields[name] = f"{self.fields[name]},{value}" if name in self.fields else value


class Reader:
    """Reads one graph, element by element. Two graphs, or a graph in a node, are refused: of these hosts would be lost,
    or a group be taken for a host."""

    def __init__(self) -> None:
        self.graph = Graph("XML")
        self.path: List[str] = []
        # whether each element that is open has had nothing in it so far; and those of them that the form does not have
        self.bare: List[bool] = []
        self.strange: List[str] = []
        # what most nodes and most edges are called, and the spaces of names that the first element declares
        self.tags: Tuple[str, ...] = ()
        self.spaces: Dict[str, str] = {}
        self.item: Optional[Item] = None
        self.first, self.graphs, self.is_directed = "", 0, False
        # how many elements for edges there were
        self.parts = 0
        # the name of a field by its id, and its value where nothing is said; both by the kind of item; and how often
        # such a value was taken
        self.fields: Dict[Tuple[str, str], str] = {}
        self.defaults: Dict[str, Dict[str, Scalar]] = {"node": {}, "edge": {}}
        self.by_default = 0
        # the names of fields that something has
        self.used: Set[str] = set()
        # the field that is declared, and the kinds of items that may have it
        self.key, self.kinds = "", [*self.defaults]
        # the fields whose values are being read, one in another, and whether the value is a text
        self.values: List[Tuple[str, bool]] = []
        # the texts of the elements that are open
        self.texts: List[List[str]] = [[]]
        # the names of fields of the whole graph by their ids
        self.of_graph: Dict[str, str] = {}
        self.parser = expat.ParserCreate()
        self.parser.buffer_text = True
        self.parser.StartElementHandler = self.start
        self.parser.EndElementHandler = self.end
        self.parser.CharacterDataHandler = lambda text: self.texts[-1].append(text)
        self.parser.CommentHandler = lambda text: self.leave("comments", text.strip())
        self.parser.ProcessingInstructionHandler = self.instruction
        self.parser.EntityDeclHandler = self.refuse_entity
        self.parser.StartDoctypeDeclHandler = self.doctype

    def read(self, text: str) -> Graph:
        self.tags = tags_of(text)
        try:
            self.parser.Parse(text.lstrip().encode(errors="surrogatepass"), True)
        except (expat.ExpatError, LookupError) as why:
            raise BadDump(f"it is no XML: {why}") from None
        if not self.graphs:
            raise BadDump(f"it is XML, and has no graph of nodes and edges: its first element is {self.first}")
        for it in dict.fromkeys(self.fields.values()):
            if it not in self.used and it not in self.of_graph.values():
                self.graph.pass_over("declared", it)
        self.graph.drop_numbers("id")
        counts = (("nodes.count", str(len(self.graph.hosts))), ("edges.count", str(len(self.graph.links))))
        self.graph.beside = [it for it in self.graph.beside if it not in counts]
        return self.graph

    def leave(self, what: str, value: str) -> None:
        """Something stands here that is no value of a field: of the node or the edge here, or beside them."""
        if not value:
            return
        what = OF_GEXF.get(what, what) if self.first == "gexf" else what
        if self.item and what != "comments":
            self.item.say(what, value)
        else:
            self.graph.pass_over(what, value)

    def instruction(self, target: str, text: str) -> None:
        """An instruction stands here. Without a text its target is one."""
        self.leave(f"<?{target}" if text.strip() else "instruction", text.strip() or target)

    def doctype(self, name: str, place: Optional[str], *_: object) -> None:
        """What a file says of its kind, if it is not the name of a form."""
        if local(name) not in FORMS or words_of(place or "") & STATE_WORDS:
            self.graph.pass_over("doctype", " ".join(filter(None, (name, place))))

    def refuse_entity(self, name: str, *_: object) -> None:
        raise BadDump(f"its XML declares the entity {name[:40]}, which is not read")

    def fault(self, told: str) -> BadDump:
        return BadDump(f"line {self.parser.CurrentLineNumber}: {told}")

    def start(self, tag: str, attributes: Dict[str, str]) -> None:
        """An element begins."""
        name, around = local(tag), self.path[-1] if self.path else ""
        self.open(tag, name, attributes)
        if name in ("graph", "directedgraph") and not (name == "graph" and self.item and "data" in self.path):
            self.begin_graph(attributes)
        elif name in NODES or name in EDGES and around != "data":
            self.begin_item(tag, attributes)
        elif name in ("hyperedge", "rel"):
            raise self.fault(f"an element {name} links more than two hosts")
        elif name == "attributes":
            self.kinds = [it for it in self.defaults if attributes.get("class", it) == it]
        elif name in ("key", "attribute"):
            self.field(attributes)
        elif name in VALUES or name == "default":
            self.begin_value(tag, attributes)
        else:
            for it, value in attributes.items():
                if not it.startswith("xmlns") and not it.endswith("schemaLocation") and it not in OF_FORM:
                    self.leave(f"{name}.{it}", value)

    def open(self, tag: str, name: str, attributes: Dict[str, str]) -> None:
        """An element is open from here on. What stands in one that the form does not have is told by its name."""
        if not self.path:
            self.first = name
            self.graph.kind = FORMS.get(name, "XML")
            self.spaces = {it: value for it, value in attributes.items() if it.startswith("xmlns")}
        need_short(tag)
        if len(self.path) >= DEEPEST:
            raise self.fault(f"elements are nested more than {DEEPEST} deep")
        space = [f"{it}={value}" for it, value in attributes.items()
                 if (it == "xmlns" or it.startswith("xmlns") and it in self.spaces) and self.spaces.get(it) != value]
        known = AROUND.get(self.first, OF_ALL)
        self.parts += name in ("edges", "links")
        is_known = name in known and tag.rpartition(":")[0] in ("", *(it.rpartition(":")[0] for it in self.tags))
        is_item = name in (*NODES, *EDGES)
        self.strange.append(" ".join([tag, *space]) if space or self.path and not is_known and not is_item else "")
        self.bare[-1:] = [False] * len(self.bare[-1:])
        self.bare.append(name in VALUES or not attributes and name not in EMPTY)
        self.path.append(name)
        self.texts.append([])

    def end(self, tag: str) -> None:
        """An element ends."""
        name, texts, is_bare = self.path.pop(), self.texts.pop(), self.bare.pop()
        self.strange.pop()
        text = "".join(texts).strip()
        if name == "default" and text:
            self.used.add(self.key)
            for kind in self.kinds:
                self.defaults[kind][self.key] = text
            if not self.kinds:
                self.leave(f"default of {self.key}", text)
        elif name in VALUES and self.values:
            self.end_value(text, is_bare)
        elif self.values:
            # what stands in elements of a value is of it
            self.texts[-1] += [" ", *texts, " "]
        else:
            self.leave(name, text)
        if is_bare and not text and name not in VALUES and not (self.item and name == self.item.tag):
            self.leave("element", tag)
        if self.item and name == self.item.tag:
            self.take(self.item)
            self.item = None

    def end_value(self, text: str, is_bare: bool) -> None:
        """A value of a field ends, which is a text or not."""
        key, is_text = self.values.pop()
        if not self.item:
            self.leave(key, text)
        elif text and not is_text:
            self.item.say(f"{key}.text", text)
        elif text or is_text and is_bare and key not in self.item.fields:
            self.item.say(key, text)

    def begin_graph(self, attributes: Dict[str, str]) -> None:
        self.graphs += 1
        if self.item:
            raise self.fault("a node has a graph in it: which are hosts, and which groups of hosts, it does not say")
        if self.graphs > 1:
            raise self.fault("a second graph begins: give a file of one graph")
        lower = {name.lower(): value.lower() for name, value in attributes.items()}
        default = "true" if self.first in ("directedgraph", "gxl") else "false"
        self.is_directed = next((lower[it] for it in DIRECTED if it in lower), default) in YES
        for it, value in attributes.items():
            if it.lower() not in OF_FORM and not it.startswith("xmlns") and not it.endswith("schemaLocation"):
                # GXL needs a name
                self.leave(NAME_OF_GRAPH if (self.first, it) == ("gxl", "id") else f"graph.{it}", value)

    def begin_item(self, tag: str, attributes: Dict[str, str]) -> None:
        name = local(tag)
        if self.item:
            raise self.fault(f"an element {name} stands in an element {self.item.tag}: groups of hosts are not read")
        if self.values:
            raise self.fault(f"an element {name} stands in a value")
        if not self.graphs:
            raise self.fault(f"an element {name} stands outside of a graph")
        lower = {it.lower() if it.lower() in ("id", "source", "target") else it: attributes[it] for it in attributes
                 if it != "xmlns"}
        self.item = Item(name, self.parser.CurrentLineNumber, lower, list(attributes))
        for it in (*self.strange, *[tag] * (tag not in self.tags)):
            if it:
                self.item.say("element", it)

    def field(self, attributes: Dict[str, str]) -> None:
        """A field of nodes or of edges is declared, by itself or among those of one kind."""
        if "for" in attributes:
            self.kinds = [it for it in self.defaults if attributes["for"] in (it, "all")]
        if attributes.get("for") == "graph":
            self.of_graph[attributes.get("id", "")] = attributes.get("attr.name", "")
        self.key = need_short(next((attributes[it] for it in ("attr.name", "title", "id") if it in attributes), ""))
        for it in self.kinds:
            self.fields[it, attributes.get("id", "")] = self.key

    def begin_value(self, tag: str, attributes: Dict[str, str]) -> None:
        """A value of a field begins, in an attribute or in the text that follows. In a list it is of the list."""
        name = local(tag)
        if name == "default":
            return
        around = self.values[-1][0] if self.values else name
        key = need_short(attributes.get(VALUES[name], ""))
        if not self.item:
            self.values.append((self.of_graph.get(key) or key or around, True))
            self.leave(self.values[-1][0], attributes.get("value", ""))
            return
        kind = "node" if self.item.tag in NODES else "edge"
        key = self.fields.get((kind, key), key) or around
        self.used.add(key)
        self.values.append((key, "value" not in attributes))
        if "value" in attributes:
            self.item.say(key, attributes["value"])
        for it, value in attributes.items():
            if it not in OF_VALUES:
                self.item.say(f"{key}.{it}", value)

    def take(self, item: Item) -> None:
        """A node or an edge was read."""
        place = f"line {item.line}: "
        kind = "node" if item.tag in NODES else "edge"
        self.by_default += len(self.defaults[kind])
        need_few(self.by_default, "values by default")
        said: Dict[str, Scalar] = {**self.defaults[kind], **item.fields}
        if kind == "node":
            if "id" not in item.attributes:
                raise BadDump(f"{place}a node has no id")
            key = item.attributes.pop("id")
            self.graph.host(key, both(item.attributes, said), place)
            return
        ends = next((it for it in ENDS if set(it) <= set(item.attributes)), None)
        if not ends:
            raise BadDump(f"{place}an edge should have the attributes source and target")
        one, other = (item.attributes.pop(end) for end in ends)
        called = [it for it in item.written if it.lower() in ends]
        ways = {it: item.attributes[it].lower() for it in ("directed", "type") if it in item.attributes}
        for it, way in ways.items():
            if way in (*YES, *NO):
                del item.attributes[it]
        kinds = [*ways.values()]
        is_directed = next((it in YES for it in kinds if it in (*YES, *NO)), self.is_directed)
        told = [" and ".join(called), *["with capitals"] * any(it != it.lower() for it in called)]
        told += [f"{it} {way}" for it, way in ways.items() if way in (*YES, *NO)]
        told += [f"in part {self.parts}"] if self.parts > 1 else []
        self.graph.link(one, other, is_directed, both(item.attributes, said), ", ".join(told))


def tags_of(text: str) -> Tuple[str, ...]:
    """What most nodes and most edges of a text are called, with the spaces of their names."""
    found: Tuple[List[str], List[str]] = ([], [])
    for it in TAGS.finditer(text):
        found[bool(it[2])].append(it[1])
    return tuple(collections.Counter(them).most_common(1)[0][0] for them in found if them)


def local(tag: str) -> str:
    """The name of an element without that of its space."""
    return tag.rpartition(":")[2].lower()


def xml_graph(text: str) -> Graph:
    """The graph that a text of XML says.

    >>> graph = xml_graph('<graph><node id="a"/><node id="b"/><edge source="a" target="b" weight="3"/></graph>')
    >>> list(graph.hosts), graph.links[0].said, graph.links[0].way
    (['a', 'b'], {'weight': '3'}, 'source and target')
    """
    return Reader().read(text)
