"""Graph files in sections of lines, the hosts first and then the links: Pajek, LEMON, LEDA, GDF, TGF, what Graphviz
writes as `plain`, and DIMACS and Matrix Market, which number their hosts."""

from __future__ import annotations

import collections
import csv
import re
from functools import lru_cache
from typing import Counter, Dict, Iterator, List, NamedTuple, Optional, Sequence, Set

from .errors import BadDump
from .graph_files import Graph
from .limits import need_declarable
from .values import Scalar

# What `dot -Tplain` says of each node behind its name.
OF_PLAIN = ("x", "y", "width", "height", "label", "style", "shape", "color", "fillcolor")
# What DIMACS calls its problems.
OF_DIMACS = ("edge", "edges", "col", "sp", "max", "min", "mat", "cep", "tw")
# A word, or a text in quotes.
WORD = re.compile(r'"[^"]*"|[^ \t\r\f\v"]+')


class Line(NamedTuple):
    """A line that is not blank: its number and its text."""

    number: int
    text: str

    @property
    def words(self) -> List[str]:
        """Its words, with white space between; texts in quotes are one word each, without these."""
        words, at = [], 0
        for found in WORD.finditer(self.text):
            between = self.text[at : found.start()]
            if between.strip() or at and not between:
                raise BadDump(f"{self.place}a text in quotes has no end, or no space behind it: {self.text[:60]}")
            words.append(found[0][1:-1] if found[0][0] == '"' else found[0])
            at = found.end()
        if self.text[at:].strip():
            raise BadDump(f"{self.place}a text in quotes has no end: {self.text[:60]}")
        return words

    @property
    def place(self) -> str:
        """How a message on it begins."""
        return f"line {self.number}: "

    def numbers(self, least: int = 0, most: Optional[int] = None) -> List[int]:
        """Its first words as whole numbers, at least and at most so many."""
        words = self.words[:most]
        if len(words) < least or not all(re.fullmatch(r"-?[0-9]{1,9}", it) for it in words):
            raise BadDump(f"{self.place}numbers should stand here: {self.text[:60]}")
        return [int(it) for it in words]


def lines_of(text: str, comment: str = "\n", graph: Optional[Graph] = None) -> Iterator[Line]:
    """The lines of a text but those that are blank or begin with the mark of a comment. These stand beside a graph."""
    for number, line in enumerate(text.split("\n"), 1):
        bare = line.strip()
        if bare.startswith(comment):
            if graph and bare.strip(f"{comment} \t"):
                graph.pass_over("comments", bare)
        elif bare:
            yield Line(number, bare)


def number_hosts(graph: Graph, count: int) -> None:
    """Declares hosts 1, 2, 3 and so on, as many as a file declares."""
    need_declarable(count)
    for at in range(1, count + 1):
        graph.host(str(at))


def rest(words: Sequence[str], names: Sequence[str] = ()) -> Dict[str, Scalar]:
    """What stands behind a link: by the names of columns, or by the number of the word on its line, from 3 on."""
    return {names[at] if at < len(names) else str(at + 3): word for at, word in enumerate(words)}


def need_words(line: Line, count: int) -> List[str]:
    words = line.words
    if len(words) < count:
        raise BadDump(f"{line.place}{count} words should stand here: {line.text[:60]}")
    return words


def nth(section: str, begun: Counter[str]) -> str:
    """How a section is told that begins: by its name, and which of this name it is."""
    begun[section] += 1
    return section if begun[section] == 1 else f"{section} {begun[section]}"


def pajek(text: str) -> Graph:
    """Pajek: `*Vertices`, then `*Edges` for links, `*Arcs` for listings; or both as lists. Labels are names."""
    graph, section, told = Graph("Pajek", label="label"), "", set()  # type: Graph, str, Set[str]
    way, begun = "", collections.Counter()  # type: str, Counter[str]
    relation: Dict[str, Scalar] = {}
    for line in lines_of(text, "%", graph):
        if line.text.startswith("*"):
            section, behind = line.words[0].lower(), " ".join(line.words[1:])
            way = nth(section, begun)
            relation = {"section": behind} if behind else {}
            if section == "*vertices":
                counts = Line(line.number, line.text[len(section) :]).numbers(1)
                if len(counts) > 1 or graph.hosts:
                    raise BadDump(f"{line.place}its hosts are of two kinds: such networks are not read")
                number_hosts(graph, counts[0])
                for key, said in graph.hosts.items():
                    said["label"] = key
            elif section not in ("*network", "*edges", "*arcs", "*edgeslist", "*arcslist"):
                raise BadDump(f"{line.place}the section {section[:40]} is not read")
            elif section == "*network" and behind:
                graph.pass_over("network", behind)
            continue
        words = line.words
        if section == "*vertices":
            vertex(graph, line, told)
        elif section in ("*edges", "*arcs"):
            words = need_words(line, 2)
            graph.link(words[0], words[1], section == "*arcs", {**rest(words[2:]), **relation}, way)
        elif section in ("*edgeslist", "*arcslist"):
            for other in words[1:]:
                graph.link(words[0], other, section == "*arcslist", relation, way)
        else:
            raise BadDump(f"{line.place}a line of Pajek stands before any section")
    lacking = next((it for it in graph.hosts if told and it not in told), None)
    if lacking:
        raise BadDump(f"it declares {len(graph.hosts)} vertices, and {lacking} has no line of its own: is it torn?")
    return graph


def vertex(graph: Graph, line: Line, told: Set[str]) -> None:
    """Takes in the line of a vertex of Pajek, which has but one."""
    words = line.words
    if words[0] not in graph.hosts:
        raise BadDump(f"{line.place}{words[0][:40]} is not one of the {len(graph.hosts)} vertices")
    if words[0] in told:
        raise BadDump(f"{line.place}the host {words[0]} stands there twice")
    told.add(words[0])
    graph.hosts[words[0]].update({"label": words[1]} if len(words) > 1 else {}, **rest(words[2:]))


def lemon(text: str) -> Graph:
    """LEMON: `@nodes`, `@arcs` and `@edges`, each a table with a header. The column `label` has the keys of hosts."""
    graph, section = Graph("LEMON"), ""
    way, begun = "", collections.Counter()  # type: str, Counter[str]
    header: Optional[List[str]] = None
    for line in lines_of(text, "#", graph):
        words = line.words
        if line.text.startswith("@"):
            section, header = words[0].lower(), None
            way = nth(section, begun)
            for word in words[1:]:
                graph.pass_over(section, word)
        elif section not in ("@nodes", "@arcs", "@edges"):
            graph.pass_over(section or "head", line.text)
        elif header is None:
            header = words
            if section == "@nodes" and "label" not in header:
                raise BadDump(f"{line.place}the nodes of LEMON should have a column label")
        elif section == "@nodes":
            said = dict(zip(header, need_words(line, len(header))))
            graph.host(said.pop("label"), said, line.place)
        else:
            words = need_words(line, 2)
            graph.link(words[0], words[1], section == "@arcs", rest(words[2:], header), way)
    graph.drop_numbers("label")
    return graph


def leda(text: str) -> Graph:
    """LEDA: a head of three lines, or of four that say the direction; the hosts, and the links by their numbers."""
    graph = Graph("LEDA", label="label")
    lines = [*lines_of(text, "#", graph)]
    at = 4 if len(lines) > 3 and lines[3].text in ("-1", "-2") else 3
    is_directed = not (at == 4 and lines[3].text == "-2")
    if len(lines) <= at:
        raise BadDump("its LEDA has a head alone: is it torn?")
    count = lines[at].numbers(1, 1)[0]
    graph.beside += [("types", it.text) for it in lines[1:3] if not re.fullmatch("[a-z]+", it.text)]
    need_declarable(count)
    for number, line in enumerate(lines[at + 1 : at + 1 + count], 1):
        label = line.text[2:-2]
        if line.text != f"|{{{label}}}|":
            raise BadDump(f"{line.place}a host of LEDA is as |{{NAME}}|: {line.text[:60]}")
        graph.host(str(number), {"label": label or str(number)})
    links = lines[at + 1 + count :]
    for line in links[1:]:
        words = need_words(line, 2)
        label = " ".join(words[3:])
        label = label[2:-2] if label[:2] == "|{" and label[-2:] == "}|" else label
        reversal = {"reversal": words[2]} if words[2:] and words[2] != "0" else {}
        graph.link(words[0], words[1], is_directed, {**reversal, **({"label": label} if label else {})})
    graph.need_counts(count, links[0].numbers(1, 1)[0] if links else None)
    if not links:
        raise BadDump("its LEDA ends before its links: is it torn?")
    return graph


def gdf(text: str) -> Graph:
    """GDF: `nodedef>` and `edgedef>`, each a table of CSV whose header has types."""
    graph, way, begun = Graph("GDF"), "", collections.Counter()  # type: Graph, str, Counter[str]
    names: List[str] = []
    is_nodes = True
    for line in lines_of(text, "#", graph):
        head = re.match("(nodedef|edgedef)>", line.text, re.IGNORECASE)
        if head:
            is_nodes = head[1].lower() == "nodedef"
            way = nth(head[1].lower(), begun)
            columns = [it.split() for it in line.text[head.end() :].split(",")]
            names = [it[0] if it else "" for it in columns]
            graph.beside += [("columns", " ".join(it)) for it in columns if len(it) > 2]
            continue
        try:
            cells = next(csv.reader([line.text], strict=True, skipinitialspace=True))
        except csv.Error as why:
            raise BadDump(f"{line.place}it is no row of GDF: {why}") from None
        called = [*names, *map(str, range(len(names) + 1, len(cells) + 1))]
        said: Dict[str, Scalar] = dict(zip(called, (it.strip().strip("'") for it in cells)))
        keys = names[:1] if is_nodes else names[:2]
        ends = [str(said.pop(key, "")) for key in keys]
        if not all(ends) or len(ends) < (1 if is_nodes else 2):
            raise BadDump(f"{line.place}it lacks a name")
        if is_nodes:
            graph.host(ends[0], said, line.place)
        else:
            said_directed = str(said.pop("directed", "")).lower()
            told = f"{way}, directed {said_directed}" if said_directed else way
            graph.link(ends[0], ends[1], said_directed in ("true", "1"), said, told)
    return graph


def tgf(text: str) -> Graph:
    """TGF: lines of a number and a label, a line `#`, and lines of two numbers and a label."""
    graph, is_links = Graph("TGF", label="label"), False
    for line in lines_of(text):
        key, _, label = line.text.partition(" ")
        if line.text == "#":
            is_links = True
        elif is_links:
            words = line.text.split(None, 2)
            if len(words) < 2:
                raise BadDump(f"{line.place}two numbers of hosts should stand here")
            graph.link(words[0], words[1], False, {"label": words[2]} if len(words) > 2 else {})
        else:
            graph.host(key, {"label": label.strip() or key}, line.place)
    graph.kind += ", each line a link, since it does not say directions"
    return graph


def is_tgf(text: str) -> bool:
    """Whether a text is TGF: one line is # alone, hosts with labels stand above it, and links of these alone below."""
    if len(re.findall(r"^[ \t]*#[ \t\r]*$", text, re.MULTILINE)) != 1:
        return False
    lines = [line.text for line in lines_of(text)]
    at = lines.index("#")
    keys = [line.split()[0] for line in lines[:at]]
    labels = {line.partition(" ")[2].strip() for line in lines[:at]}
    ends = [line.split(None, 2)[:2] for line in lines[at + 1 :]]
    known = set(keys)
    has_names = len(known) == len(keys) and not labels <= known
    return has_names and bool(ends) and all(len(it) == 2 and set(it) <= known for it in ends)


@lru_cache(maxsize=1)
def looks_like_tgf(text: str) -> bool:
    """Whether a text looks like TGF, whatever does not fit in it: one line or two are # alone, and above the first each
    line is a whole number and a label that is none, and below it begin lines with two whole numbers."""
    if not re.search(r"^[ \t]*#[ \t\r]*$", text, re.MULTILINE):
        return False
    lines = [line.text for line in lines_of(text)]
    at = lines.index("#")
    # most texts that are no TGF are told by their first line
    if not all(re.fullmatch(r"[0-9]+[ \t]+.*\S", it) for it in lines[:at]):
        return False
    has_labels = any(not re.match(r"[0-9]+[ \t]+[0-9.]+(?:\s|$)", it) for it in lines[:at])
    below = [it for it in lines[at + 1 :] if it != "#"]
    return has_labels and bool(below) and all(re.match(r"[0-9]+\s+[0-9]+(?:\s|$)", it) for it in below)


def line_points(line: Line, word: str) -> int:
    """How many points the line of an edge has."""
    return Line(line.number, word).numbers(1)[0]


def plain(text: str) -> Graph:
    """What `dot -Tplain` writes: where each node stands, and each edge."""
    graph = Graph("Graphviz' plain text, each edge a link, since it does not say directions")
    lines = lines_of(text)
    for line in lines:
        words = line.words
        if words[0] == "node":
            words = need_words(line, 11)
            graph.host(words[1], dict(zip(OF_PLAIN, words[2:])), line.place)
        elif words[0] == "edge":
            words = need_words(line, 4)
            # behind the points of its line, a text with its place may stand
            behind = words[4 + 2 * line_points(line, words[3]) :]
            said = dict(zip(("style", "color"), behind[-2:]))
            graph.link(words[1], words[2], False, {**({"label": " ".join(behind[:-4])} if behind[4:] else {}), **said})
        elif words[0] == "stop":
            for it in [" ".join(words[1:]), *(it.text for it in lines)]:
                graph.beside += [("behind stop", it)] if it else []
            return graph
        elif words[0] != "graph":
            raise BadDump(f"{line.place}a line of such a text begins with node, edge or stop")
    raise BadDump("its last line, stop, is missing: is it torn?")


def dimacs(text: str) -> Graph:
    """DIMACS: `p edge NODES EDGES`, `e A B` for links, or `A B` as PACE has them, and `a A B WEIGHT` for listings."""
    graph, counts = Graph("DIMACS"), []  # type: Graph, List[int]
    for line in lines_of(text):
        words = line.words
        if words[0] == "p" and not counts:
            counts = Line(line.number, " ".join(words[2:])).numbers(2)
            graph.beside += [("problem", words[1])] if words[1] not in OF_DIMACS else []
            number_hosts(graph, counts[0])
        elif words[0] in ("e", "a"):
            words = need_words(line, 3)
            graph.link(words[1], words[2], words[0] == "a", rest(words[3:]))
        elif counts and len(words) == 2 and all(map(str.isdigit, words)):
            graph.link(words[0], words[1], False, {"written as": "two numbers"})
        elif words[0] in ("c", "n", "d", "v", "x"):
            if words[1:]:
                graph.pass_over("comments" if words[0] == "c" else f"lines {words[0]}", " ".join(words[1:]))
        else:
            raise BadDump(f"{line.place}no line of DIMACS begins with {words[0][:40]}")
    if not counts:
        raise BadDump("its line `p edge NODES EDGES` is missing")
    # some programs count each link twice
    if len(graph.links) * 2 != counts[1]:
        graph.need_counts(links=counts[1])
    return graph


def matrix_market(text: str) -> Graph:
    """Matrix Market's coordinates: ROW COLUMN of each entry. A symmetric matrix has links, and another one listings."""
    kinds = text.split("\n", 1)[0].lower().split()[1:]
    if len(kinds) < 4 or kinds[:2] != ["matrix", "coordinate"]:
        raise BadDump("of Matrix Market the kind `matrix coordinate` is read")
    graph, counts = Graph("Matrix Market"), []  # type: Graph, List[int]
    graph.beside += [("header", " ".join(kinds[4:]))] if kinds[4:] else []
    for line in lines_of(text.partition("\n")[2], "%", graph):
        if not counts:
            counts = line.numbers(3, 3)
            if counts[0] != counts[1]:
                raise BadDump(f"{line.place}its matrix is not square")
            number_hosts(graph, counts[0])
            continue
        words = need_words(line, 2)
        graph.link(words[0], words[1], kinds[3] == "general", rest(words[2:]))
    graph.need_counts(links=counts[2] if counts else 0)
    return graph
