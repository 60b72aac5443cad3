"""How many crashes a graph survives: `analyse`, and the report that it gives."""

from __future__ import annotations

import tempfile
from dataclasses import dataclass, field
from typing import Any, Dict, Generic, Iterable, List, Optional, Tuple

from .answers import Answer, read_answer
from .certificates import members_of
from .checks import Verdict, judged
from .discs import discs
from .errors import BadGraph, NotConfirmed
from .graphs import Graph, NamedGraph, Node, is_name, named_graph, shown
from .pictures import drawn
from .limits import USUAL_HOSTS
from .programs import Program, call, demand_end, find, first_line, group_word, refuse, text_from, words_for


@dataclass(frozen=True)
class Report(Generic[Node]):
    """How many crashes split a graph, or a group of its nodes, in the caller's names.

    - `is_linked`: every two members are linked. Then no crashes separate two members, and `k` is one less than the
      number of members; `cut` and `side` are empty, `near` and `far` are None.
    - Else crashing the `k` nodes of `cut` separates `near` from `far`; `side` has the nodes that `near` still reaches,
      with `near` itself. Crashing fewer than `k` nodes separates no two surviving members. `k` is 0 if two members
      are separated without any crash.
    - `group`: the members, in the order of their ids; None if all nodes are.
    - `certificate`: the text of a certificate file, which proves this. overlay-check has said yes to it.
    - `ids`: which id each node has in the certificate.
    - `graph_file`: the graph as a graph file, with a comment before the line of each node, which names it: a file for
      `overlay picture --names` and `overlay analyse --names`, and for whoever compares the graph in the certificate.

    Print it to read it in words.
    """

    k: int
    is_linked: bool
    cut: Tuple[Node, ...]
    near: Optional[Node]
    far: Optional[Node]
    side: Tuple[Node, ...]
    group: Optional[Tuple[Node, ...]]
    certificate: str = field(repr=False)
    ids: Dict[Node, int] = field(repr=False)
    graph_file: str = field(repr=False)

    @property
    def survives(self) -> int:
        """How many crashes the overlay survives, whichever nodes they strike: that many crashes, or fewer, separate no
        two surviving members. It is `k - 1`, or 0 if `k` is 0.

        If two members are not linked, one crash more does separate two, when it strikes the `cut`. If `k` is 0, they
        are separated without any crash.

        If every two members are linked, no number of crashes ever separates two of them. `survives` is then the most
        crashes that are sure to leave two members: two less than there are members, or 0.
        """
        return max(self.k - 1, 0)

    def picture(self, *, pair: Optional[Tuple[Node, Node]] = None, fan: Optional[Node] = None,
                overlay: Optional[Program] = None) -> str:
        """A picture of the graph as SVG, in the caller's names: the side on the left, the cut in the middle, all other
        nodes on the right; if every two members are linked, all nodes on a ring.

        `pair` draws the paths between two members that are not linked, and `fan` those from a member to members
        before it, each in a colour of its own. A certificate has them for some members only; for others `Refused` (86)
        is raised, which names those that there are, and `BadGraph` for what is no node. `overlay picture` draws it, and
        only if the certificate holds. Of more than 1,024 nodes each side is one disc, and no paths are drawn.

        >>> picture = analyse([("a", "b"), ("b", "c"), ("c", "d"), ("d", "a")]).picture(fan="c")
        >>> picture.startswith("<svg")
        True
        """
        entry = []
        if len(self.ids) > USUAL_HOSTS:
            return self._discs(is_of_paths=pair is not None or fan is not None)
        if pair is not None:
            entry.append(self._pair(pair))
        if fan is not None:
            entry.append(f"--fan={self._id_of(fan)}")
        names = {place: name for name, place in self.ids.items()}
        return drawn(self.certificate, self.graph_file, names, entry, overlay)

    def _discs(self, is_of_paths: bool) -> str:
        """The picture of a large graph."""
        if is_of_paths:
            raise BadGraph(f"paths are drawn of at most {USUAL_HOSTS:,} nodes, and the graph has {len(self.ids):,}")
        (links,) = members_of(self.certificate, "links")
        ends = (None if name is None else self.ids[name] for name in (self.near, self.far))
        return discs(NamedGraph(self.ids, links), self._title, [self.ids[it] for it in self.cut], *ends)

    @property
    def _title(self) -> str:
        """What it says, in few words."""
        if self.near is None:
            return "Every two nodes are linked: no crash parts two that survive"
        ends = f"{shown(self.near)} from {shown(self.far)}"
        return f"Without a crash {ends} is separated" if self.k == 0 else f"Crashing {self.k} nodes separates {ends}"

    def _pair(self, pair: Tuple[Node, Node]) -> str:
        """The option that names two nodes."""
        given: Any = pair
        is_text = isinstance(given, (str, bytes))
        members = {self._id_of(node) for node in given} if isinstance(given, Iterable) and not is_text else set()
        if len(members) != 2:
            raise BadGraph(f"a pair is two nodes, and this is none: {pair!r}")
        return f"--pair={min(members)},{max(members)}"

    def _id_of(self, node: Node) -> int:
        """The id of a node."""
        if not is_name(node) or node not in self.ids:
            raise BadGraph(f"{node!r} is no node of the graph")
        return self.ids[node]

    def __str__(self) -> str:
        """What it says, in words."""
        who = "nodes" if self.group is None else f"members of the group {listed(self.group)}"
        if self.is_linked:
            return f"Every two {who} are linked: no crashes separate two of them."
        if self.k == 0:
            return f"{shown(self.near)} and {shown(self.far)} are separated without any crash."
        cut = f"Crashing {listed(self.cut)} separates {shown(self.near)} from {shown(self.far)}."
        return f"{cut} Fewer crashes separate no two surviving {who}."


def listed(names: Iterable[Any]) -> str:
    return ", ".join(map(shown, names))


def confirmed(verdict: Verdict) -> Answer:
    """What a certificate says to which overlay-check says yes."""
    if verdict.answer is None:
        raise NotConfirmed(f"the certificate does not hold: {verdict.line}\n{verdict.reason}")
    return verdict.answer


def demand_asked(answer: Answer, certificate: str, graph: NamedGraph[Any], members: Optional[List[int]]) -> None:
    """Demands that a certificate that holds is of this graph and these members. `answer` is what overlay-check says of
    it, so its group and its moment are those of the certificate; its group is None if it is all nodes."""
    nodes, links = members_of(certificate, "nodes", "links")
    if nodes != graph.nodes or links != graph.links:
        raise NotConfirmed("the graph in the certificate is another one")
    asked = None if members is None or members == graph.nodes else tuple(members)
    if answer.group != asked:
        raise NotConfirmed("the group in the certificate is another one")
    if answer.moment != 0:
        raise NotConfirmed("the certificate is of a moment, and not of a graph that was given")


def analyse(graph: Graph[Node], group: Optional[Iterable[Node]] = None, workers: int = 1, *,
            overlay: Optional[Program] = None, overlay_check: Optional[Program] = None) -> Report[Node]:
    """Finds the fewest crashes that split a graph, and has the answer checked.

    `graph` is one of these, and names are any hashable values:

    - an undirected networkx graph; links that occur twice count once;
    - a list of edges, each a pair of names; the nodes are those that occur;
    - a dict of views, from each node's name to the names of its peers. Two nodes are linked if each lists the other.
      The nodes are the keys: a peer without a view of its own is none. A warning, `ViewsDiffer`, tells of listings
      that are not answered, and of such peers.

    A link of a node to itself is passed over, with the same warning.

    In the certificate whole numbers from 0 to 4294967295 are their own ids, if all names are such. Else nodes are
    numbered 1, 2, 3, ..: in the order of the bytes of names in UTF-8 if all names are texts, as `overlay import`
    numbers them, and else in the order in which they are given.

    With a `group` of nodes only these must stay joined; the cut may have any nodes. `workers` is 1 to 64: at most so
    many threads share out the analysis.

    >>> square = [("a", "b"), ("b", "c"), ("c", "d"), ("d", "a")]
    >>> report = analyse(square)
    >>> report.k, report.survives, sorted(report.cut)
    (2, 1, ['b', 'd'])
    >>> print(analyse({"a": ["b"], "b": ["a"], "c": []}))
    c and a are separated without any crash.

    What is trusted: overlay-check, Python, and a few lines here. A report is given only after overlay-check said yes
    to its certificate, and the graph and the group in the certificate were compared with those that were given; else
    this raises `NotConfirmed`. The program overlay, which makes the certificate, need not be trusted. `Refused` says
    why it refuses a graph: it takes 1 to 32,768 nodes. Of more than 1,024 the checker is overlay-check-large.
    """
    named = named_graph(graph)
    return analysed(named, named.members(group), workers, overlay=overlay, overlay_check=overlay_check)


def analysed(named: NamedGraph[Node], members: Optional[List[int]] = None, workers: int = 1, *,
             overlay: Optional[Program] = None, overlay_check: Optional[Program] = None) -> Report[Node]:
    """The same for a graph whose nodes have ids already, and a group of these."""
    words = ["analyse", "--certificate", f"--workers={workers}", *words_for(len(named.ids))]
    with tempfile.TemporaryFile(buffering=0) as printed, group_word(members) as group:
        ended = call(find("overlay", overlay), [*words, *group], named.text.encode(), printed)
        demand_end(ended)
        line, begin = first_line(printed)
        if line.startswith("refused "):
            refuse(line, ended.err)
        answer = confirmed(judged(printed, overlay_check, len(named.ids) > USUAL_HOSTS))
        certificate = text_from(printed, begin)
    if read_answer(line, "report") != answer:
        raise NotConfirmed(f"the report is not that of the certificate: {line}")
    demand_asked(answer, certificate, named, members)
    names = named.names
    return Report(
        k=answer.k,
        is_linked=answer.is_linked,
        cut=named.named(answer.cut),
        near=None if answer.near is None else names[answer.near],
        far=None if answer.far is None else names[answer.far],
        side=named.named(answer.side),
        group=None if members is None else tuple(names[place] for place in members),
        certificate=certificate,
        ids=named.ids,
        graph_file=named.text_with_names,
    )
