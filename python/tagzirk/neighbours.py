"""Lists of neighbours: lines of a host and its neighbours, and the forms of METIS, LGL and networkx."""

from __future__ import annotations

import re
from typing import Dict, List, Optional, Set, Tuple

from .beside import said_behind
from .errors import BadDump
from .graph_files import Graph
from .limits import need_declarable
from .rows import LIST, Row
from .values import Said, Views
from .written import Written


LGL, METIS = "LGL", "METIS"
# What may stand between two names on a line.
BETWEEN = re.compile(r"\s*,\s*|\s+")
# A number of METIS.
WHOLE = re.compile("[0-9]{1,9}")


def is_adjacency(rows: List[Row]) -> bool:
    """Whether lines as `a b c` are lists of neighbours: some line is not two words, each host has one line, and every
    neighbour has one too."""
    heads = [row.words[0] for row in rows]
    if len(set(heads)) < len(heads) or len(heads) == 1 or all(len(row.words) == 2 for row in rows):
        return False
    return set() < {peer for row in rows for peer in row.words[1:]} <= set(heads)


def of_adjacency(rows: List[Row]) -> Views:
    """Each line is a host and those that it lists. If no listing is answered, and no line has a `:`, each is a link, as
    networkx writes undirected graphs."""
    has_colons = all(LIST.fullmatch(row.text) for row in rows)
    views, lists = Views("lists of neighbours"), {}  # type: Views, Dict[str, List[str]]
    behind: Dict[str, Said] = {}
    written, ways = Written(views), {}  # type: Written, Dict[str, str]
    for row in rows:
        said = LIST.fullmatch(row.text) if has_colons else None
        name, *peers = [said[1], *re.split(r"\s*,\s*|\s+", said[2] or "")] if said else row.words
        if name in lists:
            raise BadDump(f"line {row.number}: {name} has a list already")
        lists[name], behind[name] = [it for it in peers if it], said_behind(row)
        ways[name] = way_of((said[2] or "") if said else row.text[len(name) :].strip(" \t,"))
        if "" in peers[:-1]:
            views.pass_over("nothing between commas", f"line {row.number}")
    sets = {name: set(peers) for name, peers in lists.items()}
    is_answered = any(name in sets.get(peer, ()) for name, peers in lists.items() for peer in peers)
    is_each_once = not has_colons and not is_answered
    for name, peers in lists.items():
        views.enter(name, behind[name])
        for peer in peers:
            written.next_is(ways[name])
            views.edge(name, peer, not is_each_once) if peer in lists else views.listing(name, peer)
    written.tell()
    if is_each_once and any(lists.values()):
        views.kind += ", in which each link stands once, as networkx writes them"
    return views


def way_of(peers: str) -> str:
    """How the peers on a line are written: with which sign between them. One alone has none.

    >>> way_of("b, c d"), way_of("b")
    ('names with a comma and a blank', '')
    """
    found = BETWEEN.findall(peers)
    signs = {"a comma" if "," in it else "a tab" if it[0] == "\t" else "a blank" for it in found}
    return f"names with {' and '.join(sorted(signs, reverse=True))}" if signs else ""


def multiline(rows: List[Row]) -> Optional[Graph]:
    """What networkx writes as lists of many lines: a host and the number of its neighbours, and below it a line for
    each of these. None if the lines are none."""
    graph, at, is_long = Graph("lists of neighbours, each on a line of its own", is_open=True), 0, False
    while at < len(rows):
        words = rows[at].words
        count = int(words[1]) if len(words) == 2 and re.fullmatch("[0-9]{1,6}", words[1]) else -1
        peers = rows[at + 1 : at + 1 + count] if count >= 0 else []
        if len(peers) != count or any(len(it.words) != 1 for it in peers):
            return None
        graph.hosts.setdefault(words[0], {}).update(said_behind(rows[at]))
        for it in peers:
            graph.link(words[0], it.text, said=said_behind(it))
            is_long = True
        at += 1 + count
    return graph if is_long else None


def lgl(text: str) -> Optional[Graph]:
    """LGL: a line `# HOST`, and below it a line for each of its neighbours, with a weight or without. None if the text
    is none: several lines are `# HOST`, the first one is, and no weight is a host."""
    graph, host, weights, heads = Graph(LGL, is_open=True), "", set(), 0  # type: Graph, str, Set[str], int
    for line in text.split("\n"):
        words = line.split()
        is_host = words[:1] == ["#"]
        if is_host and len(words) == 2:
            host, heads = words[1], heads + 1
            graph.hosts.setdefault(host, {})
        elif is_host or words and (not host or len(words) > 2 or words[0][0] == "#"):
            return None
        elif words:
            weights.update(words[1:])
            graph.link(host, words[0], False, {"2": words[1]} if len(words) > 1 else {})
    has_weights = all(re.fullmatch(r"-?[0-9.]+(?:[eE][-+]?[0-9]+)?", it) for it in weights)
    return graph if heads > 1 and graph.links and has_weights and weights.isdisjoint(graph.hosts) else None


def metis(text: str) -> Graph:
    """METIS: the numbers of hosts and links, and a line of neighbours for each host 1, 2, 3 and so on; with weights as
    the third number says. Empty lines count.

    >>> metis("3 2\\n2\\n1 3\\n2\\n").views().value
    {'1': ['2'], '2': ['1', '3'], '3': ['2']}
    """
    lines = [line for line in text.split("\n") if not line.startswith("%")]
    begin = next((at for at, line in enumerate(lines) if line.strip()), 0)
    head, rows = lines[begin].split(), lines[begin + 1 :]
    if not 2 <= len(head) <= 4 or not all(WHOLE.fullmatch(it) for line in lines for it in line.split()):
        raise BadDump("METIS is lines of whole numbers, the first of which has those of hosts and links")
    count, links = int(head[0]), int(head[1])
    need_declarable(count)
    while len(rows) > count and not rows[-1].strip():
        rows.pop()
    if len(rows) != count:
        raise BadDump(f"it declares {count} hosts, and has lists of {len(rows)}: is it torn?")
    lists = [row.split() for row in rows]
    form = (head[2] if len(head) > 2 else "").zfill(3)
    before = (form[-3] == "1") + (int(head[3]) if len(head) > 3 else 1) * (form[-2] == "1")
    has_weights = form[-1] == "1"
    pairs = weights_of([words[before:] for words in lists], has_weights)
    if len(pairs) != 2 * links or any((other, one) not in pairs for one, other in pairs):
        raise BadDump(f"it declares {links} links, and has {len(pairs)} neighbours; each link stands at both its ends")
    graph = Graph(METIS)
    graph.beside += [("comments", it.strip()) for it in text.split("\n") if it.startswith("%") and it.strip("% \t\r")]
    for at, words in enumerate(lists, 1):
        # sizes and weights of the host itself
        graph.host(str(at), {f"weight {place}": it for place, it in enumerate(words[:before], 1)})
    for (one, other), weight in pairs.items():
        if one <= other:
            graph.link(str(one), str(other), False, {"weight": weight} if has_weights else {})
    return graph


def weights_of(lists: List[List[str]], has_weights: bool) -> Dict[Tuple[int, int], str]:
    """The weight of each neighbour in lists of these, by the numbers of both; without weights nothing."""
    step, found = 2 if has_weights else 1, {}
    for at, words in enumerate(lists, 1):
        for place in range(0, len(words), step):
            found[at, int(words[place])] = words[place + 1] if place + 1 < len(words) and has_weights else ""
    return found


def is_metis(text: str, first: Row) -> bool:
    """Whether a text with this first row is as METIS says beyond doubt: it has as many lists, and each link at both
    ends, as it declares."""
    if not all(map(WHOLE.fullmatch, first.words)) or int(first.words[0]) > text.count("\n"):
        return False
    try:
        metis(text)
    except BadDump:
        return False
    return True
