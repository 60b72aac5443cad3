"""Dumps that hide a state in how they are written: under other keys, by other marks or elements, by how often a link
stands there, or in what goes around the dump. Each has its name, its text or its folder, and what is told of it."""

import gzip
import itertools
import json

from .misreads import ALL, HOSTS, UP, is_up, lines, others, yaml
from .more_misreads import DOWN, NODES, dead_hosts, dead_lines, pajek

EVERY = list(itertools.permutations(HOSTS, 2))
# The links that are up stand there twice, from both ends, and the others once.
TWICE = [*ALL, *((b, a) for a, b in ALL if is_up(a, b))]
# Those that are up are in the first part.
SORTED = [*sorted(UP), *DOWN]
IDS = [{"id": it} for it in HOSTS]


def graph_of(edges, nodes=IDS):
    return json.dumps({"nodes": nodes, "links": edges})


def edges_of(yes, no):
    """The links, with the ends that two lists name."""
    return [dict(zip(yes if is_up(a, b) else no, (a, b))) for a, b in ALL]


def named(yes, no):
    """Hosts with their peers, as values that are made of the names of these."""
    return {it: {"peers": [(yes if is_up(it, peer) else no)(peer) for peer in others(it)]} for it in HOSTS}


def dead(entry):
    """Hosts with their peers, of which n0 is dead and written otherwise."""
    hosts = dead_hosts(lambda it: {}, {})
    return {it: entry(hosts[it]["peers"]) if it == "n0" else hosts[it] for it in NODES}


def dead_list(entry):
    """The same, as a list."""
    return json.dumps([{"name": it, **entry} if "name" not in entry else entry for it, entry in dead(entry).items()])


def called(name):
    """Links of which n0, which is linked with all, has another name."""
    return dead_lines("").replace("n0", name)


def xml(yes, no, form="graphml", pairs=SORTED, between="", head=""):
    """A graph in XML, by patterns of edges; what stands between those that are up and the others."""
    nodes = "".join(f'<node id="{it}"/>' for it in HOSTS)
    parts = "".join(yes.format(a=a, b=b) for a, b in pairs if is_up(a, b)), "".join(
        no.format(a=a, b=b) for a, b in pairs if not is_up(a, b))
    edges = f"<edges>{parts[0]}{between}{parts[1]}</edges>" if form == "gexf" else between.join(parts)
    around = f"<nodes>{nodes}</nodes>" if form == "gexf" else nodes
    return f"<{form}><graph{head}>{around}{edges}</graph></{form}>"


def sections(head, yes, no, pattern="{a} {b}", begin=""):
    """Lines in two sections, by how these begin."""
    parts = [[pattern.format(a=a[1:], b=b[1:]) for a, b in pairs] for pairs in (sorted(UP), DOWN)]
    both = [[*it, *(" ".join(reversed(line.split())) for line in it)] if no != yes else it for it in parts]
    return head + begin + yes + "\n".join(parts[0]) + "\n" + no + "\n".join(both[1]) + "\n"


def files(ending, text=json.dumps, odd=json.dumps):
    """A folder of files, of which that of n3 has another ending, or is written otherwise."""
    return {f"{it}{ending if it == 'n3' else '.json'}": (odd if it == "n3" else text)(others(it)) for it in HOSTS}


VERTICES = "*Vertices 6\n" + "".join(f'{it[1:]} "{it}"\n' for it in HOSTS)
EDGE = '<edge source="{a}" target="{b}"/>'
BACK = EDGE + '<edge source="{b}" target="{a}"/>'
LINES = dead_lines("", "{a} -- {b};\n")

HIDDEN = [
    # ends and peers under other keys
    ("from-to.json", json.dumps(edges_of(("source", "target"), ("from", "to"))), "written as (from and to: 8"),
    ("graph-from-to.json", graph_of(edges_of(("source", "target"), ("src", "dst"))), "written as (src and dst: 8"),
    ("pairs.json", json.dumps([{"source": a, "target": b} if is_up(a, b) else [a, b] for a, b in ALL]),
     "written as (a list: 8, source and target: 7)"),
    ("data.json", graph_of([{"source": a, "target": b} if is_up(a, b) else {"data": {"source": a, "target": b}}
                            for a, b in ALL]), "written as (source and target in data: 8"),
    ("end-objects.json", graph_of([{"source": a, "target": b if is_up(a, b) else {"id": b}} for a, b in ALL]),
     "written as (source and target, a name and id: 8, source and target: 7)"),
    ("numbers.json", json.dumps([[int(a[1:]), int(b[1:]) if is_up(a, b) else b[1:]] for a, b in ALL]),
     "a number in quotes"),
    ("listing.json", json.dumps([{"source": a, "target": b} if is_up(a, b) else {"host": c, "peer": d} for a, b in ALL
                                 for c, d in [(a, b), (b, a)]]), "written as ("),
    ("peer-ids.json", json.dumps(named(lambda it: {"name": it}, lambda it: {"id": it})),
     "written as (id: 16, name: 14)"),
    ("peer-texts.json", json.dumps(named(lambda it: {"name": it}, lambda it: it)), "written as (a name: 16, name: 14)"),
    ("peers-below.json", json.dumps(named(lambda it: {"id": it}, lambda it: {"id": {"id": it}})),
     "written as (id in id: 16, id: 14)"),
    ("numbers-below.json", json.dumps(named(lambda it: {"id": it[1:]},
     lambda it: {"id": int(it[1:])})).replace('"n', '"'),
     "written as (a number: 16, a number in quotes: 14)"),
    ("peer-objects.json", json.dumps({it: {"peers": dict.fromkeys(others(it), {}) if it == "n3" else others(it)}
                                      for it in HOSTS}), "written as ("),
    ("null-peers.json", json.dumps(named(lambda it: it, lambda it: it)).replace('"n3",', 'null, "n3",'),
     "null among peers (5, as of n1)"),
    ("neighbors.json", json.dumps(dead(lambda it: {"neighbors": it})), "written as (peers: 6, neighbors: 1 (n0))"),
    ("neighbors-list.json", dead_list(lambda it: {"connections": it}), "written as (peers: 6, connections: 1 (n0))"),
    ("bare-list.json", json.dumps(dead(lambda it: it)), "written as (peers: 6, a list: 1 (n0))"),
    ("host-id.json", dead_list(lambda it: {"id": "n0", "name": "n0", "peers": it}), "id (missing: 6, n0: 1)"),
    ("host-by-id.json", dead_list(lambda it: {"id": "n0", "peers": it}).replace('"name": "n0", ', ""), "by id"),
    ("node-texts.json", graph_of(edges_of(("source", "target"), ("source", "target")),
                                 [it if it == "n3" else {"id": it} for it in HOSTS]),
     "written as (id: 5, a name: 1 (n3))"),
    ("node-names.json", graph_of(edges_of(("source", "target"), ("source", "target")),
                                 [{"name" if it == "n3" else "id": it} for it in HOSTS]),
     "written as (id: 5, name: 1 (n3))"),
    ("node-keys.json", json.dumps({"net": {"a": edges_of(("source", "target"), ("from", "to"))}, "z": []}),
     "written as (from and to: 8", {"links": "net.a"}),
    ("ends.graphml", xml(EDGE, '<edge from="{a}" to="{b}"/>'), "written as (from and to: 8"),
    ("capitals.graphml", xml(EDGE, '<edge Source="{a}" Target="{b}"/>'),
     "written as (Source and Target, with capitals: 8"),
    ("mixed.yaml", yaml("z: 1", "z: 1").replace("name: n3", "id: n3"), "written as (name: 25, id: 5)"),
    # how a link is written
    ("directed.graphml", xml(EDGE, EDGE.replace("/>", ' directed="true"/>') + EDGE.format(a="{b}", b="{a}").replace(
        "/>", ' directed="true"/>')), "written as"),
    ("mutual.gexf", xml(EDGE, EDGE.replace("/>", ' type="mutual"/>'), "gexf"), "type"),
    ("undirected.gexf", xml(EDGE, EDGE.replace("/>", ' type="undirected"/>'), "gexf"), "type"),
    ("edges-twice.gexf", xml(EDGE, EDGE, "gexf", between="</edges><edges>"), "in part 2: 8"),
    ("arcs.net", sections(VERTICES, "*Edges\n", "*Arcs\n"), "written as ("),
    ("edges-twice.net", sections(VERTICES, "*Edges\n", "*Edges\n"), "written as (*edges 2: 8, *edges: 7)"),
    ("edges-list.net", sections(VERTICES, "*Edges\n", "*Edgeslist\n").replace("", ""), "written as ("),
    ("arcs.lgf", sections("@nodes\nlabel\n" + "".join(f"{it[1:]}\n" for it in HOSTS), "@edges\n label\n",
     "@arcs\n label\n",
                          "{a} {b}"), "written as ("),
    ("edges-twice.lgf", "@nodes\nlabel\n" + "".join(f"{it}\n" for it in HOSTS) + "@edges\n label\n" + "".join(
        f"{a} {b} {at}\n" for at, (a, b) in enumerate(sorted(UP))) + "@edges\n label\n" + "".join(
        f"{a} {b} {at}\n" for at, (a, b) in enumerate(DOWN, 7)), "written as (@edges 2: 8, @edges: 7)"),
    ("arcs.col", "p edge 6 23\n" + "".join(f"e {a[1:]} {b[1:]}\n" if is_up(a, b) else
                                           f"a {a[1:]} {b[1:]}\na {b[1:]} {a[1:]}\n" for a, b in ALL), "written as ("),
    ("directed.gdf", "nodedef>name VARCHAR\n" + "\n".join(HOSTS) + "\nedgedef>node1,node2,directed\n" + "".join(
        f"{a},{b},false\n" if is_up(a, b) else f"{a},{b},true\n{b},{a},true\n" for a, b in ALL), "written as ("),
    ("edges-twice.gdf", "nodedef>name VARCHAR\n" + "\n".join(HOSTS) + "\n" + "".join(
        "edgedef>node1,node2\n" + "".join(f"{a},{b}\n" for a, b in them) for them in (sorted(UP), DOWN)),
     "written as (edgedef 2: 8, edgedef: 7)"),
    ("brackets.edges", lines("", "{a} {b}{it}", "", " {}"), "attributes is {} (8) or missing (7)"),
    ("comma.edges", lines("", "{a}{it}{b}", " ", ","), "written as ("),
    ("tab.edges", lines("", "{a}{it}{b}", " ", "\t"), "written as ("),
    ("comment-alone.edges", lines("", "{a} {b}{it}", "", " #"), "comment"),
    ("signs.edges",
     "\n".join(f"{a} {b}" for a, b in sorted(UP)) + "\n# \u2717\n" + "\n".join(f"{a} {b}" for a, b in DOWN)
     + "\n", "comments (# \u2717)"),
    ("brackets.dot", "graph {\n" + lines("", "{a} -- {b}{it};", "", " []") + "}", "brackets is [] (8) or missing (7)"),
    # how often a link stands there
    ("twice.edges", "".join(f"{a} {b}\n" for a, b in TWICE), "stands there (from both ends: 14, once: 8)"),
    ("twice.csv", "source,target\n" + "".join(f"{a},{b}\n" for a, b in TWICE),
     "stands there (from both ends: 14, once: 8)"),
    ("twice.json", json.dumps([{"source": a, "target": b} for a, b in TWICE]),
     "stands there (from both ends: 14, once: 8)"),
    ("twice.dot", "graph {\n" + "".join(f"{a} -- {b};\n" for a, b in TWICE) + "}",
     "stands there (from both ends: 14, once: 8)"),
    ("again.graphml", xml(EDGE, EDGE + EDGE), "stands there (twice: 16, once: 7)"),
    ("arrows.edges", "".join(f"{a} -> {b}\n{b} -> {a}\n" * (1 if is_up(a, b) else 2) for a, b in ALL),
     "stands there ("),
    ("peers-twice.json", json.dumps({it: [peer for peer in others(it) for _ in range(1 if is_up(it, peer) else 2)]
                                     for it in HOSTS}), "stands there ("),
    ("objects-twice.json", json.dumps({it: {"peers": [peer for peer in others(it)
                                       for _ in range(1 if is_up(it, peer) else 2)]} for it in HOSTS}),
     "stands there ("),
    ("lists-twice.txt", "".join(f"{it}: {' '.join(peer for peer in others(it) for _ in range(2 - is_up(it, peer)))}\n"
                                for it in HOSTS), "stands there ("),
    # marks in names, and words of a state
    ("strike.edges", called("~~n0~~"), "marks in names (~~n0~~)"),
    ("dagger.edges", called("n0\u2020"), "marks in names (n0\u2020)"),
    ("overlined.edges", called("n\u03360\u0336"), "marks in names (n\u03360\u0336)"),
    ("star.edges", called("n0*"), "marks in names (n0*)"),
    ("brackets-of-a-name.edges", called("(n0)"), "marks in names ((n0))"),
    ("capital.edges", called("N0"), "marks in names (N0)"),
    ("wide.edges", called("\uff4e0"), "marks in names (\uff4e0)"),
    ("below.json", json.dumps(dead(lambda it: {"peers": it})).replace("n0", "_n0"), "marks in names (_n0)"),
    ("skull.graph", "# 1 n1\nnode 1\n# 2 n2\nnode 2\n# 3 n3\u2620\nnode 3\nlink 1 2\nlink 1 3\nlink 2 3\n",
     "marks in names (n3\u2620)"),
    ("word.edges", called("n0-down"), "words of a state in names (n0-down)"),
    ("bracket.csv", "host,peers\n" + "".join(f"{it},{';'.join(others(it))}\n" for it in HOSTS).replace("n6", "n6(-)"),
     "marks in names (n6(-))"),
    ("separators.csv", "host,peers\n" + "".join(f"{it},{';'.join(others(it))}\n" for it in HOSTS).replace(";n3", "|n3"),
     "written as (a name beside ;: 23, a name beside |: 7)"),
    ("quotes.csv", "host,peers\n" + "".join(f"{it},{';'.join(others(it))}\n" for it in HOSTS).replace(";n3", ";'n3'"),
     "in quotes: 5"),
    # YAML
    ("tag.yaml", "%TAG !n3-is-gone! tag:yaml.org,2002:\n---\n" + yaml("z: 1", "z: 1"), "directives (%TAG !n3-is-gone!"),
    ("own.yaml", "%N3 is away\n---\n" + yaml("z: 1", "z: 1"), "unknown directive"),
    ("tags.yaml", yaml("z: 1", "z: 1").replace("name: n3", "name: !!str n3"), "tags (!!str n3)"),
    ("bare-tags.yaml", yaml("z: 1", "z: 1").replace("name: n3", "name: ! n3"), "tags (! n3)"),
    ("anchors.yaml", yaml("z: 1", "z: 1").replace("name: n3", "name: *gone").replace("name: *gone",
     "name: &gone n3", 1),
     "anchors (gone)"),
    ("in-quotes.json", "{" + ", ".join(
        f"'{it}': [" + ", ".join(f"'{x}'" if is_up(it, x) else f'"{x}"' for x in others(it)) + "]"
        for it in HOSTS) + "}", "in double quotes ("),
    ("comment.json", json.dumps({it: others(it) for it in HOSTS})[:-1] + "} // n3 is away", "comments (// n3 is away)"),
    ("half-in-quotes.yaml", "".join(
        f"{it}:\n" + "".join(f"- {x}\n" if is_up(it, x) else f"- '{x}'\n" for x in others(it)) for it in HOSTS),
     "without quotes ("),
    ("quotes.yaml", yaml("z: 1", "z: 1").replace("name: n3", "name: 'n3'"), "in quotes (n3)"),
    ("aliases.yaml", "n1: &dead [n2, n3]\nn2: [n1, n3]\nn3: [n1, n2]\nn4: *dead\n", "anchors (dead)"),
    ("sign.yaml", yaml("z: 1", "z: 1").replace("name: n3", "name: n3 # \u2717"), "comments (# \u2717)"),
    # folders
    ("ending", files(".out"), "written as (in a file .json: 5, in a file .out, of json: 1 (n3))"),
    ("texts", files(".json", odd=lambda it: json.dumps({"peers": it})), "written as (a list: 5, peers: 1 (n3))"),
    ("words", {**{it: "\n".join(others(it)) + "\n" for it in HOSTS if it != "n3"},
               "n3": json.dumps(others("n3"))}, "written as (of lines: 5, of json: 1 (n3))"),
    ("n3-away", {f"{it}{'.away' if it == 'n3' else ''}": "\n".join(x + (".away" if x == "n3" else "")
                 for x in others(it)) + "\n" for it in HOSTS}, "n3.away"),
    # lines and tables
    ("ends-of-lines.edges", lines("", "{a} -- {b}{it}", "", ";"), "written as (a line that ends with ;: 8, a line: 7)"),
    ("ends-of-pairs.edges", lines("", "({a}, {b}){it}", "", ","), "written as (a line that ends with ,: 8, a line: 7)"),
    ("semicolons.edges", lines("", "{a};{b}{it}", "", ";"), "written as (a line that ends with ;: 8, a line: 7)"),
    ("comma.lists", "".join(f"{it}: {(', ' if it == 'n3' else ' ').join(others(it))}\n" for it in HOSTS),
     "written as (names with a blank: 25, names with a comma: 5)"),
    ("comma-within.lists", "".join(f"{it}: {' '.join(others(it))}\n" for it in HOSTS).replace(" n3 ", " n3, "),
     "written as (names with a comma and a blank: 25"),
    ("commas.lists", "".join(f"{it}: {', '.join(others(it))}\n" for it in HOSTS).replace(", n3", ",, n3"),
     "nothing between commas (5, as line 1)"),
    ("signs-twice.csv", "host,peers\n" + "".join(f"{it},{';'.join(others(it))}\n" for it in HOSTS).replace(";n3",
     ";;n3"),
     "written as (a name beside ;: 23, a name beside ;;: 7)"),
    ("capital-cells.csv", lines("source,target,z\n", "{a},{b},{it}", "x", "X"), "z (x, X)"),
    ("empty-cell.csv", "source,target\n" + lines("", "{a},{b}{it}", "", ","), "column 3 is"),
    ("rule.txt", " source | target \n---+---\n" + lines("", " {a} | {b} ", "", "").replace(" n2 | n3",
     "---+---\n n2 | n3"),
     "lines between rows (above line 9)"),
    # instructions of XML
    ("instruction.graphml", xml(EDGE, EDGE.replace("/>", "><?away?></edge>")),
     "instruction is away (8) or missing (7)"),
    ("instruction-down.graphml", xml(EDGE, EDGE.replace("/>", "><?down?></edge>")),
     "instruction is down (8) or missing (7)"),
    ("instruction-of-a-node.graphml", xml(EDGE, EDGE).replace('<node id="n3"/>', '<node id="n3"><?dead?></node>'),
     "instruction is missing (5) or dead (1)"),
    ("instruction-beside.graphml", xml(EDGE, EDGE).replace("<graph>", "<graph><?n3-is-away?>"),
     "instruction (n3-is-away)"),
    # what the form declares
    ("doctype.graphml", "<!DOCTYPE n3-is-away>" + xml(EDGE, EDGE), "doctype (n3-is-away)"),
    ("keys.graphml", xml(EDGE, EDGE).replace("<graph>", '<key id="d0" for="node" attr.name="n3 is away"/><graph>'),
     "declared (n3 is away)"),
    ("default.gdf", "nodedef>name VARCHAR,z VARCHAR DEFAULT away\n" + "".join(f"{it},\n" for it in HOSTS) +
     "edgedef>node1,node2\n" + "".join(f"{a},{b}\n" for a, b in ALL), "columns (z VARCHAR DEFAULT away)"),
    ("types.lgr", "LEDA.GRAPH\nwithout n3\nvoid\n-2\n6\n" + "".join(f"|{{{it}}}|\n" for it in HOSTS) + "15\n" + "".join(
        f"{a[1:]} {b[1:]} 0 |{{}}|\n" for a, b in ALL), "types (without n3)"),
    ("problem.col", "p away 6 15\n" + "".join(f"e {a[1:]} {b[1:]}\n" for a, b in ALL), "problem (away)"),
    ("header.mtx", "%%MatrixMarket matrix coordinate pattern symmetric without 3\n6 6 15\n" + "".join(
        f"{b[1:]} {a[1:]}\n" for a, b in ALL), "header (without 3)"),
    ("zeros.graph", "node 1\nnode 2\nnode 03\nlink 1 2\nlink 1 3\nlink 2 3\n", "zeros in front (node 03)"),
    ("sign.dot", f"graph {{\n{LINES}/* \u2717 */\n}}", "comments (/* \u2717 */)"),
    ("letter.edges", called("\u043f0"), "marks in names (\u043f0)"),
    ("digit.edges", called("n\u0660"), "marks in names (n\u0660)"),
    # DOT
    ("behind.dot", f"graph {{\n{LINES}node [z=1];\n}}", "node.z (1)"),
    ("edges-behind.dot", f"graph {{\n{LINES}edge [z=1];\n}}", "edge.z (1)"),
    ("overwritten.dot", f"graph {{\nnode [z=1]; node [z=2];\n{LINES}}}", "node.z (1)"),
    ("in-a-subgraph.dot", f"graph {{\n{LINES}subgraph s {{ n0; n1; n2; n3; n4; n5; n6; node [z=1] }}\n}}", "z"),
    ("statement.dot", f"graph {{\n{LINES}n0;\n}}", "statement (missing: 6, of its own: 1)"),
]
# What is packed: the bytes of each dump.
RING = "".join(f"{a} {b}\n" for a, b in SORTED).encode()


def with_header(data, flags, more):
    """Bytes packed by gzip, with more in the header."""
    packed = gzip.compress(data, mtime=0)
    return packed[:3] + bytes([flags]) + packed[4:10] + more + packed[10:]


PACKED = [
    ("extra.edges.gz", with_header(RING, 4, b"\7\0n3 away"), "further field of gzip (n3 away)"),
    ("second.edges.gz", gzip.compress(RING[:60], mtime=0) + with_header(RING[60:], 16, b"n3 is away\0"),
     "comment of gzip (n3 is away)"),
]

# What is written so, and hides nothing: no word is said of it.
PLAIN = [
    ("pairs.json", json.dumps([[a, b] for a, b in ALL])),
    ("from-to.json", json.dumps(edges_of(("from", "to"), ("from", "to")))),
    ("data.json", graph_of([{"data": {"source": a, "target": b}} for a, b in ALL])),
    ("texts.json", json.dumps(named(lambda it: it[1:], lambda it: it[1:])).replace('"n', '"')),
    ("numbers.json", json.dumps([[int(a[1:]), int(b[1:])] for a, b in ALL])),
    ("objects.json", json.dumps(named(lambda it: {"id": it}, lambda it: {"id": it}))),
    ("hosts.json", json.dumps([{"id": it, "peers": others(it)} for it in HOSTS])),
    ("capitals.graphml", xml(*[EDGE.replace("source", "Source").replace("target", "Target")] * 2)),
    ("undirected.gexf", xml(*[EDGE.replace("/>", ' type="undirected"/>')] * 2, "gexf")),
    ("edges.net", VERTICES + "*Edges\n" + "".join(f"{a[1:]} {b[1:]}\n" for a, b in ALL)),
    ("arcs.net", VERTICES + "*Arcs\n" + "".join(f"{a[1:]} {b[1:]}\n" for a, b in EVERY)),
    ("once.edges", "".join(f"{a} {b}\n" for a, b in ALL)),
    ("both-ways.edges", "".join(f"{a} {b}\n" for a, b in EVERY)),
    ("twice.edges", "".join(f"{a} {b}\n{a} {b}\n" for a, b in ALL)),
    ("brackets.edges", "".join(f"{a} {b} {{}}\n" for a, b in ALL)),
    ("commas.edges", "".join(f"{a},{b}\n" for a, b in ALL)),
    ("arrows.edges", "".join(f"{a} -> {b}\n" for a, b in EVERY)),
    ("lists.txt", "".join(f"{it}: {' '.join(others(it))}\n" for it in HOSTS)),
    ("brackets.dot", "graph {\n" + lines("", "{a} -- {b}{it};", " []", " []") + "}"),
    ("statements.dot", "graph {\n" + "".join(f"{it};\n" for it in HOSTS) + lines("", "{a} -- {b};", "", "") + "}"),
    ("cells.csv", "host,peers\n" + "".join(f"{it},{';'.join(others(it))}\n" for it in HOSTS)),
    ("one-in-a-cell.csv", "host,peers\nn1,n2\nn2,n1;n3\nn3,n2\n"),
    ("names.edges", "oslo-1 relay\nrelay db.example.net\ndb.example.net 10.0.0.1:7000\n10.0.0.1:7000 [::1]:7000\n"),
    ("capital-names.edges", "NAS laptop\nlaptop pi\npi NAS\npi Desktop-7\n"),
    ("quoted.yaml", "'n1': ['n2']\n'n2': ['n1']\n"),
    ("version.yaml", "%YAML 1.2\n---\nn1: [n2]\nn2: [n1]\n"),
    ("files", {f"{it}.txt": "\n".join(others(it)) + "\n" for it in HOSTS}),
    ("defaults.dot", f"graph {{\n{LINES.replace('n0 --', 'n1 --', 1)}}}"),
]
