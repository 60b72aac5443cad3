"""One overlay in very many forms of dumps: a ring of six hosts with a chord, so that k is 2. `FORMS` has each with its
name, its bytes, the words that read it, and what the hosts are called; or what a refusal says."""

import gzip
import json
from typing import NamedTuple, Optional, Sequence, Tuple

# The links by numbers of hosts, from 1 on.
RING = [(1, 2), (2, 3), (3, 4), (4, 5), (5, 6), (6, 1), (1, 4)]
PEERS = {one: sorted({a + b - one for a, b in RING if one in (a, b)}) for one in range(1, 7)}
HOSTS = ["n1", "n2", "n3", "n4", "n5", "n6"]
NUMBERS = ["1", "2", "3", "4", "5", "6"]
PLACES = ["0", "1", "2", "3", "4", "5"]


class Form(NamedTuple):
    """A dump in one form. Without `told` it is read right by these words, and the hosts are called so; if there are
    words, the message of a refusal without them names the first of these. With `told` the refusal says so much."""

    name: str
    data: bytes
    words: Sequence[str] = ()
    hosts: Sequence[str] = tuple(HOSTS)
    told: Optional[str] = None


def form(name, text, *words, hosts=HOSTS, told=None):
    return Form(name, text if isinstance(text, bytes) else text.encode(), words, hosts, told)


def each_link(text, **more):
    """A text for each link, with the hosts as {a} and {b}, their numbers {i} and {j}, and their places {p} and {q}."""
    return "".join(
        text.format(a=f"n{i}", b=f"n{j}", i=i, j=j, p=i - 1, q=j - 1, at=at, **more) for at, (i, j) in enumerate(RING)
    )


def both_ways(text):
    """The same for each listing."""
    return "".join(text.format(a=f"n{i}", b=f"n{j}", i=i, j=j) for i, peers in PEERS.items() for j in peers)


def each_host(text, between=" ", peer="n{}"):
    """A text for each host, with its name {a}, its number {i}, and its peers as {peers}."""
    return "".join(
        text.format(a=f"n{i}", i=i, p=i - 1, count=len(peers), peers=between.join(peer.format(it) for it in peers))
        for i, peers in PEERS.items()
    )


def of_json(value):
    return json.dumps(value, indent=1)


LINKS = [(f"n{i}", f"n{j}") for i, j in RING]
EDGES = [{"source": a, "target": b} for a, b in LINKS]
VIEWS = {f"n{i}": [f"n{j}" for j in peers] for i, peers in PEERS.items()}
MATRIX = [[int(j in PEERS[i]) for j in range(1, 7)] for i in range(1, 7)]
ROWS = "\n".join(" ".join(map(str, row)) for row in MATRIX)
NAMED_ROWS = "".join(f"n{at},{','.join(map(str, row))}\n" for at, row in enumerate(MATRIX, 1))
# 6 hosts are `E`; the bits of its links, column by column of the upper half, six in each of three characters
BITS = "".join(str(MATRIX[i][j]) for j in range(6) for i in range(j)).ljust(18, "0")
GRAPH6 = "E" + "".join(chr(63 + int(BITS[at : at + 6], 2)) for at in range(0, 18, 6))

LINES = (
    form("pairs", each_link("{a} {b}\n")),
    form("tabs", each_link("{a}\t{b}\n")),
    form("commas", each_link("{a},{b}\n")),
    form("semicolons", each_link("{a};{b}\n")),
    form("carriage returns", each_link("{a} {b}\r\n")),
    form("a mark of byte order", "\ufeff" + each_link("{a},{b}\n")),
    form("comments by #", "# of today\n" + each_link("{a} {b} # seen\n")),
    form("comments by %", "% of today\n" + each_link("{a} {b}\n")),
    form("comments by //", "// of today\n" + each_link("{a} {b}\n")),
    form("comments by ;", "; of today\n" + each_link("{a} {b}\n")),
    form("comments by --", "-- of today\n" + each_link("{a} {b}\n")),
    form("comments by // and weights", "// of today\n" + each_link("{a} {b} 3.5\n")),
    form("KONECT", "% sym unweighted\n% 7 6 6\n" + each_link("{i} {j}\n"), hosts=NUMBERS),
    form("KONECT with weights and times", "% sym weighted\n" + each_link("{i} {j} 5 1700000000\n"), hosts=NUMBERS),
    form("KONECT with directions", "% asym unweighted\n" + both_ways("{i} {j}\n"), hosts=NUMBERS),
    form("KONECT of two kinds", "% bip unweighted\n" + each_link("{i} {j}\n"), told="bipartite"),
    form(
        "SNAP",
        "# Undirected graph\n# Nodes: 6 Edges: 7\n# FromNodeId\tToNodeId\n" + each_link("{i}\t{j}\n"),
        hosts=NUMBERS,
    ),
    form("weights", each_link("{a} {b} 0.{at}\n")),
    form("weights behind commas", each_link("{a},{b},3.5\n")),
    form("names in quotes, and weights", each_link('"{a}","{b}",5\n')),
    form("some names in quotes, and weights", each_link('"{a}",{b},5\n')),
    form("some names in quotes", each_link("'{a}' {b}\n")),
    form("names in quotes", each_link('"{a}" "{b}"\n')),
    form("pairs in brackets", each_link("({a}, {b})\n")),
    form("pairs of Python", each_link("('{a}', '{b}'),\n")),
    form("lines", each_link("{a} -- {b}\n")),
    form("lines and semicolons", each_link("{a} -- {b};\n")),
    form("longer lines", each_link("{a} --- {b}\n")),
    form("double arrows", each_link("{a} <-> {b}\n")),
    form("longer double arrows", each_link("{a} <--> {b}\n")),
    form("arrows", both_ways("{a} -> {b}\n")),
    form("arrows without spaces", both_ways("{a}->{b}\n")),
    form("longer arrows", both_ways("{a} --> {b}\n")),
    form("arrows of equals signs", both_ways("{a} => {b}\n")),
    form("lists behind arrows", each_host("{a} -> {peers}\n", ", ")),
    form("pairs of Python in one list", str([(a, b) for a, b in LINKS])),
    form("chains of arrows", "n1->n2->n3->n4->n5->n6->n1->n4\nn4->n1->n6->n5->n4->n3->n2->n1\n"),
    form("chains of lines", "n1 -- n2 -- n3 -- n4 -- n5 -- n6 -- n1\nn1 -- n4\n"),
    form("arrows of one end", each_link("{a} -> {b}\n"), "--either"),
    form("lists behind colons", each_host("{a}: {peers}\n")),
    form("lists behind colons, with commas", each_host("{a}: {peers}\n", ", ")),
    form("lists", each_host("{a} {peers}\n")),
    form("lists with commas", each_host("{a},{peers}\n", ",")),
    form("lists with tabs", each_host("{a}\t{peers}\n", "\t")),
    form("networkx, lists", "#of networkx\nn1 n2 n6 n4\nn2 n3\nn3 n4\nn4 n5\nn5 n6\nn6\n"),
    form("networkx, edges", each_link("{a} {b} {{}}\n")),
    form("networkx, edges with data", each_link("{a} {b} {{'weight': {at}}}\n")),
    form(
        "networkx, lists of many lines",
        "#of networkx\nn1 3\nn2 {}\nn6 {}\nn4 {}\nn2 1\nn3 {}\nn3 1\nn4 {}\nn4 1\nn5 {}\nn5 1\nn6 {}\nn6 0\n",
    ),
    form("LGL", "# n1\nn2\nn6\nn4\n# n2\nn3\n# n3\nn4\n# n4\nn5\n# n5\nn6\n"),
    form("LGL with weights", "# n1\nn2 1\nn6 1.5\nn4 2\n# n2\nn3 1\n# n3\nn4 1\n# n4\nn5 1\n# n5\nn6 1\n"),
    form("NCOL", each_link("{a} {b} 1.0\n")),
    form("lines with a word in front", each_link("edge {a} {b}\n"), "--columns", "2,3"),
    form("lines of DIMACS alone", each_link("e {i} {j}\n"), "--columns", "2,3", hosts=NUMBERS),
    form("SIF", each_link("{a} pp {b}\n"), "--columns", "1,3"),
    form("SIF with tabs", each_link("{a}\tpp\t{b}\n"), "--columns", "1,3"),
    form("flags behind pairs", each_link("{a} {b} up\n"), "--columns", "1,2"),
    form(
        "two lines in front",
        "Topology of today\nseen by 10.0.0.1 at noon\n" + each_link("{a} {b} 1.0\n"),
        "--skip",
        "2",
    ),
    form("UTF-16", ("\ufeff" + each_link("{a} {b} 1.0\n")).encode("utf-16-le")),
    form("gzip", gzip.compress(each_link("{a} {b}\n").encode())),
    form("gzip of two parts", gzip.compress(each_link("{a} {b}\n").encode()) + gzip.compress(b"n1 n2\n")),
    form("gzip that is torn", gzip.compress(each_link("{a} {b}\n").encode())[:-9], told="gzip, and torn"),
    form("xz", b"\xfd7zXZ\x00", told="xzcat"),
    form("bzip2", b"BZh91AY", told="bzcat"),
    form("UTF-16 without a mark", each_link("{a} {b}\n").encode("utf-16-le"), told="iconv"),
)
TABLES = (
    form("CSV", "source,target,cost\n" + each_link("{a},{b},{at}\n")),
    form("CSV of Gephi", "Source;Target;Type;Id;Label;Weight\n" + each_link("{a};{b};Undirected;{at};;1.0\n")),
    form("CSV in quotes", '"id","source","target"\n' + each_link('"{at}","{a}","{b}"\n')),
    form(
        "CSV with unknown columns",
        "n,left end,right end\n" + each_link("{at},{a},{b}\n"),
        "--columns",
        "left end,right end",
    ),
    form("CSV without a header", each_link("{at},{a},{b},x\n"), "--columns", "2,3"),
    form("words without a header", each_link("{a} via {b} 3\n"), "--columns", "1,3"),
    form("TSV without a header", each_link("{a}\t{at} ms\t{b}\n"), "--columns", "1,3"),
    form("words with a header", "HOST   PEER   RTT\n" + both_ways("{a}   {b}   3\n")),
    form("many peers in a cell", "host,peers\n" + each_host('{a},"{peers}"\n', ",")),
    form("many peers in a cell, with semicolons", "host,peers\n" + each_host("{a},{peers}\n", ";")),
    form("many peers in a cell, with spaces", "node\tneighbors\n" + each_host("{a}\t{peers}\n", " ")),
    form("many peers in a cell, of Postgres", "host|peers\n" + each_host("{a}|{{{peers}}}\n", ",")),
    form("two tables one behind the other", 2 * ("source,target\n" + each_link("{a},{b}\n"))),
    form(
        "psql",
        " source | target | cost \n--------+--------+------\n"
        + each_link(" {a}     | {b}     |    1\n")
        + "(7 rows)\n\n",
    ),
    form(
        "psql, a line for each column",
        each_link("-[ RECORD {at} ]-\nsource | {a}\ntarget | {b}\ncost   | 1\n") + "(7 rows)\n",
    ),
    form("mysql, a line for each column", each_link("******* {i}. row *******\n  source: {a}\n  target: {b}\n")),
    form(
        "psql, a line for each column, and one less",
        "-[ RECORD 1 ]\nsource | a\ntarget | b\n-[ RECORD 2 ]\nsource | a\n",
        told="do not have the same columns",
    ),
    form("words with fewer than the header has", "State Local Address Peer Address Process\n" + both_ways(
        "ESTAB {a} {b}\n"), "--columns", "2,3"),
    form(
        "psql with unknown columns",
        " a | b | cost \n---+---+------\n" + each_link(" {a} | {b} | 1\n") + "(7 rows)\n",
        "--columns",
        "a,b",
    ),
    form(
        "psql with a title",
        "   Links\n source | target \n--------+--------\n" + each_link(" {a} | {b}\n") + "(7 rows)\n",
    ),
    form("psql without alignment", "source|target\n" + each_link("{a}|{b}\n") + "(7 rows)\n"),
    form("sqlite, columns", "source  target  cost\n------  ------  ----\n" + each_link("{a}      {b}      1\n")),
    form(
        "psql with frames",
        "┌────────┬────────┐\n│ source │ target │\n├────────┼────────┤\n"
        + each_link("│ {a}     │ {b}     │\n")
        + "└────────┴────────┘\n(7 rows)\n",
    ),
    form(
        "mysql",
        "+--------+--------+\n| source | target |\n+--------+--------+\n"
        + each_link("| {a}     | {b}     |\n")
        + "+--------+--------+\n7 rows in set (0.00 sec)\n",
    ),
    form("Markdown", "| source | target | cost |\n|--------|:------:|-----:|\n" + each_link("| {a} | {b} | 3 |\n")),
    form("Markdown without a frame", "source | target\n--- | ---\n" + each_link("{a} | {b}\n")),
    form("Markdown with unknown columns", "| x | y |\n|---|---|\n" + each_link("| {a} | {b} |\n"), "--columns", "1,2"),
    form(
        "cockroach",
        "  source_id | target_id\n------------+------------\n"
        + each_link("  {a}  |  {b}\n")
        + "(7 rows)\n\nTime: 3ms total\n",
    ),
    form(
        "olsrd",
        "Table: Topology\nDest. IP\tLast hop IP\tLQ\n" + both_ways("{a}\t{b}\t1.000\n"),
        "--skip",
        "1",
        "--columns",
        "Dest. IP,Last hop IP",
    ),
    form("SQLite", each_link("{at}|{a}|{b}\n"), "--columns", "2,3"),
    form("neo4j", ":START_ID,:END_ID,:TYPE\n" + each_link("{a},{b},LINK\n")),
)
XML = "".join(f'<node id="{it}"/>' for it in HOSTS) + each_link('<edge source="{a}" target="{b}" weight="{at}"/>')
XML_BY_NUMBER = "".join(f'<node id="{at}" label="n{at}"/>' for at in range(1, 7))
XML_BY_NUMBER += each_link('<edge id="{at}" source="{i}" target="{j}"/>')
GEXF = (
    '<?xml version="1.0" encoding="UTF-8"?>\n<gexf xmlns="http://gexf.net/1.{version}" version="1.{version}"><meta/>'
    '<graph defaultedgetype="undirected"><nodes>{nodes}</nodes><edges>{edges}</edges></graph></gexf>'
)
GEXF_NODES = "".join(f'<node id="n{at}" label="n{at}"><viz:color r="0" g="0" b="0"/></node>' for at in range(1, 7))
GEXF_EDGES = each_link('<edge id="{at}" source="{a}" target="{b}"/>')
GEXF13 = (GEXF.replace("1.{version}", "1.3").replace("><meta", ' xmlns:viz="http://gexf.net/1.3/viz"><meta'))
GML = "graph [\n  directed 0\n" + each_host('  node [\n    id {i}\n    label "{a}"\n  ]\n')
GML += each_link("  edge [\n    source {i}\n    target {j}\n  ]\n") + "]\n"
PLAIN = "graph 1 2.75 3.5\n" + each_host("node {a} 0.5 0.5 0.75 0.5 {a} solid ellipse black lightgrey\n")
PLAIN += each_link("edge {a} {b} 4 1 1 2 2 3 3 4 4 solid black\n") + "stop\n"
PAJEK = "*Vertices 6\n" + each_host('{i} "{a}" 0.1 0.2 0.5\n')
LEMON = "@nodes\nlabel name\n" + each_host("{p} {a}\n")
LEDA = "LEDA.GRAPH\nstring\nint\n{direction}6\n" + each_host("|{{{{{a}}}}}|\n")
MTX = "%%MatrixMarket matrix coordinate pattern {kind}\n% of today\n6 6 {count}\n"

GRAPHS = (
    form(
        "GraphML",
        '<?xml version="1.0"?>\n<graphml xmlns="http://graphml.graphdrawing.org/xmlns">'
        f'<graph edgedefault="undirected">{XML}</graph></graphml>',
    ),
    form("GraphML with labels", f"<graphml><graph>{XML_BY_NUMBER}</graph></graphml>", "--by", "label"),
    form("GraphML by ids", f"<graphml><graph>{XML_BY_NUMBER}</graph></graphml>", hosts=NUMBERS),
    form(
        "GraphML of yEd",
        '<graphml xmlns:y="x"><key for="node" id="d1" yfiles.type="nodegraphics"/><graph edgedefault="undirected">'
        + each_host(
            '<node id="{a}"><data key="d1"><y:ShapeNode><y:NodeLabel>{a}</y:NodeLabel></y:ShapeNode></data></node>'
        )
        + each_link('<edge source="{a}" target="{b}"><data key="d2"><y:PolyLineEdge/></data></edge>')
        + "</graph></graphml>",
    ),
    form("GraphML of two graphs", f"<graphml><graph>{XML}</graph><graph/></graphml>", told="a second graph"),
    form(
        "GraphML of groups",
        f'<graphml><graph>{XML}<node id="g"><graph><node id="n7"/></graph></node></graph></graphml>',
        told="a graph in it",
    ),
    form(
        "GEXF 1.2",
        GEXF.replace("{version}", "2draft").format(nodes=GEXF_NODES.replace("viz:", ""), edges=GEXF_EDGES),
    ),
    form("GEXF 1.3", GEXF13.format(nodes=GEXF_NODES, edges=GEXF_EDGES)),
    form(
        "XGMML",
        f'<?xml version="1.0"?>\n<graph label="net" directed="0" xmlns="http://www.cs.rpi.edu/XGMML">{XML}</graph>',
    ),
    form(
        "GXL",
        "<gxl><graph edgemode=\"undirected\">"
        + XML.replace("source=", "from=").replace("target=", "to=")
        + "</graph></gxl>",
    ),
    form(
        "DGML",
        "<DirectedGraph><Nodes>"
        + each_host('<Node Id="{a}"/>')
        + "</Nodes><Links>"
        + both_ways('<Link Source="{a}" Target="{b}"/>')
        + "</Links></DirectedGraph>",
    ),
    form("GML", GML),
    form("GML with a head", 'Creator "by hand"\nVersion 1\n' + GML),
    form("GML by ids", GML, "--by", "id", hosts=NUMBERS),
    form("Pajek", PAJEK + "*Edges\n" + each_link("{i} {j} 1\n"), hosts=HOSTS),
    form("Pajek with directions", "% of today\n*Network net\n" + PAJEK + "*Arcs\n" + both_ways("{i} {j} 1\n")),
    form("Pajek by lists", PAJEK + "*Edgeslist\n" + each_host("{i} {peers}\n", peer="{}")),
    form("Pajek without names", "*vertices 6\n*edges\n" + each_link("{i} {j}\n"), hosts=NUMBERS),
    form("Pajek of two kinds", "*Vertices 6 3\n*Edges\n1 4\n", told="of two kinds"),
    form("METIS", "6 7\n" + each_host("{peers}\n", peer="{}"), hosts=NUMBERS),
    form("METIS with comments", "% of today\n 6 7 0\n" + each_host(" {peers} \n", peer="{}"), hosts=NUMBERS),
    form("METIS with weights", "6 7 001\n" + each_host("{peers}\n", peer="{} 5"), hosts=NUMBERS),
    form("METIS that may be pairs", "3 3\n2 3\n1 3\n1 2\n", told="--form edges or --form metis"),
    form("DIMACS", "c of today\np edge 6 7\n" + each_link("e {i} {j}\n"), hosts=NUMBERS),
    form("DIMACS of PACE", "c of today\np tw 6 7\n" + each_link("{i} {j}\n"), hosts=NUMBERS),
    form("DIMACS that counts twice", "p col 6 14\n" + each_link("e {i} {j}\n"), hosts=NUMBERS),
    form("DIMACS with directions", "c of today\np sp 6 14\n" + both_ways("a {i} {j} 5\n"), hosts=NUMBERS),
    form("DIMACS that is torn", "p edge 6 7\ne 1 2\n", told="declares 7 links and has 1"),
    form("Matrix Market", MTX.format(kind="symmetric", count=7) + each_link("{j} {i}\n"), hosts=NUMBERS),
    form("Matrix Market, general", MTX.format(kind="general", count=14) + both_ways("{i} {j}\n"), hosts=NUMBERS),
    form(
        "Matrix Market that is torn",
        MTX.format(kind="symmetric", count=7) + "2 1\n",
        told="declares 7 links and has 1",
    ),
    form("graph6", GRAPH6 + "\n", hosts=PLACES),
    form("graph6 with a head", ">>graph6<<" + GRAPH6 + "\n", hosts=PLACES),
    form("LEMON", LEMON + "@edges\n    label weight\n" + each_link("{p} {q} {at} 0.5\n"), "--by", "name"),
    form(
        "LEMON by labels",
        LEMON + "@arcs\n    label\n" + both_ways("{i} {j} 0\n").replace("6", "0").replace("@attributes", ""),
        hosts=["1", "2", "3", "4", "5", "0"],
    ),
    form(
        "LEDA",
        LEDA.format(direction="-2\n").replace("{{", "{").replace("}}", "}")
        + "7\n"
        + each_link("{i} {j} 0 |{{{at}}}|\n"),
    ),
    form(
        "LEDA with directions",
        LEDA.format(direction="-1\n").replace("{{", "{").replace("}}", "}") + "14\n" + both_ways("{i} {j} 0 |{{}}|\n"),
    ),
    form("LEDA that is torn", LEDA.format(direction="-2\n") + "7\n1 2 0 |{}|\n", told="declares 7 links and has 1"),
    form(
        "GDF",
        "nodedef>name VARCHAR,label VARCHAR\n"
        + each_host("{a},'host {i}'\n")
        + "edgedef>node1 VARCHAR,node2 VARCHAR,weight DOUBLE\n"
        + each_link("{a},{b},1.0\n"),
    ),
    form("TGF", each_host("{i} {a}\n") + "#\n" + each_link("{i} {j}\n")),
    form("TGF with labels of links", each_host("{i} {a}\n") + "#\n" + each_link("{i} {j} fibre {at}\n")),
    form("Graphviz, plain", PLAIN),
    form("Graphviz, plain, torn", PLAIN.replace("stop\n", ""), told="stop, is missing"),
    form("a matrix", ROWS + "\n", hosts=NUMBERS),
    form("a matrix with commas", ROWS.replace(" ", ",") + "\n", hosts=NUMBERS),
    form("a matrix in brackets", "[" + ROWS.replace(" ", ", ").replace("\n", "],\n[") + "]\n", hosts=NUMBERS),
    form("a matrix with names", "," + ",".join(HOSTS) + "\n" + NAMED_ROWS),
    form("a matrix with names and a corner", "host," + ",".join(HOSTS) + "\n" + NAMED_ROWS),
    form(
        "a matrix with names in the first row of columns alone",
        "\t".join(HOSTS) + "\n" + NAMED_ROWS.replace(",", "\t"),
    ),
    form(
        "a matrix without zeros",
        "\n".join(" ".join(str(1 + (i != j) * (i + j)) for j in range(6)) for i in range(6)),
        told="which of them are links",
    ),
    form("DOT", "graph {\n" + each_link("  {a} -- {b};\n") + "}\n"),
    form("DOT with directions", "digraph g {\n" + both_ways("  {a} -> {b} [weight=1, label=x];\n") + "}\n"),
    form(
        "DOT of tinc",
        "digraph {\n"
        + each_host('\t"{a}" [label = "{a}"];\n')
        + both_ways('\t"{a}" -> "{b}" [w = 3, weight = 0.3];\n')
        + "}\n",
    ),
    form("DOT with subgraphs", "graph { n1 -- {n2 n4 n6}; subgraph cluster_a { n2 -- n3 } n3 -- {n4} n5 -- {n4 n6} }"),
    form("DOT with ports", "graph { " + each_link("{a}:p{at} -- {b}:q:n; ") + "}"),
    form("DOT with ports of numbers", "graph { " + each_link("{a}:7946 -- {b}:7946; ") + "}"),
    form(
        "DOT with other ports of numbers",
        "graph { n1:7946 -- n2:7947; n1:7948 -- n3:7 }",
        told="are one node to DOT",
    ),
    form("DOT with HTML", "graph { " + each_link("{a} -- {b} [label=<<b>{at}</b>>]; ") + "}"),
    form("DOT with names that need quotes", "graph { n-1 -- n-2 }", told="needs quotes"),
    form("Mermaid", "graph TD\n    %% of today\n" + each_link("    {a}[Host {i}] --- {b}\n")),
    form("Mermaid with directions", "flowchart LR\n" + both_ways("    {a} -->|{i} ms| {b};\n")),
    form(
        "Mermaid with chains",
        "graph LR;\n  n1 --- n2 & n4 & n6\n  n2 --- n3 --- n4 --- n5 --- n6;\n  classDef x fill:#f9f\n",
    ),
    form("Mermaid within Markdown", "```mermaid\ngraph LR\n" + each_link("{a} --- {b}\n") + "```\n"),
    form("Mermaid that is another chart", "graph TD\n  a %% b\n", told="no arrow of Mermaid"),
    form("strict DOT", "// of today\nstrict graph {" + both_ways("{a} -- {b};") + "}"),
)
VALUES = (
    form("JSON, views", of_json(VIEWS)),
    form("JSON, commas before brackets", json.dumps(VIEWS).replace("]", ",]").replace("}", ",}")),
    form("JSON, objects with peers", of_json({host: {"peers": peers} for host, peers in VIEWS.items()})),
    form("JSON, a list of hosts", of_json([{"name": host, "peers": peers} for host, peers in VIEWS.items()])),
    form("JSON lines", "".join(json.dumps({"host": host, "neighbors": peers}) + "\n" for host, peers in VIEWS.items())),
    form(
        "JSON, hosts below a key",
        of_json({"cluster": "x", "nodes": [{"id": host, "peers": peers} for host, peers in VIEWS.items()]}),
    ),
    form(
        "JSON, nodes and links",
        of_json({"nodes": [{"id": it} for it in HOSTS], "links": EDGES}),
    ),
    form(
        "JSON of d3, by places",
        of_json(
            {"nodes": [{"name": it} for it in HOSTS], "links": [{"source": i - 1, "target": j - 1} for i, j in RING]}
        ),
    ),
    form(
        "JSON Graph Format",
        of_json({"graph": {"directed": False, "nodes": {it: {} for it in HOSTS}, "edges": EDGES}}),
    ),
    form(
        "JSON of cytoscape",
        of_json(
            {
                "elements": {
                    "nodes": [{"data": {"id": it}} for it in HOSTS],
                    "edges": [{"data": {"id": f"{a}{b}", "source": a, "target": b}} for a, b in LINKS],
                }
            }
        ),
    ),
    form("JSON, pairs", of_json([list(it) for it in LINKS])),
    form(
        "JSON of olsrd",
        of_json(
            {
                "pid": 7,
                "topology": [
                    {"lastHopIP": f"n{i}", "destinationIP": f"n{j}", "tcEdgeCost": 1024}
                    for i, peers in PEERS.items()
                    for j in peers
                ],
            }
        ),
        "--links",
        "topology",
        "--columns",
        "lastHopIP,destinationIP",
    ),
    form(
        "JSON of lnd",
        of_json(
            {
                "nodes": [{"pub_key": it, "alias": it.upper()} for it in HOSTS],
                "edges": [
                    {"channel_id": str(at), "node1_pub": a, "node2_pub": b} for at, (a, b) in enumerate(LINKS)
                ],
            }
        ),
        "--by",
        "pub_key",
        "--columns",
        "node1_pub,node2_pub",
    ),
    form(
        "JSON, hosts in objects",
        of_json(
            {
                "n1": {"peers": {"n2": {}, "n4": {}, "n6": {}}},
                **{host: {"peers": dict.fromkeys(peers, {})} for host, peers in VIEWS.items()},
            }
        ),
    ),
    form(
        "JSON with another key",
        of_json({host: {"Swarm": peers, "Version": 3} for host, peers in VIEWS.items()}),
        "--peers",
        "Swarm",
    ),
    form("JSON, one value behind the other", "".join(
        json.dumps({"name": host, "peers": peers}) for host, peers in VIEWS.items())),
    form("JSON, one value behind the other, on many lines", "\n".join(
        of_json({"name": host, "peers": peers}) for host, peers in VIEWS.items()) + "\n"),
    form("JSON, one value behind the other, and torn", '{"a": ["b"]}{"b": ["a"', told="and what stands above it is"),
    form("JSON with comments", "// of today\n" + of_json(VIEWS).replace("],", "], /* seen */")),
    form("values of Python", str({host: {"peers": peers, "is_up": True} for host, peers in VIEWS.items()})),
    form("values of JavaScript", "{" + each_host("{a}: {{name: '{a}', peers: [{peers}],}},\n", ", ", "'n{}'") + "}"),
    form("JSON, a matrix", json.dumps(MATRIX), hosts=NUMBERS),
    form("JSON, pairs below a key", of_json({"at": "noon", "links": [list(it) for it in LINKS]})),
    form("JSON, hosts below two keys", of_json({"cluster": {"name": "x", "members": {
        host: {"peers": peers} for host, peers in VIEWS.items()}}})),
    form("JSON, lists below two keys", of_json({"ok": "yes", "result": {"peers": VIEWS}}), "--links", "result.peers"),
    form("JSON, hosts below two keys with another list", of_json({"data": {"hosts": [
        {"uid": f"0x{at}", "name": host, "link": [{"uid": f"0x{it[1:]}", "name": it} for it in VIEWS[host]]}
        for at, host in enumerate(HOSTS, 1)]}}), "--peers", "link"),
    form("JSON lines without known names", "".join(
        json.dumps({"self": host, "activeView": peers, "v": 3}) + "\n" for host, peers in VIEWS.items()),
        "--by", "self", "--peers", "activeView"),
    form("JSON lines of links with unknown ends", each_link('{{"_key": "{at}", "_from": "{a}", "_to": "{b}"}}\n'),
         "--columns", "_from,_to"),
    form("JSON lines of hosts and links", each_host('{{"primary": "{a}"}}\n') + both_ways(
        '{{"router": "{a}", "neighbor": "{b}"}}\n'), "--columns", "router,neighbor", "--by", "primary"),
    form("JSON, hosts and peers by other fields", of_json([
        {"server": host, "routes": [{"rid": 1, "remote": it} for it in peers]} for host, peers in VIEWS.items()]),
        "--by", "server,remote", "--peers", "routes"),
    form("JSON, links by another field of nodes", of_json({
        "nodes": [{"hostname": it.upper(), "node_id": it} for it in HOSTS], "links": EDGES})),
    form("JSON, both ends in a list", of_json({"links": [{"id": str(at), "ends": list(it)} for at, it in enumerate(
        LINKS)]}), "--links", "links", "--columns", "ends.1,ends.2"),
    form("JSON, links and hosts in two lists", of_json(
        {"hosts": HOSTS, "links": [[a, b, {"bw": 1}] for a, b in LINKS]}), "--links", "links"),
    form("YAML of hosts below a key", "hosts:\n" + each_host("  {a}:\n    peers: [{peers}]\n", ", ")),
    form("JSON, a key twice", '{"n1": {"peers": ["n2"]}, "n1": {"peers": []}}', told="n1 twice"),
    form("YAML, lists", "---\n" + each_host("{a}: [{peers}]\n", ", ")),
    form("YAML, items", "---\n" + each_host("{a}:\n  - {peers}\n", "\n  - ")),
    form("YAML without a head", each_host("{a}: [{peers}]\n", ", ")),
    form(
        "YAML, nodes and links",
        "---\ndirected: false\nnodes:\n"
        + each_host("- id: {a}\n")
        + "links:\n"
        + each_link("- {{source: {a}, target: {b}}}\n"),
    ),
    form(
        "YAML with anchors",
        "---\nn1: &x [n2, n4, n6]\nn2: [n1, n3]\nn3: [n2, n4]\nn4: [n1, n3, n5]\nn5: [n4, n6]\nn6: [n1, n5]\n",
    ),
    form("YAML, a key twice", "---\nn1: [n2]\nn1: [n3]\n", told="n1 stands twice"),
    form("YAML, two documents", "---\nn1: [n2]\n---\nn2: [n1]\n", told="a second document"),
)
FORMS = (*LINES, *TABLES, *GRAPHS, *VALUES)
