"""More dumps that are made to be misread, as those of `misreads`: what says which links or hosts are down has no word
that is known, or stands where nothing is looked for. Each has its name, its text, and what is told of it."""

import itertools
import json

from .misreads import (
    ALL, HOSTS, UP, dot, each, gexf, gml, graph, graphml, hosts, is_up, lines, links, others, peers, seen, up_of, yaml
)

DOWN = [it for it in ALL if it not in UP]
# A host that is linked with all, and dead.
DEAD = [*sorted(UP), *(("n0", it) for it in HOSTS)]
NODES = ["n0", *HOSTS]
EDGES = [{"source": a, "target": b} for a, b in DEAD]


def dead_graph(**more):
    """Nodes and links with the dead host, and something beside them."""
    return json.dumps({"nodes": [{"id": it} for it in NODES], "links": EDGES, **more})


def dead_hosts(alive, dead):
    """Hosts with their peers, one of which is dead."""
    listed = {it: [a if b == it else b for a, b in DEAD if it in (a, b)] for it in NODES}
    return {it: {"peers": listed[it], **(alive(it) if it != "n0" else dead)} for it in NODES}


def dead_lines(text, pattern="{a} {b}\n"):
    return text + "".join(pattern.format(a=a, b=b) for a, b in DEAD)


def spans(texts, of=ALL):
    """A value for each link, in turn: the first ones of those that are up."""
    yes, no = (itertools.cycle(it) for it in texts)
    return [{"source": a, "target": b, "z": next(yes) if is_up(a, b) else next(no)} for a, b in of]


def xml(comment="", node="", down="", after="", head=""):
    """GraphML with what stands in the edges that are down, and elsewhere."""
    nodes = "".join(f'<node id="{it}">{node if it == "n3" else ""}</node>' for it in HOSTS)
    edges = "".join(f'<edge source="{a}" target="{b}">{"" if is_up(a, b) else down}</edge>' for a, b in ALL)
    return f'<graphml>{comment}<graph edgedefault="undirected"{head}>{nodes}{edges}{after}</graph></graphml>'


def pajek(comment="", more="", no=""):
    vertices = "".join(f'{at} "{it}"\n' for at, it in enumerate(HOSTS, 1))
    edges = "".join(f"{a[1:]} {b[1:]}{'' if is_up(a, b) else no}\n" for a, b in ALL)
    return f"*Vertices 6\n{vertices}{comment}*Edges\n{edges}{more}"


def many(count, yes, no):
    """Hosts with peers of so many fields, the last of which says a state."""
    fields = {f"f{at}": 1 for at in range(count)}
    return hosts({**fields, "zz": yes}, {**fields, "zz": no})


STOPPED = {"n3.json": {"peers": others("n3"), "shutdown": "clean"}}
TREES = {it: json.dumps(STOPPED.get(f"{it}.json", {"peers": others(it)})) for it in HOSTS}
LONG = "the other side has sent nothing at all since the morning, so this peer is down by now"
MATRIX = [[str(int(a != b)) for b in HOSTS] for a in HOSTS]

TOLD = [
    # beside nodes and links
    ("unreachable.json", dead_graph(unreachable=["n0"]), "unreachable is missing (6) or listed (1)"),
    ("offline.json", dead_graph(offline={"n0": {"since": 7}}), "offline.since is missing (6) or 7 (1)"),
    ("down-nodes.json", dead_graph(graph={"down_nodes": ["n0"]}), "graph.down_nodes is missing (6) or listed (1)"),
    ("node-state.json", dead_graph(node_state={it: "up" if it in HOSTS else "down" for it in NODES}), "node_state is"),
    ("link-states.json", graph({}, {}, link_states=["up" if it in UP else "down" for it in ALL]), "link_states is"),
    ("alarms.json", dead_graph(alarms=[{"link": "n0-n1", "text": "cut"}]), "alarms ("),
    ("excluded.json", dead_graph(excluded=["n0", "n9"]), "excluded (n0, n9)"),
    ("gone.json", dead_graph(meta={"removed": [{"node": "n0"}]}), "meta.removed is missing (6) or listed (1)"),
    ("quorum.json", dead_graph(quorum="6 of 7"), "quorum (6 of 7)"),
    ("by-link.json", graph({}, {}, z={f"{a}-{b}": 7 for a, b in DOWN}), "z (8, as n1-n3: 7)"),
    ("codes-beside.json", graph({}, {}, z=[4 if it in UP else 9 for it in ALL]), "z (9: 8, 4: 7)"),
    ("places.json", dead_graph(z=[0]), "z (0)"),
    ("jgf-metadata.json", json.dumps({"graph": {"nodes": {it: {} for it in NODES}, "edges": EDGES,
     "metadata": {"out": ["n0"]}}}),
     "graph.metadata.out (missing: 6, listed: 1)"),
    ("collection.json", json.dumps({"type": "NetworkCollection", "collection": [
        {"type": "NetworkGraph", "nodes": [{"id": it} for it in NODES], "links": EDGES}, {"lost": ["n0"]}]}),
     "collection.lost is missing (6) or listed (1)"),
    ("elements.json", json.dumps({"data": {"quiet": ["n0"]}, "elements": {
        "nodes": [{"data": {"id": it}} for it in NODES], "edges": [{"data": it} for it in EDGES]}}), "data.quiet ("),
    ("adjacency.json", json.dumps({"nodes": [{"id": it, "z": int(it != "n0")} for it in NODES], "adjacency": [
        dead_hosts(lambda it: {}, {})[it]["peers"] for it in NODES]}), "z is 1 (6) or 0 (1)"),
    ("node-values.json", json.dumps({"nodes": {it: "on" if it in HOSTS else "off" for it in NODES}, "links": EDGES}),
     "value is on (6) or off (1)"),
    ("beside-hosts.json", json.dumps({"z": "all but n0", "hosts": dead_hosts(lambda it: {}, {})}), "z (all but n0)"),
    ("ends.json", json.dumps([{"source": {"id": a, "z": is_up(a, b)}, "target": b} for a, b in ALL]), "source.z is"),
    ("link-keys.json", json.dumps({"t": {f"{a}-{b}{'' if is_up(a, b) else '!'}": [a, b] for a, b in ALL}}), "--links"),
    # fields of links
    ("replies.json", json.dumps(spans([[f"reply {it}.5 ms" for it in range(9)], [f"no reply, {it} tries" for it in
     range(9)]])), "z is "),
    ("long.json", json.dumps(spans([["all is well"], [LONG]])), "z is the other side"),
    ("socket.json", json.dumps([{**it, "socket": f"s{at}"} if is_up(it["source"], it["target"]) else it
                                for at, it in enumerate(links({}, {}))]), "socket is missing (8)"),
    ("session.json", json.dumps([{**it, "session": at * 17 + 3} if is_up(it["source"], it["target"]) else it
                                 for at, it in enumerate(links({}, {}))]), "session is"),
    ("port.json", seen("port", [655, 656], [0]), "port is 0 (16)"),
    ("ip.json", seen("ip", ["10.0.0.7", "10.0.0.8"], ["0.0.0.0"]), "ip (0.0.0.0: 16"),
    ("loss.json", seen("loss", [0.5, 1.5, 2.5], [100]), "loss (100: 16"),
    ("loss-texts.json", seen("loss", ["1%", "2%", "3%"], ["100%"]), "loss is 100% (16)"),
    ("metric.json", seen("metric", [1, 2, 3], [16]), "metric (16: 16"),
    ("uptime.json", seen("uptime", ["3h", "7h", "9h"], ["0s"]), "uptime (0s: 16"),
    ("last-contact.json", seen("lastcontact", [1, 2, 3], [86400]), "lastcontact is 86400 (16)"),
    ("last-message.json", seen("lastmsg", [1, 2, 3], [86400]), "lastmsg is 86400 (16)"),
    ("quiet.json", seen("quiet_secs", [1, 2, 3], [86400]), "quiet_secs is 86400 (16)"),
    ("since-reply.json", seen("since_reply", [1, 2, 3], [86400]), "since_reply is 86400 (16)"),
    ("many-fields.json", many(80, "up", "down"), "further fields is"),
    ("many-fields-codes.json", many(80, "x", "y"), "further fields is"),
    ("long-lists.json", hosts({"z": list(range(30))}, {"z": [*range(29), "x"]}), "z is 0,1,2"),
    ("long-lists-of-objects.json", hosts({"z": [{"n": 1}] * 20}, {"z": [{"n": 2}] * 20}), "z is"),
    ("deep.json", hosts({"a": {"b": {"c": {"d": {"e": {"f": {"g": {"h": 1}}}}}}}},
                        {"a": {"b": {"c": {"d": {"e": {"f": {"g": {"h": 2}}}}}}}}), "a.b.c.d.e.f.g is"),
    ("mixed-lists.json", hosts({"z": [1, {"n": 1}]}, {"z": [1, {"n": 2}]}), "z is"),
    ("version.json", hosts({"version": "1.4"}, {"version": "1.3"}), "version (1.3: 16, 1.4: 14)"),
    ("region.json", hosts({"region": "eu"}, {"region": "limbo"}), "region (limbo: 16, eu: 14)"),
    ("inbound.json", hosts({"inbound": True}, {"inbound": False}), "inbound (false: 16, true: 14)"),
    ("begun.json", seen("created", [1764493200, 1764493211], [0]), "created is 0 (16)"),
    ("named-twice.json", json.dumps([{"name": it, "peers": [{"id": {"name": x, "z": is_up(it, x)}} for x in others(it)]}
                                     for it in HOSTS]), "id.z is false (16) or true (14)"),
    ("few.json", json.dumps([{"source": "n1", "target": "n2", "z": "ja"},
     {"source": "n1", "target": "n3", "z": "nein"}]),
     "z (ja: 1, nein: 1)"),
    # fields of hosts
    ("zustand.json", json.dumps(dead_hosts(lambda it: {"zustand": "da"}, {"zustand": "weg"})),
     "zustand (da: 6, weg: 1)"),
    ("sessions.json", json.dumps(dead_hosts(lambda it: {"sessions": 3}, {"sessions": 0})),
     "sessions is 3 (6) or 0 (1)"),
    ("stopped", TREES, "shutdown is missing (5) or clean (1)"),
    ("all-listed.json", json.dumps(dead_hosts(lambda it: {}, {"peers_down": HOSTS})),
     "peers_down is missing (20) or listed (6)"),
    ("hosts-lists.json", each(lambda it: {"peers": others(it), "z": [*up_of(it), "n9"]}), "--peers KEY"),
    # comments, texts and names
    ("comment.yaml", "# n3 is down\n" + yaml("z: 1", "z: 1"), "comments (# n3 is down)"),
    ("behind.yaml", yaml("z: 1", "z: 1 # no answer"), "comments (# no answer)"),
    ("comment.graphml", xml(comment="<!-- n3 does not answer -->"), "comments (n3 does not answer)"),
    ("desc.graphml", xml(down="<desc>down</desc>"), "desc is down (8) or missing (7)"),
    ("desc-of-a-host.graphml", xml(node="<desc>out</desc>"), "desc (missing: 5, out: 1)"),
    ("text.graphml", xml(down="no answer"), "edge is no answer (8) or missing (7)"),
    ("drawn.graphml", xml(down='<data key="d"><LineStyle color="red"/></data>'), "linestyle.color is red (8)"),
    ("of-the-graph.graphml", xml(after='<data key="lost">n3 n4</data>'), "lost (n3 n4)"),
    ("head.graphml", xml(head=' stale="n3"'), "graph.stale (n3)"),
    ("ids.graphml", "<graphml><graph>" + "".join(f'<node id="{it}"/>' for it in HOSTS) + "".join(
        f'<edge id="{"e" if is_up(a, b) else "x"}{at}" source="{a}" target="{b}"/>' for at, (a, b) in enumerate(ALL)) +
     "</graph></graphml>", "id (x#: 8, e#: 7)"),
    ("viz.gexf", gexf("1", "1").replace("<nodes>", "<!-- n3 is away --><nodes>"), "comments (n3 is away)"),
    ("comment.gml", "# n3 is away\n" + gml("w 1", "w 1"), "comments (# n3 is away)"),
    ("head.gml", 'comment "n3 is away"\n' + gml("w 1", "w 1"), "comment (n3 is away)"),
    ("twice.gml", gml("z 1", "z 0 z 1"), "z is"),
    ("comment.net", pajek("% n3 is away\n"), "comments (% n3 is away)"),
    ("relation.net", pajek(more='*Edges :2 "old"\n1 2\n'), "section is missing (15) or :2 old (1)"),
    ("network.net", "*Network without n3\n" + pajek(), "network (without n3)"),
    ("comment.edges", dead_lines("# n0 is away\n"), "comments (# n0 is away)"),
    ("behind.edges", lines("", "{a} {b}{it}", "", " # no answer"), "comment (no answer: 8, missing: 7)"),
    ("list.adjlist", "".join(f"{it}: {' '.join(others(it))}{' # away' if it == 'n3' else ''}\n" for it in HOSTS),
     "comment (missing: 5, away: 1)"),
    ("arrows.edges", "".join(f"{a} <-> {b}{'' if is_up(a, b) else ' # away'}\n" for a, b in ALL), "comment (away: 8"),
    ("two-arrows.edges", lines("", "{a} {it} {b}", "<->", "<=>"), "arrow is <=> (8) or <-> (7)"),
    ("cluster.dot", "graph {\n" + dead_lines("", "{a} -- {b};\n") + "subgraph cluster_old { n0 } }", "subgraph ("),
    ("defaults.dot", "graph { node [z=1]; n0;\n node [z=2];\n" + dead_lines("", "{a} -- {b};\n") + "}",
     "z (2: 6, 1: 1)"),
    ("comment.dot", "graph {\n" + dead_lines("", "{a} -- {b};\n") + "/* n0 is away */ }",
     "comments (/* n0 is away */)"),
    ("attribute.dot", 'graph { label="without n0";\n' + dead_lines("", "{a} -- {b};\n") + "}",
     "graph.label (without n0)"),
    ("ports.dot", "graph {\n" + lines("", '"{a}" -- "{b}"{it};', "", ":z") + "}", "ports (z)"),
    ("class.mmd", "graph TD\n" + dead_lines("", "{a} --- {b}\n") + "class n0 away\n", "class (n0 away)"),
    ("dashes.mmd", "graph TD\n" + lines("", "{a} {it} {b}", "---", "-.-"), "arrow is"),
    ("label.plain", "graph 1 2 2\n" + "".join(f"node {it} 1 1 1 1 {it} solid box black white\n" for it in HOSTS)
     + lines(
        "", "edge {a} {b} 1 0 0{it} solid black", "", " away 1 1") + "stop\n", "label is away (8) or missing (7)"),
    ("reversal.lgr", "LEDA.GRAPH\nstring\nint\n-2\n6\n" + "".join(f"|{{{it}}}|\n" for it in HOSTS) + "15\n" + "".join(
        f"{a[1:]} {b[1:]} 0 |{{{'' if is_up(a, b) else 'away'}}}|\n" for a, b in ALL),
     "label is away (8) or missing (7)"),
    ("diagonal.matrix", "\n".join(" ".join("7" if a == b == 2 else it for b, it in enumerate(row))
                                  for a, row in enumerate(MATRIX)), "diagonal is 0 (5) or 7 (1)"),
    ("nameless.csv", lines("source,target,\n", "{a},{b},{it}", "x", "y"), "column 3 is y (8) or x (7)"),
    ("twice.csv", lines("source,target,z,z\n", "{a},{b},{it},1", "x", "y"), "column 3 is y (8) or x (7)"),
    ("title.txt", "all but n3 answer\n a | b \n---+---\n" + lines("", " {a} | {b} ", "", ""),
     "title (all but n3 answer)"),
    ("footer.txt", " source | target \n---+---\n" + lines("", " {a} | {b} ", "", "") + "(15 rows, 8 old)\n",
     "footer ((15 rows, 8 old))"),
    ("files", {**{f"{it}.json": json.dumps(peers({}, {})[it]) for it in HOSTS}, ".n3.away": ""},
     "files that are not read (.n3.away)"),
    ("comment.graph", "# n2 is away\n# 1 a\nnode 1\n# 2 b\nnode 2\nlink 1 2\n", "comments (# n2 is away)"),
]
WORDS = {"title.txt": {"columns": "a,b"}}
