"""Dumps that are made to be misread: all 15 pairs of six hosts stand in them, and what is said beside says which seven
links are up. Read without that, k is 5; it is 2."""

import itertools
import json

HOSTS = [f"n{it}" for it in range(1, 7)]
ALL = list(itertools.combinations(HOSTS, 2))
# A ring of six with a chord: crashing n1 and n3, or any two that are no neighbours, splits it.
UP = {("n1", "n2"), ("n2", "n3"), ("n3", "n4"), ("n4", "n5"), ("n5", "n6"), ("n1", "n6"), ("n1", "n4")}
DATA = {"data": {"on": 0}}, {"data": {"on": 1}}
NEW, OLD = "2026-11-30T09:00:0", "2026-11-29T21:13:0"


def is_up(one, other):
    return tuple(sorted((one, other))) in UP


def others(host):
    return [it for it in HOSTS if it != host]


def peers(yes, no):
    """The peers of each host as objects, with what is said of those that are up, and of the others."""
    return {it: [{"name": peer, **(yes if is_up(it, peer) else no)} for peer in others(it)] for it in HOSTS}


def hosts(yes, no, key="peers"):
    return json.dumps({it: {key: listed} for it, listed in peers(yes, no).items()})


def rows(yes, no):
    """The same, as a list of hosts."""
    return [{"name": it, "peers": listed} for it, listed in peers(yes, no).items()]


def table(yes, no):
    """The peers of each host as an object."""
    return {it: {peer: yes if is_up(it, peer) else no for peer in others(it)} for it in HOSTS}


def up_of(host):
    return [it for it in others(host) if is_up(host, it)]


def down_of(host):
    return [it for it in others(host) if not is_up(host, it)]


def lists(**of_hosts):
    """Hosts with several lists."""
    return json.dumps({it: {key: listed(it) for key, listed in of_hosts.items()} for it in HOSTS})


def links(yes, no, ends=("source", "target")):
    return [{ends[0]: a, ends[1]: b, **(yes if is_up(a, b) else no)} for a, b in ALL]


def graph(yes, no, **more):
    return json.dumps({"nodes": [{"id": it} for it in HOSTS], "links": links(yes, no), **more})


def elements(edges):
    """The elements of cytoscape."""
    return json.dumps({"elements": {"nodes": [{"data": {"id": it}} for it in HOSTS], "edges": edges}})


def lines(first, pattern, yes, no, pairs=ALL):
    """A first line, and a line for each pair, by a pattern with {a}, {b} and {it}."""
    return first + "".join(pattern.format(a=a, b=b, it=yes if is_up(a, b) else no) + "\n" for a, b in pairs)


def each_way(first, pattern, yes, no):
    return lines(first, pattern, yes, no, list(itertools.permutations(HOSTS, 2)))


def dot(yes, no, before=""):
    return lines(f"graph {{\n{before}", "{a} -- {b} {it};", yes, no) + "}\n"


def graphml(kind, yes, no):
    keys = f'<key id="d0" for="edge" attr.name="state" attr.type="{kind}"/>'
    nodes = "".join(f'<node id="{it}"/>' for it in HOSTS)
    edges = lines("", '<edge source="{a}" target="{b}"><data key="d0">{it}</data></edge>', yes, no)
    space = "http://graphml.graphdrawing.org/xmlns"
    return f'<graphml xmlns="{space}">{keys}<graph edgedefault="undirected">{nodes}{edges}</graph></graphml>'


def gexf(yes, no):
    nodes = "".join(f'<node id="{it}" label="{it}"/>' for it in HOSTS)
    value = '<attvalues><attvalue for="0" value="{it}"/></attvalues>'
    edges = lines("", '<edge id="{a}{b}" source="{a}" target="{b}">' + value + "</edge>", yes, no)
    keys = '<attributes class="edge"><attribute id="0" title="status" type="string"/></attributes>'
    return (
        '<gexf xmlns="http://www.gexf.net/1.2draft" version="1.2"><graph defaultedgetype="undirected">'
        f"{keys}<nodes>{nodes}</nodes><edges>{edges}</edges></graph></gexf>"
    )


def gml(yes, no):
    nodes = "".join(f'node [ id {at} label "{it}" ]\n' for at, it in enumerate(HOSTS))
    pairs = "".join(
        f"edge [ source {HOSTS.index(a)} target {HOSTS.index(b)} {yes if is_up(a, b) else no} ]\n" for a, b in ALL
    )
    return f"graph [\n{nodes}{pairs}]\n"


def yaml(yes, no):
    """Hosts with a list of objects, as YAML writes them."""
    text = ""
    for host in HOSTS:
        text += f"{host}:\n  peers:\n"
        for it in others(host):
            text += f"    - name: {it}\n      {yes if is_up(host, it) else no}\n"
    return text


def folder(yes, no):
    return {f"{it}.json": json.dumps({"peers": listed}) for it, listed in peers(yes, no).items()}


def each(say):
    """What is said of each host, by its name."""
    return json.dumps({it: say(it) for it in HOSTS})


def with_a_dead_host(**state):
    """Seven hosts, of which n0 is linked with all, and dead."""
    entries = {it: {"peers": ["n0", *up_of(it)], **state["alive"]} for it in HOSTS}
    return json.dumps({"n0": {"peers": HOSTS, **state["dead"]}, **entries})


def spread(yes, no):
    """Values that differ from pair to pair, in turn."""
    yes, no = itertools.cycle(yes), itertools.cycle(no)
    return {
        it: {"peers": [{"name": peer, **(next(yes) if is_up(it, peer) else next(no))} for peer in others(it)]}
        for it in HOSTS
    }


def seen(field, yes, no):
    return json.dumps(spread([{field: it} for it in yes], [{field: it} for it in no]))


# Each dump: its name, its text or the files of its folder, the words with which it is read right or None if no words
# can, and some words of the refusal that stands there without them.
ASKED = [
    ("state.json", hosts({"state": "connected"}, {"state": "disconnected"}), ["--up", "state=connected"], "state"),
    ("up-false.json", hosts({"up": True}, {"up": False}), ["--up", "up=true"], "up is"),
    ("status-words.json", hosts({"status": "OK"}, {"status": "TIMEOUT"}), ["--up", "status=ok"], "status"),
    ("link-state.json", hosts({"linkState": 7}, {"linkState": 3}), ["--up", "linkState=7"], "linkState"),
    ("alive-1-0.json", hosts({"alive": 1}, {"alive": 0}), ["--up", "alive=1"], "alive"),
    ("unknown-bool.json", hosts({"b": True}, {"b": False}), ["--up", "b=true"], "b is"),
    ("bool-of-some.json", hosts({}, {"muted": True}), ["--up", "muted=missing"], "muted"),
    ("yes-no.json", hosts({"z": "yes"}, {"z": "no"}), ["--up", "z=yes"], "z is"),
    ("null-rtt.json", hosts({"rtt": 3.5}, {"rtt": None}), ["--up", "rtt=0.."], "rtt"),
    ("negative-rtt.json", seen("rtt", [3, 4, 9], [-1]), ["--up", "rtt=0.."], "rtt"),
    ("missing-state.json", hosts({"state": "connected"}, {}), ["--up", "state=connected"], "missing"),
    ("empty-via.json", hosts({"via": "eth0"}, {"via": ""}), ["--up", "via=eth0"], "via"),
    ("nested-state.json", hosts({"status": {"up": 1}}, {"status": {"up": 0}}), ["--up", "status.up=1"], "status.up"),
    ("last-error.json", hosts({"last_error": ""}, {"last_error": "timeout"}), ["--up", "last_error="], "last_error"),
    ("error-of-some.json", hosts({}, {"error": "no route"}), ["--up", "error="], "error"),
    ("flags.json", hosts({"f": ["UP", "LOWER"]}, {"f": ["LOWER"]}), ["--up", "f=UP,LOWER"], "f is"),
    ("bgp.json", seen("p", ["Established"], ["Idle", "Active", "Connect"]), ["--up", "p=Established"], "p is"),
    ("ospf.json", seen("nbr", ["Full/DR", "Full/BDR"], ["Init/-"]), ["--up", "nbr=Full/DR,Full/BDR"], "nbr"),
    ("docker.json", seen("s", ["Up 3 hours", "Up 2 days"], ["Exited (1)"]), ["--up", "s=Up 3 hours,Up 2 days"], "s is"),
    ("type-dead.json", hosts({"type": "peer"}, {"type": "dead"}), ["--up", "type=peer"], "type"),
    ("health.json", hosts({"health": 2}, {"health": 0}), ["--up", "health=2"], "health"),
    (
        "last-seen.json",
        seen("lastSeen", [f"{NEW}1Z", f"{NEW}9Z"], [f"{OLD}4Z", f"{OLD}7Z"]),
        ["--up", "lastSeen=..60"],
        "lastSeen",
    ),
    ("epochs.json", seen("t", [1764493200, 1764493211], [1764400000]), ["--up", "t=..5m"], "t is"),
    ("handshake.json", seen("handshake", [1764493200, 1764493211], [0]), ["--up", "handshake=..60"], "handshake"),
    ("ages.json", seen("age", [3, 5, 8], [700, 86400]), ["--up", "age=..60"], "age"),
    ("age-texts.json", seen("heard", ["3s", "12s"], ["2h 3m", "5 days"]), ["--up", "heard=..1m"], "heard"),
    ("never.json", seen("contact", ["3s", "12s"], ["never"]), ["--up", "contact=..1m"], "contact"),
    ("peers-true-false.json", each(lambda it: {"peers": table(True, False)[it]}), ["--up", "value=true"], "value"),
    (
        "connections.json",
        each(lambda it: {"connections": table({"connected": True}, {"connected": False})[it]}),
        ["--up", "connected=true"],
        "connected",
    ),
    ("table.json", json.dumps(table(True, False)), ["--up", "value=true"], "value"),
    ("table-objects.json", json.dumps(table({"connected": 1}, {"connected": 0})), ["--up", "connected=1"], "connected"),
    ("table-0-1.json", json.dumps(table(1, 0)), ["--up", "value=1"], "value"),
    ("table-weights.json", json.dumps(table(7, 0)), ["--up", "value=1.."], "value"),
    ("table-null.json", json.dumps(table(7, None)), ["--up", "value=7"], "value"),
    ("null-peers.json", each(lambda it: {"peers": table({"rtt": 1}, None)[it]}), ["--up", "rtt=1"], "value"),
    ("peers-and-active.json", lists(peers=others, active_view=up_of), ["--peers", "active_view"], "--peers KEY"),
    ("neighbors-and-peers.json", lists(neighbors=up_of, peers=others), ["--peers", "neighbors"], "--peers KEY"),
    ("peers-and-links.json", lists(peers=others, links=up_of), ["--peers", "links"], "--peers KEY"),
    ("peers-and-unknown.json", lists(peers=others, Q=up_of), ["--peers", "Q"], "--peers KEY"),
    ("peers-and-down.json", lists(peers=others, suspects=down_of), None, "--peers KEY"),
    ("active-passive.json", lists(active=up_of, passive=down_of), ["--peers", "active"], "--peers KEY"),
    (
        "views-in-peers.json",
        each(lambda it: {"peers": {"active": up_of(it), "passive": down_of(it)}}),
        ["--peers", "peers.active"],
        "--peers KEY",
    ),
    (
        "views.json",
        each(lambda it: {"views": {"active": up_of(it), "passive": down_of(it)}}),
        ["--peers", "views.active"],
        "--peers KEY",
    ),
    (
        "objects-and-links.json",
        each(lambda it: {"peers": others(it), "links": [{"to": x} for x in up_of(it)]}),
        ["--peers", "links", "--by", "to"],
        "--peers KEY",
    ),
    (
        "beside.json",
        each(lambda it: {"peers": others(it), "up": [is_up(it, x) for x in others(it)]}),
        ["--up", "up=true"],
        "up is",
    ),
    (
        "states-by-peer.json",
        each(lambda it: {"peers": others(it), "st": {x: "up" if is_up(it, x) else "down" for x in others(it)}}),
        ["--up", "st=up"],
        "st is",
    ),
    (
        "details.json",
        each(lambda it: {"peers": others(it), "info": [{"name": x, "ok": is_up(it, x)} for x in others(it)]}),
        ["--up", "info.ok=true"],
        "info.ok",
    ),
    ("rows.json", json.dumps(rows({"state": "up"}, {"state": "down"})), ["--up", "state=up"], "state"),
    ("below.json", json.dumps({"taken": 1, "hosts": rows({"up": 1}, {"up": 0})}), ["--up", "up=1"], "up is"),
    ("rows.jsonl", "\n".join(map(json.dumps, rows({"state": "up"}, {"state": "down"}))), ["--up", "state=up"], "state"),
    (
        "dead-host.json",
        with_a_dead_host(alive={"status": "alive"}, dead={"status": "left"}),
        ["--up", "status=alive"],
        "status",
    ),
    ("dead-host-bool.json", with_a_dead_host(alive={"up": True}, dead={"up": False}), ["--up", "up=true"], "up is"),
    ("node-link.json", graph({"status": "up"}, {"status": "down"}), ["--up", "status=up"], "status"),
    ("node-link-some.json", graph({}, {"label": "down"}), ["--up", "label="], "label"),
    ("node-link-null.json", graph({"cost": 1.5}, {"cost": None}), ["--up", "cost=1.5"], "cost"),
    ("d3.json", graph({"value": 1}, {"value": 0}), ["--up", "value=1"], "value"),
    (
        "netjson.json",
        graph({"properties": {"up": True}}, {"properties": {"up": False}}, type="NetworkGraph"),
        ["--up", "properties.up=true"],
        "properties.up",
    ),
    (
        "cytoscape.json",
        elements([{"data": it} for it in links({"state": "up"}, {"state": "down"})]),
        ["--up", "state=up"],
        "state",
    ),
    (
        "classes.json",
        elements([{"data": {"source": a, "target": b}, "classes": "ok" if is_up(a, b) else "dead"} for a, b in ALL]),
        ["--up", "classes=ok"],
        "classes",
    ),
    (
        "jgf.json",
        json.dumps({"graph": {"nodes": dict.fromkeys(HOSTS, {}), "edges": links(DATA[1], DATA[0])}}),
        ["--up", "data.on=1"],
        "data.on is",
    ),
    (
        "two-lists.json",
        graph({}, {}, edges=[{"source": a, "target": b} for a, b in sorted(UP)]),
        ["--links", "edges"],
        "--links KEY",
    ),
    ("down-list.json", graph({}, {}, downLinks=[[a, b] for a, b in ALL if not is_up(a, b)]), None, "--links KEY"),
    ("links.json", json.dumps(links({"state": "up"}, {"state": "down"})), ["--up", "state=up"], "state"),
    (
        "links.jsonl",
        "\n".join(map(json.dumps, links({"ok": True}, {"ok": False}, ("from", "to")))),
        ["--up", "ok=true"],
        "ok is",
    ),
    (
        "peer-rows.json",
        "[" + each_way("", '{{"host": "{a}", "peer": "{b}", "state": "{it}"}},', "up", "down").rstrip(",\n") + "]",
        ["--up", "state=up"],
        "state",
    ),
    (
        "pairs.json",
        json.dumps([[a, b, {"state": "up" if is_up(a, b) else "down"}] for a, b in ALL]),
        ["--up", "state=up"],
        "state",
    ),
    ("pairs-0-1.json", json.dumps([[a, b, int(is_up(a, b))] for a, b in ALL]), ["--up", "3=1"], "column 3"),
    ("pairs-null.json", json.dumps([[a, b, 4 if is_up(a, b) else None] for a, b in ALL]), ["--up", "3=4"], "column 3"),
    (
        "channels.json",
        json.dumps({"net": {"channels": links({"active": True}, {"active": False}, ("a", "b"))}}),
        ["--links", "channels", "--columns", "a,b", "--up", "active=true"],
        "--links",
    ),
    (
        "connected.csv",
        lines("source,target,connected\n", "{a},{b},{it}", "true", "false"),
        ["--up", "connected=true"],
        "connected",
    ),
    ("state.csv", each_way("host,peer,state\n", "{a},{b},{it}", "up", "down"), ["--up", "state=up"], "state"),
    ("one-zero.csv", lines("src;dst;x\n", "{a};{b};{it}", 1, 0), ["--up", "x=1"], "x is"),
    ("status.tsv", lines("from\tto\tStatus\n", "{a}\t{b}\t{it}", "Up", "Down"), ["--up", "Status=Up"], "tatus"),
    ("empty.csv", lines("source,target,rtt\n", "{a},{b},{it}", 2.5, ""), ["--up", "rtt=2.5"], "rtt"),
    ("seen.csv", lines("source,target,seen\n", "{a},{b},{it}", f"{NEW}0", f"{OLD}0"), ["--up", "seen=..60"], "seen"),
    ("state-first.csv", lines("state,source,target\n", "{it},{a},{b}", "up", "down"), ["--up", "state=up"], "state"),
    ("flags.edges", lines("", "{a} {b} {it}", 1, 0), ["--up", "3=1"], "column 3"),
    ("flags-semicolon.edges", lines("", "{a};{b};{it}", 1, 0), ["--up", "3=1"], "column 3"),
    ("attributes.edges", lines("", "{a} {b} {{'state': '{it}'}}", "up", "down"), ["--up", "state=up"], "state"),
    (
        "multiline.adjlist",
        "".join(
            f"{it} {len(HOSTS) - at}\n" + lines("", "{b} {{'up': {it}}}", True, False, [(it, b) for b in HOSTS[at:]])
            for at, it in enumerate(HOSTS, 1)
        ),
        ["--up", "up=true"],
        "up is",
    ),
    ("comments.edges", lines("", "{a} {b} # {it}", "up", "down"), ["--up", "comment=up"], "comment"),
    ("label.dot", dot("", '[label="down"]'), ["--up", "label="], "label"),
    ("invis.dot", dot("", "[style=invis]"), ["--up", "style="], "style"),
    ("state.dot", dot("[state=up]", "[state=down]"), ["--up", "state=up"], "state"),
    ("default.dot", dot("", "[alive=0]", "edge [alive=1];\n"), ["--up", "alive=1"], "alive"),
    ("state.graphml", graphml("string", "up", "down"), ["--up", "state=up"], "state"),
    ("bool.graphml", graphml("boolean", "true", "false"), ["--up", "state=true"], "state"),
    ("status.gexf", gexf("up", "down"), ["--up", "status=up"], "status"),
    ("state.gml", gml('state "up"', 'state "down"'), ["--up", "state=up"], "state"),
    ("alive.gml", gml("alive 1", "alive 0"), ["--up", "alive=1"], "alive"),
    ("up.yaml", yaml("up: true", "up: false"), ["--up", "up=true"], "up is"),
    ("state.yaml", yaml("state: connected", "state: failed"), ["--up", "state=connected"], "state"),
    (
        "table.yaml",
        "".join(f"{host}: {json.dumps(row)}\n".replace('"', "") for host, row in table("on", "off").items()),
        ["--up", "value=on"],
        "value",
    ),
    ("null.yaml", yaml("rtt: 3", "rtt:"), ["--up", "rtt=3"], "rtt"),
    ("folder-state", folder({"state": "connected"}, {"state": "failed"}), ["--up", "state=connected"], "state"),
    ("folder-up", folder({"up": True, "port": 1}, {"up": False, "port": 0}), ["--up", "up=true"], "up is"),
    (
        "folder-active",
        {f"{it}.json": json.dumps({"peers": others(it), "active_view": up_of(it)}) for it in HOSTS},
        ["--peers", "active_view"],
        "--peers KEY",
    ),
]
# The same of dumps that are read with a note, since nothing says that their fields are states.
NOTED = [
    (
        "other-words.json",
        hosts({"zustand": "verbunden"}, {"zustand": "getrennt"}),
        ["--up", "zustand=verbunden"],
        "zustand",
    ),
    ("codes.json", hosts({"st": 4}, {"st": 9}), ["--up", "st=4"], "st is"),
    ("colors.dot", dot("[color=green]", "[color=red]"), ["--up", "color=green"], "color"),
    ("zero-weights.json", seen("quality", [0.9, 0.7], [0]), ["--up", "quality=0.1.."], "quality"),
    ("largest.json", seen("cost", [10, 20], [65535]), ["--up", "cost=..100"], "cost"),
]
