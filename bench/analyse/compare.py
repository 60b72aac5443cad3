#!/usr/bin/env python3
"""Analyses graph files by `overlay`, igraph and networkx in one run, and prints a table.

usage: compare.py OVERLAY CHECKER GRAPH..   the programs `overlay` and `overlay-check`, and graph files

Each certificate is handed to `overlay-check` and to `tools/check.py`, and each number is compared with igraph's and
networkx's; it ends with an error where they differ. Times are milliseconds: of the program whole, with and without
`--certificate`, the least of several runs; of the libraries one call alone, without reading or making the graph. A call
is ended after LIMIT seconds, and its number is then not compared. networkx has no least cut of a graph that is split.
Needs igraph and networkx (Debian: python3-igraph, python3-networkx).
"""

import pathlib
import subprocess
import sys
import time

RUNS = 10
LIMIT = 30
CHECK = pathlib.Path(__file__).resolve().parent.parent.parent / "tools" / "check.py"


def read(name):
    nodes, links = [], []
    for line in pathlib.Path(name).read_text().splitlines():
        words = line.split()
        if words[0] == "node":
            nodes.append(int(words[1]))
        else:
            links.append((int(words[1]), int(words[2])))
    return nodes, links


def timed(call, runs=RUNS):
    best, answer = None, None
    for _ in range(runs):
        begun = time.perf_counter()
        answer = call()
        took = (time.perf_counter() - begun) * 1000
        best = took if best is None else min(best, took)
        if took > 10_000:
            break
    return best, answer


def program(words):
    return subprocess.run(words, capture_output=True, text=True, check=True).stdout


def peak_kb(words):
    run = subprocess.run(["/usr/bin/time", "-f", "%M", *words], capture_output=True, text=True, check=True)
    return int(run.stderr.split()[-1])


def by_library(made, code):
    """The milliseconds of one call and its answer, in a process of its own, which is ended after LIMIT seconds."""
    text = f"{made}\nimport time\nb = time.perf_counter()\na = {code}\nprint(a, (time.perf_counter() - b) * 1000)"
    try:
        out = subprocess.run([sys.executable, "-"], input=text, capture_output=True, text=True, check=True,
                             timeout=LIMIT)
    except subprocess.TimeoutExpired:
        return None, None
    answer, took = out.stdout.rsplit(None, 1)
    return float(took), int(answer)


def shown(took):
    return f"over {LIMIT} s" if took is None else f"{took:,.1f}"


def row(overlay, checker, name):
    nodes, links = read(name)
    plain, line = timed(lambda: program([overlay, "analyse", name]))
    full, text = timed(lambda: program([overlay, "analyse", name, "--certificate"]))
    number = int(line.split()[line.split().index("k") + 1])
    cert = pathlib.Path(name).with_suffix(".json")
    cert.write_text(text.split("\n")[1])
    said = program([checker, str(cert)])
    assert said == program([sys.executable, str(CHECK), str(cert)]) and said.startswith("holds 0 "), said
    assert said[len("holds"):] == line[len("report"):], (said, line)
    place = {node: at for at, node in enumerate(nodes)}
    edges = [(place[a], place[b]) for a, b in links]
    by_igraph = f"import igraph\ng = igraph.Graph(n={len(nodes)}, edges={edges})"
    by_nx = f"import networkx as nx\ng = nx.Graph()\ng.add_nodes_from(range({len(nodes)}))\ng.add_edges_from({edges})"
    calls = [(by_igraph, "g.vertex_connectivity()"), (by_nx, "nx.node_connectivity(g)"),
             (by_nx, "len(nx.minimum_node_cut(g))")]
    others = [by_library(made, code) for made, code in calls if number > 0 or "cut" not in code]
    assert all(answer in (None, number) for _, answer in others), (name, number, others)
    memory = peak_kb([overlay, "analyse", name, "--certificate"])
    print(f"| `{pathlib.Path(name).stem}` | {len(nodes)}, {len(links)} | {number} | {plain:,.1f} | {full:,.1f} | "
          f"{memory:,} | {cert.stat().st_size:,} | " + " | ".join(shown(took) for took, _ in others)
          + (" |" if number > 0 else " | none |"), flush=True)


def main():
    print("| graph | nodes, links | k | ms | with certificate | peak KB | bytes | igraph | networkx k | networkx cut |")
    print("|---|---|---|---|---|---|---|---|---|---|")
    for name in sys.argv[3:]:
        row(sys.argv[1], sys.argv[2], name)


main()
