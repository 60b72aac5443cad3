#!/usr/bin/env python3
"""Times analyses of random regular graphs of 1,024 to 32,768 nodes, their certificates and their checks, in one run.

usage: large.py OVERLAY CHECKER [--networkx]   the programs `overlay` and `overlay-check-large`

Prints a table: the least processor time of some runs by one worker, and the least time by the clock with four. With
--networkx its `node_connectivity` of the graphs of 1,024, 2,048 and 4,096 nodes with 5 links each is timed too, once.
The answer of each line must hold for the checker, and be that of networkx.
"""

import os
import pathlib
import subprocess
import sys
import tempfile
import time

import networkx

SIZES = ((1024, 5), (2048, 5), (4096, 5), (8192, 5), (10_000, 5), (32_768, 5), (32_768, 40))
BESIDE = 4096
RUNS = 7


def least(words, runs):
    """The least processor time and time by the clock of some runs, in milliseconds, and what was printed."""
    times, clocks = [], []
    for _ in range(runs):
        with tempfile.TemporaryFile() as printed:
            begun = time.perf_counter()
            process = subprocess.Popen(words, stdout=printed)
            _, status, used = os.wait4(process.pid, 0)
            clocks.append(time.perf_counter() - begun)
            times.append(used.ru_utime + used.ru_stime)
            assert status == 0, words
            printed.seek(0)
            text = printed.read()
    return 1000 * min(times), 1000 * min(clocks), text


def text_of(graph):
    """The graph file of a graph of networkx, whose nodes become 1, 2 and so on."""
    links = sorted((min(a, b) + 1, max(a, b) + 1) for a, b in graph.edges())
    nodes = "".join(f"node {node + 1}\n" for node in sorted(graph))
    return nodes + "".join(f"link {a} {b}\n" for a, b in links)


def measured(overlay, checker, graph, room):
    """The figures of one graph, and its number."""
    path, file = pathlib.Path(room, "net.graph"), pathlib.Path(room, "certificate.json")
    path.write_text(text_of(graph))
    words = [overlay, "analyse", "--large", str(path)]
    runs = RUNS if graph.number_of_edges() < 100_000 else 2
    alone, _, line = least(words, runs)
    _, four, same = least([*words, "--workers", "4"], runs)
    whole, _, text = least([*words, "--certificate"], runs)
    file.write_bytes(text.splitlines()[-1])
    judged, _, holds = least([checker, str(file)], runs)
    assert line == same == text.splitlines(keepends=True)[0], line
    assert holds.split(maxsplit=2)[2] == line.split(maxsplit=2)[2], holds
    number = int(line.split()[4])
    return (alone, four, whole, judged, len(text) / 1e6), number


def main(words):
    overlay, checker = words[:2]
    is_beside = words[2:] == ["--networkx"]
    print("| nodes, links each | 1 worker, ms | 4, ms | certificate, ms | check, ms | certificate, MB | networkx, s |")
    print("|---|---:|---:|---:|---:|---:|---:|")
    with tempfile.TemporaryDirectory() as room:
        for count, degree in SIZES:
            graph = networkx.random_regular_graph(degree, count, seed=1)
            figures, number = measured(overlay, checker, graph, room)
            beside = ""
            if is_beside and count <= BESIDE:
                begun = time.process_time()
                assert networkx.node_connectivity(graph) == number
                beside = f"{time.process_time() - begun:.0f}"
            cells = " | ".join(f"{it:,.1f}" for it in figures)
            print(f"| {count:,}, {degree} | {cells} | {beside} |", flush=True)


if __name__ == "__main__":
    main(sys.argv[1:])
