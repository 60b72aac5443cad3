#!/usr/bin/env python3
"""Measures the settling of pieces in Rattle beside the same method in C++, and prints the rows of the table.

usage: measure.py BENCH [RUNS]   BENCH is the program that `bench/run.sh settle FOLDER` builds,
FOLDER/crates/bench_settle/out/bench_settle

It builds `port.cpp`, writes the graphs by `graphs.py` (networkx), both into a folder that it removes, and runs the two
sides in turn, RUNS times each (10; of `half-256` at most 4). Needs g++ and GNU's /usr/bin/time.
"""

import pathlib
import re
import statistics
import subprocess
import sys
import tempfile

HERE = pathlib.Path(__file__).resolve().parent
GRAPHS = ["ring-200", "all-but-one-256", "regular-256", "regular-1024", "half-256"]


def run(words, folder):
    timed = ["/usr/bin/time", "-f", "%M KB", *words]
    out = subprocess.run(timed, cwd=folder, capture_output=True, text=True, check=True)
    pieces, paths = re.search(r"(\d+) pieces,? (\d+) paths", out.stdout).groups()
    ms = float(re.search(r"([\d.]+) ms", out.stdout)[1])
    return (int(pieces), int(paths)), ms, int(re.search(r"(\d+) KB", out.stderr)[1])


def main():
    bench = str(pathlib.Path(sys.argv[1]).resolve())
    most = int(sys.argv[2]) if len(sys.argv) > 2 else 10
    with tempfile.TemporaryDirectory() as folder:
        subprocess.run(["g++", "-std=c++20", "-O2", "-o", "port", str(HERE / "port.cpp")], cwd=folder, check=True)
        subprocess.run([sys.executable, str(HERE / "graphs.py")], cwd=folder, check=True)
        for graph in GRAPHS:
            sides = {"./port": [], bench: []}
            for _ in range(min(most, 4) if graph == "half-256" else most):
                for program, runs in sides.items():
                    runs.append(run([program, graph], folder))
            ours, theirs = sides[bench], sides["./port"]
            assert ours[0][0] == theirs[0][0], (graph, ours[0], theirs[0])
            least = [min(ms for _, ms, _ in runs) for runs in (theirs, ours)]
            median = [statistics.median(ms for _, ms, _ in runs) for runs in (theirs, ours)]
            peak = [max(kb for _, _, kb in runs) for runs in (theirs, ours)]
            pieces, paths = ours[0][0]
            print(f"| `{graph}` | {pieces:,} | {paths:,} | {least[0]:,.1f}, {median[0]:,.1f} | {least[1]:,.1f}, "
                  f"{median[1]:,.1f} | {least[1] / least[0]:.2f}, {median[1] / median[0]:.2f} | {peak[0]:,} | "
                  f"{peak[1]:,} | {peak[1] / peak[0]:.2f} |", flush=True)


main()
