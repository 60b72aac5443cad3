#!/usr/bin/env python3
"""package.py: times `analyse` of the Python package beside networkx's `minimum_node_cut` on the graphs of
python/README.md.

Each time is processor time of Python and of the programs that it starts, the least of several runs. It ends with an
error if the two cuts are not of one size. The programs are found as the package finds them. Needs networkx.
"""

import pathlib
import resource
import sys

import networkx as nx

sys.path.insert(0, str(pathlib.Path(__file__).resolve().parent.parent.parent / "python"))
import tagzirk  # noqa: E402  the package of this checkout

GRAPHS = {"ring": nx.circulant_graph(200, [1, 2, 3, 4]), "regular": nx.random_regular_graph(6, 500, seed=1)}
RUNS, RUNS_OF_NETWORKX = 20, 2


def processor_time():
    """The seconds that this process and those that it started have taken."""
    used = map(resource.getrusage, (resource.RUSAGE_SELF, resource.RUSAGE_CHILDREN))
    return sum(it.ru_utime + it.ru_stime for it in used)


def least(runs, call):
    """The least seconds of several runs, and what the call gives."""
    taken = []
    for _ in range(runs):
        begun = processor_time()
        answer = call()
        taken.append(processor_time() - begun)
    return min(taken), answer


def main():
    print(f"Python {sys.version.split()[0]}, networkx {nx.__version__}")
    for name, graph in GRAPHS.items():
        took, report = least(RUNS, lambda: tagzirk.analyse(graph))
        other, cut = least(RUNS_OF_NETWORKX, lambda: nx.minimum_node_cut(graph))
        print(f"{name}: {len(graph)} nodes, {graph.size()} links, k {report.k}: {took:.3f} s, networkx {other:.3f} s")
        if len(cut) != report.k:
            sys.exit(f"{name}: networkx has a cut of {len(cut)} nodes")


if __name__ == "__main__":
    main()
