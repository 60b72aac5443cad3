#!/usr/bin/env python3
"""hard_graphs.py: writes graphs of 1,024 nodes on which an analysis has much to do, as graph files `NAME.graph`, into
the folder that it is run in.

half-1024 has half of all links, at random; regular-64-1024 is a random graph in which each node has 64 links; ring-78
is a ring of 1,024 nodes, each linked to the 78 next on each side, with its ids shuffled; two-sides-512 links each of
512 nodes to each of 512 others; all-but-one-1024 has all links but one. `graphs.py ARMS` writes graphs on which an
analysis that goes down level by level tries nearly all levels.

Needs networkx (Debian: python3-networkx).
"""

import random

import networkx as nx

from graph_files import write

NODES = 1024
SEED = 1


def shuffled(graph):
    """The same graph, with its ids in random order."""
    ids = list(graph)
    random.Random(SEED).shuffle(ids)
    return nx.relabel_nodes(graph, dict(zip(graph, ids)))


def main():
    """Writes the graphs."""
    write("half-1024", nx.gnp_random_graph(NODES, 0.5, seed=SEED))
    write("regular-64-1024", nx.random_regular_graph(64, NODES, seed=SEED))
    write("ring-78", shuffled(nx.circulant_graph(NODES, range(1, 79))))
    write("two-sides-512", nx.complete_bipartite_graph(NODES // 2, NODES // 2))
    all_but_one = nx.complete_graph(NODES)
    all_but_one.remove_edge(0, 1)
    write("all-but-one-1024", all_but_one)


if __name__ == "__main__":
    main()
