#!/usr/bin/env python3
"""Makes the certificate files of the benchmark.

usage: certify.py GRAPH [FILE]   writes the certificate of GRAPH to FILE, or to standard output
       certify.py                lists the graphs

A certificate says that k crashes split a group of nodes, and no fewer do. By Even's test (SIAM J. Comput. 4, 1975)
that needs a cut of k nodes, k paths between every two unlinked members among the first k, and from every later member
k paths to members before it. The paths run in the whole graph. For most graphs here the group is all nodes.
"""

import json
import random
import sys
import time
from dataclasses import dataclass
from itertools import combinations
from typing import Callable, Optional

import networkx as nx

from finders import DenseFinder, NetworkxFinder, TooFewPaths

MOST_NODES_OF_VERSION_1 = 256


def ring(n):
    """n nodes in a ring, each linked to the four next ones on both sides."""
    return [(a, (a + step - 1) % n + 1) for a in range(1, n + 1) for step in range(1, 5)]


def regular(n, degree, seed):
    """A random graph in which every node has the same number of links."""
    return [(a + 1, b + 1) for a, b in nx.random_regular_graph(degree, n, seed=seed).edges]


def all_but_one(n):
    """Every two nodes linked, but 1 and 2."""
    return [link for link in combinations(range(1, n + 1), 2) if link != (1, 2)]


def half(n, seed):
    """Half of all links, chosen at random."""
    every = list(combinations(range(1, n + 1), 2))
    return random.Random(seed).sample(every, len(every) // 2)


@dataclass
class Task:
    links: Callable
    finder: type
    group: Optional[range] = None  # None is all nodes


TASKS = {
    "ring-24": Task(lambda: ring(24), NetworkxFinder),
    "ring-200": Task(lambda: ring(200), NetworkxFinder),
    "regular-256": Task(lambda: regular(256, 5, seed=1), NetworkxFinder),
    "regular-256-group": Task(lambda: regular(256, 5, seed=1), NetworkxFinder, group=range(8, 257, 8)),
    "all-but-one-256": Task(lambda: all_but_one(256), NetworkxFinder),
    "half-256": Task(lambda: half(256, seed=1), DenseFinder),
    "regular-1024": Task(lambda: regular(1024, 5, seed=1), DenseFinder),
    "dense-1024": Task(lambda: regular(1024, 250, seed=1), DenseFinder),
}


def unlinked_pairs(graph, nodes):
    """The unlinked pairs of these nodes, by the second node and then the first."""
    return [(i, j) for place, j in enumerate(nodes) for i in nodes[:place] if not graph.has_edge(i, j)]


def pair_entries(graph, finder, group, k):
    """The unlinked pairs among the first k members, each with its k paths."""
    return [{"i": i, "j": j, "paths": finder.pair(i, j, k)} for i, j in unlinked_pairs(graph, group[:k])]


def fan_entries(finder, group, k):
    """The members after the first k, each with k paths to distinct earlier members that share only it."""
    later = range(k, len(group)) if k > 0 else ()
    return [{"j": group[place], "paths": finder.fan(group[place], group[:place], k)} for place in later]


def split_certificate(graph, finder, group, cut, near):
    """The certificate of a group that `cut` splits, as the object that the file holds."""
    k = len(cut)
    rest = graph.subgraph(set(graph) - set(cut))
    side = nx.node_connected_component(rest, near)
    certificate = {
        "cut": sorted(cut), "fans": fan_entries(finder, group, k), "far": min(set(group) - set(cut) - side), "k": k,
        "links": sorted(sorted(link) for link in graph.edges), "moment": 0, "near": near, "nodes": sorted(graph),
        "pairs": pair_entries(graph, finder, group, k), "side": sorted(side), "verdict": "split", "version": 1,
    }
    if len(graph) > MOST_NODES_OF_VERSION_1 or group != sorted(graph):
        certificate |= {"group": group, "version": 2}
    return certificate


def least_cut(graph, group):
    """The fewest nodes that part two members, by networkx."""
    if len(group) == len(graph):
        return nx.minimum_node_cut(graph)
    return min((nx.minimum_node_cut(graph, i, j) for i, j in unlinked_pairs(graph, group)), key=len)


def certify(links, finder_of, group):
    """Tries the neighbours of a member with the fewest links as the cut; where these are too many, asks networkx."""
    graph = nx.Graph(links)
    group = sorted(group or graph)
    finder = finder_of(graph)
    parted = {a for pair in unlinked_pairs(graph, group) for a in pair}
    near = min(parted, key=lambda a: (graph.degree(a), a))
    try:
        return split_certificate(graph, finder, group, set(graph[near]), near)
    except TooFewPaths:
        cut = least_cut(graph, group)
        return split_certificate(graph, finder, group, cut, min(set(group) - cut))


def main(words):
    if not 1 <= len(words) <= 2 or words[0] not in TASKS:
        print("graphs:", *TASKS, file=sys.stderr)
        return 2
    started = time.perf_counter()
    task = TASKS[words[0]]
    certificate = certify(task.links(), task.finder, task.group)
    text = json.dumps(certificate, separators=(",", ":"), sort_keys=True)
    if len(words) == 2:
        with open(words[1], "w", encoding="ascii") as file:
            file.write(text)
    else:
        sys.stdout.write(text)
    print(f"{words[0]}: k {certificate['k']}, {len(certificate['links'])} links, {len(certificate['pairs'])} pairs, "
          f"{len(certificate['fans'])} fans, {len(text)} bytes, {time.perf_counter() - started:.1f} s", file=sys.stderr)
    return 0


if __name__ == "__main__":
    sys.exit(main(sys.argv[1:]))
