#!/usr/bin/env python3
"""shape.py: the shape of overlays and of random graphs, counted a second time.

  --simulate PROGRAM [--nodes N] [--runs N]   holds the rows of `simulate --far` by each rule at DISCONNECT against what
      this program counts, and networkx, on the graphs of `simulate --graph`; it ends with status 1 at a difference
  --random --nodes N --active A [--runs N]    prints the same rows of random graphs in which each node has A links, by
      networkx (not both numbers may be odd)

Counted are, without loss: the mean number of links of a node; the clustering coefficient, which is the mean over all
nodes (0 where a node has fewer than two neighbours); and of the largest component the mean length of shortest paths
between two nodes, the diameter, and how far the farthest node is from a node, in the mean. That is how many hops a
broadcast takes that is flooded over all links at the same speed.
"""

import argparse
import csv
import itertools
import subprocess
import sys

from options import CHOICES

COLUMNS = ("links", "largest", "clustering", "path", "diameter", "farthest")


def printed_by(simulate, words):
    """What a simulation prints, by lines."""
    return subprocess.run([simulate, *words], stdout=subprocess.PIPE, check=True, text=True).stdout.splitlines()


def links_of(simulate, words):
    """The neighbours of each node of an overlay."""
    neighbours = {}
    for line in printed_by(simulate, [*words, "--graph"]):
        kind, *ids = line.split(" ")
        if kind == "node":
            neighbours[int(ids[0])] = set()
        else:
            one, two = map(int, ids)
            neighbours[one].add(two)
            neighbours[two].add(one)
    return neighbours


def clustering(neighbours):
    """The mean share of the pairs of neighbours that are linked to each other."""
    total = 0
    for others in neighbours.values():
        if len(others) > 1:
            linked = sum(two in neighbours[one] for one, two in itertools.combinations(others, 2))
            total += linked / (len(others) * (len(others) - 1) / 2)
    return total / len(neighbours)


def largest(neighbours):
    """The largest component."""
    left, found = set(neighbours), set()
    while left:
        some = front = {left.pop()}
        while front:
            front = {other for node in front for other in neighbours[node]} - some
            some = some | front
        left -= some
        found = max(found, some, key=len)
    return found


def ones(number):
    """How many bits of a number are set; Python 3.9 has no faster way than this."""
    return number.bit_count() if hasattr(number, "bit_count") else bin(number).count("1")


def paths(neighbours, part):
    """The mean length of shortest paths within a component, the largest, and the mean of the largest from each node.
    All paths grow at once: of each node there is a set of whom it reaches by so many steps, as the bits of a number."""
    nodes = sorted(part)
    reached = {node: 1 << place for place, node in enumerate(nodes)}
    steps, total, farthest = 0, 0, 0
    counts = dict.fromkeys(nodes, 1)
    while any(count < len(nodes) for count in counts.values()):
        steps += 1
        farthest += sum(count < len(nodes) for count in counts.values())
        further = {}
        for node in nodes:
            further[node] = reached[node]
            for other in neighbours[node]:
                further[node] |= reached[other]
        reached = further
        for node in nodes:
            count = ones(reached[node])
            total += steps * (count - counts[node])
            counts[node] = count
    return total / (len(nodes) * (len(nodes) - 1)), steps, farthest / len(nodes)


def shape_of(neighbours):
    """The columns of a graph."""
    part = largest(neighbours)
    path, diameter, farthest = paths(neighbours, part)
    links = sum(map(len, neighbours.values())) / len(neighbours)
    return links, len(part), clustering(neighbours), path, diameter, farthest


def by_networkx(neighbours):
    """The same, by networkx."""
    import networkx

    graph = networkx.Graph(neighbours)
    part = graph.subgraph(max(networkx.connected_components(graph), key=len))
    far = networkx.eccentricity(part)
    path = networkx.average_shortest_path_length(part)
    links = 2 * graph.number_of_edges() / len(graph)
    return links, len(part), networkx.average_clustering(graph), path, max(far.values()), sum(far.values()) / len(part)


def hold(simulate, words):
    """Ends the program if the row of a simulation differs from what is counted here, or by networkx."""
    row = list(csv.DictReader(printed_by(simulate, [*words, "--far"])))[0]
    neighbours = links_of(simulate, words)
    told = [float(row[column]) for column in COLUMNS]
    for name, found in (("counted here", shape_of(neighbours)), ("by networkx", by_networkx(neighbours))):
        if any(abs(one - two) > 1e-6 for one, two in zip(told, found)):
            sys.exit(f"{' '.join(words)}\n{told} of simulate, {found} {name}")


def random_rows(nodes, active, runs):
    """The rows of random graphs."""
    import networkx

    print("nodes,active,seed", *COLUMNS, sep=",")
    for seed in range(runs):
        graph = networkx.random_regular_graph(active, nodes, seed)
        found = shape_of({node: set(graph[node]) for node in graph})
        print(nodes, active, seed, *(f"{value:.6f}" for value in found), sep=",", flush=True)


def main():
    parser = argparse.ArgumentParser(description=__doc__, formatter_class=argparse.RawDescriptionHelpFormatter)
    asked = parser.add_mutually_exclusive_group(required=True)
    asked.add_argument("--simulate")
    asked.add_argument("--random", action="store_true")
    parser.add_argument("--nodes", type=int, default=200)
    parser.add_argument("--active", type=int, default=5)
    parser.add_argument("--runs", type=int, default=1)
    given = parser.parse_args()
    if given.random:
        random_rows(given.nodes, given.active, given.runs)
        return
    for rule, seed in itertools.product(CHOICES["refill"], range(given.runs)):
        words = f"--nodes {given.nodes} --active {given.active} --refill {rule} --rounds 0 --heal 0 --seed {seed}"
        hold(given.simulate, words.split(" "))
    print(f"{len(CHOICES['refill']) * given.runs} overlays: all numbers agreed")


if __name__ == "__main__":
    main()
