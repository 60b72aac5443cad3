#!/usr/bin/env python3
"""Writes five graphs as graph files, `NAME.graph`, into the folder that it is run in.

With a number ARMS it writes one graph instead, `falling-ARMS.graph`, and the ids of a group, `falling-ARMS.group`; with
`ring RING REACH ARMS` it writes `steps-RING-REACH-ARMS.graph` and its group.

Needs networkx (Debian: python3-networkx).
"""

import random
import sys

import networkx as nx

from graph_files import write


def write_table():
    write("ring-200", nx.circulant_graph(200, [1, 2, 3, 4]))
    write("regular-256", nx.random_regular_graph(5, 256, seed=1))
    write("regular-1024", nx.random_regular_graph(5, 1024, seed=1))
    all_but_one = nx.complete_graph(256)
    all_but_one.remove_edge(0, 1)
    write("all-but-one-256", all_but_one)
    write("half-256", nx.gnp_random_graph(256, 0.5, seed=1))


def write_falling(arms):
    """A core of 2 ARMS nodes, in which every two are linked; then the arms; then 2 ARMS leaves, which each arm is
    linked to. The first arm is linked to the whole core, and each later one to two nodes of it fewer.

    The group is the core and the arms. The arm with m arms before it has 2 ARMS - m paths to members before it, over
    these m arms and 2 ARMS - 2 m nodes of the core, and no more. So at each level from ARMS + 2 to 2 ARMS the first
    piece with a cut is the fan of an arm, its cut has one node less than the level, and the number is ARMS + 1. No
    member has fewer than 2 ARMS links.
    """
    core = 2 * arms
    graph = nx.complete_graph(core)
    for m in range(arms):
        graph.add_edges_from((node, core + m) for node in range(core - 2 * m))
        graph.add_edges_from((core + m, leaf) for leaf in range(core + arms, 2 * core + arms))
    name = f"falling-{arms}"
    write(name, graph)
    write_group(name, core + arms)


def write_steps(ring, reach, arms):
    """A ring in which each node is linked to the REACH next ones on each side, with its ids shuffled; then the arms;
    then the leaves. Arm m, counted from 1, is linked to 2 REACH - m nodes of the ring and to m leaves of its own.

    The group is the ring and the arms. No member has fewer than 2 REACH links, and arm m has 2 REACH - m paths to the
    ring at most. So an analysis that goes down from level to level by the sizes of cuts tries ARMS levels, and each is
    examined up to the first arm that lacks a path. In the ring most pieces ask for a search.
    """
    choice = random.Random(1)
    places = list(range(ring))
    choice.shuffle(places)
    graph = nx.relabel_nodes(nx.circulant_graph(ring, range(1, reach + 1)), dict(enumerate(places)))
    leaf = ring + arms
    for m in range(1, arms + 1):
        graph.add_edges_from((node, ring + m - 1) for node in choice.sample(range(ring), 2 * reach - m))
        graph.add_edges_from((ring + m - 1, it) for it in range(leaf, leaf + m))
        leaf += m
    name = f"steps-{ring}-{reach}-{arms}"
    write(name, graph)
    write_group(name, ring + arms)


def write_group(name, members):
    """Writes the first nodes, so many of them, as a group."""
    with open(f"{name}.group", "w") as file:
        file.write(",".join(str(member) for member in range(1, members + 1)) + "\n")


if sys.argv[1:2] == ["ring"]:
    write_steps(*map(int, sys.argv[2:]))
elif len(sys.argv) > 1:
    write_falling(int(sys.argv[1]))
else:
    write_table()
