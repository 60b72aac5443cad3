#!/usr/bin/env python3
"""Writes the graphs that are measured as files into the folder that it is run in. Needs networkx."""

import networkx as nx


def write(name, graph):
    """The numbers of nodes and links, and then each link by its nodes, numbered from 1, ascending."""
    place = {node: number for number, node in enumerate(sorted(graph.nodes()), 1)}
    links = sorted(tuple(sorted((place[a], place[b]))) for a, b in graph.edges())
    with open(name, "w", encoding="ascii") as file:
        file.write(f"{len(place)} {len(links)}\n")
        file.writelines(f"{a} {b}\n" for a, b in links)


def with_hubs(graph, count):
    """The graph with so many nodes more, each linked to all other nodes."""
    for _ in range(count):
        hub = len(graph)
        graph.add_edges_from((hub, other) for other in range(hub))
    return graph


write("half-256", nx.gnp_random_graph(256, 0.5, seed=1))
write("regular-1024", nx.random_regular_graph(5, 1024, seed=1))
write("regular-64-1024", nx.random_regular_graph(64, 1024, seed=1))
write("regular-hubs-1024", with_hubs(nx.random_regular_graph(5, 924, seed=1), 100))
write("dense-1024", nx.gnp_random_graph(1024, 0.9, seed=1))
write("three-quarters-1024", nx.gnp_random_graph(1024, 0.75, seed=1))
write("ring-24", nx.cycle_graph(24))
write("complete-256", nx.complete_graph(256))
