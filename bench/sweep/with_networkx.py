#!/usr/bin/env python3
"""with_networkx.py [--nodes N] [--active A,B,..] [--crash P] [--runs R]: the study of `overlay sweep`, as one would do
it by hand in Python: the nodes of bench/fuzz, the random numbers of Python, and the node connectivity of networkx.

It grows overlays as docs/GROWING.md does without loss, but for the random numbers, so single overlays are others, and
what is said of many should agree. For each active size it prints how many of R overlays are split, the quartiles of k
and the least degrees, after settling and after healing, and where the time went. Nothing here can be run again line by
line, and no certificate is made.
"""

import argparse
import pathlib
import random
import statistics
import sys
import time

import networkx

sys.path.insert(0, str(pathlib.Path(__file__).resolve().parents[1] / "fuzz"))

from nodes import Node  # noqa: E402

WORDS = 64


class Overlay:
    """Nodes and the packets between them; a crashed node is None."""

    def __init__(self, active, seed):
        self.params, self.random = (active, 30, 6, 3, 3, 4, 4), random.Random(seed)
        self.nodes, self.packets = {}, []

    def step(self, name, deed, *given):
        """A node takes a step."""
        node = self.nodes[name]
        node.begin([self.random.getrandbits(64) for _ in range(WORDS)])
        getattr(node, deed)(*given)
        self.packets += node.sends

    def run_out(self, is_healing=False):
        """Packets are delivered in a random order until none is left."""
        while self.packets:
            receiver, message = self.packets.pop(self.random.randrange(len(self.packets)))
            if self.nodes[receiver] is not None:
                self.step(receiver, "receive", message)
            elif is_healing and self.nodes[message[1]] is not None:
                self.step(message[1], "on_report", receiver)

    def live(self):
        """The live nodes."""
        return [name for name, node in self.nodes.items() if node is not None]

    def rounds(self, count, is_healing=False):
        """Rounds of shuffles."""
        for _ in range(count):
            for name in self.random.sample(self.live(), len(self.live())):
                self.step(name, "start_shuffle")
            self.run_out(is_healing)

    def grow(self, count):
        """Nodes join one after the other, and settle."""
        for name in range(1, count + 1):
            self.nodes[name] = Node(name, self.params)
            if name > 1:
                contact = self.random.randrange(1, name)
                self.packets.append((contact, (1, name)))
            self.run_out()
        self.rounds(3)

    def crash(self, percent):
        """Some nodes crash, and the others heal."""
        for name in self.random.sample(self.live(), len(self.live()) * percent // 100):
            self.nodes[name] = None
        for name in self.live():
            while crashed := [other for other in self.nodes[name].active if self.nodes[other] is None]:
                self.step(name, "on_report", min(crashed))
                self.run_out(is_healing=True)
        self.rounds(2, is_healing=True)

    def graph(self):
        """The links that both ends hold."""
        graph = networkx.Graph()
        graph.add_nodes_from(self.live())
        graph.add_edges_from(
            (name, other)
            for name in self.live()
            for other in self.nodes[name].active
            if self.nodes[other] is not None and name in self.nodes[other].active
        )
        return graph


def said(graphs, connectivities):
    """What is printed of some overlays."""
    quartiles = statistics.quantiles(connectivities, n=4, method="inclusive")
    split = sum(not networkx.is_connected(graph) for graph in graphs)
    least = statistics.mean(min(degree for _, degree in graph.degree) for graph in graphs)
    return f"split {split} of {len(graphs)}, k {quartiles}, least degree {least:.2f}"


def main():
    parser = argparse.ArgumentParser(description=__doc__, formatter_class=argparse.RawDescriptionHelpFormatter)
    parser.add_argument("--nodes", type=int, default=100)
    parser.add_argument("--active", type=lambda text: [int(word) for word in text.split(",")], default=[3, 5, 8])
    parser.add_argument("--crash", type=int, default=20)
    parser.add_argument("--runs", type=int, default=30)
    given = parser.parse_args()
    for active in given.active:
        begun, settled, healed = time.process_time(), [], []
        for seed in range(given.runs):
            overlay = Overlay(active, seed)
            overlay.grow(given.nodes)
            settled.append(overlay.graph())
            overlay.crash(given.crash)
            healed.append(overlay.graph())
        grown = time.process_time()
        before, after = ([networkx.node_connectivity(graph) for graph in graphs] for graphs in (settled, healed))
        print(
            f"active {active}: settled: {said(settled, before)}; healed: {said(healed, after)}; "
            f"{grown - begun:.1f} s to grow, {time.process_time() - grown:.1f} s for node_connectivity",
            flush=True,
        )


if __name__ == "__main__":
    main()
