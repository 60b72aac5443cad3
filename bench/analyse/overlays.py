#!/usr/bin/env python3
"""Makes ten live overlays of 50 to 256 nodes by scenarios, and writes each as a graph file.

usage: overlays.py OVERLAY   OVERLAY is the program `overlay`

For each overlay it writes `overlay-N.scenario` (boots, deliveries, one shuffle of each node, a look at each node) and
`overlay-N.graph`: the nodes, and a link where each of two holds the other in its active view, as the looks print them.
Both go into the folder that it is run in.
"""

import subprocess
import sys

SIZES = [50, 64, 80, 100, 120, 150, 180, 200, 230, 256]


def scenario(nodes):
    lines = ["params 5 30 6 3 3 4 4", f"seed {nodes}", "boot 1"]
    for node in range(2, nodes + 1):
        lines.append(f"boot {node} by {node * 7 % (node - 1) + 1}")
        lines += ["deliver 0"] * 39
    for node in range(1, nodes + 1):
        lines.append(f"shuffle {node}")
        lines += ["deliver 0"] * 5
    return lines


def views(text):
    for line in text.splitlines():
        words = line.split()
        if words[0] == "node":
            held = words[words.index("active") + 1]
            yield int(words[1]), set() if held == "-" else set(map(int, held.split(",")))


def main(overlay):
    for nodes in SIZES:
        name = f"overlay-{nodes}"
        lines = scenario(nodes) + [f"show {node}" for node in range(1, nodes + 1)]
        with open(f"{name}.scenario", "w") as file:
            file.write("\n".join(lines) + "\n")
        run = subprocess.run([overlay, "run", f"{name}.scenario"], capture_output=True, text=True, check=True)
        held = dict(views(run.stdout))
        with open(f"{name}.graph", "w") as file:
            for node in sorted(held):
                file.write(f"node {node}\n")
            for node in sorted(held):
                for other in sorted(held[node]):
                    if node < other and node in held.get(other, ()):
                        file.write(f"link {node} {other}\n")


main(sys.argv[1])
