#!/usr/bin/env python3
"""Analyses 200 random graphs by 1, 2, 4 and 7 workers, and ends with an error where any two answers differ.

usage: agree.py OVERLAY [COUNT]   OVERLAY is the program `overlay`

The graphs have 2 to 120 nodes and links at random, from few to nearly all; every third one is analysed for a random
group. The seed is fixed, so each run has the same graphs. The line that is printed must be the same by any number of
workers, and so must all of the certificate but its paths. Of these it is only promised that they hold: for how many
graphs they differ is counted.
"""

import json
import pathlib
import random
import subprocess
import sys
import tempfile

WORKERS = [1, 2, 4, 7]


def graph_text(rng):
    count = rng.randint(2, 120)
    share = rng.choice([0.05, 0.1, 0.3, 0.5, 0.8, 0.95])
    lines = [f"node {node}" for node in range(1, count + 1)]
    for low in range(1, count + 1):
        lines += [f"link {low} {high}" for high in range(low + 1, count + 1) if rng.random() < share]
    return count, "\n".join(lines) + "\n"


def without_paths(text):
    """What must be the same: the line, and the certificate with the ids of its entries in place of their paths."""
    line, certificate = text.splitlines()
    said = json.loads(certificate)
    entries = [*said.pop("pairs", []), *said.pop("fans", [])]
    return line, json.dumps(said), str([(entry.get("i"), entry["j"], len(entry["paths"])) for entry in entries])


def main():
    overlay = str(pathlib.Path(sys.argv[1]).resolve())
    total = int(sys.argv[2]) if len(sys.argv) > 2 else 200
    rng, other_paths = random.Random(1), 0
    with tempfile.TemporaryDirectory() as folder:
        path = pathlib.Path(folder, "random.graph")
        for number in range(total):
            count, text = graph_text(rng)
            path.write_text(text)
            words = [overlay, "analyse", str(path), "--certificate"]
            if number % 3 == 2:
                group = sorted(rng.sample(range(1, count + 1), rng.randint(1, count)))
                words += ["--group", ",".join(map(str, group))]
            printed = set()
            for workers in WORKERS:
                run = subprocess.run([*words, "--workers", str(workers)], capture_output=True, text=True, check=True)
                printed.add(run.stdout)
            answers = {without_paths(it) for it in printed}
            assert len(answers) == 1, (number, text, answers)
            other_paths += len(printed) > 1
    by = f"by {', '.join(map(str, WORKERS))} workers"
    print(f"{total} graphs, {by}: one line and one certificate each, but for other paths of {other_paths} graphs")


main()
