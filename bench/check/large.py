#!/usr/bin/env python3
"""Times two overlay-checks on large certificates, and how much memory each takes; prints a Markdown table.

usage: large.py OVERLAY BEFORE NOW [GRAPH ..]

OVERLAY makes the certificates that are missing in out/; BEFORE and NOW are executables of overlay-check, and - in place
of BEFORE is none. They take turns, so that a busy moment strikes both. A time is the wall clock of a whole process, the
least of ROUNDS; memory is the peak that the system tells, in bytes a byte of the file. Ends with an error if the two
print different lines, or if a certificate does not hold: a line `holds ..`, and the status 0.

The graphs are half-256, which has 256 nodes and half of all links, at random, and those of large_graphs.py by their
names there. Without words half-256, half-1024 and three-parts-1024 are taken. The certificate of the last one has 1,087
MB, and takes OVERLAY 2.3 GB to make.
"""

import random
import subprocess
import sys
from itertools import combinations
from pathlib import Path

import large_graphs

OUT = Path(__file__).resolve().parent / "out"
ROUNDS = 3


def half_of_256():
    """Half of all links between 256 nodes."""
    every = list(combinations(range(1, 257), 2))
    return random.Random(1).sample(every, len(every) // 2)


GRAPHS = {"half-256": half_of_256, **large_graphs.MAKERS}
USUAL = ("half-256", "half-1024", "three-parts-1024")


def certificate(overlay, name):
    """The certificate of a graph, which is made if it is missing."""
    file = OUT / f"{name}-by-overlay.json"
    if not file.exists():
        OUT.mkdir(exist_ok=True)
        graph, part = OUT / f"{name}.graph", OUT / f"{name}.part"
        large_graphs.write(OUT / name, GRAPHS[name]())
        with open(part, "wb") as last_line:
            group = ["--group", f"@{graph.with_suffix('.list')}"] if name in large_graphs.GROUPS else []
            made = subprocess.Popen([overlay, "analyse", graph, "--certificate", *group], stdout=subprocess.PIPE)
            subprocess.run(["tail", "-n", "1"], stdin=made.stdout, stdout=last_line, check=True)
            if made.wait() != 0:
                sys.exit(f"{name}: no certificate was made")
        part.rename(file)
    return file


def run(program, file):
    """What a program prints of a file, which must hold, the seconds and the peak of memory in bytes."""
    done = subprocess.run(["/usr/bin/time", "-f", "%e %M", program, file], capture_output=True, text=True)
    if done.returncode != 0 or not done.stdout.startswith("holds "):
        told = f"{done.stdout[:200]!r} {done.stderr[:200]!r}"
        sys.exit(f"{program} says of {file}, with status {done.returncode}: {told}")
    seconds, kilobytes = done.stderr.split()[-2:]
    return done.stdout, float(seconds), int(kilobytes) * 1024


def row(name, file, before, now):
    """The cells of a certificate."""
    least = {}
    for _ in range(ROUNDS):
        answers = set()
        for program in filter(None, [before, now]):
            line, *figures = run(program, file)
            answers.add(line)
            least[program] = [min(pair) for pair in zip(least.get(program, figures), figures)]
        if len(answers) != 1:
            sys.exit(f"{name}: the programs differ: {answers}")
    size = file.stat().st_size
    seconds, peak = least[now]
    cells = [f"{seconds:.2f}", f"{peak / size:.2f}", f"{peak / 1e6:,.0f}"]
    if before is None:
        return [name, f"{size:,}", "-", "-", *cells, "-"]
    old_seconds, old_peak = least[before]
    ratio = f"{seconds / old_seconds:.2f}" if old_seconds else "-"
    return [name, f"{size:,}", f"{old_seconds:.2f}", f"{old_peak / size:.2f}", *cells, ratio]


def main():
    if len(sys.argv) < 4 or any(name not in GRAPHS for name in sys.argv[4:]):
        sys.exit(__doc__)
    overlay, before, now = (None if word == "-" else Path(word).resolve() for word in sys.argv[1:4])
    titles = ["graph", "bytes", "before, s", "bytes a byte", "now, s", "bytes a byte", "MB", "ratio of time"]
    for cells in titles, ["---"] * len(titles):
        print("|", " | ".join(cells), "|")
    for name in sys.argv[4:] or USUAL:
        print("|", " | ".join(row(name, certificate(overlay, name), before, now)), "|", flush=True)


if __name__ == "__main__":
    main()
