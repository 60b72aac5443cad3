#!/usr/bin/env python3
"""Times overlay-check and check.py on the certificates in out/, and prints a Markdown table.

usage: measure.py [--before PROGRAM] NOW GRAPH..

NOW is the executable of overlay-check, PROGRAM an earlier one that is measured beside it, on 1 core. Each time is the
wall clock of a whole process, from its start to its end, and the least of several runs: at least three, and more until
twenty seconds have passed, but one of what takes longer than that. The sides take turns, so that a busy moment strikes
all of them. Of the processors that this process may use, the first four are "4 cores" and the last of these is
"1 core".

What overlay-check needs to read and parse a file is its time on the same file with a k that is one too large: it parses
all of it, makes the graph, and then answers the wrong count without a look at the paths. Judging is the whole less
that.
"""

import argparse
import json
import os
import subprocess
import sys
import time
from dataclasses import dataclass, field
from pathlib import Path

HERE = Path(__file__).resolve().parent
CHECK = HERE.parent.parent / "tools" / "check.py"
LEAST_ROUNDS = 3
ROUNDS_MS = 20_000
LONG_MS = 20_000  # what takes longer is run once
MOST_CORES = 4
LEAST_JUDGING_MS = 5  # no ratio is told of less: the load of the machine is as large
UNKNOWN_VERSION = ("refused 64\n", 1)
WRONG_COUNT = ("fails 40\n", 1)


@dataclass
class Side:
    """A command on some cores, with its times so far and what it answered: its line and its status."""
    command: list
    cores: list
    times: list = field(default_factory=list)
    answers: set = field(default_factory=set)

    def run(self):
        os.sched_setaffinity(0, self.cores)  # a child has the cores of its parent
        started = time.perf_counter()
        done = subprocess.run(self.command, stdout=subprocess.PIPE, text=True)
        self.times.append(1000 * (time.perf_counter() - started))
        self.answers.add((done.stdout, done.returncode))

    def is_long(self):
        return bool(self.times) and min(self.times) > LONG_MS

    def least(self):
        return min(self.times)

    def answer(self):
        if len(self.answers) != 1:
            sys.exit(f"{self.command}: different answers: {self.answers}")
        return next(iter(self.answers))


def facts_of(file):
    """The version of a certificate file and the cells that tell its size. Writes the miscounted file beside it."""
    text = file.read_text()
    certificate = json.loads(text)
    k = certificate["k"]
    miscounted_of(file).write_text(text.replace(f'"k":{k},', f'"k":{k + 1},'))
    counts = [len(certificate["links"]), len(certificate["pairs"]), len(certificate["fans"]), len(text)]
    return certificate["version"], [str(k)] + [f"{count:,}" for count in counts]


def miscounted_of(file):
    return file.with_name(f"{file.stem}-miscounted.json")


def sides_of(file, cores, before, now):
    one, miscounted = cores[-1:], miscounted_of(file)
    sides = {
        "before": Side([before, file], one),
        "now, one": Side([now, file], one),
        "now, all": Side([now, file], cores),
        "reading, one": Side([now, miscounted], one),
        "reading, all": Side([now, miscounted], cores),
        "check.py": Side([sys.executable, CHECK, file], cores),
    }
    if before is None:
        del sides["before"]
    return sides


def leave_out_unread(sides, version):
    """Leaves out `before` where it does not know the version of the file."""
    if version > 1 and "before" in sides:
        first = Side(sides["before"].command, sides["before"].cores)
        first.run()
        if first.answer() == UNKNOWN_VERSION:
            del sides["before"]


def demand_right(graph, sides):
    """Ends with an error where the certificate does not hold, or the sides do not print the same."""
    for name, side in sides.items():
        expected = WRONG_COUNT if name.startswith("reading") else sides["check.py"].answer()
        if side.answer() != expected:
            sys.exit(f"{graph}: {name} answers {side.answer()}, expected is {expected}")
    line, status = sides["check.py"].answer()
    if status != 0:
        sys.exit(f"{graph}: does not hold: {line}")


def take_turns(graph, sides):
    rounds, spent = 0, 0
    while rounds < LEAST_ROUNDS or spent < ROUNDS_MS:
        for side in sides.values():
            if not side.is_long():
                side.run()
                spent += side.times[-1]
        rounds += 1
        demand_right(graph, sides)


def peak_memory(side):
    """In MB. It is told by `time`, since what Python starts begins with the memory of Python."""
    os.sched_setaffinity(0, side.cores)
    done = subprocess.run(
        ["/usr/bin/time", "-f", "%M", *side.command], stdout=subprocess.DEVNULL, stderr=subprocess.PIPE, text=True)
    return int(done.stderr.split()[-1]) * 1024 / 1e6


def time_cells(sides):
    least = {name: side.least() for name, side in sides.items()}
    judging_one = least["now, one"] - least["reading, one"]
    judging_all = least["now, all"] - least["reading, all"]
    has_ratio = min(judging_one, judging_all) >= LEAST_JUDGING_MS
    columns = ["now, one", "now, all", "reading, one", "reading, all"]
    return [f"{ms:,.1f}" for ms in [*(least[name] for name in columns), judging_one, judging_all]] + [
        f"{judging_one / judging_all:.2f}" if has_ratio else "-"]


def row(graph, cores, before, now):
    file = HERE / "out" / f"{graph}.json"
    version, facts = facts_of(file)
    sides = sides_of(file, cores, before, now)
    leave_out_unread(sides, version)
    take_turns(graph, sides)
    before_cells = [f"{sides['before'].least():,.1f}" if "before" in sides else "-"] if before else []
    return [graph, *facts, *before_cells, *time_cells(sides),
            f"{peak_memory(sides['now, all']):,.1f}", f"{sides['check.py'].least():,.1f}"]


def heads(cores, before):
    one, every = "(1 core)", f"({len(cores)} cores)"
    return ["graph", "k", "links", "pairs", "fans", "bytes"] + (["before, ms"] if before else []) + [
        f"now, ms {one}", f"now, ms {every}", f"reading, ms {one}", f"reading, ms {every}",
        f"judging, ms {one}", f"judging, ms {every}", "ratio of judging", "peak memory, MB", "check.py, ms"]


def executable(word):
    path = Path(word).resolve()
    if not os.access(path, os.X_OK) or path.is_dir():
        raise argparse.ArgumentTypeError(f"no executable: {word}")
    return path


def main():
    words = argparse.ArgumentParser()
    words.add_argument("--before", type=executable)
    words.add_argument("now", type=executable)
    words.add_argument("graphs", nargs="+")
    given = words.parse_args()
    cores = sorted(os.sched_getaffinity(0))[:MOST_CORES]
    titles = heads(cores, given.before)
    for cells in titles, ["---"] * len(titles):
        print("|", " | ".join(cells), "|")
    for graph in given.graphs:
        print("|", " | ".join(row(graph, cores, given.before, given.now)), "|", flush=True)


if __name__ == "__main__":
    main()
