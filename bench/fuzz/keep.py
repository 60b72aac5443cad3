#!/usr/bin/env python3
"""keep.py --overlay PROGRAM --overlay-check PROGRAM [--room FOLDER] [--loops FOLDER] TARGET..: renews the corpus.

Of each target, the kept corpus and the queue that fuzz.py left in the room are minimised by afl-cmin: as few inputs as
have the coverage of all. Of scenarios, random ones are kept beside them, since much of what a node does shows in no
coverage. An input is kept with what an independent reader says that is printed, if the real program prints just that,
if the order of sections decides nothing of it, and if its row is short. The shortest are kept first, as many as fit
into a target's share of the size.
"""

import argparse
import json
import os
import pathlib
import shutil
import subprocess
import sys

import corpus
import fuzz
import seeds
from targets import CASES, CRATES

# Bytes that a target's file may have, and what one row may have.
LARGEST = {"certificate": 500_000, "scenario": 840_000, "graph": 400_000, "arguments": 60_000}
LONGEST_ROW = 12_000
# Bytes of a target's file that the random ones may have.
OF_RANDOM = {"certificate": 0, "scenario": 490_000, "graph": 0, "arguments": 0}


def gathered(target, room):
    """A folder with the kept corpus and the queue of a target."""
    folder = room / "gathered" / target
    shutil.rmtree(folder, ignore_errors=True)
    seeds.lay(target, folder)
    queue = room / target / "default" / "queue"
    for at, path in enumerate(sorted(it for it in queue.iterdir() if it.is_file())):
        shutil.copy(path, folder / f"queue-{at}")
    return folder


def minimised(target, program, room):
    """A folder with as few of them as have the coverage of all."""
    folder = room / "minimised" / target
    shutil.rmtree(folder, ignore_errors=True)
    folder.parent.mkdir(parents=True, exist_ok=True)
    command = ["afl-cmin", "-i", gathered(target, room), "-o", folder, "-m", "none", "-t", "5000", "--",
               program, target]
    with open(room / f"{target}.cmin.log", "w") as told:
        subprocess.run(command, env=os.environ | fuzz.SETTINGS, stdout=told, stderr=subprocess.STDOUT, check=True)
    return folder


def row(target, data, programs):
    """The row of an input, or None if it is not to be kept."""
    cases = list(CASES[target](data))
    if not cases or not all(case.answer.is_determined() for case in cases) or any(it.unlike(programs) for it in cases):
        return None
    if target == "arguments":
        # a word ends at a zero byte
        data = b"".join(word + b"\n" for word in cases[-1].words)
    try:
        return corpus.row_of(target, data, cases[-1].words, cases[-1].answer)
    except UnicodeDecodeError:
        # words of a graph file that are no text
        return None


def size(it):
    return len(json.dumps(it, separators=(",", ":"))) + 1


def fitting(rows, left):
    """The rows that fit into so many bytes, one after the other, and the bytes that are left."""
    found = []
    for it in rows:
        if it and size(it) <= min(left, LONGEST_ROW):
            found.append(it)
            left -= size(it)
    return found, left


def kept(target, folder, programs):
    """The rows that are kept, the shortest first, and how many inputs there were."""
    known = {path.read_bytes(): None for path in sorted(folder.iterdir()) if path.is_file()}
    apart = dict.fromkeys(seeds.random_ones(target)) if OF_RANDOM[target] else {}
    chosen, left = fitting([row(target, data, programs) for data in apart], OF_RANDOM[target])
    found = [row(target, data, programs) for data in known if data not in apart]
    shortest = sorted(filter(None, found), key=lambda it: (size(it), json.dumps(it)))
    rows, _ = fitting(shortest, left + LARGEST[target] - OF_RANDOM[target])
    return sorted(rows + chosen, key=lambda it: (size(it), json.dumps(it))), len(known)


def main():
    parser = argparse.ArgumentParser(description="Renews the kept corpus.")
    parser.add_argument("--overlay", required=True, metavar="PROGRAM")
    parser.add_argument("--overlay-check", required=True, metavar="PROGRAM")
    parser.add_argument("--room", type=pathlib.Path, default=fuzz.HERE / "out", metavar="FOLDER")
    parser.add_argument("--loops", type=pathlib.Path, metavar="FOLDER")
    parser.add_argument("targets", choices=CASES, nargs="+", metavar="TARGET")
    given = parser.parse_args()
    programs = {"overlay": str(pathlib.Path(given.overlay).resolve()),
                "overlay_check": str(pathlib.Path(given.overlay_check).resolve())}
    for target in given.targets:
        program = fuzz.loop_of(CRATES[target], given.loops or given.room / "loops")
        rows, count = kept(target, minimised(target, program, given.room), programs)
        corpus.write(target, rows)
        size_of_file = corpus.path_of(target).stat().st_size
        print(f"{target}: {count} inputs after afl-cmin, {len(rows)} kept, {size_of_file} bytes")


if __name__ == "__main__":
    try:
        sys.exit(main())
    except (OSError, subprocess.CalledProcessError) as why:
        sys.exit(f"keep.py: {why}")
