#!/usr/bin/env python3
"""readers.py NOW [--before PROGRAM] [--check PROGRAM] CERTIFICATE ..: times what reads a certificate file besides the
checkers, and prints a Markdown table.

NOW is the executable of overlay, the PROGRAM of --before an earlier one: each prints the graph (`overlay graph`) and
the picture (`overlay picture`) of each file. The package of this checkout judges the file too, by `check`, in a Python
of its own; --check names the overlay-check that it asks, else it finds one. They take turns, so that a busy moment
strikes all, RUNS times each or until ENOUGH seconds have gone by. The table has the least seconds of a whole process by
the clock, its least processor seconds, and its highest peak of memory in MB. Those of Python have the processor seconds
of the program that it waits for, and the peak of the larger of the two. A peak below some 20 MB is not seen: it is that
of this script, which starts the programs. It ends with an error if two programs print different graphs, if a program
fails, or if a certificate does not hold. Pictures may differ.
"""

import argparse
import hashlib
import os
import sys
import tempfile
import time
from pathlib import Path

from writing import BLOCK, ENOUGH, FORMS, RUNS, least, run

PACKAGE = Path(__file__).resolve().parent.parent.parent / "python"
CHECK = "import pathlib, sys, tagzirk; sys.exit(0 if tagzirk.check(pathlib.Path(sys.argv[1])) else 1)"


def commands(certificate, given):
    """What is timed, each with its name: by the program of before, and by that of now."""
    programs = [program for program in (given.before, given.now) if program]
    for word in "graph", "picture":
        yield f"overlay {word}", [[program, word, certificate] for program in programs]
    yield "python, check", [[sys.executable, "-c", CHECK, certificate]]


def digest(file):
    """The checksum of a file that was just written."""
    file.seek(0)
    found = hashlib.sha256()
    while block := file.read(BLOCK):
        found.update(block)
    return found.hexdigest()


def measured(name, words):
    """Of each of these commands the least of several runs, and the highest peak."""
    taken, printed, begun = [[] for _ in words], set(), time.monotonic()
    for _ in range(RUNS):
        for command, runs in zip(words, taken):
            with tempfile.TemporaryFile() as output:
                runs.append(run(command, output))
                printed.add(digest(output))
            if name == "overlay graph" and len(printed) != 1:
                sys.exit(f"{command[-1]}: the programs print different graphs")
        if time.monotonic() - begun > ENOUGH:
            break
    return [least(runs) for runs in taken]


def rows(certificate, given):
    size = os.stat(certificate).st_size
    for name, words in commands(certificate, given):
        told = measured(name, words)
        before, now = (told[0] if len(told) == 2 else None), told[-1]
        cells = figures(now)
        if given.before:
            cells = [*figures(before), *cells]
        yield [Path(certificate).stem, f"{size:,}", name, *cells]


def figures(told):
    """The cells of what was measured; of nothing a dash each."""
    return ["-"] * len(FORMS) if told is None else [form.format(figure) for form, figure in zip(FORMS, told)]


def main():
    words = argparse.ArgumentParser()
    words.add_argument("--before")
    words.add_argument("--check")
    words.add_argument("now")
    words.add_argument("certificates", nargs="+")
    given = words.parse_args()
    os.environ["PYTHONPATH"] = str(PACKAGE)
    if given.check:
        os.environ["TAGZIRK_OVERLAY_CHECK"] = str(Path(given.check).resolve())
    units = ["s", "processor s", "MB"]
    times = [f"before, {unit}" for unit in units] + [f"now, {unit}" for unit in units] if given.before else units
    titles = ["certificate", "bytes", "reader", *times]
    for cells in titles, ["---"] * len(titles):
        print("|", " | ".join(cells), "|")
    for certificate in given.certificates:
        for cells in rows(certificate, given):
            print("|", " | ".join(cells), "|", flush=True)


if __name__ == "__main__":
    main()
