#!/usr/bin/env python3
"""judge.py --overlay PROGRAM --overlay-check PROGRAM [--kept FOLDER] [--passed FILE] TARGET PATH..: runs inputs by the
real programs.

TARGET is certificate, scenario, graph or arguments. Each PATH is an input, or a folder of inputs such as the queue of
afl-fuzz. What a program prints is held against an independent reader: ../../tools/check.py for certificate files, and
second_opinion.py for the others. An input on which the two differ is copied to FOLDER, and named. The status is 1 then.
Inputs on which they agree are noted in FILE, and are not judged again by the same programs.
"""

import argparse
import hashlib
import pathlib
import sys

from targets import CASES


def inputs(paths):
    """The files among these paths and in these folders."""
    for path in paths:
        if path.is_dir():
            # the page that afl-fuzz lays beside crashes is no input
            yield from sorted(it for it in path.iterdir() if it.is_file() and it.name != "README.txt")
        else:
            yield path


def differences(target, data, programs):
    """What the programs print otherwise than the readers ask, in words, each with its command."""
    for case in CASES[target](data):
        if why := case.unlike(programs):
            words = " ".join(word if isinstance(word, str) else word.decode(errors="replace") for word in case.words)
            yield f"{case.crate} {words}: {why}"


def keep(folder, target, path, data, said):
    """Copies an input to the folder of findings, with what was said of it."""
    folder.mkdir(parents=True, exist_ok=True)
    name = f"{target}-{path.name.replace(':', '-').replace(',', '-')}"
    (folder / name).write_bytes(data)
    (folder / f"{name}.said").write_text("\n".join(said) + "\n")


class Passed:
    """The inputs that passed before, noted in a file, or in none."""

    def __init__(self, path, target, programs):
        self.path = path
        self.key = target.encode() + b"".join(pathlib.Path(it).read_bytes() for it in programs.values())
        self.key = hashlib.sha256(self.key).digest()
        self.known = set(path.read_text().split()) if path and path.exists() else set()

    def name(self, data):
        """What an input has as its line: it says the programs and the target, too."""
        return hashlib.sha256(self.key + data).hexdigest()

    def add(self, data):
        """Notes an input."""
        if self.path:
            with open(self.path, "a") as noted:
                noted.write(self.name(data) + "\n")


def main():
    parser = argparse.ArgumentParser(description="Holds the programs against independent readers.")
    parser.add_argument("--overlay", required=True, metavar="PROGRAM")
    parser.add_argument("--overlay-check", required=True, metavar="PROGRAM")
    parser.add_argument("--kept", type=pathlib.Path, default=pathlib.Path("found"), metavar="FOLDER")
    parser.add_argument("--passed", type=pathlib.Path, metavar="FILE")
    parser.add_argument("target", choices=CASES)
    parser.add_argument("paths", type=pathlib.Path, nargs="+", metavar="PATH")
    given = parser.parse_args()
    programs = {"overlay": str(pathlib.Path(given.overlay).resolve()),
                "overlay_check": str(pathlib.Path(given.overlay_check).resolve())}
    passed = Passed(given.passed, given.target, programs)
    count = before = found = 0
    for path in inputs(given.paths):
        data = path.read_bytes()
        if passed.name(data) in passed.known:
            before += 1
            continue
        count += 1
        if said := list(differences(given.target, data, programs)):
            found += 1
            keep(given.kept, given.target, path, data, said)
            print(path, *said, sep="\n  ")
        else:
            passed.add(data)
    print(f"{given.target}: {count} inputs judged, {found} differ, {before} passed before")
    return 1 if found else 0


if __name__ == "__main__":
    try:
        sys.exit(main())
    except OSError as why:
        sys.exit(f"judge.py: {why}")
