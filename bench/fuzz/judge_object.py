#!/usr/bin/env python3
"""judge_object.py [--kept FOLDER] OBJECT PATH..: does for certificate files what judge.py does, in a tenth of the time.

OBJECT is the object file of overlay-check that a proof leaves, crates/overlay_check/out/overlay_check.o. It is linked
to object_loop.c, and runs all inputs in one process. Each PATH is an input, or a folder of inputs such as the queue of
afl-fuzz; an input that stands there twice is judged once. An input on which the program and tools/check.py differ is
copied to FOLDER, and named. The status is 1 then, or if the program ends by a signal.
"""

import argparse
import pathlib
import struct
import subprocess
import sys
import tempfile

from judge import inputs, keep
from targets import certificate_cases

HERE = pathlib.Path(__file__).resolve().parent
WORD = struct.Struct("=I")


def kit():
    """The folder of the kit whose command is rt."""
    found = subprocess.run(["which", "rt"], capture_output=True, text=True, check=True).stdout.strip()
    return pathlib.Path(found).resolve().parent.parent


def link(given, folder):
    """The program that runs an object file on many inputs."""
    renamed, program = folder / "program.o", folder / "program"
    subprocess.run(["objcopy", "--redefine-sym", "main=program_main", given, renamed], check=True)
    wraps = [f"-Wl,--wrap={name}" for name in ("read", "write", "_exit")]
    libraries = [kit() / "c" / "libos_c.a", kit() / "c" / "liblibc_c.a", "-lpthread", "-ldl", "-lm"]
    command = ["gcc", "-O2", "-Wall", "-Wextra", *wraps, HERE / "object_loop.c", renamed, *libraries, "-o", program]
    subprocess.run(command, check=True)
    return program


class Loop:
    """The program that runs one input after the other."""

    def __init__(self, program):
        self.process = subprocess.Popen([program], stdin=subprocess.PIPE, stdout=subprocess.PIPE)

    def word(self):
        """The next number that it tells. EOFError: it has ended."""
        told = self.process.stdout.read(WORD.size)
        if len(told) < WORD.size:
            raise EOFError
        return WORD.unpack(told)[0]

    def run(self, data):
        """The status of a run, what it printed, and its standard error."""
        self.process.stdin.write(WORD.pack(len(data)) + data)
        self.process.stdin.flush()
        status = self.word()
        return status, self.process.stdout.read(self.word()), self.process.stdout.read(self.word())


def unlike(loop, data):
    """What the program prints otherwise than tools/check.py, in words, or None."""
    (case,) = certificate_cases(data)
    status, out, err = loop.run(data)
    asked = "".join(f"{line}\n" for line in case.answer.lines).encode()
    if (status, out) != (case.answer.status, asked):
        return f"it prints {out!r} with status {status}, and should print {asked!r} with {case.answer.status}"
    return case.more(err)


def judge(loop, paths, folder):
    """How many different inputs there are, and how many differ."""
    known, found = set(), 0
    for path in inputs(paths):
        data = path.read_bytes()
        if data in known:
            continue
        known.add(data)
        if why := unlike(loop, data):
            found += 1
            keep(folder, "certificate", path, data, [why])
            print(path, why, sep="\n  ")
    return len(known), found


def main():
    parser = argparse.ArgumentParser(description="Holds the object code of overlay-check against tools/check.py.")
    parser.add_argument("--kept", type=pathlib.Path, default=pathlib.Path("found"), metavar="FOLDER")
    parser.add_argument("object", type=pathlib.Path, metavar="OBJECT")
    parser.add_argument("paths", type=pathlib.Path, nargs="+", metavar="PATH")
    given = parser.parse_args()
    with tempfile.TemporaryDirectory() as folder:
        loop = Loop(link(given.object, pathlib.Path(folder)))
        count, found = judge(loop, given.paths, given.kept)
    loop.process.stdin.close()
    status = loop.process.wait()
    print(f"certificate: {count} different inputs judged, {found} differ, the program ended with status {status}")
    return 1 if found or status else 0


if __name__ == "__main__":
    try:
        sys.exit(main())
    except EOFError:
        sys.exit("judge_object.py: the program ended amid an input")
    except (OSError, subprocess.CalledProcessError) as why:
        sys.exit(f"judge_object.py: {why}")
