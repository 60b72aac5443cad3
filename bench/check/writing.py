#!/usr/bin/env python3
"""writing.py [--before PROGRAM] [--check PROGRAM] [--second BYTES] NOW GRAPH..: times `overlay analyse --certificate`
of graph files, and the checkers of what it prints, and prints a Markdown table.

NOW is the executable of overlay, the PROGRAM of --before an earlier one; they take turns, so that a busy moment strikes
both. Each graph is analysed by 1 and by 4 workers, RUNS times each or until ENOUGH seconds have gone by; what is
printed goes into a file. The table has the least seconds of a whole process by the clock, its least processor seconds,
and its highest peak of memory in MB, as the system tells them of an ended child; with --before also each of the three
of NOW over that of PROGRAM.

With --check the certificate, the last line that is printed, is judged by PROGRAM, an executable of overlay-check, as
often, and with --second, if it has no more than so many BYTES, once by tools/check.py: seconds and MB of both are
columns too. It ends with an error if two runs on one graph do not print the same certificate, byte by byte, or if a
checker does not print the line of the report with `holds` in place of `report`.
"""

import argparse
import hashlib
import os
import subprocess
import sys
import tempfile
import time
from pathlib import Path

RUNS = 5
ENOUGH = 60
WORKERS = (1, 4)
BLOCK = 1 << 20
SECOND = Path(__file__).resolve().parent.parent.parent / "tools" / "check.py"
FORMS = ("{:.2f}", "{:.2f}", "{:,.0f}")


def run(words, output):
    """The seconds of one run, its processor seconds, and its peak in MB."""
    begun = time.monotonic()
    started = subprocess.Popen(words, stdout=output, stderr=subprocess.DEVNULL)
    _, status, used = os.wait4(started.pid, 0)
    took = time.monotonic() - begun
    started.returncode = os.waitstatus_to_exitcode(status)
    if status:
        sys.exit(f"{' '.join(map(str, words))} ended with status {started.returncode}")
    return took, used.ru_utime + used.ru_stime, used.ru_maxrss * 1024 / 1e6


def lines_before(file):
    """The lines of a file before its certificate, which is left to be read; long ones in pieces."""
    file.seek(0)
    before = []
    while not (line := file.readline(1 << 10)).startswith(b"{"):
        if not line:
            sys.exit(f"no certificate is printed, but {b''.join(before)[:200]!r}")
        before.append(line)
    file.seek(-len(line), os.SEEK_CUR)
    return before


def digest(file):
    """The bytes of the certificate in a file: how many there are, and their checksum."""
    lines_before(file)
    begun, found = file.tell(), hashlib.sha256()
    while block := file.read(BLOCK):
        found.update(block)
    return file.tell() - begun, found.hexdigest()


def measured(programs, graph, workers, printed):
    """Of each program the least of several runs, and the highest peak. `printed` takes in what the runs printed."""
    taken = {program: [] for program in programs}
    begun = time.monotonic()
    for _ in range(RUNS):
        for program in programs:
            words = [program, "analyse", "--certificate", "--workers", str(workers), graph]
            with tempfile.TemporaryFile() as output:
                taken[program].append(run(words, output))
                printed.add(digest(output))
            if len(printed) != 1:
                sys.exit(f"{graph}: different outputs: {printed}")
        if time.monotonic() - begun > ENOUGH:
            break
    return [least(runs) for runs in taken.values()]


def least(runs):
    """The least seconds of runs, their least processor seconds, and their highest peak."""
    took, used, peak = zip(*runs)
    return min(took), min(used), max(peak)


def copy_certificate(file, to):
    """Copies the certificate in a file. The first line before it, which is the report."""
    report, end, _ = b"".join(lines_before(file)).partition(b"\n")
    while block := file.read(BLOCK):
        to.write(block)
    to.flush()
    return (report + end).decode()


def judged(command, certificate, asked, times):
    """The least seconds of a checker, and its highest peak. It must print the line that is asked."""
    runs, begun = [], time.monotonic()
    while not runs or (len(runs) < times and time.monotonic() - begun < ENOUGH):
        with tempfile.TemporaryFile() as output:
            runs.append(run([*command, certificate], output))
            output.seek(0)
            line = output.read().decode()
        if line != asked:
            sys.exit(f"{command} prints {line[:200]!r}, asked is {asked[:200]!r}")
    took, _, peak = least(runs)
    return [f"{took:.2f}", f"{peak:,.0f}"]


def cells_of_checkers(graph, size, given):
    """The cells of both checkers, for the certificate that NOW prints of a graph."""
    if not given.check:
        return []
    with tempfile.TemporaryFile() as output, tempfile.NamedTemporaryFile() as certificate:
        run([given.now, "analyse", "--certificate", "--workers", "4", graph], output)
        report = copy_certificate(output, certificate)
        output.truncate(0)
        asked = report.replace("report", "holds", 1)
        cells = judged([given.check], certificate.name, asked, RUNS)
        if given.second is not None:
            fits = size <= given.second
            cells += judged([sys.executable, SECOND], certificate.name, asked, 1) if fits else ["-", "-"]
    return cells


def row(graph, programs, given):
    printed = set()
    cells = []
    for workers in WORKERS:
        told = measured(programs, graph, workers, printed)
        cells += [form.format(figure) for form, *figures in zip(FORMS, *told) for figure in figures]
        if len(told) == 2:
            cells += [f"{now / before:.2f}" for before, now in zip(*told)]
    (size, _), = printed
    return [Path(graph).stem, f"{size:,}", *cells, *cells_of_checkers(graph, size, given)]


def heads(given):
    both = given.before
    names = ("before, ", "now, ") if both else ("",)
    found = ["graph", "bytes"]
    for workers in WORKERS:
        by = f"{workers} workers" if workers > 1 else "1 worker"
        found += [f"{name}{unit}, {by}" for unit in ("s", "processor s", "MB") for name in names]
        found += ["time, now to before", "processor time", "memory"] if both else []
    found += ["overlay-check, s", "MB"] if given.check else []
    return found + (["check.py, s", "MB"] if given.check and given.second is not None else [])


def main():
    words = argparse.ArgumentParser()
    words.add_argument("--before")
    words.add_argument("--check")
    words.add_argument("--second", type=int, metavar="BYTES")
    words.add_argument("now")
    words.add_argument("graphs", nargs="+")
    given = words.parse_args()
    programs = [program for program in (given.before, given.now) if program]
    titles = heads(given)
    for cells in titles, ["---"] * len(titles):
        print("|", " | ".join(cells), "|")
    for graph in given.graphs:
        print("|", " | ".join(row(graph, programs, given)), "|", flush=True)


if __name__ == "__main__":
    main()
