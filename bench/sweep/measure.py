#!/usr/bin/env python3
"""measure.py OVERLAY [--before OVERLAY] [--simulate PROGRAM] [--runs N] [--nodes N] [--workers A,B,..] [--rounds N]: how
long `overlay sweep` takes by 1, 2 and 4 workers.

With --before an earlier build of overlay grows the same overlays by as many workers, and with --simulate the simulator
of bench/study does, by one process. All take turns in each round. It prints a line for each program and each number of
workers: the median seconds that passed, the least and the most, the median seconds of the processors, and the peak of
memory; then what is to be compared, by the medians, by the least, and round by round: neighbours on a shared machine
slow a program down by up to a half, and not all programs alike. It ends with status 1 where two builds of overlay print
different rows, by however many workers; the columns of an earlier build may be fewer, and what it prints must be as
long. The programs should be the proved ones; the machine should do nothing else.
"""

import argparse
import os
import statistics
import subprocess
import sys
import time


def measured(words):
    """What a command prints, the seconds that passed, those of the processors, and the peak of memory in MB."""
    begun = time.perf_counter()
    process = subprocess.Popen(words, stdout=subprocess.PIPE)
    printed = process.stdout.read()
    _, status, used = os.wait4(process.pid, 0)
    if status:
        sys.exit(f"measure.py: {' '.join(words)} ended with status {os.waitstatus_to_exitcode(status)}")
    return printed, time.perf_counter() - begun, used.ru_utime + used.ru_stime, used.ru_maxrss / 1024


def commands(given):
    """The commands that are timed, by what is said of each."""
    grown = ["--nodes", given.nodes, "--runs", given.runs]
    found = {}
    for label, program in ("now", given.overlay), ("before", given.before):
        for workers in given.workers if program else ():
            found[label, workers] = [program, "sweep", *grown, "--workers", workers]
    if given.simulate:
        found["simulate", "1"] = [given.simulate, "--csv", *grown]
    return found


def print_ratio(taken, what, one, other, of):
    """Prints what one took of what another took: of the seconds, or of those of the processors."""
    if one in taken and other in taken:
        a, b = ([run[of] for run in taken[it]] for it in (one, other))
        rounds = statistics.median(x / y for x, y in zip(a, b))
        medians, leasts = statistics.median(a) / statistics.median(b), min(a) / min(b)
        print(f"{what}: of the medians {medians:.2f}, of the least {leasts:.2f}, median of the rounds {rounds:.2f}")


def main():
    parser = argparse.ArgumentParser(description=__doc__, formatter_class=argparse.RawDescriptionHelpFormatter)
    parser.add_argument("overlay")
    parser.add_argument("--before")
    parser.add_argument("--simulate")
    parser.add_argument("--runs", default="150")
    parser.add_argument("--nodes", default="200")
    parser.add_argument("--workers", type=lambda text: text.split(","), default=["1", "2", "4"])
    parser.add_argument("--rounds", type=int, default=1)
    given = parser.parse_args()
    rows, taken = {}, {}
    for _ in range(given.rounds):
        for (label, workers), words in commands(given).items():
            printed, *run = measured(words)
            if rows.setdefault(label, printed) != printed:
                sys.exit(f"measure.py: the rows of {label} by {workers} workers differ")
            taken.setdefault((label, workers), []).append(run)
    if len({printed.count(b"\n") for label, printed in rows.items() if label != "simulate"}) > 1:
        sys.exit("measure.py: the earlier program prints another number of rows")
    print("| program | workers | s | least, most | s of processors | MB |\n|---|---:|---:|---:|---:|---:|")
    for (label, workers), runs in taken.items():
        seconds, used, peaks = zip(*runs)
        spread = f"{min(seconds):.2f}, {max(seconds):.2f}"
        shown = f"{statistics.median(seconds):.2f} | {spread} | {statistics.median(used):.2f} | {max(peaks):.0f}"
        print(f"| {label} | {workers} | {shown} |")
    print_ratio(taken, "seconds of now to those of simulate", ("now", "1"), ("simulate", "1"), 0)
    for workers in given.workers:
        both = ("now", workers), ("before", workers)
        print_ratio(taken, f"processor seconds of now to those of before, {workers} workers", *both, 1)
        print_ratio(taken, f"seconds of one worker to those of {workers}", ("now", "1"), ("now", workers), 0)


if __name__ == "__main__":
    main()
