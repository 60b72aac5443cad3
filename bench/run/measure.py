#!/usr/bin/env python3
"""measure.py PROGRAM [PROGRAM ..]: compares builds of `overlay` on the same scenarios, in one run.

Each scenario is run by each program in turn, RUNS times, as a whole process that writes into a file. Of each the lowest
time and the highest peak of memory are printed, and what the last program takes in relation to the first one. It ends
with an error if two programs print different lines.
"""

import hashlib
import os
import pathlib
import subprocess
import sys
import tempfile
import time

HERE = pathlib.Path(__file__).resolve().parent
RUNS = 7
# The name of each scenario, and the words with which it is made.
SCENARIOS = {
    "65,000 events, 200 nodes, 62,318 of them deliver": [sys.executable, HERE / "make_scenario.py", "65000", "200"],
    "65,000 events, 200 nodes, a bag that fills": [sys.executable, HERE.parent / "net" / "scenario.py", "200", "65000"],
    "55,000 times lose 0, from a bag nearly full": [sys.executable, HERE / "full_bag.py"],
    "1,000,000 lines, 65,000 of them events": [sys.executable, HERE / "many_lines.py", "1000000"],
}


def run(program, scenario, output):
    """The seconds and the peak in KB, of 1,024 bytes, of one run of a program. A peak is never told as less than what
    this process has in memory, so it keeps no scenario and no output.
    """
    with open(scenario, "rb") as given, open(output, "wb") as taken:
        begun = time.monotonic()
        started = subprocess.Popen([program, "run"], stdin=given, stdout=taken, stderr=subprocess.DEVNULL)
        _, status, used = os.wait4(started.pid, 0)
        started.returncode = os.waitstatus_to_exitcode(status)
        took = time.monotonic() - begun
    if started.returncode:
        sys.exit(f"{program} ended with status {started.returncode}")
    return took, used.ru_maxrss


def digest(path):
    """A checksum of a file."""
    with open(path, "rb") as file:
        return hashlib.file_digest(file, "sha256").hexdigest()


def main(programs):
    """Measures the programs, and prints a table."""
    with tempfile.TemporaryDirectory() as room:
        scenario, output = pathlib.Path(room, "scenario"), pathlib.Path(room, "output")
        print(f"| scenario | {' | '.join(f'{it} ms | KB' for it in programs)} | time, memory: last to first |")
        print(f"|---|{'---:|---:|' * len(programs)}---|")
        for name, words in SCENARIOS.items():
            with open(scenario, "wb") as file:
                subprocess.run(words, stdout=file, check=True)
            taken, printed = {it: [] for it in programs}, set()
            for _ in range(RUNS):
                for program in programs:
                    taken[program].append(run(program, scenario, output))
                    printed.add(digest(output))
            if len(printed) > 1:
                sys.exit(f"{name}: the programs print different lines")
            best = [(min(it[0] for it in taken[one]), max(it[1] for it in taken[one])) for one in programs]
            cells = " | ".join(f"{1000 * took:.0f} | {peak:,}" for took, peak in best)
            times, peaks = best[-1][0] / best[0][0], best[-1][1] / best[0][1]
            print(f"| {name} | {cells} | {times:.2f}, {peaks:.2f} |", flush=True)


if __name__ == "__main__":
    if len(sys.argv) < 2:
        sys.exit(__doc__)
    main(sys.argv[1:])
