#!/usr/bin/env python3
"""measure.py [--runs N] PROGRAM [PROGRAM ..]: what each build of `overlay` takes for each input of inputs.py, in one
sitting.

Each input is given to each program in turn, N times, or three, as a whole process that writes into files. Of each the
lowest processor time and the highest peak of memory are printed: other work on the machine makes a run last longer, but
hardly costs it processor time. A run that lasts longer than LONGEST seconds is ended, and told so.
"""

import os
import pathlib
import subprocess
import sys
import tempfile
import threading

import inputs

RUNS = 3
LONGEST = 1800


def run(program, words, given, room):
    """The processor seconds and the peak in MB, of 1,000,000 bytes, of one run of a program; None if it was ended."""
    with open(given, "rb") as source, open(room / "out", "wb") as out, open(room / "err", "wb") as err:
        started = subprocess.Popen([program, *words], stdin=source, stdout=out, stderr=err)
        ending = threading.Timer(LONGEST, started.kill)
        ending.start()
        _, status, used = os.wait4(started.pid, 0)
        ending.cancel()
        started.returncode = os.waitstatus_to_exitcode(status)
    return None if started.returncode < 0 else (used.ru_utime + used.ru_stime, used.ru_maxrss * 1024 / 1_000_000)


def main(programs, runs):
    """Measures the programs, and prints a table."""
    with tempfile.TemporaryDirectory() as name:
        room = pathlib.Path(name)
        print(f"| input | bytes | {' | '.join(f'{pathlib.Path(it).name} s | MB' for it in programs)} |")
        print(f"|---|---:|{'---:|---:|' * len(programs)}")
        for name, (words, _) in inputs.INPUTS.items():
            with open(room / "given", "wb") as file:
                inputs.write(name, file)
            cells = []
            for program in programs:
                taken = [run(program, words, room / "given", room) for _ in range(runs)]
                if None in taken:
                    cells.append(f"over {LONGEST} | ")
                else:
                    cells.append(f"{min(t for t, _ in taken):.2f} | {max(m for _, m in taken):,.0f}")
            print(f"| {name} | {(room / 'given').stat().st_size:,} | {' | '.join(cells)} |", flush=True)


if __name__ == "__main__":
    words = sys.argv[1:]
    asked = words[:1] == ["--runs"]
    main(words[2:] if asked else words, int(words[1]) if asked else RUNS)
