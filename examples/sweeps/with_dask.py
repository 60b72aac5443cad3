#!/usr/bin/env python3
"""with_dask.py [SCHEDULER]: runs each line of commands.txt on the workers of a Dask scheduler, as tcp://lab1:8786.

Without SCHEDULER the workers are processes of this machine. The program `overlay` must be on the PATH of each worker.
What line 7 prints is then in rows/0007.out. Dask gives the lines of a worker that is lost to another, and tries
one that fails three times more. A line whose rows are there is not run again, so the same call goes on where it ended.
"""

import pathlib
import shlex
import subprocess
import sys

from distributed import Client, as_completed


def run(numbered):
    """Runs a line, on a worker: its number, and what it prints."""
    number, line = numbered
    return number, subprocess.run(shlex.split(line), check=True, stdout=subprocess.PIPE).stdout


def file_of(number):
    """The file of the rows of a line."""
    return pathlib.Path(f"rows/{number:04}.out")


def main():
    pathlib.Path("rows").mkdir(exist_ok=True)
    lines = enumerate(pathlib.Path("commands.txt").read_text().splitlines(), 1)
    with Client(*sys.argv[1:]) as client:
        futures = client.map(run, [it for it in lines if not file_of(it[0]).exists()], retries=3)
        for _, (number, rows) in as_completed(futures, with_results=True):
            part = file_of(number).with_suffix(".part")
            part.write_bytes(rows)
            part.rename(file_of(number))


if __name__ == "__main__":
    main()
