#!/usr/bin/env python3
"""whole.py [--checker CHECKER].. [--certificates] PROGRAM [PROGRAM ..] -- GRAPH ..: times builds of `overlay analyse`
on the same graphs.

Each graph is analysed by each program with 1 and with 4 workers in turn, as a whole process without a certificate, up
to RUNS times, or until ENOUGH seconds have gone by. A run that takes longer than LIMIT seconds is ended, and if it
has 1 worker the program is not run with 4. The table has the lowest times in milliseconds and the highest peaks of
memory in MB (none is told as less than the 14 MB of this script), and of the last program its time in relation to the
first one's with 1 worker, and how much faster it is by 4 workers than by 1. With --certificates it also has the
milliseconds that --certificate adds to the time of 1 worker, which is written into a file, and what the last program
adds in relation to the first. If a file GROUP stands beside a graph, NAME.group, it is analysed for that group. It
ends with an error if two programs print different lines. With checkers, the last program writes each certificate too,
and each checker, which is given the name of that file, must say yes to it.
"""

import os
import pathlib
import shutil
import subprocess
import sys
import tempfile
import time

RUNS = 7
ENOUGH = 20
LIMIT = 80


def words_for(graph):
    """The arguments with which a graph is analysed."""
    group = pathlib.Path(graph).with_suffix(".group")
    return ["analyse", graph, *(["--group", group.read_text().strip()] if group.exists() else [])]


def run(program, graph, workers, *more):
    """The seconds of one run, its peak in MB, and the first line that it printed; None if it takes too long."""
    with tempfile.TemporaryFile() as output:
        begun = time.monotonic()
        words = [program, *words_for(graph), "--workers", str(workers), *more]
        started = subprocess.Popen(words, stdout=output, stderr=subprocess.DEVNULL)
        while time.monotonic() - begun < LIMIT:
            ended, status, used = os.wait4(started.pid, os.WNOHANG)
            if ended:
                took = time.monotonic() - begun
                if status:
                    sys.exit(f"{program} ended with an error on {graph}")
                output.seek(0)
                return took, used.ru_maxrss / 1000, output.readline()
            time.sleep(0.0002)
        started.kill()
        started.wait()
        return None


def lowest(program, graph, workers, *more):
    """The lowest time of several runs, the highest peak, and the line; None if it takes too long."""
    taken = []
    while len(taken) < RUNS and sum(it[0] for it in taken) < ENOUGH:
        one = run(program, graph, workers, *more)
        if one is None:
            return None
        taken.append(one)
    return min(it[0] for it in taken), max(it[1] for it in taken), taken[0][2]


def shown(one, other):
    """The times and the peaks with 1 and with 4 workers."""
    if one is None:
        return f"over {LIMIT} s | | not run | "
    more = f"{1000 * other[0]:.1f} | {other[1]:.0f}" if other else f"over {LIMIT} s | "
    return f"{1000 * one[0]:.1f} | {one[1]:.0f} | {more}"


def ratio(one, other):
    """What one takes in relation to the other, if both were measured."""
    return f"{one / other:.2f}" if one and other else ""


def refusing(checkers, program, graph):
    """Those checkers that do not say yes to the certificate of a graph."""
    if not checkers:
        return []
    # a certificate is never held here: no peak of a later run would be told as less than this script's memory
    with tempfile.TemporaryFile() as printed, tempfile.NamedTemporaryFile(suffix=".json") as file:
        words = [program, *words_for(graph), "--workers", "4", "--certificate"]
        subprocess.run(words, stdout=printed, check=True)
        printed.seek(0)
        printed.readline()
        shutil.copyfileobj(printed, file)
        file.flush()
        return [one for one in checkers
                if not subprocess.run([one, file.name], stdout=subprocess.PIPE).stdout.startswith(b"holds")]


def by_workers(program, graph):
    """What was measured with 1 and with 4 workers."""
    one = lowest(program, graph, 1)
    return [one, one and lowest(program, graph, 4)]


def measured(programs, graph, certificates):
    """The cells of a graph's row."""
    taken = {it: by_workers(it, graph) for it in programs}
    if len({one[2] for them in taken.values() for one in them if one}) > 1:
        sys.exit(f"{graph}: the programs print different lines")
    cells = [shown(*taken[it]) for it in programs]
    first, last = taken[programs[0]][0], taken[programs[-1]]
    cells.append(ratio(last[0] and last[0][0], first and first[0]))
    cells.append(ratio(last[0] and last[0][0], last[1] and last[1][0]))
    if certificates:
        with_one = {it: lowest(it, graph, 1, "--certificate") for it in programs}
        added = [with_one[it] and taken[it][0] and with_one[it][0] - taken[it][0][0] for it in programs]
        cells += [f"{1000 * one:.1f}" if one else "" for one in added]
        cells.append(ratio(added[-1], added[0]))
    return cells


def main(programs, graphs, checkers, certificates):
    """Measures, and prints the table."""
    heads = [f"{it} 1 worker ms | MB | 4 workers ms | MB" for it in programs]
    heads += ["last to first", "4 to 1, times as fast"]
    if certificates:
        heads += [f"{it} certificate adds ms" for it in programs] + ["last to first"]
    columns = " | ".join(heads)
    print(f"| graph | {columns} |\n|---|{'---:|' * (columns.count('|') + 1)}", flush=True)
    for graph in graphs:
        print(f"| {pathlib.Path(graph).stem} | {' | '.join(measured(programs, graph, certificates))} |", flush=True)
        if said_no := refusing(checkers, programs[-1], graph):
            sys.exit(f"{graph}: {', '.join(said_no)} refuses the certificate")


if __name__ == "__main__":
    given, asked = sys.argv[1:], []
    while given[:1] == ["--checker"]:
        asked.append(given[1])
        given = given[2:]
    certificates = given[:1] == ["--certificates"]
    given = given[1:] if certificates else given
    if "--" not in given or not given.index("--"):
        sys.exit(__doc__)
    cut = given.index("--")
    main(given[:cut], given[cut + 1 :], asked, certificates)
