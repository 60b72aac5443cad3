#!/usr/bin/env python3
"""fuzz.py --seconds N | --processor-seconds N [--overlay PROGRAM --overlay-check PROGRAM] [--room FOLDER]
[--loops FOLDER] [--processor P | any] [--longest-run MS] TARGET..: one sitting.

Fuzzes each target for N seconds by the clock, or until N seconds of processor time have gone by, one after the other on
one processor, beginning with the kept corpus, the examples and random inputs, and judges by judge.py what is found:
afl-fuzz's queue, crashes and hangs. PROGRAM is a real program; without both of them nothing is judged. The processor is
the last one that may be used, or P: afl-fuzz and the program that it runs wait for each other, and are faster on one.
With `any` the system chooses one again and again, as fits work that takes what others leave. An input may take 2,000
milliseconds by the clock, or MS: where other work has the processor, take more.
The programs that are fuzzed are built by `build` into FOLDER/loops if they are not there, or are those of --loops. All
is laid into the room, `out` beside this script without --room; a target's queue of an earlier sitting there is gone on
with, and what judge.py passed of it is not judged again. A line with the figures of each target is printed.
The status is 1 if an input differs.
"""

import argparse
import datetime
import os
import pathlib
import resource
import shutil
import signal
import subprocess
import sys
import time

import seeds
from targets import CASES, CRATES

HERE = pathlib.Path(__file__).resolve().parent
# Milliseconds that one input may take.
LONGEST_RUN = 2000
SETTINGS = {"AFL_SKIP_CPUFREQ": "1", "AFL_I_DONT_CARE_ABOUT_MISSING_CRASHES": "1", "AFL_NO_UI": "1",
            "AFL_NO_AFFINITY": "1", "AFL_AUTORESUME": "1", "AFL_NO_STARTUP_CALIBRATION": "1"}


def loop_of(crate, folder):
    """The program of a crate that is fuzzed, built if it is not there."""
    program = folder / crate
    if not program.exists():
        folder.mkdir(parents=True, exist_ok=True)
        subprocess.run([HERE / "build", crate, program], check=True)
    return program


def settings_of(target, folder):
    """The environment of afl-fuzz. Certificate files are mutated by values too, all else by lines."""
    name = "value_mutator" if target == "certificate" else "line_mutator"
    library = folder / f"{name}.so"
    if not library.exists():
        subprocess.run(["gcc", "-O2", "-shared", "-fPIC", HERE / f"{name}.c", "-o", library], check=True)
    return os.environ | SETTINGS | {"AFL_CUSTOM_MUTATOR_LIBRARY": str(library.resolve())}


def used():
    """The seconds of processor time that ended children have used."""
    usage = resource.getrusage(resource.RUSAGE_CHILDREN)
    return usage.ru_utime + usage.ru_stime


def times():
    """Of each process, its parent and the seconds of processor time of it and of its ended children."""
    found = {}
    for path in pathlib.Path("/proc").glob("[0-9]*/stat"):
        try:
            words = path.read_text().rpartition(")")[2].split()
        except OSError:
            # it has ended
            continue
        found[int(path.parent.name)] = int(words[1]), sum(map(int, words[11:15])) / os.sysconf("SC_CLK_TCK")
    return found


def used_below(process):
    """The seconds of processor time that a process and all below it have used."""
    found = times()
    family, more = set(), {process}
    while more:
        family |= more
        more = {it for it, (parent, _) in found.items() if parent in family} - family
    return sum(found[it][1] for it in family if it in found)


def wait_for(run, seconds):
    """Waits until afl-fuzz ends, and ends it after so many seconds of processor time, if this is a number."""
    while seconds is not None and run.poll() is None and used_below(run.pid) < seconds:
        time.sleep(5)
    if seconds is not None and run.poll() is None:
        run.send_signal(signal.SIGINT)
    return run.wait()


def fuzz(target, program, given):
    """Runs afl-fuzz as long as is asked, and answers its folder."""
    beginning = given.room / "seeds" / target
    shutil.rmtree(beginning, ignore_errors=True)
    seeds.lay(target, beginning)
    found = given.room / target
    by_clock = [] if given.seconds is None else ["-V", str(given.seconds)]
    command = ["afl-fuzz", "-i", beginning, "-o", found, *by_clock, "-t", str(given.longest_run), "-m", "none",
               "-G", str(seeds.LONGEST[target]), "-x", HERE / "words" / f"{target}.dict", "--", program, target]
    log = given.room / f"{target}.log"
    with open(log, "w") as told:
        run = subprocess.Popen(command, env=settings_of(target, program.parent), stdout=told, stderr=subprocess.STDOUT)
        if wait_for(run, given.processor_seconds):
            sys.exit(f"fuzz.py: afl-fuzz failed, see {log}")
    return found / "default"


def statistics(folder):
    """What afl-fuzz says of itself, by name; of the earlier sittings that it goes on with, too."""
    if not (folder / "fuzzer_stats").exists():
        return {}
    lines = (folder / "fuzzer_stats").read_text().splitlines()
    return {name.strip(): value.strip() for name, _, value in (line.partition(":") for line in lines)}


def runs_of(target, room):
    """How many runs there were of a target in this room."""
    return int(statistics(room / target / "default").get("execs_done", 0))


def judged(target, folder, given):
    """How many inputs differ, which judge.py prints; none is judged without the programs."""
    if not (given.overlay and given.overlay_check):
        return None
    paths = [it for it in (folder / "queue", folder / "crashes", folder / "hangs") if it.is_dir() and any(it.iterdir())]
    command = [HERE / "judge.py", "--overlay", given.overlay, "--overlay-check", given.overlay_check,
               "--kept", given.room / "found", "--passed", given.room / "passed", target, *paths]
    run = subprocess.run(command, capture_output=True, text=True)
    print(run.stdout, run.stderr, sep="", end="", flush=True)
    return sum(not line.startswith((" ", f"{target}: ")) for line in run.stdout.splitlines())


def row(target, folder, seconds, runs, differing):
    """The line of a sitting for the table, with the last commit of the sources."""
    said = statistics(folder)
    date = datetime.date.today().isoformat()
    last = ["git", "log", "-1", "--format=%h", "--abbrev=8", "--", HERE.parent.parent / "crates"]
    commit = subprocess.run(last, cwd=HERE, capture_output=True, text=True)
    crashes, hangs = said.get("saved_crashes", "0"), said.get("saved_hangs", "0")
    rate = f"{seconds / 3600:.3f} | {runs:,} | {runs / seconds:,.0f}"
    findings = f"{crashes} crashes, {hangs} hangs, " + (
        "not judged" if differing is None else f"{differing} differences")
    return f"| {date} | {commit.stdout.strip()} | {target} | {rate} | {said['corpus_count']} | {findings} |"


def sit(target, given):
    """Fuzzes one target, and judges what is found: the line of the table, and how many inputs differ."""
    loop = loop_of(CRATES[target], given.loops or given.room / "loops")
    runs, seconds = runs_of(target, given.room), used()
    folder = fuzz(target, loop, given)
    runs, seconds = runs_of(target, given.room) - runs, used() - seconds
    differing = judged(target, folder, given)
    return row(target, folder, seconds, runs, differing), differing


def main():
    parser = argparse.ArgumentParser(description="Fuzzes the programs, and judges what is found.")
    how_long = parser.add_mutually_exclusive_group(required=True)
    how_long.add_argument("--seconds", type=int, metavar="N")
    how_long.add_argument("--processor-seconds", type=int, metavar="N")
    parser.add_argument("--overlay", metavar="PROGRAM")
    parser.add_argument("--overlay-check", metavar="PROGRAM")
    parser.add_argument("--room", type=pathlib.Path, default=HERE / "out", metavar="FOLDER")
    parser.add_argument("--loops", type=pathlib.Path, metavar="FOLDER")
    parser.add_argument("--processor", metavar="P")
    parser.add_argument("--longest-run", type=int, default=LONGEST_RUN, metavar="MS")
    parser.add_argument("targets", choices=CASES, nargs="+", metavar="TARGET")
    given = parser.parse_args()
    if given.processor != "any":
        os.sched_setaffinity(0, {int(given.processor or max(os.sched_getaffinity(0)))})
    rows, differing = zip(*(sit(target, given) for target in given.targets))
    print(*rows, sep="\n")
    return 1 if any(differing) else 0


if __name__ == "__main__":
    try:
        sys.exit(main())
    except (OSError, subprocess.CalledProcessError) as why:
        sys.exit(f"fuzz.py: {why}")
