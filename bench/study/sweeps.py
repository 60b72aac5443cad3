"""The sweeps of docs/DESIGN-STUDY.md and docs/PAPERS.md, each by its name, its command and its rows; and what tables
take of rows."""

import csv
import math
import pathlib
import subprocess
import sys

ROWS = pathlib.Path(__file__).resolve().parent / "out"

# Rows of `overlay sweep`, which `simulate` makes too.
_SPLIT = "--rounds 0 --heal 0"
_SWEPT_TREE = "--nodes 10000 --refill always --order random,oldest --crash 99 --heal 0 --broadcasts 20"
SWEEPS = {
    "active": "--nodes 50,100,150,200 --active 3,4,5,6,7,8,9,10,12 --crash 20 --runs 500",
    "rules": "--nodes 50,100,200 --active 3,4,5,6,8 --refill never,alone,always --crash 20 --runs 500",
    "crash": "--nodes 200 --active 5,6,8,10 --crash 0,10,20,30,50,cut --broadcasts 5 --runs 200",
    "passive": "--nodes 200 --active 5,8 --passive 1,2,5,10,30,60 --crash 30 --runs 200",
    "loss": "--nodes 200 --active 5,8,10 --loss 0,1,5,10,20 --crash 20 --broadcasts 5 --runs 200",
    "loss-join": "--nodes 200 --active 5,8,10 --loss-join 0,1,2,5 --runs 200",
    "walks": "--nodes 200 --active 5,8 --arwl 3,4,6,10,15 --runs 500",
    "pace": "--nodes 200 --active 5,8 --pace 0,5,20,50,100 --runs 200",
    "rounds": "--nodes 200 --active 5,8 --rounds 0,1,3,10 --crash 30 --heal 0,2 --runs 200",
    "rules-crash": "--nodes 200 --refill never,alone,always --crash 0,20,50,cut --runs 200",
    "rules-passive": "--nodes 200 --passive 1 --refill never,alone,always --crash 20 --runs 200",
    "rules-loss-join": "--nodes 200 --refill never,alone,always --loss-join 1 --crash 20 --runs 200",
    "rules-loss": "--nodes 200 --refill never,alone,always --loss 5 --crash 20 --runs 200",
    "rules-pace": "--nodes 200 --refill never,alone,always --pace 0 --crash 20 --runs 200",
    "split-1000": f"--nodes 1000 --active 3,4,5,6,7,8,9,10,12,16 {_SPLIT} --runs 100",
    "split-alone-1000": f"--nodes 1000 --active 4,5,6,8,10 --refill alone {_SPLIT} --runs 100",
    "split-always-1000": f"--nodes 1000 --active 3,4,5,6 --refill always {_SPLIT} --runs 100",
    "papers-links": f"--nodes 10000 --refill never,alone,always {_SPLIT} --runs 5",
    "papers-shape-1000": "--nodes 1000 --refill never,alone,always --rounds 0 --crash 99 --heal 0 --runs 5 --shape",
    "papers-swept": "--nodes 10000 --refill never,always --crash 50,80,90 --detect --heal 2 --broadcasts 10 "
    "--sequential --messages --runs 5",
    "papers-told-250": "--nodes 250 --refill never,alone,always --crash 50,70,80,90,95 --heal 0 --broadcasts 5 "
    "--runs 20",
    "papers-one": f"{_SWEPT_TREE} --sender 1 --sequential --messages --runs 5",
    "papers-many": f"{_SWEPT_TREE} --sequential --messages --runs 5",
}
# Rows of `simulate` alone.
SIMULATED = {
    "fates": "--nodes 50,100,150,200 --runs 500 --fates",
    "splits": "--nodes 200 --rounds 0 --heal 0 --runs 500 --splits",
    "large-100": "--nodes 100 --active 3,4,5,6,7,8,9,10,12,16 --rounds 0 --heal 0 --runs 1000 --fates",
    "large-1000": "--nodes 1000 --active 3,4,5,6,7,8,9,10,12,16 --rounds 0 --heal 0 --runs 100 --fates",
    "large-10000": "--nodes 10000 --active 3,4,5,6,7,8,9,10,12,16 --rounds 0 --heal 0 --runs 30 --fates",
    "large-100000": "--nodes 100000 --active 3,4,5,6,7,8,9,10,12,16 --rounds 0 --heal 0 --runs 3 --fates",
    "degrees-5": "--nodes 100000 --rounds 0 --heal 0 --runs 3 --degrees",
    "degrees-8": "--nodes 100000 --active 8 --rounds 0 --heal 0 --runs 3 --degrees",
    "alone-1000": "--nodes 1000 --active 4,5,6,8,10 --refill alone --rounds 0 --heal 0 --runs 100 --fates",
    "alone-10000": "--nodes 10000 --active 4,5,6,8,10 --refill alone --rounds 0 --heal 0 --runs 30 --fates",
    "alone-100000": "--nodes 100000 --active 4,5,6,8,10 --refill alone --rounds 0 --heal 0 --runs 3 --fates",
    "always-1000": "--nodes 1000 --active 3,4,5,6 --refill always --rounds 0 --heal 0 --runs 100 --fates",
    "always-10000": "--nodes 10000 --active 3,4,5,6 --refill always --rounds 0 --heal 0 --runs 30 --fates",
    "always-100000": "--nodes 100000 --active 3,4,5,6 --refill always --rounds 0 --heal 0 --runs 3 --fates",
    "at-once": "--nodes 50,100,200 --active 5,8 --crash 20 --runs 500 --csv --reports-at-once",
}
# Rows of docs/PAPERS.md, of `simulate` alone.
_GROWN = "--nodes 10000 --refill"
_SHAPE = "--nodes 10000 --heal 0 --exact 1 --far --refill"
_CRASHES = "--grow-once --crash 10,30,50,70,80,90,95"
_ONE_BY_ONE = "--sequential --exact 1"
_AFTER = f"--detect --heal 0 --only crash {_ONE_BY_ONE} --messages"
_SMALLER = "--nodes 1000 --refill never,always --grow-once --crash 70,80,90"
_TOLD = f"--flood --heal 0 --only heal {_ONE_BY_ONE} --messages"
PAPERS = {
    "papers-shape": f"{_SHAPE} never,alone,always --rounds 0 --runs 5",
    "papers-shape-fill": f"{_SHAPE} never,alone,always --rounds 3 --fill --runs 5",
    "papers-shape-filled": f"{_SHAPE} alone --rounds 10 --fill --runs 5",
    "papers-shape-contact": f"{_SHAPE} always --rounds 0 --one-contact --runs 5",
    "papers-shape-oldest": f"{_SHAPE} always --rounds 0 --order oldest --runs 5",
    "papers-crash": f"{_GROWN} never,always {_CRASHES} --flood {_AFTER} --broadcasts 20 --runs 5",
    "papers-crash-long": f"{_GROWN} never,always --grow-once --crash 50,70,80,90,95 --flood {_AFTER} --broadcasts 1000 "
    "--runs 3",
    "papers-told": f"{_GROWN} never,always {_CRASHES} {_TOLD} --broadcasts 5 --runs 5",
    "papers-passed": f"{_GROWN} never,always {_CRASHES} --flood --pass-on {_AFTER} --broadcasts 20 --runs 5",
    "papers-varied": f"{_SMALLER} {_AFTER} --broadcasts 200 --flood --runs 5",
    "papers-varied-until": f"{_SMALLER} {_AFTER} --broadcasts 50 --flood --until-full --runs 5",
    "papers-varied-passed": f"{_SMALLER} {_AFTER} --broadcasts 50 --flood --pass-on --runs 5",
    "papers-varied-both": f"{_SMALLER} {_AFTER} --broadcasts 50 --flood --pass-on --until-full --runs 5",
    "papers-varied-rounds": f"{_SMALLER} {_AFTER} --broadcasts 50 --flood --rounds 50 --runs 5",
    "papers-varied-tree": f"{_SMALLER} {_AFTER} --broadcasts 50 --runs 5",
    "papers-varied-told": f"{_SMALLER} {_TOLD} --broadcasts 10 --runs 5",
    "papers-varied-at-once": f"{_SMALLER} {_TOLD} --broadcasts 10 --reports-at-once --runs 5",
    "papers-heal": f"{_GROWN} never,always {_CRASHES} --flood --detect --heal 4 --only heal --broadcasts 1 "
    f"{_ONE_BY_ONE} --healing --runs 5",
}
LARGE = ("large-100", "large-1000", "large-10000", "large-100000")
# The same by each rule at DISCONNECT.
LARGE_BY = {
    "never": LARGE[1:],
    "alone": ("alone-1000", "alone-10000", "alone-100000"),
    "always": ("always-1000", "always-10000", "always-100000"),
}
# Who tells of the same overlays whether they are split, and their least degree.
SWEPT = {"large-1000": "split-1000", "alone-1000": "split-alone-1000", "always-1000": "split-always-1000"}


def make(name, simulate, overlay, workers):
    """Makes the rows of a sweep, unless they are there."""
    path = ROWS / f"{name}.csv"
    if path.exists():
        return
    ROWS.mkdir(exist_ok=True)
    if name in SIMULATED or name in PAPERS:
        words = [simulate, *(SIMULATED | PAPERS)[name].split()]
    elif overlay:
        words = [overlay, "sweep", *SWEEPS[name].split(), "--workers", str(workers)]
    else:
        words = [simulate, *by_simulate(name)]
    begun = path.with_suffix(".begun")
    with open(begun, "wb") as file:
        subprocess.run(words, stdout=file, check=True)
    begun.rename(path)


def by_simulate(name):
    """What `simulate` is asked for, to print the rows of `overlay sweep`."""
    words = SWEEPS[name].split()
    return words if "--messages" in words else [*words, "--csv", "--exact", "32768"]


def hold(name, simulate):
    """How many rows of a sweep `simulate` prints alike, byte for byte; the first that differs ends the program."""
    ours = (ROWS / f"{name}.csv").read_text().splitlines()
    done = subprocess.run([simulate, *by_simulate(name)], stdout=subprocess.PIPE, check=True, text=True)
    theirs = done.stdout.splitlines()
    if ours != theirs:
        pairs = zip([*ours, None], [*theirs, None])
        one, other = next((one, other) for one, other in pairs if one != other)
        sys.exit(f"{name}: {one!r} and {other!r} of simulate")
    return len(ours) - 1


def held(names, simulate):
    """Of each of these sweeps that `overlay sweep` can make, and whose rows are there, how many rows are equal."""
    for name in names:
        if name in SWEEPS and (ROWS / f"{name}.csv").exists():
            yield f"{name}: {hold(name, simulate)} rows are equal"


def rows(name):
    """The rows of a sweep."""
    with open(ROWS / f"{name}.csv", newline="") as file:
        return list(csv.DictReader(file))


def grouped(name, *keys):
    """The rows of a sweep for each of its settings, by these options."""
    found = {}
    for row in rows(name):
        found.setdefault(tuple(row[key] for key in keys), []).append(row)
    return found


def wilson(hits, count):
    """The 95 % interval of a share."""
    z = 1.96
    share, wide = hits / count, z * z / count
    middle = (share + wide / 2) / (1 + wide)
    half = z * math.sqrt(share * (1 - share) / count + wide / (4 * count)) / (1 + wide)
    return max(0, middle - half), min(1, middle + half)


def split(some, phase):
    """How many of some rows are split after a phase."""
    return sum(row[f"{phase}_k"] == "0" for row in some)


def numbers(some, column):
    """A column of some rows, ascending."""
    return sorted(int(row[column]) for row in some)


def quantile(ascending, part):
    """The value below which this part of the values is; of a few the nearest."""
    return ascending[min(len(ascending) - 1, int(part * len(ascending)))]


def mean(some, column):
    """The mean of a column."""
    return sum(float(row[column]) for row in some) / len(some)
