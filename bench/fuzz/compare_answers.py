#!/usr/bin/env python3
"""compare_answers PROGRAM [FILES [SEED]]: draws files of rows, and compares what `overlay sweep --at-most-split` answers
with a second reckoning, by docs/COMMANDS.md: the ends of Wilson's interval are the roots of its equation, to 50 digits.

The settings of a file differ in up to six options, and have 1 to 400 runs. The status is 1 if an answer differs, which
is printed with what was expected.
"""

import decimal
import itertools
import pathlib
import random
import subprocess
import sys
import tempfile
from decimal import Decimal

sys.path.insert(0, str(pathlib.Path(__file__).resolve().parent.parent / "study"))
from rows import header  # noqa: E402

decimal.getcontext().prec = 50
# The square of the deviations to each side that hold 95 % of a normal distribution, to the digits of the definition.
SQUARE = Decimal("3.841458820694")
NAMES = header().split(",")[:18]
USUAL = dict(zip(NAMES, "60,5,30,6,3,3,4,4,never,0,0,0,random,,3,10,2,0".split(",")))
PHASES = ("settle", "crash", "heal")
WORDS = ("never", "alone", "always", "random", "oldest")
ENOUGH = 10**9


def side(split, runs, number, percent):
    """Where the interval lies of so many split runs, if their share was seen in a number of runs: below, about, above."""
    share, bound = Decimal(split) / runs, Decimal(percent) / 100
    a, b, c = 1 + SQUARE / number, -(2 * share + SQUARE / number), share * share
    root = (b * b - 4 * a * c).sqrt()
    low, high = (-b - root) / (2 * a), (-b + root) / (2 * a)
    return -1 if high < bound else 1 if low > bound else 0


def fewest(is_so, least):
    """The least number from one on that is so, if it is so from there on."""
    low, high = least, ENOUGH
    while low < high:
        middle = (low + high) // 2
        low, high = (low, middle) if is_so(middle) else (middle + 1, high)
    return low


def said(split, runs, percent):
    """What is said of a setting."""
    place = side(split, runs, runs, percent)
    if place:
        return "yes" if place < 0 else "no"
    further = fewest(lambda number: side(split, number, number, percent) < 0, runs) - runs
    text = f"open: yes after {further} more without a split"
    if not split:
        return text
    if 100 * split == percent * runs:
        return text + "; at this share no number tells"
    more = fewest(lambda number: side(split, runs, number, percent) != 0, 1) - runs
    return text + f"; {'yes' if 100 * split < percent * runs else 'no'} after {more} more at this share"


def rank(cell):
    """The place of a value among those of its option."""
    if cell in ("", "cut"):
        return (0, 0) if cell == "" else (3, 0)
    return (2, WORDS.index(cell)) if cell in WORDS else (1, int(cell))


def draw_settings():
    """Some settings that differ in up to six options, in any order."""
    pick = {
        "active": random.sample(range(1, 17), 3),
        "nodes": random.sample(range(20, 90), random.choice((1, 2))),
        "refill": random.sample(WORDS[:3], random.choice((1, 2))),
        "pace": random.sample(["", "0", "7"], random.choice((1, 2))),
        "crash": random.sample(["0", "10", "cut"], random.choice((1, 2))),
        "order": random.sample(WORDS[3:], random.choice((1, 2))),
    }
    every = [USUAL | dict(zip(pick, map(str, values))) for values in itertools.product(*pick.values())]
    return random.sample(every, min(len(every), random.randint(1, 8)))


def draw_count():
    """How many runs a setting has, and how many of them are split."""
    runs = random.choice((1, 5, 30, 80, 400))
    return min(runs, random.choice((0, 0, 1, 2, runs // 50, runs // 2, runs))), runs


def rows_of(settings, counts, phase):
    """The rows of settings, of which so many are split after a phase, in any order."""
    rows = []
    for setting, (split, runs) in zip(settings, counts):
        for seed in range(runs):
            cells = [*setting.values(), str(seed)]
            for other in PHASES:
                cells += ["60", "0" if other == phase and seed < split else "2", "3", "100", "900", ""]
            rows.append(",".join(cells))
    random.shuffle(rows)
    return "\n".join([header(), *rows, ""])


def expected(settings, counts, percent):
    """The cells of each line that has a setting, and the line that names the smallest one."""
    order = sorted(range(len(settings)), key=lambda i: [rank(settings[i][name]) for name in ("active", *NAMES)])
    differing = [name for name in NAMES if len({setting[name] for setting in settings}) > 1]
    texts = {i: said(*counts[i], percent) for i in order}
    shown = {i: [settings[i][name] or "none" for name in differing] for i in order}
    named = {i: ", ".join(map(" ".join, zip(differing, shown[i]))) or "this one" for i in order}
    lines = [[*shown[i], str(counts[i][1]), str(counts[i][0]), texts[i]] for i in order]
    met = [i for i in order if texts[i] == "yes"]
    still = [i for i in order if texts[i].startswith("open")]
    if met:
        return lines, f"The smallest setting below {percent} %: {named[met[0]]}"
    if still:
        least = still[0]
        told = texts[least].removeprefix("open: ")
        return lines, f"No setting is below {percent} % yet. The smallest that is open: {named[least]} ({told})"
    return lines, f"No setting is below {percent} %, and none is open"


def answered(lines, wanted):
    """The cells of each line that has a setting, without the share and its interval."""
    width = len(wanted[0]) - 1
    return [[*line.split()[:width], line.rsplit(" %  ", 1)[1]] for line in lines[3 : 3 + len(wanted)]]


def differs(program):
    """Whether the answer of one file differs, which is printed then."""
    settings, percent, phase = draw_settings(), random.choice((1, 2, 5, 20, 50)), random.choice(PHASES)
    counts = [draw_count() for _ in settings]
    with tempfile.NamedTemporaryFile("w", suffix=".csv") as file:
        file.write(rows_of(settings, counts, phase))
        file.flush()
        words = ["sweep", "--read", file.name, "--at-most-split", str(percent), "--after", phase]
        run = subprocess.run([program, *words], capture_output=True, text=True, check=False)
    lines = run.stdout.splitlines()
    wanted, last = expected(settings, counts, percent)
    needed = fewest(lambda number: side(0, number, number, percent) < 0, 1)
    is_told = any(line.endswith(f"below {percent} % takes {needed} runs") for line in lines)
    is_few = min(runs for _, runs in counts) < needed
    if run.returncode == 0 and last in lines and answered(lines, wanted) == wanted and is_told == is_few:
        return False
    print(run.stdout, run.stderr, "expected:", *wanted, last, sep="\n")
    return True


def main(program, files="200", seed="1"):
    """Compares so many answers."""
    random.seed(int(seed))
    different = sum(differs(program) for _ in range(int(files)))
    print(f"compare_answers: {files} files, {different} answers differ")
    return 1 if different else 0


if __name__ == "__main__":
    sys.exit(main(*sys.argv[1:]))
