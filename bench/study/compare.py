#!/usr/bin/env python3
"""compare.py [--overlay PROGRAM] [--grows] [--simulate PROGRAM] [--rules] [--count N] [--first SEED] [--jobs J]: grows
N overlays with options drawn at random, in J processes side by side, and holds others against grow.py:

  --overlay   the scenario, run strictly by this program, prints event for event what growing saw, and no line is
              refused
  --grows     and its `overlay grow` prints the same scenario, and its `overlay sweep` the same row
  --simulate  this simulation prints the same scenario, and the same row
  --rules     each overlay is grown by each rule at DISCONNECT, in place of one that is drawn; and then the rows of a
              sweep of twelve settings are compared, four with each rule

It ends with status 1 at the first difference. The same seeds give the same options.
"""

import argparse
import dataclasses
import functools
import itertools
import multiprocessing
import random
import subprocess
import sys
from collections import Counter

from grow import Growing
from options import CHOICES, LIMITS, Options
from rows import asks_further, header, row_of, swept_header
from world import Refusal


def drawn(seed):
    """Options, drawn at random: half of them with the default parameters, half without any loss."""
    draw = random.Random(seed)
    options = Options(
        nodes=draw.choice([1, 2, 3, draw.randint(4, 20), *[draw.randint(20, 200) for _ in range(8)]]),
        seed=draw.getrandbits(draw.choice([8, 64])),
    )
    if draw.random() < 0.5:
        for name in ("active", "passive", "arwl", "ka", "kp", "ttl"):
            setattr(options, name, draw.randint(*LIMITS[name]))
        options.active = min(options.active, draw.randint(1, 16))
        options.prwl = draw.randint(0, options.arwl)
    else:
        options.active = draw.choice([3, 4, 5, 6, 7])
    if draw.random() < 0.5:
        options.loss_join, options.loss, options.repeat = (draw.choice([0, draw.randint(0, 30)]) for _ in range(3))
    options.order = draw.choice(["random", "oldest"])
    options.pace = draw.choice([None, None, draw.randint(0, 30)])
    options.rounds, options.heal = draw.randint(0, 4), draw.randint(0, 3)
    options.crash, options.crash_cut = draw.choice([(0, False), (draw.randint(1, 60), False), (0, True)])
    options.broadcasts = draw.choice([0, 1, draw.randint(1, 6), draw.choice([2, 200])])
    options.refill = draw.choice(CHOICES["refill"])
    return options


def words_of(options):
    """The arguments of `overlay grow` that say options."""
    return options.heading().split(" ")[2:]


def run(program, words, given=b""):
    """The status and the standard output of a program."""
    done = subprocess.run(
        [program, *words], input=given, stdout=subprocess.PIPE, stderr=subprocess.DEVNULL, check=False
    )
    return done.returncode, done.stdout.decode()


def first_difference(text, other):
    """The first line in which two texts differ, in words, or None."""
    if text == other:
        return None
    pairs = zip([*text.split("\n"), None], [*other.split("\n"), None])
    return next((f"line {at}: {one!r} and {two!r}" for at, (one, two) in enumerate(pairs, 1) if one != two), "lengths")


def found(differences, given, options):
    """What is compared of an overlay, and how it differs, up to the first difference; its command first."""
    told = []
    for where, difference in differences(given, options):
        told.append((where, difference))
        if difference:
            break
    return options.heading(), told


def found_of_all(differences, given, settings):
    """What is found of each of many overlays, in their order, by so many processes as are asked for."""
    of_one = functools.partial(found, differences, given)
    if given.jobs == 1:
        yield from map(of_one, settings)
        return
    with multiprocessing.Pool(given.jobs) as pool:
        yield from pool.imap(of_one, settings)


def status_of(compared):
    """Tells the first difference, or how often all agreed: the status."""
    held = Counter()
    for name, told in compared:
        for where, difference in told:
            held[where] += 1
            if difference:
                print(f"{name}\n{where}: {difference}")
                return 1
    print(", ".join(f"{count} times {where}" for where, count in held.items()), "agreed")
    return 0


def add_counts(parser):
    """Adds the options that say how many overlays are compared, and how many at once."""
    parser.add_argument("--count", type=int, default=50)
    parser.add_argument("--first", type=int, default=0)
    parser.add_argument("--jobs", type=int, default=1)


def seeds(given):
    """The seeds of the overlays."""
    return range(given.first, given.first + given.count)


def refusals(given, options, fault):
    """Who does not refuse what grow.py refused, each in words."""
    words, said = words_of(options), f"it does not refuse as grow.py does: {fault}"
    if given.overlay and given.grows:
        yield "overlay grow, refused", None if run(given.overlay, ["grow", *words]) == (1, "") else said
        swept = run(given.overlay, ["sweep", *words, "--runs", "1"])
        yield "overlay sweep, refused", None if swept == (1, swept_header(asks_further(options)) + "\n") else said
    if given.simulate:
        yield "simulate, refused", None if run(given.simulate, [*words, "--scenario"]) == (1, "") else said


def differences(given, options):
    """What is compared, and how it differs, in words."""
    growing, words = Growing(options), words_of(options)
    try:
        scenario = "\n".join([*growing.grow(), ""])
    except Refusal as fault:
        yield from refusals(given, options, fault)
        return
    if given.overlay:
        status, printed = run(given.overlay, ["run", "--strict"], scenario.encode())
        seen = "\n".join([*growing.printed, ""])
        yield "overlay run", first_difference(seen, printed) or (f"the status is {status}" if status else None)
    row = row_of(options, growing.phases)
    if given.overlay and given.grows:
        yield "overlay grow", first_difference(scenario, run(given.overlay, ["grow", *words])[1])
        rows = run(given.overlay, ["sweep", *words, "--runs", "1"])[1]
        yield "overlay sweep", first_difference("\n".join([header(), row, ""]), rows)
    if given.simulate:
        yield "simulate --scenario", first_difference(scenario, run(given.simulate, [*words, "--scenario"])[1])
        yield "simulate --csv", first_difference(row, run(given.simulate, [*words, "--csv"])[1].split("\n")[1])


def settings(given):
    """The options of each overlay."""
    for seed in seeds(given):
        options = drawn(seed)
        rules = CHOICES["refill"] if given.rules else [options.refill]
        yield from (dataclasses.replace(options, refill=rule) for rule in rules)


def rows_of_sweep():
    """The rows of the sweep of twelve settings, as grow.py has them."""
    lines = [header()]
    for nodes, active, rule, seed in itertools.product((20, 40), (3, 5), CHOICES["refill"], range(2)):
        growing = Growing(Options(nodes=nodes, active=active, refill=rule, crash=20, seed=seed))
        growing.grow()
        lines.append(row_of(growing.options, growing.phases))
    return "\n".join([*lines, ""])


def sweep_differences(given):
    """How the rows of the sweep of twelve settings differ, in words."""
    rules = ",".join(CHOICES["refill"])
    words = f"--nodes 20,40 --active 3,5 --refill {rules} --crash 20 --runs 2".split(" ")
    rows = rows_of_sweep()
    if given.overlay and given.grows:
        yield "overlay sweep of lists", first_difference(rows, run(given.overlay, ["sweep", *words])[1])
    if given.simulate:
        yield "simulate --csv of lists", first_difference(rows, run(given.simulate, [*words, "--csv"])[1])


def main():
    parser = argparse.ArgumentParser(description=__doc__, formatter_class=argparse.RawDescriptionHelpFormatter)
    parser.add_argument("--overlay")
    parser.add_argument("--simulate")
    parser.add_argument("--grows", action="store_true")
    parser.add_argument("--rules", action="store_true")
    add_counts(parser)
    given = parser.parse_args()
    compared = found_of_all(differences, given, settings(given))
    if given.rules:
        compared = itertools.chain(compared, [("sweep of lists", sweep_differences(given))])
    return status_of(compared)


if __name__ == "__main__":
    sys.exit(main())
