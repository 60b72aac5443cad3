"""Reads the words after `overlay grow` and `overlay sweep`, and says what these print, by docs/GROWING.md, by their
help, and by ../study/grow.py, which grows overlays by that page alone.

That a number may begin with `+`, as Rust reads numbers, was taken from the program. What `clap` decides is as in
command_line.py. A summary, an answer to `--at-most-split`, a picture, the row of a file and what `--progress` prints are
not said.
"""

import dataclasses
import functools
import itertools
import pathlib
import sys

sys.path.insert(0, str(pathlib.Path(__file__).resolve().parent.parent / "study"))
from grow import Growing  # noqa: E402
from options import CHOICES, LIMITS, SEEDS, Options  # noqa: E402
from rows import swept_header, swept_row  # noqa: E402
from second_opinion import Answer  # noqa: E402
from world import Refusal  # noqa: E402

MOST_RUNS = 1_000_000
NUMBERS = LIMITS | {"runs": (1, MOST_RUNS), "workers": (1, 64), "list": (1, MOST_RUNS), "at_most_split": (1, 99)}
PHASES = ("settle", "crash", "heal")
# The options of growing that take nothing, and those of each command.
SWITCHES = {"crash_cut", "sequential", "detect"}
FLAGS = {"grow": {*SWITCHES, "certificates"}, "sweep": {*SWITCHES, "summary", "progress"}}
TEXTS = {"grow": {*CHOICES, "row"}, "sweep": {*CHOICES, "svg", "read", "after"}}
OPTIONS = [field.name for field in dataclasses.fields(Options)]
SWEEP_ONLY = ("runs", "workers", "list")
# About how many steps of nodes are grown for one command line.
MOST_STEPS = 15000


class BadArguments(Exception):
    """The arguments are unknown to the command, or are not UTF-8."""


class Open(Exception):
    """What is printed is not said here, or growing it would take long."""


def number(name, word):
    """A number within the limits of an option."""
    digits = word.removeprefix("+")
    least, most = NUMBERS[name]
    if not (digits.isascii() and digits.isdigit()) or not least <= int(digits) <= most:
        raise BadArguments
    return int(digits)


def value(name, word):
    """What a word says as the value of an option."""
    if name in CHOICES and word not in CHOICES[name]:
        raise BadArguments
    if name in CHOICES or (name, word) in (("pace", "none"), ("sender", "none"), ("crash", "cut")):
        return word
    return number(name, word)


def is_value(words):
    """Whether there is a word, and it may be the value of an option: it is `-`, or does not begin so."""
    return any(word == "-" or not word.startswith("-") for word in words)


def named(command, words):
    """The words of each option that is there, by its name."""
    found, rest = {}, list(words)
    while rest:
        word = rest.pop(0)
        name, equals, text = word.removeprefix("--").partition("=")
        name = name.replace("-", "_") if "_" not in name else ""
        if word == "--" and not rest:
            break
        if not word.startswith("--") or name in found:
            raise BadArguments
        if name in FLAGS[command]:
            if equals:
                raise BadArguments
            found[name] = []
        elif name in TEXTS[command] or (name in NUMBERS and (command == "sweep" or name in OPTIONS)):
            if not equals and not is_value(rest[:1]):
                raise BadArguments
            found[name] = [text if equals else rest.pop(0)]
            while name == "read" and is_value(rest[:1]):
                found[name].append(rest.pop(0))
        else:
            raise BadArguments
    return found


def read_grow(words):
    """The options of `overlay grow`."""
    found = named("grow", words)
    if ("crash_cut" in found and "crash" in found) or ("row" in found and any(name in found for name in OPTIONS)):
        raise BadArguments
    if "row" in found:
        raise Open
    asks = found.pop("certificates", None) is not None
    given = {name: True if name in FLAGS["grow"] else value(name, said[0]) for name, said in found.items()}
    if given.get("crash") == "cut":
        given["crash"], given["crash_cut"] = 0, True
    options = Options(**{name: None if said == "none" else said for name, said in given.items()})
    if options.prwl > options.arwl or (options.sender or 0) > options.nodes:
        raise BadArguments
    return options, asks


def judge_pairs(found):
    """Refuses options of a sweep that don't go together."""
    if "list" in found and any(name in found for name in ("summary", "svg", "at_most_split")):
        raise BadArguments
    if "after" in found and ("at_most_split" not in found or found["after"][0] not in PHASES):
        raise BadArguments
    if "read" in found and any(name in found for name in ("progress", *OPTIONS, *SWEEP_ONLY)):
        raise BadArguments


def values_of(name, word):
    """The values that a word says in a list: those of a range, or one."""
    low, dots, high = word.partition("..")
    if not dots or name in CHOICES:
        return [value(name, word)]
    ends = number(name, low), number(name, high)
    if ends[0] > ends[1]:
        raise BadArguments
    return range(ends[0], ends[1] + 1)


def list_of(name, found):
    """The values of an option of a sweep, none of them twice."""
    if name in SWITCHES:
        return [name in found]
    if name not in found:
        return [getattr(Options, name)]
    values = [it for word in found[name][0].split(",") for it in values_of(name, word)]
    if len(set(values)) != len(values):
        raise BadArguments
    return [None if it == "none" else it for it in values]


def crashes(found):
    """The shares that crash, and `cut`."""
    if "crash_cut" not in found:
        return list_of("crash", found)
    shares = list_of("crash", found) if "crash" in found else []
    if "cut" in shares:
        raise BadArguments
    return [*shares, "cut"]


def setting(names, values):
    """The options of a setting."""
    given = dict(zip(names, values))
    if given["crash"] == "cut":
        given["crash"], given["crash_cut"] = 0, True
    return Options(**given)


class Sweep:
    """What a sweep asks for: its settings, how many runs each has, and what is printed."""

    def __init__(self, found):
        judge_pairs(found)
        names = [name for name in OPTIONS if name not in ("seed", "crash_cut")]
        lists = [crashes(found) if name == "crash" else list_of(name, found) for name in names]
        one = {name: number(name, found[name][0]) for name in ("seed", *SWEEP_ONLY) if name in found}
        self.seed, self.runs, self.block = one.get("seed", 0), one.get("runs", 30), one.get("list")
        if max(lists[names.index("prwl")]) > min(lists[names.index("arwl")]):
            raise BadArguments
        if max(sender or 0 for sender in lists[names.index("sender")]) > min(lists[names.index("nodes")]):
            raise BadArguments
        self.is_further = any(len(values) > 1 or values[0] for values in lists[-3:])
        self.count = functools.reduce(lambda product, values: product * len(values), lists, self.runs)
        if self.count > MOST_RUNS:
            raise BadArguments
        self.settings = (setting(names, values) for values in itertools.product(*lists))
        self.reads = found.get("read", [])
        if "at_most_split" in found:
            number("at_most_split", found["at_most_split"][0])
        self.is_open = bool({"summary", "svg", "progress", "at_most_split"} & found.keys()) or "-" in self.reads


def read_sweep(words):
    """What the words after `overlay sweep` ask for."""
    return Sweep(named("sweep", words))


def steps(options):
    """About how many steps of nodes growing takes."""
    rounds = 20 + options.rounds + options.heal + 6 * options.broadcasts
    return options.nodes * rounds


def answer_grow(request):
    """What `overlay grow` should print."""
    options, asks = request
    if steps(options) > MOST_STEPS:
        raise Open
    try:
        growing = Growing(options)
        lines = growing.grow()
        if asks:
            lines += [f"certificate {phase.moment}" for phase in growing.phases]
        return Answer(lines)
    except Refusal as fault:
        return Answer([], f"refused {fault}", 1)


def command_of(options, runs):
    """The command of a block of runs."""
    return options.heading().replace("overlay grow", "overlay sweep", 1) + f" --runs {runs}"


def blocks(sweep):
    """The commands of all blocks."""
    for options in sweep.settings:
        for first in range(0, sweep.runs, sweep.block):
            options.seed = (sweep.seed + first) % SEEDS
            yield command_of(options, min(sweep.block, sweep.runs - first))


def answer_sweep(sweep):
    """What `overlay sweep` should print."""
    if "-" not in sweep.reads and sweep.reads:
        return Answer([], "refused 71", 1)
    if sweep.is_open or sweep.count > MOST_STEPS:
        raise Open
    if sweep.block:
        return Answer(list(blocks(sweep)))
    lines, left = [swept_header(sweep.is_further)], MOST_STEPS
    for options in sweep.settings:
        for run in range(sweep.runs):
            options.seed = (sweep.seed + run) % SEEDS
            left -= steps(options)
            if left < 0:
                raise Open
            growing = Growing(options)
            try:
                growing.grow()
            except Refusal as fault:
                return Answer(lines, f"refused {fault}", 1)
            lines.append(swept_row(options, growing.phases, sweep.is_further))
    return Answer(lines)
