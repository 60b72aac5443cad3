"""The options of growing, by the table of docs/GROWING.md, for the commands of this folder."""

import argparse
from dataclasses import dataclass, fields
from typing import Optional

# The parameters of nodes are judged together, as `Params::new` does; these are their limits.
LARGEST_ACTIVE, LARGEST_PASSIVE, LONGEST_WALK, LARGEST_SAMPLE, LONGEST_SHUFFLE = 16, 64, 15, 8, 15
SEEDS = 2**64


@dataclass
class Options:
    """The options that say how an overlay is grown, in the order of the table."""

    nodes: int = 100
    active: int = 5
    passive: int = 30
    arwl: int = 6
    prwl: int = 3
    ka: int = 3
    kp: int = 4
    ttl: int = 4
    refill: str = "never"
    seed: int = 0
    loss_join: int = 0
    loss: int = 0
    repeat: int = 0
    order: str = "random"
    pace: Optional[int] = None
    rounds: int = 3
    crash: int = 0
    crash_cut: bool = False
    heal: int = 2
    broadcasts: int = 0
    sequential: bool = False
    sender: Optional[int] = None
    detect: bool = False

    def params(self):
        """The numbers among the parameters of nodes, in the order of a line `params`."""
        return self.active, self.passive, self.arwl, self.prwl, self.ka, self.kp, self.ttl

    def heading(self):
        """The command that says these options: each that is not at its default."""
        words = ["overlay grow"]
        for field in fields(self):
            value = getattr(self, field.name)
            if value == field.default:
                continue
            words.append("--" + field.name.replace("_", "-"))
            if value is not True:
                words.append(str(value))
        return " ".join(words)


# The least and the largest value of each option that is a number.
LIMITS = {
    "nodes": (1, 32768),
    "active": (1, LARGEST_ACTIVE),
    "passive": (1, LARGEST_PASSIVE),
    "arwl": (0, LONGEST_WALK),
    "prwl": (0, LONGEST_WALK),
    "ka": (0, LARGEST_SAMPLE),
    "kp": (0, LARGEST_SAMPLE),
    "ttl": (1, LONGEST_SHUFFLE),
    "seed": (0, SEEDS - 1),
    "loss_join": (0, 100),
    "loss": (0, 100),
    "repeat": (0, 99),
    "pace": (0, 65536),
    "rounds": (0, 1000),
    "crash": (0, 99),
    "heal": (0, 1000),
    "broadcasts": (0, 1000),
    "sender": (1, 32768),
}

# The words of each option that takes a word.
CHOICES = {"refill": ("never", "alone", "always"), "order": ("random", "oldest")}


def within(least, most):
    """What reads a number within limits."""

    def read(text):
        if not text.isdecimal() or not least <= int(text) <= most:
            raise argparse.ArgumentTypeError(f"{text!r} is no number from {least} to {most}")
        return int(text)

    return read


def add_options(parser):
    """Adds the options of the table to a parser of arguments."""
    crash = parser.add_mutually_exclusive_group()
    for field in fields(Options):
        place = crash if field.name.startswith("crash") else parser
        name = "--" + field.name.replace("_", "-")
        if field.default is False:
            place.add_argument(name, action="store_true")
        elif field.name in CHOICES:
            place.add_argument(name, choices=CHOICES[field.name], default=field.default)
        else:
            place.add_argument(name, type=within(*LIMITS[field.name]), default=field.default)


def options_of(parser, given):
    """The options that arguments give."""
    options = Options(**{field.name: getattr(given, field.name) for field in fields(Options)})
    if options.prwl > options.arwl:
        parser.error("--prwl is larger than --arwl")
    if options.sender is not None and options.sender > options.nodes:
        parser.error("--sender is larger than --nodes")
    return options
