"""`tagzirk metrics`: the numbers of a dump for Prometheus."""

from __future__ import annotations

import argparse
from typing import TYPE_CHECKING, Any, Optional

from ..gauges import MARK, label_of, metrics
from .words import Parents, command, fault, options_of, output, places_of, told

if TYPE_CHECKING:
    from .words import Commands


class Label(argparse.Action):
    """Takes in a label. A second one of its name would take its place, and so is refused."""

    def __call__(
        self,
        parser: argparse.ArgumentParser,
        namespace: argparse.Namespace,
        values: Any,
        option_string: Optional[str] = None,
    ) -> None:
        name, value = values
        before = vars(namespace)[self.dest]
        if name in before:
            raise argparse.ArgumentError(self, f"there are two values of {name}, {before[name]} and {value}")
        setattr(namespace, self.dest, {**before, name: value})


def add(commands: Commands, parents: Parents) -> None:
    """Adds the words of `metrics`."""
    text = "write the numbers of a dump for Prometheus"
    it = command(commands, "metrics", run_metrics, text, parents.dump, parents.forced)
    it.add_argument("--textfile", metavar="TEXTFILE", required=True, help="the file to write; - is standard output")
    it.add_argument(
        "--label",
        action=Label,
        default={},
        type=label_of,
        metavar="NAME=VALUE",
        help="a label of all metrics, as overlay=prod, so that several overlays are told apart; may be repeated",
    )


def run_metrics(words: argparse.Namespace) -> int:
    """Writes the metrics, also those that say that there is no answer."""
    textfile = output(words, "--textfile", words.textfile, MARK, words.files)
    made = metrics(places_of(words), options_of(words), labels=words.label)
    textfile.write(made.text)
    for doubt in made.doubts:
        told(doubt)
    if made.fault:
        fault(words, made.fault)
    return 1 if made.fault else 0
