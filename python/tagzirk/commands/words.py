"""What the commands share: words that several of them take, and how they speak to a person."""

from __future__ import annotations

import argparse
import contextlib
import sys
from dataclasses import dataclass, replace
from typing import TYPE_CHECKING, Callable, List, Sequence

from ..asked import Asked
from ..dumps import Dump, Options, read_dump
from ..errors import BadDump
from ..forms import FORMS
from ..graphs import in_line, shown
from ..limits import MOST_HOSTS
from ..outputs import Output, demand_apart
from ..taken import up_of
from .tips import tips

if TYPE_CHECKING:
    Commands = argparse._SubParsersAction[argparse.ArgumentParser]

MOST_NAMES = 8

DUMP_FORMS = """FILE is a dump of what each host lists, in a form of `overlay import`, or as JSON of nodes and links
(networkx, d3, NetJSON, cytoscape), objects or lists of hosts with their peers, JSON lines, YAML, a table (CSV; of psql,
mysql, Markdown), lines with weights, `;` or arrows, lists of neighbours, GraphML, GEXF, GML, Pajek, METIS, DIMACS and
others that --form names; or any of these packed by gzip. """
READS = f"""{DUMP_FORMS}Several files, or a folder, are one file a
host, whose name is the host's. Without FILE, or with -, standard input is read. Notes on the dump go to standard error.
"""
READS_MANY = f"""{DUMP_FORMS}Each FILE is a dump; one folder stands
for the dumps in it. Notes on the dumps go to standard error.
"""


@dataclass(frozen=True)
class Parents:
    """Words that commands have in common: how a dump is read, how many questions are asked at once, and whether a file
    that is written may be one of somebody else."""

    dump: argparse.ArgumentParser
    at_once: argparse.ArgumentParser
    forced: argparse.ArgumentParser


def common_words() -> Parents:
    """The words that commands have in common."""
    dump = argparse.ArgumentParser(add_help=False)
    dump.add_argument("--either", action="store_true", help="link two hosts also if only one of them lists the other")
    entries = "leave out names that others list, and that have no entry, as all commands but `import` do by themselves"
    dump.add_argument("--entries", action=argparse.BooleanOptionalAction, default=None, help=entries)
    forms = f"the form of the dump, if the dump itself is not to decide: {', '.join(FORMS)}"
    dump.add_argument("--form", choices=FORMS, metavar="FORM", help=forms)
    dump.add_argument("--by", metavar="FIELD", help="the field of an object that names its host")
    ends = "the columns or fields that are both ends of a link, by name, or of a table by number, as 1,3"
    dump.add_argument("--columns", metavar="FROM,TO", help=ends)
    dump.add_argument("--peers", metavar="KEY", help="the key below which the peers of each host stand in JSON")
    dump.add_argument("--links", metavar="KEY", help="the key below which all links stand in JSON")
    dump.add_argument(
        "--up",
        action="append",
        default=[],
        type=up_words,
        metavar="FIELD=VALUE[,VALUE]",
        help="take only what has one of these values in this field, and leave out what is down; may be repeated",
    )
    dump.add_argument("--skip", type=at_least_one, default=0, metavar="N", help="pass over the first N lines")
    dump.add_argument("--all", action="store_true", help="take all listings and links, whatever state is said of them")
    dump.add_argument(
        "--only",
        action="append",
        default=[],
        metavar="PATTERN",
        help="look at hosts with such names alone, as 'ams-*', and at the links between them; may be repeated",
    )
    at_once = argparse.ArgumentParser(add_help=False)
    at_once.add_argument(
        "--workers",
        type=at_least_one,
        metavar="N",
        help="ask so many questions at once; without it, as many as there are processors",
    )
    forced = argparse.ArgumentParser(add_help=False)
    forced.add_argument("--force", action="store_true", help="write over a file that this command did not write")
    return Parents(dump, at_once, forced)


def command(
    commands: Commands,
    name: str,
    run: Callable[[argparse.Namespace], int],
    text: str,
    *parents: argparse.ArgumentParser,
    is_of_many: bool = False,
) -> argparse.ArgumentParser:
    """Adds a command that reads a dump, or one of many dumps."""
    made = commands.add_parser(
        name,
        help=text,
        description=f"{text[0].upper()}{text[1:]}.",
        epilog=READS_MANY if is_of_many else READS,
        parents=parents,
    )
    files = "a dump, or a folder of dumps" if is_of_many else "the dump, or one file a host"
    made.add_argument("files", nargs="+" if is_of_many else "*", metavar="FILE", help=files)
    made.set_defaults(run=run, name=name)
    return made


def up_words(text: str) -> str:
    """What `--up` takes, as somebody typed it."""
    try:
        up_of(text)
    except BadDump as why:
        raise argparse.ArgumentTypeError(str(why)) from None
    return text


def at_least_one(text: str) -> int:
    """A number of hosts, links or questions that somebody typed."""
    number = int(text) if text.isascii() and text.isdigit() else 0
    if not 1 <= number <= MOST_HOSTS:
        raise argparse.ArgumentTypeError(f"it takes a number from 1 to {MOST_HOSTS}, and not {text!r}")
    return number


def told(text: str) -> None:
    """Says something to the person, on standard error, below what is printed. Control characters are shown as codes.
    Where standard error is closed or full, it is lost."""
    sys.stdout.flush()
    with contextlib.suppress(OSError):
        print("\n".join(map(in_line, text.split("\n"))), file=sys.stderr, flush=True)


def some(names: Sequence[object]) -> str:
    """Names in words, the first eight."""
    first = ", ".join(map(shown, names[:MOST_NAMES]))
    return first if len(names) <= MOST_NAMES else f"{first} and {len(names) - MOST_NAMES} more"


def options_of(words: argparse.Namespace) -> Options:
    """How the dump is read."""
    asked = Asked(words.form, words.by, words.columns, words.peers, words.links, tuple(words.up), words.all, words.skip)
    return Options(words.either, words.entries, asked, tuple(words.only))


def places_of(words: argparse.Namespace) -> List[str]:
    """The files of the dump, or standard input. Standard output goes to no file that is read."""
    racks = vars(words).get("racks")
    demand_apart([*words.files, racks] if racks else words.files)
    return words.files or ["-"]


def dump_of(words: argparse.Namespace) -> Dump:
    """The dump that the words name, for a question about the overlay. Its notes are told, and who was left out."""
    dump = read_dump(places_of(words), options_of(words).living)
    if words.entries is None and dump.left_out:
        who = "it has no entry" if dump.left_out == 1 else f"these {dump.left_out} have no entry"
        dump = replace(dump, notes=(*dump.notes, f"left out, as dead, since {who}; --no-entries takes them in"))
    tell_notes(dump)
    return dump


def tell_notes(dump: Dump) -> None:
    """Tells the notes on a dump."""
    for note in dump.notes:
        told(note)


def fault(words: argparse.Namespace, text: str) -> None:
    """Says what could not be done, and what may help."""
    told("\n".join([f"tagzirk {words.name}: {text}", *(f"tip: {it}" for it in tips(words, text))]))


def output(words: argparse.Namespace, option: str, place: str, mark: str, inputs: Sequence[str]) -> Output:
    """The file that an option names, at which nothing is lost that the command reads or did not write."""
    made = Output(words.name, option, place, (mark,))
    made.demand_free(inputs, words.force)
    return made
