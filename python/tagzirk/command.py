"""The command tagzirk: its parser, and its status."""

from __future__ import annotations

import argparse
import contextlib
import io
import os
import signal
import sys
import threading
from typing import Dict, Iterator, List, NoReturn, Optional, Sequence, Tuple

from . import slips
from .commands import collecting, diff, each, history, importing, mending, metrics, report, status
from .commands.words import READS, common_words, fault, told
from .errors import TagzirkError, in_words
from .programs import end_all
from .proofs import versions

# The commands, in the order in which help shows them.
COMMANDS = (status, diff, importing, mending, each, history, metrics, report, collecting)
DESCRIPTION = "From a dump of a running overlay to answers that overlay-check confirmed, and to remedies."
START = """Start here: `tagzirk status FILE` tells in names how few crashes split the overlay of which FILE is a dump,
and `tagzirk report FILE > report.html` makes a page of it. `tagzirk COMMAND --help` has the options of a command,
`tagzirk --help` the forms of dumps, and `tagzirk --version` the programs that are asked."""


class Parser(argparse.ArgumentParser):
    """A parser that says at the end what was wrong, and what may be meant."""

    def error(self, message: str) -> NoReturn:
        wrong(self, slips.of_fault(message))

    @property
    def options(self) -> List[str]:
        """All words that begin with a dash."""
        return [it for action in self._actions for it in action.option_strings]


def wrong(parser: argparse.ArgumentParser, lines: Sequence[str]) -> NoReturn:
    """Ends with status 2: the words of the parser, and below them what is wrong."""
    first, *tips = lines
    told("\n".join([parser.format_usage().rstrip(), f"{parser.prog}: {first}", *(f"tip: {it}" for it in tips)]))
    raise SystemExit(2)


def parsers() -> Tuple[Parser, Dict[str, Parser]]:
    """The parser of the command, and that of each of its commands."""
    main = Parser(prog="tagzirk", description=DESCRIPTION, epilog=f"{START} {READS}")
    main.add_argument("--version", "-V", action="store_true", help="say the version, and which programs are asked")
    commands = main.add_subparsers(metavar="COMMAND", required=True, parser_class=Parser)
    parents = common_words()
    for it in COMMANDS:
        it.add(commands, parents)
    return main, dict(commands.choices)


def begun(main: Parser, words: Sequence[str]) -> None:
    """Says what stands before any command: where to start, help, and the version."""
    first = words[0] if words else ""
    if first in ("--version", "-V", "version"):
        sys.stdout.write(versions())
        raise SystemExit(0)
    if first == "help" and len(words) == 1:
        first = "--help"
    if first in ("--help", "-h"):
        main.print_help(sys.stdout)
        raise SystemExit(0)
    if not words:
        told(f"{main.format_help().partition('Start here')[0].rstrip()}\n\n{START}")
        raise SystemExit(2)


def asked(given: Sequence[str]) -> argparse.Namespace:
    """What the words ask for. Slips are told, with status 2."""
    main, commands = parsers()
    begun(main, given)
    words = [*given[1:2], "--help"] if given[0] == "help" else list(given)
    name = words[0]
    if name not in commands:
        wrong(main, slips.of_command(name, words[1:], list(commands)))
    found, unknown = commands[name].parse_known_args(words[1:])
    wrong_options = [it for it in unknown if it.startswith("-") and it != "-"]
    if wrong_options:
        options = {other: parser.options for other, parser in commands.items()}
        wrong(commands[name], slips.of_option(wrong_options[0], name, options))
    # files that stand behind options
    found.files = [*found.files, *unknown]
    twice = [it for it in found.files if found.files.count(it) > 1]
    if twice:
        wrong(commands[name], [f"{'standard input' if twice[0] == '-' else twice[0]} is named twice"])
    return found


@contextlib.contextmanager
def ended_in_order() -> Iterator[None]:
    """Lets SIGTERM end the command as an interrupt does, so that programs it started end too and no part of a file
    stays."""
    if threading.current_thread() is not threading.main_thread():
        yield
        return

    def end(number: int, _: object) -> None:
        end_all(128 + number)

    before = signal.signal(signal.SIGTERM, end)
    try:
        yield
    finally:
        signal.signal(signal.SIGTERM, before)


def main(given: Optional[Sequence[str]] = None) -> int:
    """Runs the command with these words: its status, as those of the two programs. 0 if it reached its end, 1 if
    something could not be done, and 2 if the words are wrong."""
    # Python has no stream in the place of one that is closed
    sys.stderr = sys.stderr or io.StringIO()
    closed = None if sys.stdout else io.StringIO()
    sys.stdout = closed or sys.stdout
    for stream in (sys.stdout, sys.stderr):
        if isinstance(stream, io.TextIOWrapper):
            # as the programs print, whatever the system prefers
            stream.reconfigure(encoding="utf-8", errors="backslashreplace", newline="\n")
    given = sys.argv[1:] if given is None else given
    with ended_in_order():
        try:
            words = asked(given)
        except SystemExit as end:
            if end.code and status.is_alarm(given):
                return status.unknown("these words are wrong, as standard error says")
            raise
        return ended(words, closed)


def ended(words: argparse.Namespace, closed: Optional[io.StringIO]) -> int:
    """Does what the words ask for. `closed` stands in the place of a standard output that is closed."""
    try:
        reached: int = words.run(words)
        sys.stdout.flush()
        if closed and closed.getvalue():
            raise OSError("standard output is closed")
        return reached
    except BrokenPipeError:
        # nobody reads standard output any more, and Python is not to try again
        os.dup2(os.open(os.devnull, os.O_WRONLY), sys.stdout.fileno())
        return 1
    except (OSError, TagzirkError) as why:
        fault(words, in_words(why))
    except KeyboardInterrupt:
        return 130
    return 1
