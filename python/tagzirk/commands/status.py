"""`tagzirk status`: k, the cut, and who is cut off; and a status for an alarm."""

from __future__ import annotations

import argparse
import json
from typing import TYPE_CHECKING, Any, Dict, List, Optional, Sequence

from ..errors import BadDump, in_words
from ..graphs import in_line
from ..markup import MOST_DOUBT, counted
from ..progress import Progress
from ..sites import Sites
from ..status import OK, UNKNOWN, WORDS, Dead, Status, pieces_after, status
from ..worst import Cut
from .telling import site_lines, value_of_notes, value_of_site, value_of_worst, worst_lines
from .words import Parents, at_least_one, command, fault, options_of, places_of, some, tell_notes

if TYPE_CHECKING:
    from .words import Commands

NAMES = ("status", "analyse")
MOST_WORST = 3


def add(commands: Commands, parents: Parents) -> None:
    """Adds the words of `status`, which is also called `analyse`."""
    for name in NAMES:
        text = "tell k, a smallest cut, who is cut off then, and what dead peers do to it"
        it = command(commands, name, run_status, text, parents.dump, parents.at_once)
        it.add_argument(
            "--at-least",
            type=at_least_one,
            metavar="K",
            help="the first line and the status are for Nagios: 0 if k is K or more, 1 if it is less, or if some that "
            "count may be down, 2 if it is 0, 3 if there is no answer",
        )
        it.add_argument(
            "--without", action="append", default=[], metavar="HOSTS", help="as if these had crashed; @FILE is a list"
        )
        group = "only these must stay joined; @FILE is a list"
        it.add_argument("--group", action="append", metavar="HOSTS", help=group)
        it.add_argument("--site", metavar="REGEX", help="the site of a host, by its name: `^([a-z]+)-` is hel of hel-7")
        it.add_argument("--json", action="store_true", help="print all of it as JSON, and nothing else")


def is_alarm(given: Sequence[str]) -> bool:
    """Whether words ask for a status for an alarm, so that a fault of theirs has the status of such a one."""
    return bool(given) and given[0] in NAMES and any(it.startswith("--at-least") for it in given)


def unknown(text: str) -> int:
    """Says on standard output that there is no answer: the status for an alarm."""
    first, *more = text.split("\n")
    print("\n".join([f"{WORDS[UNKNOWN]} - {in_line(first)}", *map(in_line, more)]))
    return UNKNOWN


def run_status(words: argparse.Namespace) -> int:
    """Prints what the dump says. With `--at-least` a fault is told on standard output too."""
    try:
        return tell(words)
    except Exception as why:
        if words.at_least is None:
            raise
        # whatever a dump does, an alarm must hear of it
        fault(words, in_words(why))
        return unknown(in_words(why))


def tell(words: argparse.Namespace) -> int:
    """The same without a word of faults."""
    options, places = options_of(words), places_of(words)
    with Progress() as progress:
        it = status(places, options, words.without, words.group, workers=words.workers, progress=progress)
    tell_notes(it.dump)
    sites = Sites(words.site, it.graph.ids) if words.site else None
    level = None if words.at_least is None else it.level(words.at_least)
    if level == UNKNOWN:
        raise BadDump(f"--at-least says nothing of a group of one host, {some(it.report.group or ())}, whose k is 0")
    if words.json:
        print(json.dumps(value_of(it, sites, words.at_least), ensure_ascii=False))
    else:
        lines = lines_of(it, sites)
        if level is not None:
            # figures stand behind the first |, so none may stand in a name
            first = f"{WORDS[level]}{doubt_of(it, words.at_least)} - {lines[0]}"
            lines[0] = f"{first.replace('|', '/')}|{figures_of(it, words.at_least)}"
        print("\n".join(lines))
    return level or 0


def doubt_of(it: Status, at_least: int) -> str:
    """Why k may be too high that is high enough, behind the word of the status; nothing, if nothing says so."""
    if not it.doubts or it.report.k < at_least:
        return ""
    told = in_line(it.doubts[0])
    return f", {'but ' * (it.level(at_least) == OK)}{told if len(told) <= MOST_DOUBT else told[:MOST_DOUBT] + '..'}"


def figures_of(it: Status, at_least: int) -> str:
    """What Nagios and its like draw: k, with the bounds of the alarm, and how many hosts and links there are."""
    return f"k={it.report.k};{at_least}:;1:;0 hosts={len(it.graph.ids)};;;0 links={len(it.graph.links)};;;0"


def lines_of(it: Status, sites: Optional[Sites]) -> List[str]:
    """What the dump says, in lines for a person."""
    report, cut = it.report, cut_told(it)
    lines = [head_of(it, cut)]
    if cut.cut_off:
        lines.append(f"Cut off{' then' if report.k else ''}: {some(cut.cut_off)}.")
        lines += site_lines(sites, cut.crashed, cut.cut_off)
    lines += worst_lines(it.worst, report.k, sites, MOST_WORST) if it.worst else []
    if it.left_out:
        lines.append(f"Left out, as --without says: {some(it.left_out)}.")
    return lines + dead_lines(it)


def cut_told(it: Status) -> Cut[str]:
    """The cut that is told first: the worst of the smallest ones that were found, or that of the certificate."""
    if it.worst and it.worst.cuts:
        return it.worst.cuts[0]
    return Cut(it.report.cut, () if it.report.group else it.cut_off, len(it.pieces))


def head_of(it: Status, cut: Cut[str]) -> str:
    """The first line: k, and what it means."""
    report, hosts = it.report, counted(len(it.graph.ids), "host")
    if len(it.graph.ids) == 1:
        return f"k is 0: there is one host alone, {some(list(it.graph.ids))}."
    if report.group is not None and len(report.group) == 1:
        return f"k is 0: the group is one host alone, {some(report.group)}, and no crash parts it from another member."
    if report.is_linked:
        who = hosts if report.group is None else f"the {counted(len(report.group), 'host')} of the group"
        return f"k is {report.k}: every two of {who} are linked, so no crash parts two that survive."
    if report.group is not None:
        return f"k is {report.k} for the {counted(len(report.group), 'host')} of the group: {report}"
    away = counted(len(cut.cut_off), "host")
    if report.k == 0:
        return f"k is 0: the overlay is split now. Of {hosts}, {away} can't reach the largest piece."
    fewer = "." if report.k == 1 else ", and fewer crashes cut off nobody."
    return f"k is {report.k}: of {hosts}, a crash of {some(cut.crashed)} cuts off {away}{fewer}"


def dead_lines(it: Status) -> List[str]:
    """What names do to k that are listed and have no entry."""
    if it.dead is None:
        # of those that --without names this is told above
        number = it.dump.left_out - sum(name not in it.dump.graph.ids for name in it.left_out)
        return [f"Left out, as --entries says: {counted(number, 'name')} without an entry."] if number else []
    number = len(it.dead.names) or it.dump.without_entry or 0
    who = some(it.dead.names) if it.dead.names else counted(number, "name")
    left_out = f"{who}: listed by others, without an entry, and so left out, as dead (--no-entries takes them in)"
    if it.dead.report is None:
        return [f"{left_out}. What k is with {'it' if number == 1 else 'them'} can't be said: {it.dead.fault}"]
    return [f"{left_out}. With {'it' if number == 1 else 'them'} k is {it.dead.report.k}."]


def value_of(it: Status, sites: Optional[Sites], at_least: Optional[int]) -> Dict[str, Any]:
    """All of it, for JSON."""
    report, cut = it.report, cut_told(it)
    pieces = it.pieces if cut.crashed == report.cut else pieces_after(cut.crashed, it.graph)
    value: Dict[str, Any] = {
        "dump": it.dump.name,
        "hosts": len(it.graph.ids),
        "links": len(it.graph.links),
        "k": report.k,
        "all_linked": report.is_linked,
        "cut": list(cut.crashed),
        "group": None if report.group is None else list(report.group),
        "pieces": [list(piece) for piece in pieces],
        "cut_off": [name for piece in pieces[1:] for name in piece],
        "worst": value_of_worst(it.worst) if it.worst else None,
        "left_out": list(it.left_out),
        "one_sided": it.dump.one_sided,
        "without_entry": it.dump.without_entry,
        "with_dead": None if it.dead is None else value_of_dead(it.dead),
        **value_of_notes(it.dump),
    }
    if sites:
        value["sites"] = list(map(value_of_site, sites.hit(cut.crashed, cut.cut_off)))
    if at_least is not None:
        value.update(at_least=at_least, status=WORDS[it.level(at_least)])
    return value


def value_of_dead(dead: Dead) -> Dict[str, Any]:
    """Dead peers, for JSON."""
    return {"names": list(dead.names), "k": dead.report.k if dead.report else None, "fault": dead.fault or None}
