"""`tagzirk each`: what each single crash does."""

from __future__ import annotations

import argparse
import csv
import json
import pathlib
import sys
from dataclasses import dataclass
from typing import TYPE_CHECKING, Any, Dict, List, Optional

from ..contents import is_dump
from ..crashes import Crash, badness, cut_off_by, each
from ..dumps import Dump
from ..errors import BadDump, TagzirkError
from ..graphs import NamedGraph, shown
from ..limits import MOST_HOSTS, USUAL_HOSTS
from ..naming import known_by, short_names, without_hosts
from ..markup import counted
from ..progress import Progress
from ..racks import Loss, fewest_racks, racks_of
from ..reports import Report, analysed
from ..sites import Sites
from ..stale import without_entry
from ..wide import Wide, widest
from ..worst import Cut, Worst, worst
from .telling import (
    rack_line,
    site_lines,
    site_part,
    value_of_crash,
    value_of_loss,
    value_of_notes,
    value_of_wide,
    value_of_worst,
    worst_lines,
)
from .swapped import swapped
from .words import Parents, at_least_one, command, dump_of, some, told

if TYPE_CHECKING:
    from .words import Commands

# So many pairs are shown, or crashes of a large overlay, unless more are asked for.
MOST_PAIRS, MOST_ROWS = 30, 200
MOST_WORST = 10
# Of a large overlay whose crashes cut off more hosts in all, those are named of whom a row has few.
MOST_NAMED = 2_000_000


def add(commands: Commands, parents: Parents) -> None:
    """Adds the words of `each`."""
    text = "tell what each single crash does, of a host or of a rack"
    it = command(commands, "each", run_each, text, parents.dump, parents.at_once)
    it.add_argument("--racks", metavar="RACKS", help="a file of lines HOST RACK: all hosts of a rack crash at once")
    it.add_argument("--pairs", action="store_true", help="every two hosts, or racks, crash together")
    rows = f"print the N worst; without it {MOST_PAIRS} of pairs, and {MOST_ROWS} of more than {USUAL_HOSTS:,} hosts"
    it.add_argument("--rows", type=at_least_one, metavar="N", help=rows)
    it.add_argument("--without", action="append", default=[], metavar="HOSTS", help="as if these had crashed before")
    it.add_argument("--site", metavar="REGEX", help="the site of a host, by its name: `^([a-z]+)-` is hel of hel-7")
    one_form = it.add_mutually_exclusive_group()
    one_form.add_argument("--csv", action="store_true", help="print the table as CSV, and nothing else")
    one_form.add_argument("--json", action="store_true", help="print all of it as JSON, and nothing else")


@dataclass(frozen=True)
class Told:
    """All that is told of crashes, and what one is of: `host`, `rack`, or a pair of these. So many hosts are `cut_off`
    by the cut of the report."""

    kind: str
    dump: Dump
    report: Report[str]
    crashes: List[Crash[str]]
    worst: Worst[str]
    wide: Optional[Wide[str]]
    loss: Optional[Loss[str]]
    sites: Optional[Sites]
    cut_off: int


def run_each(words: argparse.Namespace) -> int:
    """Prints what each single crash does."""
    dump = dump_in(words)
    graph, left_out = without_hosts(dump.graph, words.without, without_entry(dump) if words.without else [])
    racks = racks_in(words.racks, graph, left_out) if words.racks else None
    sites = Sites(words.site, graph.ids) if words.site else None
    kind = "host" if racks is None else "rack"
    with Progress() as progress:
        report: Report[str] = analysed(graph)
        if report.k == 0 and dump.without_entry and not dump.left_out:
            dead = counted(dump.without_entry, "name")
            told(f"k is 0 with {dead} that no entry has, as of dead peers; without --no-entries they are left out")
        crashes = each(graph, racks, report, is_of_pairs=words.pairs, workers=words.workers, progress=progress)
        if words.csv:
            progress.end()
            write_crashes(crashes[: words.rows], most_named(crashes[: words.rows]), f"{kind}s" if words.pairs else kind)
            return 0
        found = worst(graph, report, workers=words.workers, progress=progress)
        known = found.cuts[0].crashed if found.cuts else ()
        wide = widest(graph, report, known, workers=words.workers, progress=progress)
        loss = None if racks is None else fewest_racks(graph, racks, progress)
    crashes = crashes if words.pairs else sorted(crashes, key=lambda it: (*badness(it), -at_stake(it, found)))
    away = len(cut_off_by(graph, {graph.ids[it] for it in report.cut}))
    of = Told(kind, dump, report, crashes, found, wide, loss, sites, away)
    if words.json:
        print(json.dumps(value_of(of, words.rows), ensure_ascii=False))
    else:
        print("\n".join([*lines_of(of), "", *table_of(of, words.pairs, words.rows)]))
    return 0


def dump_in(words: argparse.Namespace) -> Dump:
    """The dump that the words name, if it is not rather the racks."""
    try:
        dump = dump_of(words)
    except TagzirkError as why:
        told = swapped(words)
        raise BadDump(f"{why}\ntip: {told}") if told else why from None
    told = swapped(words)
    if told:
        raise BadDump(told)
    return dump


def at_stake(crash: Crash[str], found: Worst[str]) -> int:
    """How many hosts are cut off by the worst of the smallest cuts that were found with a host that crashes."""
    return max((len(found.of[it].cut_off) for it in crash.hosts if it in found.of), default=0)


def lines_of(of: Told) -> List[str]:
    """What is told above the table."""
    rack = "" if of.loss is None else " The hosts of a rack crash at once; k counts hosts, of any racks."
    worse = of.worst.worse_than(of.report.k, of.cut_off)
    first = f"{cut_first(worse)} The certificate has another one: " if worse else ""
    return [
        f"k is {of.report.k} now: {first}{of.report}{rack}",
        *worst_lines(of.worst, of.report.k, of.sites, MOST_WORST),
        said_of(of.wide),
        *(site_lines(of.sites, of.wide.crashed, of.wide.cut_off) if of.wide else []),
        *([] if of.loss is None else [rack_line(of.loss, of.sites)]),
        *unasked_lines(of),
    ]


def cut_first(cut: Cut[str]) -> str:
    """What the worst of the smallest cuts does, in a sentence."""
    crash = "The crash" if len(cut.crashed) == 1 else "Crashing"
    who = f"of {some(cut.crashed)}" if len(cut.crashed) == 1 else some(cut.crashed)
    return f"{crash} {who} cuts off {counted(len(cut.cut_off), 'host')}, the most of the smallest cuts found."


def unasked_lines(of: Told) -> List[str]:
    """Of how many crashes k was not asked for, in a line, if there are such."""
    number = sum(it.at_least is not None for it in of.crashes)
    kind = counted(number, of.kind)
    return [f"After the crash of {kind} k was not asked for, since there are so many hosts."] if number else []


def said_of(wide: Optional[Wide[str]]) -> str:
    """Which crashes cut off more than one host, in words."""
    if wide is None:
        return "No crashes cut off more than one host."
    who = f"{some(wide.crashed)} cut off {counted(len(wide.cut_off), 'host')}: {some(wide.cut_off)}"
    if not wide.crashed:
        return f"{len(wide.cut_off)} hosts are cut off without any crash: {some(wide.cut_off)}."
    number = counted(len(wide.crashed), "crash", "crashes")
    if wide.is_fewest:
        return f"The fewest crashes that cut off more than one host are {len(wide.crashed)}: {who}."
    between = f"Fewer than {wide.at_least} do not; what lies between is not known."
    return f"{number} cut off more than one host: {who}. {between}"


def name_of(crash: Crash[str]) -> str:
    """The name of a host or a rack, or both names of a pair."""
    return " + ".join(map(shown, crash.name)) if isinstance(crash.name, tuple) else shown(crash.name)


def table_of(of: Told, is_of_pairs: bool, rows: Optional[int]) -> List[str]:
    """The crashes as a table for a person: all, or the worst."""
    is_large = len(of.report.ids) > USUAL_HOSTS
    number = rows or (MOST_PAIRS if is_of_pairs else MOST_ROWS if is_large else len(of.crashes))
    cells = [(f"after the crash of {f'two {of.kind}s' if is_of_pairs else of.kind}", "k", "cut off")]
    for it in of.crashes[:number]:
        rest = "-" if it.at_least is None else f"{it.at_least} or more"
        k = rest if it.k is None else f"{it.k} all linked" if it.is_linked else str(it.k)
        cells.append((name_of(it), k, said_of_crash(it, of)))
    wide = [max(len(row[at]) for row in cells) for at in range(2)]
    lines = [f"{a:{wide[0]}}  {b:{wide[1]}}  {c}" for a, b, c in cells]
    if number < len(of.crashes):
        lines.append(f"and {len(of.crashes) - number} more, none worse; --rows N shows N, --csv and --json have all")
    return lines


def said_of_crash(crash: Crash[str], of: Told) -> str:
    """Who is cut off by a crash, or else by it and what is missing of the worst of the smallest cuts with that host."""
    if crash.cut_off:
        away = tuple(crash.cut_off)
        return f"{counted(len(away), 'host')}: {some(away)}{site_part(of.sites, crash.hosts, away)}"
    cut = of.worst.of.get(crash.hosts[0]) if len(crash.hosts) == 1 else None
    others = [it for it in cut.crashed if it not in crash.hosts] if cut else []
    if not cut or not others:
        return "nobody"
    too = "crashes too" if len(others) == 1 else "crash too"
    return f"nobody; {counted(len(cut.cut_off), 'host')} if {some(others)} {too}"


def most_named(crashes: List[Crash[str]]) -> int:
    """How many hosts a row names at most that a crash cuts off. It is told, if there are rows with more."""
    if sum(len(it.cut_off) for it in crashes) <= MOST_NAMED:
        return MOST_HOSTS
    most = MOST_NAMED // len(crashes)
    rows = counted(sum(len(it.cut_off) > most for it in crashes), "crash cuts", "crashes cut")
    who = f"{rows} off more than {counted(most, 'host')}, who are counted and not named"
    told(f"{who}: --rows N takes the N worst alone")
    return most


def write_crashes(crashes: List[Crash[str]], most: int, kind: str) -> None:
    """Writes the crashes as CSV, for programs. Who is cut off has names, if these are not too many."""
    rows = csv.writer(sys.stdout, lineterminator="\n")
    rows.writerow((kind, "hosts", "k", "all_linked", "cut_off", "names_cut_off"))
    for it in crashes:
        rows.writerow(
            (
                ";".join(map(shown, it.name)) if isinstance(it.name, tuple) else shown(it.name),
                len(it.hosts),
                "" if it.k is None else it.k,
                int(it.is_linked),
                len(it.cut_off),
                ";".join(map(shown, it.cut_off)) if len(it.cut_off) <= most else "",
            )
        )


def value_of(of: Told, rows: Optional[int]) -> Dict[str, Any]:
    """All of it, for JSON."""
    crashes = of.crashes[:rows]
    most = most_named(crashes)
    return {
        "k": of.report.k,
        "all_linked": of.report.is_linked,
        "cut": list(of.worst.cuts[0].crashed if of.worst.cuts else of.report.cut),
        "worst": value_of_worst(of.worst),
        "fewest_that_cut_off_more_than_one": None if of.wide is None else value_of_wide(of.wide),
        "fewest_racks": None if of.loss is None else value_of_loss(of.loss),
        "crashes": [value_of_crash(it, of.sites, most) for it in crashes],
        **value_of_notes(of.dump),
    }


def racks_in(place: str, graph: NamedGraph[str], left_out: List[str]) -> Dict[str, List[str]]:
    """The racks that a file names, with those hosts that are in the dump; a name may be short. Who is in none is told,
    and who is not in the dump."""
    data = pathlib.Path(place).read_bytes()
    tip = f"\ntip: the dump is named without an option, and racks by one: tagzirk each {place} --racks RACKS"
    try:
        racks = racks_of(data.decode("utf-8-sig"), place)
    except UnicodeDecodeError:
        raise BadDump(f"{place}: it is not UTF-8") from None
    except BadDump as why:
        raise BadDump(f"{why}{tip if is_dump(data) else ''}") from None
    if not racks:
        raise BadDump(f"{place}: it names no rack; a line is HOST RACK")
    if 2 * sum(rack in graph.ids and hosts != [rack] for rack, hosts in racks.items()) > len(racks):
        raise BadDump(f"{place}: racks in it have the names of hosts, so it is likely to be the dump{tip}")
    names = {**graph.ids, **dict.fromkeys(left_out, 0)}
    short = short_names(names)
    racks = {rack: [known_by(it, names, short) for it in hosts] for rack, hosts in racks.items()}
    known = {host for hosts in racks.values() for host in hosts}
    here = {rack: [it for it in hosts if it in graph.ids] for rack, hosts in racks.items()}
    if not any(here.values()):
        told_of = tip if is_dump(data) else ""
        raise BadDump(f"{place}: none of its {len(known)} hosts is in the dump, as {shown(min(known))}{told_of}")
    gone = sorted(it for it in known if it not in graph.ids and it not in left_out)
    if gone:
        told(f"{place}: not in the dump, and so passed over: {some(gone)}")
    lost = [host for host in graph.ids if host not in known]
    if lost:
        told(f"in no rack, and so never crashing here: {some(lost)}")
    return {rack: hosts for rack, hosts in here.items() if hosts}
