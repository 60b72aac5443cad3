"""`tagzirk diff`: what changed between two dumps, and what of it lowered k."""

from __future__ import annotations

import argparse
import json
from typing import TYPE_CHECKING, Any, Dict, List, Sequence, Tuple

from ..difference_pages import FIRST_LINE, difference_page
from ..differences import Difference, Link, Side, differences
from ..graphs import shown
from ..markup import counted
from ..progress import Progress
from .telling import value_of_notes
from .words import Parents, command, options_of, output, places_of, some, told

if TYPE_CHECKING:
    from .words import Commands

MOST_LINES = 20


def add(commands: Commands, parents: Parents) -> None:
    """Adds the words of `diff`."""
    text = "tell what changed between two dumps, OLD and NEW, and what of it lowered k"
    it = command(commands, "diff", run_diff, text, parents.dump, parents.forced, is_of_many=True)
    it.usage = "tagzirk diff [OPTIONS] OLD NEW"
    it.add_argument("--json", action="store_true", help="print all of it as JSON, and nothing else")
    it.add_argument("--html", metavar="PAGE", help="write a page of HTML too; - prints it, and nothing else")


def run_diff(words: argparse.Namespace) -> int:
    """Prints what changed."""
    if len(words.files) != 2:
        number = len(words.files)
        taken = f"; --html took {words.html} as the page to write" if words.html else ""
        told(f"tagzirk diff takes two dumps, OLD and NEW, and not {number}; a folder of one file a host is one{taken}")
        return 2
    places = places_of(words)
    page = output(words, "--html", words.html, FIRST_LINE, places) if words.html else None
    with Progress() as progress:
        it = differences(places[:1], places[1:], options_of(words), progress=progress)
    for side in it.old, it.new:
        for note in side.dump.notes:
            told(note if note.startswith(side.dump.name) else f"{side.dump.name}: {note}")
    if words.json and words.html != "-":
        print(json.dumps(value_of(it), ensure_ascii=False))
    elif words.html != "-":
        print("\n".join(lines_of(it)))
    if page:
        page.write(difference_page(it))
    return 0


def lines_of(it: Difference) -> List[str]:
    """What changed, in lines for a person."""
    then, now = it.old.report.k, it.new.report.k
    change = "as before" if then == now else f"and was {then}"
    lines = [
        f"k is {now}, {change}.",
        f"Then: {said_of_side(it.old)}",
        f"Now: {said_of_side(it.new)}",
        f"Went: {said_of_changes(it.hosts_went, it.links_went)}",
        f"Came: {said_of_changes(it.hosts_came, it.links_came)}",
    ]
    return lines + (cause_lines(it) if it.is_lower else [])


def said_of_side(side: Side) -> str:
    """What one dump says, in a line."""
    report, cut = side.report, side.cut
    size = f"{counted(len(side.graph.ids), 'host')}, {counted(len(side.graph.links), 'link')}"
    if report.is_linked:
        return f"{size}; every two hosts are linked."
    away = f"{counted(len(cut.cut_off), 'host')}: {some(cut.cut_off)}"
    if report.k == 0:
        return f"{size}; split without any crash, which cuts off {away}."
    return f"{size}; a crash of {some(cut.crashed)} cuts off {away}."


def said_of_changes(hosts: Sequence[str], links: Sequence[Link]) -> str:
    """Hosts and links, in a line."""
    parts = [f"{counted(len(hosts), 'host')}: {some(hosts)}"] if hosts else []
    if links:
        parts.append(f"{counted(len(links), 'link')} between hosts of both: {some(list(map(link_told, links)))}")
    return f"{'; '.join(parts)}." if parts else "nothing."


def link_told(link: Tuple[str, ...]) -> str:
    """A link, or a host, by name."""
    return " - ".join(map(shown, link))


def cause_lines(it: Difference) -> List[str]:
    """What of all that changed lowered k."""
    then, lines = it.old.report.k, []  # type: int, List[str]
    if it.restoring:
        lines.append(f"Each of these alone, put back, gives k {then} again:")
        lines += [f"  {'host' if len(them) == 1 else 'link'} {link_told(them)}" for them in it.restoring[:MOST_LINES]]
        if len(it.restoring) > MOST_LINES:
            lines.append(f"  and {len(it.restoring) - MOST_LINES} more; --json has all")
    elif it.hosts_went or it.links_went:
        lines.append(f"Nothing that went gives k {then} again if it alone is put back.")
    if it.untried:
        lines.append(f"{counted(it.untried, 'change')} more might: they were not tried, since there are so many hosts.")
    if it.burdening:
        lines.append(f"Without one of these, which came, k is {then} or more: {some(it.burdening)}.")
    if it.with_all_back is not None and (it.hosts_went or it.links_went) and not it.restoring:
        lines.append(f"With all that went put back k is {it.with_all_back}.")
    return lines


def value_of(it: Difference) -> Dict[str, Any]:
    """All of it, for JSON."""
    return {
        "old": value_of_side(it.old),
        "new": value_of_side(it.new),
        "hosts_went": list(it.hosts_went),
        "hosts_came": list(it.hosts_came),
        "links_went": [list(link) for link in it.links_went],
        "links_came": [list(link) for link in it.links_came],
        "restoring": [{"host": them[0]} if len(them) == 1 else {"link": list(them)} for them in it.restoring],
        "burdening": list(it.burdening),
        "k_with_all_back": it.with_all_back,
        **({"untried": it.untried} if it.untried else {}),
    }


def value_of_side(side: Side) -> Dict[str, Any]:
    """One dump, for JSON."""
    return {
        "dump": side.dump.name,
        "hosts": len(side.graph.ids),
        "links": len(side.graph.links),
        "k": side.report.k,
        "all_linked": side.report.is_linked,
        "cut": list(side.cut.crashed),
        "cut_off": list(side.cut.cut_off),
        **value_of_notes(side.dump),
    }
