"""What a page says of other cuts than the one in its picture, and of sites."""

from __future__ import annotations

import html
from typing import Iterable, Optional, Sequence, Tuple

from .markup import counted, joined_html, names_html, table
from .reports import Report
from .sites import Sites, said_of_sites
from .wide import Wide
from .worst import Cut, Worst

# So many hosts of a cut, or that it cuts off, are named.
MOST_NAMES = 8


def sites_hit(sites: Optional[Sites], crashed: Iterable[str], cut_off: Iterable[str], ending: str) -> str:
    """Which sites a crash cuts off, as HTML, or nothing. Names lack the ending that all of them have."""
    whole = ([f"{it}{ending}" for it in names] for names in (crashed, cut_off))
    hit = sites.hit(*whole) if sites else []
    return html.escape(said_of_sites(hit)) if hit else ""


def site_of(sites: Optional[Sites], crashed: Iterable[str], cut_off: Iterable[str], ending: str) -> str:
    """The same as a sentence of its own."""
    said = sites_hit(sites, crashed, cut_off, ending)
    return f"<p>{said[:1].upper()}{said[1:]}.</p>" if said else ""


def of_certificate(report: Report[str], cut_off: Sequence[str], sites: Optional[Sites], ending: str) -> str:
    """What the cut of the certificate does, where a worse one is told first."""
    crash = f"{joined_html(report.cut)} crash{'es' if report.k == 1 else ''}"
    away = counted(len(cut_off), "host is", "hosts are")
    return (
        f"<p>This is the worst of the smallest cuts that were found. Picture and certificate have another one: "
        f"if {crash}, {away} cut off: {names_html(cut_off, MOST_NAMES)}.</p>"
        + site_of(sites, report.cut, cut_off, ending)
    )


def wider_of(wide: Optional[Wide[str]], report: Report[str], found: Worst[str]) -> str:
    """Which crashes cut off more than one host, where no smallest cut is told to do so."""
    told = max((len(it.cut_off) for it in found.cuts), default=0)
    if wide is None or set(wide.crashed) == set(report.cut) or (len(wide.crashed) == report.k and told > 1):
        return ""
    number = counted(len(wide.crashed), "crash", "crashes")
    fewest = "" if wide.is_fewest else f" (fewer than {wide.at_least} do not; what lies between is not known)"
    begin = (
        "As few crashes cut off more than one host"
        if len(wide.crashed) == report.k
        else f"To cut off more than one host takes {number}{fewest}"
    )
    return (
        f"<p>{begin}: if {names_html(wide.crashed, MOST_NAMES)} crash, "
        f"{counted(len(wide.cut_off), 'host')} are cut off: {names_html(wide.cut_off, MOST_NAMES)}.</p>"
    )


def other_cuts(found: Worst[str], report: Report[str], sites: Optional[Sites], ending: str) -> str:
    """The section on the smallest cuts that cut off most, and how complete that is; nothing if there is no other."""
    if report.k == 0 or not found.cuts or (found.found == 1 and found.is_all):
        return ""
    of = counted(report.k, "host")
    number = f"There are {found.found} smallest cuts, of {of} each."
    if not found.is_all:
        cuts = counted(found.found, "smallest cut")
        number = f"{cuts}, of {of} each, were found; there may be others, also worse ones."
    rows = (row(it, sites_hit(sites, it.crashed, it.cut_off, ending)) for it in found.cuts)
    first = "" if len(found.cuts) == found.found else f" These {len(found.cuts)} cut off most."
    head = ("the crash of", "cut off", "pieces", "who")
    return f"<h2>Smallest cuts, the worst first</h2>\n<p>{number}{first}</p>{table(head, rows, (1, 2))}\n"


def row(cut: Cut[str], hit: str) -> Tuple[str, ...]:
    """The cells of one cut."""
    who = names_html(cut.cut_off, MOST_NAMES)
    return joined_html(cut.crashed), str(len(cut.cut_off)), str(cut.pieces), f"{hit}: {who}" if hit else who
