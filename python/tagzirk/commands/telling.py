"""How cuts, sites and racks are told to a person, and as JSON."""

from __future__ import annotations

from typing import Any, Dict, Iterable, List, Optional

from ..crashes import Crash
from ..dumps import Dump
from ..markup import counted
from ..racks import Loss
from ..sites import Site, Sites, said_of_sites
from ..taken import doubts_in
from ..wide import Wide
from ..worst import Cut, Worst
from .words import some


def sentence(text: str) -> str:
    """A sentence, with its first letter large."""
    return f"{text[:1].upper()}{text[1:]}."


def site_lines(sites: Optional[Sites], crashed: Iterable[str], cut_off: Iterable[str]) -> List[str]:
    """Which sites are cut off, in a line, if sites are asked for."""
    hit = sites.hit(crashed, cut_off) if sites else []
    return [sentence(said_of_sites(hit))] if hit else []


def site_part(sites: Optional[Sites], crashed: Iterable[str], cut_off: Iterable[str]) -> str:
    """The same as the last part of a sentence."""
    hit = sites.hit(crashed, cut_off) if sites else []
    return f"; {said_of_sites(hit)}" if hit else ""


def said_of_cut(cut: Cut[str], sites: Optional[Sites]) -> str:
    """What a cut does, in words."""
    away = f"{some(cut.crashed)}: {counted(len(cut.cut_off), 'host')} cut off"
    pieces = f", in {counted(cut.pieces - 1, 'piece')}" if cut.pieces > 2 else ""
    return f"{away}{pieces}{site_part(sites, cut.crashed, cut.cut_off)}"


def worst_lines(found: Worst[str], k: int, sites: Optional[Sites], most: int) -> List[str]:
    """Which of the smallest cuts cut off most, in lines, and how complete that is."""
    if not found.cuts or k == 0:
        return []
    if found.is_all and found.found == 1:
        return ["No other single crash cuts off anybody." if k == 1 else f"No other {k} crashes cut off anybody."]
    number = "all" if found.is_all else "those found; there may be others, which cut off more"
    head = f"{counted(found.found, 'smallest cut')}, of {counted(k, 'host')} each ({number}). The worst:"
    return [head, *(f"  {said_of_cut(it, sites)}" for it in found.cuts[:most])]


def rack_line(loss: Loss[str], sites: Optional[Sites]) -> str:
    """The fewest racks whose loss splits the overlay, in a sentence."""
    if loss.racks is None:
        if loss.tried == 1:
            return "No rack splits the overlay if it is lost, which was tried of all; more at once were not tried."
        return f"No {loss.tried} racks split the overlay if they are lost, which was tried of all."
    if not loss.racks:
        return f"It is split without the loss of any rack: {counted(len(loss.cut_off), 'host')} cut off."
    hosts = f"{counted(len(loss.cut_off), 'host')}: {some(loss.cut_off)}"
    others = f" ({loss.number} such sets of racks; this one cuts off most)" if loss.number > 1 else ""
    hit = site_part(sites, loss.crashed, loss.cut_off)
    racks = "rack" if len(loss.racks) == 1 else "racks"
    fewest = f"The fewest racks whose loss splits it are {len(loss.racks)}"
    return f"{fewest}: {racks} {some(loss.racks)} cut off {hosts}{hit}{others}."


def value_of_notes(dump: Dump) -> Dict[str, Any]:
    """The notes on a dump, and those of them by which k may be too high, for JSON."""
    return {"notes": list(dump.notes), "doubts": doubts_in(dump.notes)}


def value_of_cut(cut: Cut[str]) -> Dict[str, Any]:
    """A cut, for JSON."""
    return {"crashed": list(cut.crashed), "cut_off": list(cut.cut_off), "pieces": cut.pieces}


def value_of_worst(found: Worst[str]) -> Dict[str, Any]:
    """The worst of the smallest cuts, for JSON."""
    return {"found": found.found, "is_all": found.is_all, "cuts": list(map(value_of_cut, found.cuts))}


def value_of_site(site: Site) -> Dict[str, Any]:
    """What a crash does to a site, for JSON."""
    return {
        "site": site.name,
        "hosts": site.hosts,
        "crashed": site.crashed,
        "cut_off": site.cut_off,
        "is_cut_off": site.is_cut_off,
    }


def value_of_wide(wide: Wide[str]) -> Dict[str, Any]:
    """The fewest crashes that cut off more than one host, for JSON."""
    return {
        "crashed": list(wide.crashed),
        "cut_off": list(wide.cut_off),
        "is_fewest": wide.is_fewest,
        "at_least": wide.at_least,
    }


def value_of_loss(loss: Loss[str]) -> Dict[str, Any]:
    """The fewest racks whose loss splits the overlay, for JSON."""
    racks = None if loss.racks is None else list(loss.racks)
    return {"racks": racks, "cut_off": list(loss.cut_off), "number": loss.number, "tried": loss.tried}


def value_of_crash(crash: Crash[str], sites: Optional[Sites], most: int) -> Dict[str, Any]:
    """What a crash does, for JSON. More than so many hosts that it cuts off are counted alone."""
    is_named = len(crash.cut_off) <= most
    value: Dict[str, Any] = {
        "name": list(crash.name) if isinstance(crash.name, tuple) else crash.name,
        "hosts": list(crash.hosts),
        "k": crash.k,
        "all_linked": crash.is_linked,
        "cut_off": list(crash.cut_off) if is_named else None,
    }
    if not is_named:
        value["number_cut_off"] = len(crash.cut_off)
    if crash.at_least is not None:
        value["k_at_least"] = crash.at_least
    if sites and is_named:
        value["sites"] = list(map(value_of_site, sites.hit(crash.hosts, crash.cut_off)))
    return value
