"""One page of HTML about a dump, which needs nothing else: `page`."""

from __future__ import annotations

import datetime
import html
import os
import shlex
from typing import Dict, List, Optional, Sequence, Tuple

from .dumps import Dump
from .errors import BadGraph
from .frame import COLOURS, PAGE, colour_rules, framed, severity_of
from .graphs import NamedGraph, shown
from .limits import USUAL_HOSTS
from .markup import counted, doubts_html, file_link, joined_html, names_html, shown_html, table
from .mending import Mended, mend
from .other_cuts import of_certificate, other_cuts, site_of, wider_of
from .programs import Program, words_for
from .progress import Progress
from .proofs import VERSION, asked_of, checker_for
from .reports import Report, analysed
from .sites import Sites
from .stale import one_sided
from .taken import doubts_in
from .wide import Wide, widest
from .worst import Cut, Worst, worst

# A certificate of more bytes is not put into the page, but told.
MOST_BYTES = 16_000_000
# So many hosts that are cut off, or weak, or have one-sided listings, are named.
MOST_CUT_OFF, MOST_WEAK, MOST_STALE = 8, 10, 20
# So many hosts of a piece are named where there are very many hosts; and so many links to add, or names to paste, stand
# there.
MOST_NAMED, MOST_ADDED, MOST_PASTED = 200, 1000, 1100


def title_of(report: Report[str]) -> str:
    """The answer in few words."""
    if len(report.ids) == 1:
        return "One host is left alone"
    if report.is_linked:
        return "No crash parts this overlay"
    if report.k == 0:
        return "This overlay is parted already"
    return f"{counted(report.k, 'crash parts', 'crashes part')} this overlay"


def without_ending(graph: NamedGraph[str]) -> Tuple[str, NamedGraph[str]]:
    """What all names end in, from a dot on, and the graph with names that lack it.

    >>> from tagzirk.graphs import named_graph
    >>> ending, graph = without_ending(named_graph([("a.x.org", "b.x.org"), ("b.x.org", "c.x.org")]))
    >>> ending, sorted(graph.ids)
    ('.x.org', ['a', 'b', 'c'])
    """
    names = list(graph.ids)
    backward = os.path.commonprefix([name[::-1] for name in names])[::-1] if len(names) > 2 else ""
    at = backward.find(".")
    ending = backward[at:] if at >= 0 else ""
    if not ending or ending in names:
        return "", graph
    return ending, NamedGraph({name[: -len(ending)]: place for name, place in graph.ids.items()}, graph.links)


def answer_of(
    report: Report[str], graph: NamedGraph[str], crashed: Sequence[str], pieces: List[List[int]]
) -> str:
    """The answer in sentences, by the crash of a smallest cut and the pieces that it leaves."""
    if len(graph.ids) == 1:
        return f"There is one host alone, {names_html(graph.ids)}: nobody is there from whom a crash could part it."
    if report.is_linked:
        return f"Every two of its {counted(len(graph.ids), 'host')} are linked, so no crash parts two that survive."
    away = sum(map(len, pieces)) - max(map(len, pieces))
    if report.k == 0:
        return f"Without any crash, {counted(away, 'host')} can't reach the largest piece."
    cut = f'<strong class="t-warm">{joined_html(crashed)}</strong>'
    fewer = (
        "No single crash parts two hosts that survive."
        if report.k == 2
        else "A single crash is enough."
        if report.k == 1
        else f"Any {report.k - 1} crashes leave all survivors joined, whichever hosts they strike."
    )
    rest = (
        f"the other {len(graph.ids) - report.k - away} stay together"
        if len(pieces) == 2
        else f"the largest of the {len(pieces)} pieces that are left has {max(map(len, pieces))}"
    )
    largest = max(pieces, key=len)
    who = names_html(graph.named(it for piece in pieces if piece is not largest for it in piece), MOST_CUT_OFF)
    return (
        f"If {cut} {'crashes' if report.k == 1 else 'crash'}, {counted(away, 'host is', 'hosts are')} cut off, and "
        f"{rest}. {fewer}</p><p>Cut off: {who}"
    )


def colours_of(report: Report[str], pieces: List[List[int]]) -> Dict[int, int]:
    """Which colour each host has that survives: by the piece that it is in."""
    near, far = ({report.ids[it] for it in told} for told in (report.side, [] if report.far is None else [report.far]))
    others = (piece for piece in pieces if near.isdisjoint(piece))
    ranked = [near, *sorted(others, key=lambda it: (far.isdisjoint(it), -len(it), min(it)))]
    return {host: min(at, len(COLOURS) - 1) for at, piece in enumerate(ranked) for host in piece}


def pieces_title(crashed: Sequence[str], pieces: List[List[int]]) -> str:
    """How many pieces there are, in words."""
    if len(pieces) < 2:
        return "All survivors are joined"
    return f"{len(pieces)} pieces after the crash" if crashed else f"{len(pieces)} pieces"


def pieces_of(
    report: Report[str], graph: NamedGraph[str], crashed: Sequence[str], pieces: List[List[int]]
) -> str:
    """Who is in which connected component after the crash, the largest first. They have their colours in the picture,
    if that is of this crash."""
    colours = colours_of(report, pieces) if set(crashed) == set(report.cut) else None
    most = MOST_NAMED if len(graph.ids) > USUAL_HOSTS else None
    rows = []
    for piece in sorted(pieces, key=len, reverse=True)[:50]:
        kind = f'<span class="t-swatch t-piece-{colours.get(piece[0], 0)}"></span>' if colours else ""
        rows.append((kind + counted(len(piece), "host"), names_html(graph.named(piece), most)))
    more = f"<p>{len(pieces) - 50} further pieces are not shown.</p>" if len(pieces) > 50 else ""
    told = f"<p>Crashed: {names_html(crashed)}</p>" if crashed else ""
    if most and any(len(it) > most for it in pieces):
        more += f"<p>Of each piece {most} hosts are named. The picture has a disc for each side.</p>"
    return told + table(("piece", "its hosts"), rows) + more


def weakest_of(graph: NamedGraph[str], is_linked: bool) -> str:
    """The hosts with the fewest links, and to whom these go."""
    names = graph.names
    hosts = sorted(graph.peers, key=lambda it: (len(graph.peers[it]), it))
    fewest = len(graph.peers[hosts[0]])
    number = sum(len(graph.peers[it]) == fewest for it in hosts)
    cuts = "" if is_linked else " A crash of all that a host is linked to cuts it off."
    told = f"<p>{counted(number, 'host has', 'hosts have')} the fewest links, {fewest}.{cuts}</p>"
    rows = (
        (shown_html(names[it]), str(len(graph.peers[it])), names_html(names[peer] for peer in sorted(graph.peers[it])))
        for it in hosts[:MOST_WEAK]
    )
    return told + table(("host", "links", "linked to"), rows, (1,))


def added_of(report: Report[str], to: int, mended: Optional[Mended[str]], why: str) -> str:
    """Which links raise the number."""
    if report.is_linked:
        return "<p>Nothing: all links are there.</p>"
    if not mended:
        return f"<p>{html.escape(why)}</p>"
    rows = ((shown_html(a), shown_html(b)) for a, b in mended.links[:MOST_ADDED])
    number = len(mended.links) - MOST_ADDED
    more = f"<p>{number:,} further links are not shown.</p>" if number > 0 else ""
    spare = f"{mended.untried} of them may be to spare." if mended.untried else "None of them can be left out."
    return (
        f"<p>With {counted(len(mended.links), 'more link')} k is {mended.after.k}, which overlay-check confirmed: few "
        f"links, though others may be fewer. {spare} "
        f"(<code>tagzirk mend --to {to}</code>)</p>" + table(("from", "to"), rows) + more
    )


def line_of(report: Report[str]) -> str:
    """What the checker says of the certificate of a report, which it said yes to.

    >>> from tagzirk import analyse, check
    >>> report = analyse([("a", "b"), ("b", "c")])
    >>> line_of(report), line_of(report) == check(report.certificate).line
    ('holds 0 split k 1 cut 2 near 3 far 1 side 3', True)
    """
    if report.near is None or report.far is None:
        return f"holds 0 linked k {report.k}"
    cut, side = (",".join(str(it) for it in sorted(report.ids[name] for name in told)) or "-"
                 for told in (report.cut, report.side))
    near, far = report.ids[report.near], report.ids[report.far]
    return f"holds 0 split k {report.k} cut {cut} near {near} far {far} side {side}"


def checking_of(report: Report[str], graph_file: str) -> str:
    """The certificate, and how to check it."""
    line, large, checker = line_of(report), "".join(words_for(len(report.ids))), checker_for(len(report.ids))
    large = f" {large}" if large else ""
    if len(report.certificate) > MOST_BYTES:
        certificate = (
            f"The certificate has {len(report.certificate):,} bytes, and is not in this page: <code>overlay "
            f"analyse{large} --certificate overlay.graph | tail -n 1</code> prints it."
        )
    else:
        certificate = f"Save {file_link('certificate.json', 'application/json', report.certificate)}, the certificate,"
    commands = html.escape(
        f"$ {checker} certificate.json\n{line if len(line) < 200 else line[:200] + ' ..'}\n"
        f"$ overlay graph{large} certificate.json > theirs.graph\n"
        "$ grep -v '^#' overlay.graph | cmp - theirs.graph"
    )
    return (
        f"<p>{certificate} and {file_link('overlay.graph', 'text/plain', graph_file)}, the graph with its names.</p>"
        f"<pre>{commands}</pre>"
        f"<p>With {checker} of your own you need not trust who made this page. <code>cmp</code> prints nothing if"
        " the certificate is of this graph; whether this graph is your overlay, only its hosts can say. Who is in "
        "which piece, and the weakest hosts, plain Python has counted.</p>"
    )


def facts_of(report: Report[str], graph: NamedGraph[str], dump: Dump) -> str:
    """Numbers at a glance."""
    facts = [(len(graph.ids), "host", "hosts"), (len(graph.links), "link", "links")]
    facts += [] if report.is_linked else [(report.survives, "crash survived", "crashes survived")]
    facts += [(dump.one_sided, "one-sided listing", "one-sided listings")] if dump.one_sided else []
    facts += [(dump.without_entry, "without an entry", "without an entry")] if dump.without_entry else []
    return "".join(f"<li><b>{number}</b>{one if number == 1 else more}</li>" for number, one, more in facts)


def about_of(dump: Dump, taken: Optional[datetime.datetime], overlay: Tuple[Optional[Program], ...]) -> str:
    """Of what the page is, and who made it when."""
    now = datetime.datetime.now().astimezone().strftime("%Y-%m-%d %H:%M %Z")
    of = f", taken {taken.strftime('%Y-%m-%d %H:%M %Z')}" if taken else ""
    name = checker_for(len(dump.graph.ids))
    checker = asked_of(len(dump.graph.ids), *overlay).get(name)
    proved = {True: "proved", False: "not proved", None: "not known to be proved"}[checker and checker.is_proved]
    return (
        f"{shown_html(dump.name)}{of}. Page made {now} by tagzirk {VERSION}, with an {name} that is {proved}. "
        "A dump ages: links come and go."
    )


def paste_of(report: Report[str], cut_off: Sequence[str], found: Worst[str], ending: str) -> str:
    """Whole names, for the command line."""
    told = [("The cut", report.cut), ("Cut off", cut_off)]
    worse = found.worse_than(report.k, len(cut_off))
    if worse:
        told += [("The cut that cuts off more", worse.crashed), ("Cut off", worse.cut_off)]
    parts = []
    for title, names in told:
        if len(names) > MOST_PASTED:
            has_all = "<code>tagzirk status FILE --json</code> has all names"
            parts.append(f"<p>{title}: {len(names):,} hosts. {has_all}.</p>")
        elif names:
            whole = ",".join(shown(f"{it}{ending}") for it in names)
            parts.append(f'<p>{title}</p><pre class="t-paste">{html.escape(shlex.quote(whole))}</pre>')
    if not parts:
        return "<p>No cut is there, and nobody is cut off.</p>"
    use = "<code>tagzirk status FILE --without NAMES</code> tells what is without these hosts."
    return "".join(parts) + f"<p>{use}</p>"


def notes_of(dump: Dump, stale: Dict[str, int]) -> str:
    """What is to be told of the dump, and which hosts have listings that the other end does not answer."""
    told = "".join(f"{html.escape(it)}\n" for it in dump.notes)
    notes = f"<pre>{told}</pre>" if told else "<p>Reading it gave no notes.</p>"
    if not stale:
        return notes
    hosts = list(stale.items())
    more = f"<p>{len(hosts) - MOST_STALE} more hosts have some.</p>" if len(hosts) > MOST_STALE else ""
    rows = ((shown_html(host), str(number)) for host, number in hosts[:MOST_STALE])
    head = "host", "one-sided listings that it is an end of"
    many = "<p>A host with many of them may be dead, or its part of the dump old.</p>"
    return f"{notes}{many}{table(head, rows, (1,))}{more}"


def page(
    dump: Dump,
    to: Optional[int] = None,
    *,
    taken: Optional[datetime.datetime] = None,
    site: Optional[str] = None,
    overlay: Optional[Program] = None,
    overlay_check: Optional[Program] = None,
    progress: Optional[Progress] = None,
) -> str:
    """A page about a dump: the answer in names and words, a picture, the pieces that the crash leaves, the weakest
    hosts, links to add so that the number is `to`, or one higher without it, and the certificate with how to check it.
    `taken` is when it was taken, and `site` a regular expression that finds the site of a host in its name.

    >>> from tagzirk.dumps import dump_of
    >>> text = page(dump_of(b"a b\\nb c\\nc d\\n", "net.edges"))
    >>> "<title>1 crash parts this overlay</title>" in text, "<script" in text, "src=" in text
    (True, False, False)
    """
    ending, graph = without_ending(dump.graph)
    report = analysed(graph, overlay=overlay, overlay_check=overlay_check)
    wanted = to or max(report.k + 1, 2)
    mended, why = None, ""
    if not report.is_linked:
        try:
            mended = mend(graph, wanted, overlay=overlay, overlay_check=overlay_check, progress=progress)
        except BadGraph as reason:
            why = str(reason)
    wide = widest(graph, report, overlay=overlay, overlay_check=overlay_check, progress=progress)
    found = worst(graph, report, overlay=overlay, overlay_check=overlay_check, progress=progress)
    return PAGE.substitute(
        **parts_of(dump, graph, report),
        **parts_of_cuts(graph, ending, report, found, wide, Sites(site, dump.graph.ids) if site else None),
        about=about_of(dump, taken, (overlay, overlay_check)),
        picture=framed(report.picture(overlay=overlay)),
        added=added_of(report, wanted, mended, why),
        checking=checking_of(report, dump.graph.text_with_names),
        notes=notes_of(dump, one_sided(dump, overlay)),
    )


def parts_of(dump: Dump, graph: NamedGraph[str], report: Report[str]) -> Dict[str, str]:
    """The parts of a page that tell of the graph and of its number."""
    return {
        "title": title_of(report),
        "doubts": doubts_html(doubts_in(dump.notes)),
        "k": str(report.k),
        "severity": severity_of(report.k, report.is_linked),
        "facts": facts_of(report, graph, dump),
        "colours": colour_rules(),
        "weakest": weakest_of(graph, report.is_linked),
    }


def parts_of_cuts(
    graph: NamedGraph[str],
    ending: str,
    report: Report[str],
    found: Worst[str],
    wide: Optional[Wide[str]],
    sites: Optional[Sites],
) -> Dict[str, str]:
    """The parts of a page that tell who is cut off by what."""
    pieces = graph.pieces({graph.ids[it] for it in report.cut})
    largest = max(pieces, key=len)
    cut_off = graph.named(it for piece in pieces if piece is not largest for it in piece)
    worse = found.worse_than(report.k, len(cut_off))
    told = worse or Cut(report.cut, cut_off, len(pieces))
    left = graph.pieces({graph.ids[it] for it in told.crashed})
    return {
        "answer": f"<p>{answer_of(report, graph, told.crashed, left)}</p>"
        + site_of(sites, told.crashed, told.cut_off, ending)
        + (of_certificate(report, cut_off, sites, ending) if worse else "")
        + wider_of(wide, report, found)
        + (f'<p class="t-soft">All names end in {shown_html(ending)}, which is left out here.</p>' if ending else ""),
        "pieces_title": pieces_title(told.crashed, left),
        "pieces": pieces_of(report, graph, told.crashed, left),
        "others": other_cuts(found, report, sites, ending),
        "paste": paste_of(report, cut_off, found, ending),
    }
