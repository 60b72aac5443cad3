"""One page of HTML about what changed between two dumps, which needs nothing else: `difference_page`."""

from __future__ import annotations

import html
from string import Template
from typing import Iterable, List, Sequence, Tuple

from .differences import Difference, Link, Side
from .markup import counted, doubts_html, names_html, shown_html, table
from .taken import doubts_in

# So many links that went or came are shown.
MOST_LINKS = 1000
# How a page begins; by this line a command knows its own page again.
FIRST_LINE = "<!DOCTYPE html><!-- tagzirk diff -->"
PAGE = Template(
    FIRST_LINE
    + """
<html lang="en">
<head>
<meta charset="utf-8">
<meta name="viewport" content="width=device-width, initial-scale=1">
<title>$title</title>
<style>
:root{color-scheme:light dark;--ground:#ffffff;--ink:#1f2933;--soft:#5b6770;--line:#d5dbe0;--box:#f3f5f7;--warm:#b84a00}
@media (prefers-color-scheme:dark){:root{--ground:#14181c;--ink:#e6eaee;--soft:#98a4ae;--line:#333c44;--box:#1d242a;
--warm:#ff8c42}}
body{margin:0 auto;max-width:76rem;padding:1.5rem 1.25rem 4rem;background:var(--ground);color:var(--ink);
font:16px/1.55 system-ui,sans-serif}
h1{font-size:1.7rem;line-height:1.25;margin:.4rem 0 .6rem}
h2{font-size:1.15rem;margin:2.4rem 0 .6rem;border-top:1px solid var(--line);padding-top:1rem}
.t-soft{color:var(--soft)}
.t-name{display:inline-block;max-width:100%;overflow-wrap:anywhere}
.t-lower{color:var(--warm)}
.t-doubt{border-left:.25rem solid var(--warm);padding-left:.7rem;overflow-wrap:anywhere}
table{border-collapse:collapse}
th,td{text-align:left;vertical-align:top;padding:.3rem .8rem .3rem 0;border-bottom:1px solid var(--line);
overflow-wrap:anywhere}
</style>
</head>
<body>
<p class="t-soft">$about</p>
<h1$lower>$title</h1>
$doubts
$sides
<h2>What lowered it</h2>
$causes
<h2>What went</h2>
$went
<h2>What came</h2>
$came
</body>
</html>
"""
)


def difference_page(it: Difference) -> str:
    """A page about a difference: k, the cut and who is cut off then and now, which loss alone, put back, gives the old
    k again, and all that went and came."""
    then, now = it.old.report.k, it.new.report.k
    return PAGE.substitute(
        title=f"k is {now}, as before" if then == now else f"k is {now}, and was {then}",
        lower=' class="t-lower"' if it.is_lower else "",
        about=f"{shown_html(it.old.dump.name)} and then {shown_html(it.new.dump.name)}. Each k was confirmed by "
        "overlay-check; who is cut off was counted.",
        doubts=doubts_html(f"{of.dump.name}: {told}" for of in (it.old, it.new) for told in doubts_in(of.dump.notes)),
        sides=table(("", "k", "hosts", "links", "cut", "cut off"), [row_of("then", it.old), row_of("now", it.new)]),
        causes=causes_of(it),
        went=changes_of(it.hosts_went, it.links_went),
        came=changes_of(it.hosts_came, it.links_came),
    )


def row_of(when: str, side: Side) -> Tuple[str, ...]:
    """The row of one dump."""
    cut = "none: every two hosts are linked" if side.report.is_linked else names_html(side.cut.crashed)
    sizes = (side.report.k, len(side.graph.ids), len(side.graph.links))
    return (when, *map(str, sizes), cut, names_html(side.cut.cut_off) or "nobody")


def link_html(link: Sequence[str]) -> str:
    """A link, or a host, as HTML has it."""
    return " &ndash; ".join(map(shown_html, link))


def paragraphs(lines: Iterable[str]) -> str:
    """Each line as a paragraph."""
    return "".join(f"<p>{line}</p>" for line in lines)


def changes_of(hosts: Sequence[str], links: Sequence[Link]) -> str:
    """Hosts and links that came, or that went."""
    if not hosts and not links:
        return "<p>Nothing.</p>"
    lines = [f"{counted(len(hosts), 'host')}: {names_html(hosts)}"] if hosts else []
    first = f", of which {MOST_LINKS:,} are shown" if len(links) > MOST_LINKS else ""
    lines += [f"{counted(len(links), 'link')} between hosts that both dumps have{first}:"] if links else []
    rows = [tuple(map(shown_html, it)) for it in links[:MOST_LINKS]]
    return paragraphs(lines) + (table(("from", "to"), rows) if rows else "")


def causes_of(it: Difference) -> str:
    """What of all that changed lowered k."""
    then, lines = it.old.report.k, []  # type: int, List[str]
    if not it.is_lower:
        return "<p>It is not lower.</p>"
    if it.untried:
        number = counted(it.untried, "change")
        lines.append(f"{number} may be such a cause too, and were not tried, since there are so many hosts.")
    if it.restoring:
        rows = [("host" if len(them) == 1 else "link", link_html(them)) for them in it.restoring]
        told = f"<p>Each of these alone, put back, gives k {then} again:</p>"
        return told + table(("", "what went"), rows) + paragraphs(lines)
    if it.hosts_went or it.links_went:
        lines.append(f"Nothing that went gives k {then} again if it alone is put back.")
        lines += [] if it.with_all_back is None else [f"With all that went put back k is {it.with_all_back}."]
    if it.burdening:
        lines.append(f"Without one of these, which came, k is {then} or more: {names_html(it.burdening)}.")
    return paragraphs(lines) or f"<p>{html.escape('No single change that was tried.')}</p>"
