"""The picture of an overlay of very many hosts: the cut by names, and each side as a disc. `discs`."""

from __future__ import annotations

import html
import math
from typing import Any, Dict, Iterable, List, NamedTuple, Optional, Sequence, Tuple

from .frame import COLOURS
from .graphs import NamedGraph, shown

# So many hosts of a cut are drawn, and so many characters of a name.
MOST_CUT, MOST_LONG = 40, 32
# The places of the parts of a picture, and of what is written above them; how far two hosts of a cut are apart; and the
# radius of the largest disc and of the smallest one.
WIDTH, LEFT, MIDDLE, RIGHT, TOP, APART, LARGEST, SMALLEST = 900.0, 160.0, 360.0, 740.0, 110.0, 24.0, 120.0, 9.0
STYLE = """text{font-family:system-ui,sans-serif;font-size:12.5px;fill:#1f2933;unicode-bidi:isolate}
.heading{font-size:18px;font-weight:600}
.part{font-size:13.5px;font-weight:600;text-anchor:middle}
.number{font-size:15px;font-weight:600;text-anchor:middle}
.middle{text-anchor:middle}
.label{paint-order:stroke;stroke:#ffffff;stroke-width:3.5px;stroke-linejoin:round;stroke-opacity:0.85}
.ground{fill:#ffffff}
.links path{fill:none;stroke:#e08a4b}
.nodes .cut{fill:#d55e00}
"""
DARK = """text{fill:#e6eaee}
.label{stroke:#14181c}
.ground{fill:#14181c}
"""


class Disc(NamedTuple):
    """What a disc stands for: what is written above it, its hosts, its further pieces if it has several, its place and
    its radius."""

    title: str
    hosts: List[int]
    pieces: int
    x: float
    y: float
    radius: float


def discs(graph: NamedGraph[Any], title: str, cut: Sequence[int], near: Optional[int], far: Optional[int]) -> str:
    """A picture as SVG: the hosts of a cut by name in the middle, the side of `near` as a disc on the left, that of
    `far` on the right, and all other hosts as one below. Each disc has the number of its hosts, and its area is as
    large. If every two hosts are linked, `near` and `far` are None, and one disc has all.

    >>> from tagzirk.graphs import named_graph
    >>> star = named_graph([("hub", it) for it in "abc"])
    >>> text = discs(star, "Crashing hub separates a from b", [4], 1, 2)
    >>> [it.split("<")[0] for it in text.split('class="number">')[1:]], text.count("<circle"), text.count("<rect class")
    (['1 host', '1 host', '1 host'], 3, 2)
    """
    drawn = sorted(cut, key=lambda it: str(graph.names[it]))[:MOST_CUT]
    middle = TOP + max(LARGEST + 40, APART * (len(drawn) + (len(cut) > len(drawn))) / 2)
    parts = placed(graph, graph.pieces(set(cut)), near, far, middle)
    begin = middle - APART * (len(drawn) - 1) / 2
    places = {host: begin + APART * at for at, host in enumerate(drawn)}
    height = max([middle * 2 - TOP, *(it.y + it.radius + 34 for it in parts)]) + 14
    more = len(cut) - len(drawn)
    lines = [
        f'<text class="heading" x="24" y="32">{html.escape(title)}</text>',
        f'<text x="24" y="54">{html.escape(left_out(graph, parts, more))}</text>',
        f'<text class="part" x="{MIDDLE:g}" y="{TOP - 22:g}">cut</text>' if cut else "",
        f'<g class="links">{"".join(lines_between(graph, parts, places))}</g>',
        f'<g class="nodes">{"".join([*map(disc_drawn, enumerate(parts)), *squares(graph, places)])}</g>',
        *(words_at(it) for it in parts),
    ]
    if more:
        lines.append(f'<text x="{MIDDLE + 12:g}" y="{begin + APART * len(drawn) + 4:g}">and {more:,} more</text>')
    return framed_svg(title, height, "\n".join(filter(None, lines)))


def placed(
    graph: NamedGraph[Any], pieces: List[List[int]], near: Optional[int], far: Optional[int], middle: float
) -> List[Disc]:
    """The discs: of the piece of near, of that of far, and of all others."""
    of = {end: next((it for it in pieces if end in it), []) for end in (near, far) if end is not None}
    others = [it for it in pieces if it not in of.values()]
    rest = [host for piece in others for host in piece]
    most = max([1, len(rest), *map(len, of.values())])

    def radius(hosts: Sequence[int]) -> float:
        return max(SMALLEST, LARGEST * math.sqrt(len(hosts) / most))

    if near is None or far is None:
        return [Disc("every two are linked", rest, 1, WIDTH / 2, middle, radius(rest))]
    found = [
        Disc(f"the side of {short(graph, near)}", of[near], 1, LEFT, middle, radius(of[near])),
        Disc(f"the side of {short(graph, far)}", of[far], 1, RIGHT, middle, radius(of[far])),
    ]
    if rest:
        below = max(it.y + it.radius for it in found) + 76 + radius(rest)
        found.append(Disc("others", rest, len(others), RIGHT, below, radius(rest)))
    return found


def short(graph: NamedGraph[Any], host: int) -> str:
    """The name of a host, or its begin."""
    name = shown(graph.names[host])
    return name if len(name) <= MOST_LONG else f"{name[:MOST_LONG - 2]}.."


def left_out(graph: NamedGraph[Any], parts: Sequence[Disc], more: int) -> str:
    """What a picture does not show, in a sentence."""
    hosts = sum(len(it.hosts) for it in parts)
    of_cut = f", nor {more:,} hosts of the cut" if more else ""
    return (
        f"Discs stand for {hosts:,} of {len(graph.ids):,} hosts, which are not drawn one by one{of_cut}, nor are all "
        f"{len(graph.links):,} links."
    )


def number_of_links(graph: NamedGraph[Any], host: int, hosts: Iterable[int]) -> int:
    """How many links a host has to others."""
    return len(graph.peers[host].intersection(hosts))


def lines_between(graph: NamedGraph[Any], parts: Sequence[Disc], places: Dict[int, float]) -> List[str]:
    """A line for each disc and each host of the cut that has a link into it."""
    found = []
    for part in parts:
        hosts = set(part.hosts)
        for host, y in places.items():
            number = number_of_links(graph, host, hosts)
            if number:
                links = f"{number:,} link{'s' if number > 1 else ''}"
                told = html.escape(f"{short(graph, host)}: {links}")
                found.append(
                    f'<path d="M{MIDDLE:g} {y:g}L{part.x:g} {part.y:g}"><title>{told}</title></path>'
                )
    return found


def disc_drawn(numbered: Tuple[int, Disc]) -> str:
    """A disc in the colour of its side."""
    at, it = numbered
    return f'<circle class="c{at}" cx="{it.x:g}" cy="{it.y:g}" r="{it.radius:.1f}"/>'


def squares(graph: NamedGraph[Any], places: Dict[int, float]) -> List[str]:
    """The hosts of the cut, with their names."""
    return [
        f'<rect class="cut" x="{MIDDLE - 6:g}" y="{y - 6:g}" width="12" height="12">'
        f"<title>{html.escape(shown(graph.names[host]))}</title></rect>"
        f'<text class="label" x="{MIDDLE + 12:g}" y="{y + 4:g}">{html.escape(short(graph, host))}</text>'
        for host, y in places.items()
    ]


def words_at(it: Disc) -> str:
    """What stands at a disc: of what it is, and how many hosts it has, in how many pieces."""
    number = f"{len(it.hosts):,} host{'s' if len(it.hosts) != 1 else ''}"
    pieces = f" in {it.pieces:,} pieces" if it.pieces > 1 else ""
    return (
        f'<text class="part" x="{it.x:g}" y="{it.y - it.radius - 12:g}">{html.escape(it.title)}</text>'
        f'<text x="{it.x:g}" y="{it.y + it.radius + 22:g}" class="number">{number}{pieces}</text>'
    )


def framed_svg(title: str, height: float, inner: str) -> str:
    """The frame of a picture, with its colours on light and on dark ground."""
    light, dark = ("".join(f".nodes .c{at}{{fill:{it[which]}}}\n" for at, it in enumerate(COLOURS)) for which in (0, 1))
    size = f'width="{WIDTH:g}" height="{height:g}" viewBox="0 0 {WIDTH:g} {height:g}"'
    return (
        f'<svg xmlns="http://www.w3.org/2000/svg" {size} role="img">\n<title>{html.escape(title)}</title>\n'
        f"<style>\n{STYLE}{light}@media (prefers-color-scheme:dark){{\n{DARK}{dark}}}\n</style>\n"
        f'<rect class="ground" width="100%" height="100%"/>\n{inner}\n</svg>\n'
    )
