"""Sites of hosts, by their names: which site is cut off."""

from __future__ import annotations

import re
from dataclasses import dataclass
from typing import Any, Dict, Iterable, List, Sequence, Set, Tuple

from .errors import BadDump
from .graphs import shown

# So many sites are told by name.
MOST_TOLD = 4


@dataclass(frozen=True)
class Site:
    """What a crash does to a site: how many hosts it has, how many of them crash, and how many are cut off from the
    largest connected component."""

    name: str
    hosts: int
    crashed: int
    cut_off: int

    @property
    def is_cut_off(self) -> bool:
        """Whether all hosts of the site that are left are cut off."""
        return self.cut_off > 0 and self.cut_off == self.hosts - self.crashed

    def __str__(self) -> str:
        """The site and its size.

        >>> print(Site("hel", 20, 0, 20), Site("hel", 20, 1, 19), sep=", ")
        hel (20 hosts), hel (20 hosts, 1 of which crashed)
        """
        crashed = f", {self.crashed} of which crashed" if self.crashed else ""
        return f"{shown(self.name)} ({hosts_told(self.hosts)}{crashed})"


def hosts_told(number: int) -> str:
    """So many hosts, in words."""
    return "1 host" if number == 1 else f"{number} hosts"


def said_of_sites(hit: Sequence[Site]) -> str:
    """Which sites are cut off, in words: the first of them by name.

    >>> said_of_sites([Site("hel", 20, 0, 20)])
    'site hel (20 hosts) is cut off'
    >>> said_of_sites([Site("fra", 9, 0, 9), Site("hel", 20, 1, 19), Site("ams", 7, 0, 3)])
    'sites fra (9 hosts), hel (20 hosts, 1 of which crashed) are cut off; 3 of the 7 hosts of site ams are cut off'
    """
    wholly, partly = ([it for it in hit if it.is_cut_off is is_whole] for is_whole in (True, False))
    said = []
    if wholly:
        more = f" and {len(wholly) - MOST_TOLD} more" if len(wholly) > MOST_TOLD else ""
        names = ", ".join(map(str, wholly[:MOST_TOLD])) + more
        said.append(f"site {names} is cut off" if len(wholly) == 1 else f"sites {names} are cut off")
    for it in partly[:MOST_TOLD]:
        are = "is" if it.cut_off == 1 else "are"
        said.append(f"{it.cut_off} of the {hosts_told(it.hosts)} of site {shown(it.name)} {are} cut off")
    if len(partly) > MOST_TOLD:
        said.append(f"so are hosts of {len(partly) - MOST_TOLD} further sites")
    return "; ".join(said)


class Sites:
    """The site of each host, by a regular expression that is looked for in its name: the site is what the first group
    in brackets matches, or if it has none the whole match. `lost` has the hosts in whose names nothing matches.

    >>> sites = Sites("^([a-z]+)-", ["fra-1", "fra-2", "hel-1", "hel-2", "relay"])
    >>> list(sites.of), sites.lost
    (['fra', 'hel'], ['relay'])
    >>> said_of_sites(sites.hit(["relay"], ["hel-1", "hel-2"]))
    'site hel (2 hosts) is cut off'
    """

    def __init__(self, pattern: str, names: Iterable[str]) -> None:
        self.of: Dict[str, Set[str]] = {}
        self.lost: List[str] = []
        try:
            looked_for = re.compile(pattern)
        except re.error as why:
            raise BadDump(f"--site {pattern} is no regular expression: {why}") from None
        for name in names:
            found = looked_for.search(name)
            site = found and (found[1] if looked_for.groups else found[0])
            if site:
                self.of.setdefault(site, set()).add(name)
            else:
                self.lost.append(name)
        if not self.of:
            first = f", as {shown(self.lost[0])}" if self.lost else ""
            raise BadDump(f"--site {pattern} matches the name of no host{first}")

    def hit(self, crashed: Iterable[Any], cut_off: Iterable[Any]) -> List[Site]:
        """The sites that have hosts which are cut off: those that are wholly cut off first, and then by their size."""
        gone, away = set(crashed), set(cut_off)
        sites = [Site(name, len(them), len(them & gone), len(them & away)) for name, them in self.of.items()]
        return sorted((it for it in sites if it.cut_off), key=place_of)


def place_of(site: Site) -> Tuple[bool, int, str]:
    """Where a site stands among others that are hit."""
    return not site.is_cut_off, -site.cut_off, site.name
