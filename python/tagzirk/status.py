"""What an operator asks of a dump first: `status`."""

from __future__ import annotations

from dataclasses import dataclass
from functools import partial
from typing import Callable, Iterable, List, Optional, Sequence, Tuple

from .dumps import Dump, Options, read_dump
from .errors import BadDump, TagzirkError, in_words
from .graphs import NamedGraph, shown
from .naming import hosts_of, without_hosts
from .programs import Program
from .progress import Progress
from .reports import Report, analysed
from .stale import without_entry
from .taken import DOUBT, doubts_in
from .worst import Worst, worst

# The statuses that Nagios and its like know.
OK, WARNING, CRITICAL, UNKNOWN = 0, 1, 2, 3
WORDS = ("OK", "WARNING", "CRITICAL", "UNKNOWN")


@dataclass(frozen=True)
class Dead:
    """Names that others list and that have no entry of their own, as of peers that are dead, and what k is with them.
    Where that could not be found, `report` is None, and `fault` says why."""

    names: Tuple[str, ...]
    report: Optional[Report[str]]
    fault: str = ""


@dataclass(frozen=True)
class Status:
    """What a dump says of its overlay: `report`, without names that have no entry, and without the hosts that were
    `left_out`. `pieces` are the connected components that the crash of the cut leaves, the largest first, and `cut_off`
    has all hosts that are not in the largest. `worst` has the smallest cuts that cut off most; it is None where k is of
    a group. `dead` is None where no name lacks an entry, or the dump does not say so."""

    dump: Dump
    graph: NamedGraph[str]
    report: Report[str]
    pieces: Tuple[Tuple[str, ...], ...]
    left_out: Tuple[str, ...]
    worst: Optional[Worst[str]]
    dead: Optional[Dead]

    @property
    def cut_off(self) -> Tuple[str, ...]:
        """Who does not reach the largest connected component."""
        return tuple(name for piece in self.pieces[1:] for name in piece)

    @property
    def doubts(self) -> Tuple[str, ...]:
        """Notes on the dump by which k may be too high."""
        return tuple(doubts_in(self.dump.notes))

    def level(self, at_least: int) -> int:
        """The status for an alarm: `OK` if k is so high; `CRITICAL` if k is 0, as when the overlay is split already;
        and else `WARNING`, also if k is so high, and some that count in it may be down. It is `UNKNOWN` of a group of
        one host, whose k of 0 says of no link that it is missing."""
        if self.report.group is not None and len(self.report.group) == 1:
            return UNKNOWN
        is_ok = self.report.k >= at_least and not any(it.startswith(DOUBT) for it in self.doubts)
        return OK if is_ok else WARNING if self.report.k else CRITICAL


def status(
    places: Sequence[str],
    options: Options = Options(),
    without: Iterable[str] = (),
    group: Optional[Iterable[str]] = None,
    *,
    workers: Optional[int] = None,
    overlay: Optional[Program] = None,
    overlay_check: Optional[Program] = None,
    progress: Optional[Progress] = None,
) -> Status:
    """What a dump says of its overlay: k, the cut, and who is cut off. Names that have no entry are left out, and it is
    told what k is with them. The hosts of `without` are left out too; with a `group` only its hosts must stay joined.

    >>> import pathlib, tempfile
    >>> with tempfile.TemporaryDirectory() as room:
    ...     file = pathlib.Path(room, "net.lists")
    ...     _ = file.write_text("a.x: b.x gone\\nb.x: a.x c.x\\nc.x: b.x d.x\\nd.x: c.x\\n")
    ...     it, less = status([str(file)]), status([str(file)], without=["a"])
    >>> it.report.k, it.report.cut, it.pieces, it.dead.names, it.dead.report.k, less.report.cut, less.left_out
    (1, ('b.x',), (('c.x', 'd.x'), ('a.x',)), ('gone',), 0, ('c.x',), ('a.x',))
    """
    dump = read_dump(places, options.living, overlay=overlay)
    whole, without = dump.graph, list(without)
    nameless = without_entry(dump, overlay) if without or group is not None else []
    graph, left_out = without_hosts(whole, without, nameless)
    members = None if group is None else members_of(group, whole, left_out, nameless)

    def ask(of: NamedGraph[str]) -> Report[str]:
        return analysed(of, of.members(members), overlay=overlay, overlay_check=overlay_check)

    report = ask(graph)
    has_dead = options.entries is None and (dump.without_entry or 0) > sum(it not in whole.ids for it in left_out)
    dead = with_dead(partial(read_dump, places, options, overlay=overlay), whole, left_out, ask) if has_dead else None
    found = None
    if members is None:
        found = worst(graph, report, workers=workers, overlay=overlay, overlay_check=overlay_check, progress=progress)
    return Status(dump, graph, report, pieces_after(report.cut, graph), tuple(left_out), found, dead)


def members_of(
    group: Iterable[str], graph: NamedGraph[str], left_out: Sequence[str], dead: Sequence[str]
) -> List[str]:
    """The hosts of a group that are not left out. Who is `dead` can be in none."""
    gone = [it for it in dead if it not in graph.ids]
    members = [it for it in hosts_of(group, [*graph.ids, *gone], "--group") if it not in left_out]
    lost = [it for it in members if it not in graph.ids]
    if lost:
        told = "has no entry, and so is left out, as dead; --no-entries takes such names in"
        raise BadDump(f"--group: {shown(lost[0])} {told}")
    return members


def pieces_after(crashed: Iterable[str], graph: NamedGraph[str]) -> Tuple[Tuple[str, ...], ...]:
    """The connected components that a crash of these hosts leaves, the largest first."""
    pieces = graph.pieces({graph.ids[it] for it in crashed})
    return tuple(graph.named(piece) for piece in sorted(pieces, key=len, reverse=True))


def with_dead(
    read: Callable[[], Dump],
    living: NamedGraph[str],
    left_out: Sequence[str],
    ask: Callable[[NamedGraph[str]], Report[str]],
) -> Dead:
    """What k is with the names that have no entry, but for those that are left out: in the graph that is read with
    them."""
    try:
        everybody = read().graph
        names = tuple(it for it in everybody.ids if it not in living.ids and it not in left_out)
        return Dead(names, ask(everybody.without({everybody.ids[it] for it in left_out})))
    except TagzirkError as why:
        # with them they may be more than can be analysed
        return Dead((), None, in_words(why))
