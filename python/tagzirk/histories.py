"""How an overlay was over a day: `history`, of dumps that were taken one after the other."""

from __future__ import annotations

import collections
import csv
import datetime
import io
import os
import re
from dataclasses import dataclass, field
from typing import IO, Any, Dict, List, Optional, Sequence, Tuple

from .account import LEFT
from .dumps import MOST_APART, Options, in_units, read_dump
from .errors import LibraryMissing, in_words
from .graphs import shown
from .outputs import write
from .programs import Program
from .progress import Progress, each_at_once, processors
from .reports import Report, analysed
from .taken import doubts_in

# A day and a time of day in a file's name, with or without signs between, or seconds since 1970.
STAMP = re.compile(
    r"(?<!\d)(20\d\d)-?([01]\d)-?([0-3]\d)(?:[T_ .-]?([0-2]\d)[:h._-]?([0-5]\d)(?:[:m._-]?([0-5]\d))?)?" r"(Z)?(?!\d)"
)
NUMBERS = re.compile("[0-9]+")
EPOCH = re.compile(r"(?<!\d)(1\d{9})(?!\d)")
# How a picture begins; by this line it is known again.
SVG = '<?xml version="1.0" encoding="utf-8" standalone="no"?><!-- tagzirk history -->'
COLUMNS = ("time", "nodes", "links", "k", "cut", "one_sided", "without_entry", "file", "fault", "doubts")


@dataclass(frozen=True)
class Moment:
    """What one dump of a history says: when it was taken, its nodes, links and number, a smallest cut by name, how many
    listings the other end does not answer, and how many names have no entry. Of a dump that can't be read `fault` says
    why, and all else is None. The number and the cut were confirmed by overlay-check; `doubts` are notes on the dump
    that say why the number may be too high."""

    time: Optional[datetime.datetime]
    file: str
    nodes: Optional[int] = None
    links: Optional[int] = None
    k: Optional[int] = None
    cut: Optional[Tuple[str, ...]] = None
    one_sided: Optional[int] = None
    without_entry: Optional[int] = None
    fault: str = field(default="", compare=False)
    doubts: Tuple[str, ...] = field(default=(), compare=False)

    @property
    def row(self) -> List[str]:
        """The cells of CSV: an empty one for what is not known."""
        cut = "" if self.cut is None else ";".join(map(shown, self.cut))
        values = (
            self.time and self.time.isoformat(timespec="seconds"),
            self.nodes,
            self.links,
            self.k,
            cut,
            self.one_sided,
            self.without_entry,
            self.file,
            self.fault.replace("\n", " "),
            "; ".join(self.doubts).replace("\n", " "),
        )
        return ["" if it is None else str(it) for it in values]

    @property
    def value(self) -> Dict[str, Any]:
        """The same for JSON: null for what is not known."""
        known = (getattr(self, column) for column in COLUMNS)
        value = dict(zip(COLUMNS, known))
        return {
            **value,
            "time": self.time and self.time.isoformat(timespec="seconds"),
            "cut": None if self.cut is None else list(self.cut),
            "fault": self.fault or None,
            "doubts": list(self.doubts),
        }


def time_in(name: str) -> Optional[datetime.datetime]:
    """The time that a file's name says, in local time unless it ends with Z.

    >>> time_in("dump-2026-11-28T22:10.json").isoformat()[:16]
    '2026-11-28T22:10'
    >>> time_in("net.json") is None
    True
    """
    epoch, said = EPOCH.search(name), STAMP.search(name)
    try:
        if said:
            year, month, day, hour, minute, second = (int(it or 0) for it in said.groups()[:6])
            zone = datetime.timezone.utc if said[7] else None
            return datetime.datetime(year, month, day, hour, minute, second, tzinfo=zone).astimezone()
        return moment_at(int(epoch[1])) if epoch else None
    except ValueError:
        return None


def times_of(files: Sequence[str]) -> Dict[str, Optional[datetime.datetime]]:
    """When each dump was taken: by the files' names, if each says a time of its own, and else by when each was last
    changed; None of a file that is not there."""
    said = {file: time_in(os.path.basename(file)) for file in files}
    if None not in said.values() and len(set(said.values())) == len(said):
        return said
    return {file: changed(file) for file in files}


def changed(file: str) -> Optional[datetime.datetime]:
    try:
        return moment_at(os.stat(file).st_mtime)
    except OSError:
        return None


def moment_at(seconds: float) -> Optional[datetime.datetime]:
    """The moment so many seconds after 1970 began, in the zone of this machine; None if no calendar has it.

    >>> moment_at(1e14) is None
    True
    """
    try:
        return datetime.datetime.fromtimestamp(seconds).astimezone()
    except (ValueError, OverflowError, OSError):
        return None


def history(
    files: Sequence[str],
    options: Options = Options(),
    *,
    workers: Optional[int] = None,
    overlay: Optional[Program] = None,
    overlay_check: Optional[Program] = None,
    progress: Optional[Progress] = None,
) -> List[Moment]:
    """What each dump says, in the order in which they were taken: by the times in the files' names, if every name says
    one, and else by their last changes. A dump that can't be read is told with its fault.

    >>> import pathlib, tempfile
    >>> with tempfile.TemporaryDirectory() as room:
    ...     files = [pathlib.Path(room, f"net-20261128T{hour}00Z.txt") for hour in ("09", "10")]
    ...     _ = files[0].write_text("a b\\nb c\\nc a\\nc d\\nd a\\n"), files[1].write_text("a b\\nb c\\n")
    ...     moments = history([str(it) for it in reversed(files)])
    >>> [(it.nodes, it.links, it.k, it.cut) for it in moments]
    [(4, 5, 2, ('a', 'c')), (3, 2, 1, ('b',))]
    >>> str(moments[1].time - moments[0].time)
    '1:00:00'
    """
    answers, odd = {}, odd_files(files)  # type: Dict[str, Report[str]], Dict[str, List[str]]

    def moment(taken: Tuple[str, Optional[datetime.datetime]]) -> Moment:
        file, time = taken
        try:
            dump = read_dump([file], options.living, overlay=overlay)
            # a dump that says what an earlier one said is not analysed again
            graph, known = dump.graph, answers.get(dump.graph_file)
            report = known or analysed(graph, overlay=overlay, overlay_check=overlay_check)
            answers[dump.graph_file] = report
        except Exception as why:
            # a moment that can't be read is a row too
            return Moment(time, file, fault=in_words(why))
        numbers = len(graph.ids), len(graph.links), report.k, report.cut, dump.one_sided, dump.without_entry
        return Moment(time, file, *numbers, doubts=(*doubts_in(dump.notes), *odd.get(file, ())))

    times = sorted(times_of(files).items(), key=lambda it: (it[1] is None, it[1].timestamp() if it[1] else 0))
    return list(each_at_once(moment, times, workers or processors(), "dump", progress))


def odd_files(files: Sequence[str]) -> Dict[str, List[str]]:
    """What the names and the ages of some files say beside, of several: a name that is not as most are, but for
    numbers; or a last change that is far from the time in the name, where that of most is near."""
    shapes = {file: NUMBERS.sub("0", os.path.basename(file)) for file in files}
    usual, count = collections.Counter(shapes.values()).most_common(1)[0] if files else ("", 0)
    said = {file: (time_in(os.path.basename(file)), changed(file)) for file in files}
    apart = {file: abs((then - now).total_seconds()) for file, (then, now) in said.items() if then and now}
    late = [file for file, seconds in apart.items() if seconds > MOST_APART]
    found: Dict[str, List[str]] = {}
    for file in files if 2 * count > len(files) else ():
        if shapes[file] != usual:
            found.setdefault(file, []).append(f"{LEFT}: its name is not as {usual}, as most are but for numbers")
    for file in late if 2 * len(late) < len(files) else ():
        told = f"{LEFT}: it was changed {in_units(apart[file])} from the time in its name, and most others were not"
        found.setdefault(file, []).append(told)
    return found


def write_rows(moments: Sequence[Moment], to: IO[str]) -> None:
    """Writes a history as CSV, with a header."""
    rows = csv.writer(to, lineterminator="\n")
    rows.writerow(COLUMNS)
    rows.writerows(moment.row for moment in moments)


def need_matplotlib() -> Any:
    """matplotlib, with which pictures of a history are drawn."""
    try:
        import matplotlib
    except ImportError:
        raise LibraryMissing(
            "the picture is drawn by matplotlib, which is not there (Debian: python3-matplotlib)"
        ) from None
    matplotlib.use("svg")
    return matplotlib


def draw(moments: Sequence[Moment], file: str) -> None:
    """Draws a history into a file, as `picture_of` has it."""
    write(file, picture_of(moments))


def picture_of(moments: Sequence[Moment]) -> str:
    """A history as SVG: the number on top, below it nodes and links, and listings that are not answered."""
    need_matplotlib()
    from matplotlib import dates, pyplot
    from matplotlib.ticker import MaxNLocator

    moments = [it for it in moments if it.time]
    times = [it.time for it in moments if it.time]
    rows = (
        (("k: so many crashes split it", [it.k for it in moments], "#d55e00"),),
        (("nodes", [it.nodes for it in moments], "#0072b2"), ("links", [it.links for it in moments], "#00845f")),
        (("listed by one end only", [it.one_sided for it in moments], "#b8408a"),),
    )
    figure, axes = pyplot.subplots(
        len(rows), 1, sharex=True, figsize=(10, 6.5), gridspec_kw={"height_ratios": (3, 2, 1.4)}
    )
    for axis, lines in zip(axes, rows):
        for label, values, colour in lines:
            known = [float("nan") if it is None else it for it in values]
            axis.plot(times, known, drawstyle="steps-post", color=colour, label=label, marker=".", markersize=4)
        for it in moments:
            if it.fault:
                axis.axvline(it.time, color="#98a4ae", linestyle=":")
        axis.set_ylim(bottom=0)
        axis.yaxis.set_major_locator(MaxNLocator(integer=True, nbins=5))
        axis.legend(loc="lower left", bbox_to_anchor=(-0.01, 1), ncol=2, frameon=False, borderaxespad=0.1)
        axis.grid(alpha=0.25)
        axis.spines[["top", "right"]].set_visible(False)
    faults = sum(bool(it.fault) for it in moments)
    told = f"; {faults} could not be read, at dotted lines" if faults else ""
    figure.suptitle(f"{len(moments)} dumps{told}", x=0.02, ha="left")
    axes[-1].xaxis.set_major_formatter(
        dates.ConciseDateFormatter(axes[-1].xaxis.get_major_locator(), tz=times[0].tzinfo if times else None)
    )
    figure.tight_layout()
    drawn = io.StringIO()
    figure.savefig(drawn, format="svg")
    pyplot.close(figure)
    return SVG + re.sub(r"^<\?xml[^>]*>", "", drawn.getvalue())
