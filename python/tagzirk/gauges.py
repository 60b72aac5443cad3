"""What a dump says, as metrics for Prometheus: `metrics`."""

from __future__ import annotations

import argparse
import re
import time
from dataclasses import dataclass, field
from typing import Dict, List, Mapping, NamedTuple, Optional, Sequence, Tuple

from .account import LEFT
from .dumps import Dump, Options, last_change, read_dump
from .errors import in_words
from .graphs import shown
from .outputs import write
from .programs import Program
from .proofs import asked_of
from .reports import Report, analysed
from .stale import one_sided
from .taken import DOUBT, doubts_in
from .worst import worst

# How a text file of metrics begins.
MARK = "# HELP tagzirk_"
# Each metric with its help, in the order in which they are written. All are gauges.
HELP = {
    "tagzirk_dump_read": "1 if the dump was read and overlay-check confirmed the answer, and else 0",
    "tagzirk_run_timestamp_seconds": "when this was written",
    "tagzirk_dump_timestamp_seconds": "when that file of the dump was last changed which is oldest",
    "tagzirk_nodes": "hosts in the dump",
    "tagzirk_links": "links in the dump",
    "tagzirk_connectivity": "k: crashing so few hosts, the cut, splits the overlay, and fewer do not",
    "tagzirk_all_linked": "1 if every two hosts are linked, so that no crash splits the overlay",
    "tagzirk_pieces": "pieces into which the overlay falls once the cut has crashed: the worst smallest one found",
    "tagzirk_largest_piece": "hosts in the largest of these pieces",
    "tagzirk_hosts_cut_off": "hosts that no longer reach the largest piece once the cut has crashed",
    "tagzirk_one_sided_listings": "listings that the other end does not answer",
    "tagzirk_listed_without_entry": "names that are listed and have no entry",
    "tagzirk_doubts": "notes by which k may be too high: of what may be down, and of what else the dump says",
    "tagzirk_cut_member": "1 for each host of the cut, of the smallest ones found that which cuts off most",
    "tagzirk_host_one_sided_listings": "listings that the other end does not answer, of which this host is an end",
    "tagzirk_program_proved": "1 if this program is known to be proved, and else 0",
}
LABEL = re.compile(r"([a-zA-Z][a-zA-Z0-9_]*)=(.+)", re.DOTALL)
# The labels that metrics have by themselves, and those that a scrape gives them.
TAKEN = frozenset(("host", "program", "kind", "instance", "job"))


class Sample(NamedTuple):
    """A number of a metric, with labels of its own."""

    name: str
    value: float
    label: Tuple[str, ...] = ()


@dataclass(frozen=True)
class Metrics:
    """The values of metrics, and the hosts in the cut. `fault` says why the dump could not be read, or is empty. If it
    is not, the metrics say only that it was not read, and when. `labels` are labels of all of them, `stale` counts
    one-sided listings by host, and `proved` has the programs that were asked. `doubts` are notes on the dump that say
    why its number may be too high."""

    values: Dict[str, float]
    cut: Tuple[str, ...] = ()
    fault: str = field(default="", compare=False)
    labels: Dict[str, str] = field(default_factory=dict)
    stale: Dict[str, int] = field(default_factory=dict)
    proved: Dict[str, bool] = field(default_factory=dict)
    doubts: Tuple[str, ...] = field(default=(), compare=False)

    @property
    def samples(self) -> List[Sample]:
        """All numbers."""
        found = [Sample(name, value) for name, value in self.values.items()]
        found += [Sample("tagzirk_cut_member", 1.0, ("host", host)) for host in self.cut]
        hosts = self.stale.items()
        found += [Sample("tagzirk_host_one_sided_listings", float(it), ("host", host)) for host, it in hosts]
        kinds = (("may be down", DOUBT), ("not read", LEFT)) if "tagzirk_connectivity" in self.values else ()
        numbers = [(kind, sum(it.startswith(begin) for it in self.doubts)) for kind, begin in kinds]
        found += [Sample("tagzirk_doubts", float(number), ("kind", kind)) for kind, number in numbers]
        return found + [Sample("tagzirk_program_proved", float(it), ("program", of)) for of, it in self.proved.items()]

    @property
    def text(self) -> str:
        """The metrics in the text format of Prometheus.

        >>> print(Metrics({"tagzirk_dump_read": 0.0}, labels={"overlay": "prod"}).text, end="")
        # HELP tagzirk_dump_read 1 if the dump was read and overlay-check confirmed the answer, and else 0
        # TYPE tagzirk_dump_read gauge
        tagzirk_dump_read{overlay="prod"} 0.0
        """
        lines: List[str] = []
        for name, meaning in HELP.items():
            samples = [it for it in self.samples if it.name == name]
            if samples:
                lines += [f"# HELP {name} {meaning}", f"# TYPE {name} gauge"]
            for it in samples:
                pairs = [*self.labels.items(), *([it.label] if it.label else [])]
                labels = ",".join(f'{key}="{escaped(value)}"' for key, value in pairs)
                lines.append(f"{name}{{{labels}}} {it.value!r}" if labels else f"{name} {it.value!r}")
        return "".join(f"{line}\n" for line in lines)

    def write(self, file: str) -> None:
        """Writes the metrics into a file, which has them all or is as it was."""
        write(file, self.text)


def escaped(label: str) -> str:
    """The value of a label, as the text format has it."""
    return label.replace("\\", "\\\\").replace('"', '\\"').replace("\n", "\\n")


def label_of(text: str) -> Tuple[str, str]:
    """A label that somebody typed.

    >>> label_of("overlay=prod")
    ('overlay', 'prod')
    """
    said = LABEL.fullmatch(text)
    if not said:
        raise argparse.ArgumentTypeError(f"it takes NAME=VALUE, as overlay=prod, and not {text!r}")
    if said[1] in TAKEN:
        raise argparse.ArgumentTypeError(f"the label {said[1]} has a meaning already; take another, as overlay=prod")
    return said[1], said[2]


def metrics(
    places: Sequence[str],
    options: Options = Options(),
    *,
    labels: Optional[Mapping[str, str]] = None,
    overlay: Optional[Program] = None,
    overlay_check: Optional[Program] = None,
) -> Metrics:
    """The metrics of a dump, each with the `labels`. One that can't be read, or whose answer is not confirmed, has the
    metric `tagzirk_dump_read 0`, and none that could pass for a good one. Of several files, or of a folder, the oldest
    says how old the dump is; standard input does not.

    >>> import pathlib, tempfile
    >>> with tempfile.TemporaryDirectory() as room:
    ...     file = pathlib.Path(room, "net.json")
    ...     _ = file.write_text('{"a": ["b"], "b": ["a", "c"], "c": ["b"]}')
    ...     good = metrics([str(file)])
    ...     _ = file.write_text('{"a": ["b"')
    ...     torn = metrics([str(file)])
    >>> good.values["tagzirk_connectivity"], good.cut, good.fault
    (1.0, ('b',), '')
    >>> torn.values["tagzirk_dump_read"], "tagzirk_connectivity" in torn.values, torn.fault != ""
    (0.0, False, True)
    """
    values = {"tagzirk_dump_read": 0.0, "tagzirk_run_timestamp_seconds": float(int(time.time()))}
    try:
        values.update(time_of(places))
        dump = read_dump(places, options.living, overlay=overlay)
        report = analysed(dump.graph, overlay=overlay, overlay_check=overlay_check)
        found = worst(dump.graph, report, overlay=overlay, overlay_check=overlay_check)
        stale = one_sided(dump, overlay)
        asked = asked_of(len(dump.graph.ids), overlay, overlay_check).items()
        proved = {name: it.is_proved is True for name, it in asked}
    except Exception as why:
        # whatever a dump does, an alarm must hear of it
        return Metrics(values, fault=in_words(why), labels=dict(labels or {}))
    cut = found.cuts[0].crashed if found.cuts else report.cut
    values.update(tagzirk_dump_read=1.0, **numbers(dump, report, cut))
    hosts, doubts = {shown(host): number for host, number in stale.items()}, tuple(doubts_in(dump.notes))
    return Metrics(values, tuple(map(shown, cut)), "", dict(labels or {}), hosts, proved, doubts)


def time_of(places: Sequence[str]) -> Dict[str, float]:
    """When that file of a dump was last changed which is oldest, if there is one."""
    changed = last_change(places)
    return {} if changed is None else {"tagzirk_dump_timestamp_seconds": float(int(changed))}


def numbers(dump: Dump, report: Report[str], cut: Sequence[str]) -> Dict[str, float]:
    """What is said of a dump whose answer was confirmed, and of the crash of a smallest cut."""
    graph = dump.graph
    pieces = [len(it) for it in graph.pieces({graph.ids[it] for it in cut})]
    found = {
        "tagzirk_nodes": len(graph.ids),
        "tagzirk_links": len(graph.links),
        "tagzirk_connectivity": report.k,
        "tagzirk_all_linked": report.is_linked,
        "tagzirk_pieces": len(pieces),
        "tagzirk_largest_piece": max(pieces),
        "tagzirk_hosts_cut_off": sum(pieces) - max(pieces),
        "tagzirk_one_sided_listings": dump.one_sided,
        "tagzirk_listed_without_entry": dump.without_entry,
    }
    return {name: float(number) for name, number in found.items() if number is not None}
