"""How many crashes an overlay survives: a package over the programs overlay and overlay-check of Tagzirk.

`analyse` finds the fewest crashes that split a graph, `check` asks about a certificate, and `run` runs a scenario of a
simulated world. `mend` finds links to add, `each` tells what each single crash does, `worst` which of the smallest cuts
cut off most, and `widest` which crashes cut off more than one host. `read_dump` reads
what a cluster says of its links. `status` says of a dump what is asked first, and `differences` what changed between
two; `history`, `metrics` and `page` tell of dumps too. The command tagzirk calls these.

>>> import tagzirk
>>> report = tagzirk.analyse([("a", "b"), ("b", "c"), ("c", "d"), ("d", "a")])
>>> print(report)
Crashing b, d separates a from c. Fewer crashes separate no two surviving nodes.
>>> report.survives
1
>>> tagzirk.check(report.certificate).holds
True
"""

from .answers import Answer
from .asked import Asked
from .checks import Verdict, check
from .crashes import Crash, each
from .differences import Difference, differences
from .dumps import Dump, Options, read_dump
from .errors import (
    BadDump,
    BadGraph,
    LibraryMissing,
    NotConfirmed,
    NotWritten,
    ProgramFailed,
    ProgramMissing,
    Refused,
    TagzirkError,
    ViewsDiffer,
)
from .gauges import Metrics, metrics
from .histories import Moment, history
from .mending import Mended, mend
from .pages import page
from .reports import Report, analyse
from .scenarios import (
    Certificate,
    Change,
    Delivery,
    Entry,
    FiledReport,
    OtherLine,
    Packet,
    Refusal,
    Run,
    Sections,
    View,
    run,
)
from .status import Status, status
from .wide import Wide, widest
from .worst import Cut, Worst, worst

__all__ = [
    "Answer",
    "Asked",
    "BadDump",
    "BadGraph",
    "Certificate",
    "Change",
    "Crash",
    "Cut",
    "Delivery",
    "Difference",
    "Dump",
    "Entry",
    "FiledReport",
    "LibraryMissing",
    "Mended",
    "Metrics",
    "Moment",
    "NotConfirmed",
    "NotWritten",
    "Options",
    "OtherLine",
    "Packet",
    "ProgramFailed",
    "ProgramMissing",
    "Refusal",
    "Refused",
    "Report",
    "Run",
    "Sections",
    "Status",
    "TagzirkError",
    "Verdict",
    "View",
    "ViewsDiffer",
    "Wide",
    "Worst",
    "analyse",
    "check",
    "differences",
    "each",
    "history",
    "mend",
    "metrics",
    "page",
    "read_dump",
    "run",
    "status",
    "widest",
    "worst",
]
