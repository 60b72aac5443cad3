"""The rows of `overlay sweep`, an overlay's options and what its three reports say; and further columns and rows, by
docs/GROWING.md ("Rows")."""

from dataclasses import dataclass, field
from fractions import Fraction

from shapes import articulations, clustering, largest, paths, quartiles

OPTIONS = (
    "nodes",
    "active",
    "passive",
    "arwl",
    "prwl",
    "ka",
    "kp",
    "ttl",
    "refill",
    "loss_join",
    "loss",
    "repeat",
    "order",
    "pace",
    "rounds",
    "crash",
    "heal",
    "broadcasts",
    "seed",
)
PHASES = ("settle", "crash", "heal")
FIGURES = ("nodes", "k", "least_degree", "links", "entries", "delivered")
FURTHER_OPTIONS = ("sequential", "sender", "detect")
COSTS = ("gossip", "ihave", "graft", "prune", "hops", "redundancy")
SHAPES = ("largest", "clustering", "path", "diameter", "degree_25", "degree_50", "degree_75", "articulations")
MESSAGES = ("phase", "number", "origin", "live", "delivered", "hops", "gossip", "ihave", "graft", "prune")
# Shares and means have four decimal digits.
SHARES = 10000


def decimal(value):
    """A fraction with four decimal digits, rounded down, or nothing."""
    if value is None:
        return ""
    share = value * SHARES // 1
    return f"{share // SHARES}.{share % SHARES:04}"


def mean(values):
    """The mean, or None of none."""
    return Fraction(sum(values), len(values)) if values else None


@dataclass
class Cost:
    """What is counted of one broadcast."""

    origin: int
    delivered: int = 0
    hops: int = 0
    gossip: int = 0
    ihave: int = 0
    graft: int = 0
    prune: int = 0

    def redundancy(self):
        """The relative redundancy, rounded down to four digits, or None."""
        if self.delivered < 2:
            return None
        return Fraction((Fraction(self.gossip, self.delivered - 1) - 1) * SHARES // 1, SHARES)


@dataclass
class Phase:
    """How an overlay stood at the end of a phase."""

    graph: object
    k: int
    moment: int
    deliveries: int
    broadcasts: int
    costs: list = field(default_factory=list)
    prunes: int = 0

    def figures(self):
        """The figures of a row."""
        degrees = map(len, self.graph.neighbours.values())
        return [len(self.graph.nodes), self.k, min(degrees), len(self.graph.links), self.moment, self.delivered()]

    def delivered(self):
        """The delivered share, rounded down, or nothing without broadcasts."""
        asked = self.broadcasts * len(self.graph.nodes)
        if not asked:
            return ""
        return decimal(Fraction(self.deliveries, asked))

    def cost_figures(self):
        """The columns of --costs."""
        sums = [sum(getattr(cost, name) for cost in self.costs) for name in ("gossip", "ihave", "graft")]
        redundancies = [found for cost in self.costs if (found := cost.redundancy()) is not None]
        return [*sums, self.prunes, decimal(mean([cost.hops for cost in self.costs])), decimal(mean(redundancies))]

    def shape_figures(self):
        """The columns of --shape."""
        neighbours = self.graph.neighbours
        component = largest(neighbours)
        path, diameter = paths(neighbours, component)
        points = len(articulations(neighbours, component))
        return [len(component), decimal(clustering(neighbours)), decimal(path), diameter, *quartiles(neighbours), points]


def header():
    """The first line of rows."""
    return ",".join([*OPTIONS, *names(FIGURES)])


def names(columns):
    """The names of columns of each phase."""
    return [f"{phase}_{column}" for phase in PHASES for column in columns]


def option_fields(options):
    """The options of a row."""
    said = {name: getattr(options, name) for name in OPTIONS}
    said["pace"] = "" if options.pace is None else options.pace
    said["crash"] = "cut" if options.crash_cut else options.crash
    return list(said.values())


def further_fields(options):
    """The further options of a row, which rows of `overlay sweep` have if one of them is asked for."""
    return [int(options.sequential), "" if options.sender is None else options.sender, int(options.detect)]


def row_of(options, phases):
    """The row of an overlay."""
    return ",".join(map(str, [*option_fields(options), *(figure for phase in phases for figure in phase.figures())]))


def asks_further(options):
    """Whether one of the further options is asked for."""
    return options.sequential or options.sender is not None or options.detect


def swept_header(is_further):
    """The header of the rows of a sweep: with the further options if one of them is asked for."""
    return ",".join([header(), *(FURTHER_OPTIONS if is_further else ())])


def swept_row(options, phases, is_further):
    """The row of an overlay in a sweep."""
    return ",".join([row_of(options, phases), *(map(str, further_fields(options)) if is_further else ())])


def further_header(costs=True, shape=True):
    """The first line of rows with further columns: what broadcasts cost, the shape of the overlay, or both."""
    told = [*(names(COSTS) if costs else []), *(names(SHAPES) if shape else [])]
    return ",".join([header(), *FURTHER_OPTIONS, *told])


def further_row(options, phases, costs=True, shape=True):
    """The row of an overlay with these columns."""
    told = [figure for phase in phases for figure in phase.cost_figures()] if costs else []
    told += [figure for phase in phases for figure in phase.shape_figures()] if shape else []
    return ",".join([row_of(options, phases), *map(str, [*further_fields(options), *told])])


def message_rows(options, phases):
    """The header and the row of each broadcast, of broadcasts that are made one by one."""
    lines = [",".join([*OPTIONS, *FURTHER_OPTIONS, *MESSAGES])]
    said = [*option_fields(options), *further_fields(options)]
    for name, phase in zip(PHASES, phases):
        for number, cost in enumerate(phase.costs, 1):
            figures = [name, number, cost.origin, len(phase.graph.nodes)]
            figures += [getattr(cost, name) for name in MESSAGES[4:]]
            lines.append(",".join(map(str, [*said, *figures])))
    return lines
