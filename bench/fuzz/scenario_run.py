"""Runs the lines of a scenario, by docs/FORMATS.md alone.

The sections of a block run at once, so that several outputs may be right. All orders of their lines are tried, and each
gives one output, unless there are too many.
"""

import math

from connectivity import Analysis, listed
from nodes import NEVER, encoded
from pcg import Pcg64
from scenario_lines import DEFAULT_PARAMS, IS_EVENT
from world import PROFILE, Refusal, World, demand

WORDS = 64
NO_NODES, BAD_GROUP, NO_SUCH_MOMENT, ALREADY_FILED = 30, 34, 50, 52
# How many orders of a block, and outputs of a scenario, are tried.
MOST_ORDERS, MOST_OUTPUTS = 100, 400


class Undetermined:
    """A line of which only the beginning is known, or any number of such lines."""

    def __init__(self, *beginnings, many=False):
        self.beginnings, self.is_many = beginnings, many

    def __str__(self):
        return f"? {' or '.join(self.beginnings)}, as the order of sections says" + (", for each" * self.is_many)

    def fits(self, line):
        """Whether a line may stand here."""
        return line.startswith(self.beginnings)


class SectionsLine(Undetermined):
    """The line of a block whose sections have so many lines: how many were accepted is open."""

    def __init__(self, sections, count):
        super().__init__(f"together {sections} accepted ")
        self.count = count

    def fits(self, line):
        """Whether a line may stand here."""
        words = line.split(" ")
        return (super().fits(line) and len(words) == 6 and words[4] == "refused"
                and words[3].isdigit() and words[5].isdigit() and int(words[3]) + int(words[5]) == self.count)


class Certificate(str):
    """The text of a certificate file, of which the paths may differ."""


class State:
    """How far one run of a scenario has come.

    `printed` has what standard output gets, line by line. `refused` has the places in the file of the lines that were
    refused, in the order in which they are explained, and `events` how many events were accepted and how many refused.
    """

    def __init__(self, params, refill=NEVER, scale=PROFILE):
        self.world, self.reports, self.printed = World(params, refill, scale), {}, []
        self.refused, self.events = [], [0, 0]

    def copy(self):
        other = State(self.world.params, self.world.refill, self.world.scale)
        other.world, other.reports, other.printed = self.world.copy(), dict(self.reports), list(self.printed)
        other.refused, other.events = list(self.refused), list(self.events)
        return other

    def do(self, said, words, place):
        """Does a line outside sections, whose random words are these if it is an event."""
        kind, *given = said
        try:
            if kind in IS_EVENT:
                self.printed.append(self.event(kind, given, words))
            else:
                self.printed += getattr(self, kind)(*given)
            is_refused = False
        except Refusal as fault:
            self.printed.append(f"refused {fault}")
            self.refused.append(place)
            is_refused = True
        if kind in IS_EVENT:
            self.events[is_refused] += 1

    def end_block(self, sections, done):
        """Tells what came of the lines of a block with so many sections. The sections stand one behind the other in the
        file, so that its refused lines are explained by their places."""
        refused = sorted(line.place for line in done if line.is_refused)
        self.printed.append(f"together {sections} accepted {len(done) - len(refused)} refused {len(refused)}")
        self.refused += refused
        for line in done:
            if line.is_event:
                self.events[line.is_refused] += 1

    def event(self, kind, given, words):
        """What the line of an accepted event prints."""
        said = self.world.step(kind, given, words)
        return " ".join([f"entry {self.world.entries}", *said])

    def graph_of(self, moment):
        """The graph of a moment."""
        demand(moment in self.world.moments, NO_SUCH_MOMENT)
        return self.world.moments[moment]

    def begin(self, moment):
        """Begins an analysis."""
        graph = self.graph_of(moment)
        demand(graph.nodes, NO_NODES)
        return graph

    def file(self, moment, group):
        """Files the report of a moment and a group."""
        demand((moment, group) not in self.reports, ALREADY_FILED)
        self.reports[moment, group] = Analysis(self.world.moments[moment], group)
        return self.reports[moment, group]

    def analyse(self, moment, workers, ids):
        """`analyse`."""
        graph = self.begin(moment)
        group = tuple(graph.nodes) if ids is None else ids
        demand(graph.is_group(group), BAD_GROUP)
        return [self.file(moment, group).line(moment)]

    def certificate(self, moment, ids):
        """`certificate`."""
        group = tuple(self.graph_of(moment).nodes) if ids is None else ids
        demand((moment, group) in self.reports, NO_SUCH_MOMENT)
        return [Certificate(self.reports[moment, group].certificate(moment))]

    def show(self, name):
        """`show`."""
        node = self.world.live(name)
        views = node.active, node.passive, node.active - node.lazy, node.lazy
        active, passive, eager, lazy = (listed(sorted(view)) for view in views)
        return [f"node {name} active {active} passive {passive} eager {eager} lazy {lazy}"]

    def packets(self):
        """`packets`."""
        return [f"packet {at} to {to} {encoded(message).hex()}"
                for at, (to, message) in enumerate(self.world.packets)]


def steps_of(lines):
    """The steps of a section's lines, each with the line's place in the file: one of an event, and two of an analysis,
    which begins and is filed."""
    steps = []
    for (kind, *given), words, place in lines:
        if kind == "analyse":
            steps += [(place, "begin", given[0]), (place, "file", given[0])]
        else:
            steps.append((place, kind, given, words))
    return tuple(steps)


def number_of_orders(sections):
    """In how many orders the steps of sections can come."""
    count = math.factorial(sum(map(len, sections)))
    for steps in sections:
        count //= math.factorial(len(steps))
    return count


class Done:
    """What came of a line of a section: its place in the file, whether it is an event, and whether it was refused."""

    def __init__(self, place, is_event, is_refused):
        self.place, self.is_event, self.is_refused = place, is_event, is_refused


def take(state, steps):
    """Takes the first step of a section: the steps that are left, and the lines that are done by it, at most one."""
    (place, kind, *given), *rest = steps
    is_event = kind in IS_EVENT
    try:
        if kind == "begin":
            state.begin(*given)
            return tuple(rest), ()
        if is_event:
            state.event(kind, *given)
        else:
            state.file(*given, tuple(state.graph_of(*given).nodes))
    except Refusal:
        # the analysis that could not begin is not filed
        return tuple(rest[1:] if kind == "begin" else rest), (Done(place, is_event, True),)
    return tuple(rest), (Done(place, is_event, False),)


def orders(state, sections, done=()):
    """Each state that an order of the sections' steps leads to, with what came of each line."""
    filled = [at for at, steps in enumerate(sections) if steps]
    if not filled:
        yield state, done
    for at in filled:
        branch = state if len(filled) == 1 else state.copy()
        rest, more = take(branch, sections[at])
        yield from orders(branch, [*sections[:at], rest, *sections[at + 1 :]], (*done, *more))


class Run:
    """All runs of a scenario, a state for each. From a block on that has too many orders, lines are guessed."""

    def __init__(self, reader):
        self.generator = Pcg64(reader.seed[0] if reader.seed else 0)
        params, (refill,) = reader.params or DEFAULT_PARAMS, reader.refill or (NEVER,)
        (scale,) = reader.scale or (PROFILE,)
        self.states, self.is_determined = [State(params, refill, scale)], True
        for said, words, place in reader.lines:
            if said[0] == "sections":
                self.block(said[1])
            else:
                self.line(said, words, place)

    def words_of(self, said, given):
        """The random words of an event: those given with zeros behind them, or the next ones of the generator."""
        if said[0] not in IS_EVENT:
            return None
        if given is None:
            return [self.generator.next() for _ in range(WORDS)]
        return [*given, *[0] * (WORDS - len(given))]

    def line(self, said, given, place):
        """A line outside sections."""
        if not self.is_determined:
            for state in self.states:
                state.printed.append(guess(said[0]))
            return
        words = self.words_of(said, given)
        for state in self.states:
            state.do(said, words, place)

    def block(self, sections):
        """A block of sections, whose random words are drawn in the order of the file."""
        count = sum(map(len, sections))
        drawn = [[(said, self.words_of(said, words), place) for said, words, place in lines] for lines in sections]
        steps = [steps_of(lines) for lines in drawn]
        number = number_of_orders(steps)
        if not self.is_determined or number > MOST_ORDERS or number * len(self.states) > MOST_OUTPUTS:
            self.is_determined = False
            for state in self.states:
                state.printed.append(SectionsLine(len(sections), count))
            return
        found = [it for state in self.states for it in orders(state, steps)]
        for state, done in found:
            state.end_block(len(sections), done)
        self.states = [state for state, _ in found]


def guess(kind):
    """The line that is not determined, since sections came before."""
    own = {"analyse": "report ", "certificate": "{", "show": "node "}.get(kind, "entry ")
    return Undetermined("packet ", many=True) if kind == "packets" else Undetermined(own, "refused ")
