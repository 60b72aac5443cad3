#!/usr/bin/env python3
"""grow.py OPTIONS: grows an overlay by docs/GROWING.md alone, and prints the scenario that `overlay grow` prints.

It is a second opinion: plain Python over the nodes, the world and the analysis of bench/fuzz, which share nothing with
the Rattle code. With --csv it prints the row of `overlay sweep` for the same options instead, with its header. If a
step is refused it prints the number of the refusal on standard error, and ends with status 1.
"""

import argparse
import pathlib
import sys

sys.path.insert(0, str(pathlib.Path(__file__).resolve().parents[1] / "fuzz"))

from connectivity import Analysis  # noqa: E402
from nodes import GOSSIP, GRAFT, IHAVE, NEVER, PRUNE  # noqa: E402
from options import SEEDS, add_options, options_of  # noqa: E402
from pcg import Pcg64  # noqa: E402
from rows import Cost, Phase, further_header, further_row, header, message_rows, row_of  # noqa: E402
from world import PROFILE, SCALES, Refusal, World  # noqa: E402

WORDS = 64
# Turns between two births, if --pace does not say how many.
MOST_TURNS = 1000
COUNTED = {GOSSIP: "gossip", IHAVE: "ihave", GRAFT: "graft"}


class Choices:
    """The choices of growing, drawn from a generator of their own."""

    def __init__(self, seed):
        self.generator = Pcg64(SEEDS - 1 - seed)

    def one_of(self, count):
        """One of so many, counted from 0."""
        return self.generator.next() % count

    def chance(self, percent):
        """Whether a chance of so many in 100 comes true."""
        return percent > 0 and self.generator.next() % 100 < percent

    def order(self, members):
        """A random order of a list."""
        left, found = list(members), []
        while left:
            found.append(left.pop(self.one_of(len(left))))
        return found


class Growing:
    """An overlay that grows: its world, the lines so far, what a run of them prints, and the phases that ended."""

    def __init__(self, options):
        self.options, self.choices = options, Choices(options.seed)
        self.scale = PROFILE if options.nodes <= SCALES[PROFILE][0] else "large"
        self.world = World(options.params(), options.refill, self.scale)
        self.words, self.lines, self.printed, self.phases = Pcg64(options.seed), [], [], []
        self.loss, self.are_told, self.deliveries = options.loss_join, False, 0
        # what was counted of each broadcast, by its origin and number there, and how many PRUNE there were
        self.costs, self.prunes = {}, 0

    def act(self, line, kind, *given):
        """Takes a step, and writes its line."""
        kept = len(self.world.packets) - (kind == "deliver")
        said = self.world.step(kind, given, self.words.block(WORDS))
        self.count(said, self.world.packets[kept:] if kind not in ("lose", "repeat") else [])
        self.lines.append(line)
        self.printed.append(" ".join([f"entry {self.world.entries}", *said]))

    def count(self, said, sent):
        """Counts what a step delivers and sends of broadcasts."""
        for change in said:
            kind, *ids = change.split(" ")
            if kind == "delivered":
                self.deliveries += 1
                node, *name = map(int, ids)
                cost = self.costs.setdefault(tuple(name), Cost(name[0]))
                cost.delivered += 1
                cost.hops = max(cost.hops, self.world.nodes[node].held[tuple(name)][1])
        for _, (kind, _, *fields) in sent:
            if kind in COUNTED:
                cost = self.costs[tuple(fields[:2])]
                setattr(cost, COUNTED[kind], getattr(cost, COUNTED[kind]) + 1)
            self.prunes += kind == PRUNE

    def live(self):
        """The live nodes, by their ids."""
        return sorted(name for name, node in self.world.nodes.items() if node is not None)

    def is_live(self, node):
        """Whether a node lives."""
        return self.world.nodes[node] is not None

    def turn(self):
        """A turn of a packet."""
        packets, options = self.world.packets, self.options
        place = self.choices.one_of(len(packets)) if options.order == "random" else 0
        if self.choices.chance(self.loss):
            self.act(f"lose {place}", "lose", place)
            return
        if self.choices.chance(options.repeat):
            self.act(f"repeat {place}", "repeat", place)
        receiver, (_, sender, *_) = packets[place]
        self.act(f"deliver {place}", "deliver", place)
        if self.are_told and not self.is_live(receiver) and self.is_live(sender):
            self.act(f"report {sender} {receiver}", "report", sender, receiver)

    def run_out(self):
        """Packets run out."""
        while self.world.packets:
            self.turn()

    def turns(self, most):
        """So many turns, or fewer if no packet is left."""
        while most > 0 and self.world.packets:
            self.turn()
            most -= 1

    def rounds(self, count):
        """Rounds of shuffles."""
        for _ in range(count):
            for node in self.choices.order(self.live()):
                self.act(f"shuffle {node}", "shuffle", node)
            self.run_out()

    def fire(self, messages):
        """Timers fire once, of each message at each live node. Whether one did."""
        fired = False
        for node in self.live():
            for message in messages:
                if message in self.world.nodes[node].timers:
                    self.act("timer {} {} {}".format(node, *message), "timer", node, *message)
                    fired = True
        return fired

    def sender(self):
        """Who makes the next broadcast."""
        live, wanted = self.live(), self.options.sender
        if wanted is None:
            return live[self.choices.one_of(len(live))]
        return min(live, key=lambda node: (node < wanted, node))

    def spread(self, count):
        """So many broadcasts at once, until nothing of them is left: their names."""
        messages = []
        for _ in range(count):
            node = self.sender()
            messages.append((node, self.world.nodes[node].made))
            self.act(f"broadcast {node}", "broadcast", node, b"")
        self.run_out()
        while self.fire(messages):
            self.run_out()
        return messages

    def spread_alone(self):
        """One broadcast, until nothing of it is left: its name."""
        prunes = self.prunes
        (name,) = self.spread(1)
        self.costs[name].prune = self.prunes - prunes
        return name

    def broadcasts(self):
        """The broadcasts of a phase: their names."""
        count = self.options.broadcasts
        return [self.spread_alone() for _ in range(count)] if self.options.sequential else self.spread(count)

    def end_phase(self):
        """The snapshot at the end of a phase, its analysis, and the broadcasts: the analysis."""
        self.act("snapshot", "snapshot")
        moment = self.world.entries
        self.lines.append(f"analyse {moment}")
        graph = self.world.moments[moment]
        analysis = Analysis(graph, graph.nodes)
        self.printed.append(analysis.line(moment))
        begun, prunes = self.deliveries, self.prunes
        costs = [self.costs[name] for name in self.broadcasts()]
        told = self.deliveries - begun, self.options.broadcasts, costs, self.prunes - prunes
        self.phases.append(Phase(graph, analysis.fields["k"], moment, *told))
        return analysis

    def join(self):
        """The first phase."""
        options = self.options
        self.lines.append("# join")
        self.act("boot 1", "boot", 1, None)
        for node in range(2, options.nodes + 1):
            self.turns(MOST_TURNS if options.pace is None else options.pace)
            contact = 1 + self.choices.one_of(node - 1)
            self.act(f"boot {node} by {contact}", "boot", node, contact)
        self.run_out()

    def settle(self):
        """The second phase: the cut of the settled overlay."""
        self.lines.append("# settle")
        self.loss = self.options.loss
        self.rounds(self.options.rounds)
        return self.end_phase().fields.get("cut", [])

    def crash(self, cut):
        """The third phase."""
        self.lines.append("# crash")
        live = self.live()
        crashed = cut if self.options.crash_cut else self.choices.order(live)[: len(live) * self.options.crash // 100]
        for node in crashed:
            self.act(f"crash {node}", "crash", node)
        self.are_told = self.options.detect
        self.end_phase()

    def untold(self):
        """The first live node that has a crashed node in its active view, and the first such."""
        pairs = ((node, other) for node in self.live() for other in sorted(self.world.nodes[node].active))
        return next(((node, other) for node, other in pairs if not self.is_live(other)), None)

    def heal(self):
        """The last phase."""
        self.lines.append("# heal")
        self.are_told = True
        while not self.options.detect and (untold := self.untold()) is not None:
            node, crashed = untold
            self.act(f"report {node} {crashed}", "report", node, crashed)
            self.run_out()
        self.rounds(self.options.heal)
        self.end_phase()

    def grow(self):
        """All phases: the scenario's lines."""
        options = self.options
        self.lines += [
            f"# {options.heading()}",
            "params {} {} {} {} {} {} {}".format(*options.params()),
            f"seed {options.seed}",
        ]
        if options.refill != NEVER:
            self.lines.append(f"refill {options.refill}")
        if self.scale != PROFILE:
            self.lines.append(f"scale {self.scale}")
        self.join()
        self.crash(self.settle())
        self.heal()
        return self.lines


def main():
    parser = argparse.ArgumentParser(description=__doc__, formatter_class=argparse.RawDescriptionHelpFormatter)
    add_options(parser)
    parser.add_argument("--csv", action="store_true", help="the row of this overlay, in place of its scenario")
    parser.add_argument("--further", action="store_true", help="its row with what --costs and --shape put behind it")
    parser.add_argument("--messages", action="store_true", help="a row for each broadcast; this needs --sequential")
    given = parser.parse_args()
    growing = Growing(options_of(parser, given))
    try:
        lines = growing.grow()
    except Refusal as fault:
        print(f"refused {fault}", file=sys.stderr)
        return 1
    told = growing.options, growing.phases
    if given.csv:
        lines = [header(), row_of(*told)]
    if given.further:
        lines = [further_header(), further_row(*told)]
    if given.messages:
        lines = message_rows(*told)
    print("\n".join(lines))
    return 0


if __name__ == "__main__":
    sys.exit(main())
