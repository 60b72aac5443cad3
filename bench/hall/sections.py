#!/usr/bin/env python3
"""sections.py PROGRAM CHECKER [RUNS [SEED]]: runs a scenario with eight sections again and again, and judges each run.

PROGRAM is `overlay`, CHECKER `overlay-check`; RUNS is 10,000 and SEED is 2 if they are left out. The scenario is made
from the seed: a world whose nodes have joined, with shuffles and walks on their way, and then a block whose sections
start nodes, deliver, shuffle, crash nodes, take snapshots, and analyse moments, also such that may not have come yet.
After the block come `snapshot`, `packets`, `show` of each node, and `certificate`, `analyse` and `certificate` of each
moment that there may be, then `analyse` and `certificate` for the group of the old nodes that no section crashes. Of
each run it is judged that

- the accepted and the refused lines of the block are all of its lines, and as many were accepted as entries and reports
  came;
- CHECKER says yes to each certificate that is printed, each text once, with the line of the report that was printed;
- there is an order of the lines of all sections, each section in its own, that as a scenario without sections prints
  the same after them. The order is read from what the run printed (orders.py), and PROGRAM runs it.

The table that it prints is in Markdown; Ctrl-C ends the runs, and the table has those before. A run that fails ends it
with status 1; then the scenario and the lines that the run printed are in `failed.scenario` and `failed.txt` of the
folder in which it was started.
"""

import collections
import pathlib
import random
import re
import subprocess
import sys

from orders import FORWARDJOIN, Line, Search, Seen, State, packet_of

# ARWL and PRWL are 1 and the time to live of a shuffle is 2: a walk or a shuffle that is on its way is answered.
PARAMETERS = "params 8 30 1 1 3 3 2"
SECTIONS = 8
OLD_NODES = range(1, 25)
WALKING_NODES = range(31, 35)
NEW_NODES = range(101, 101 + 2 * SECTIONS)
# The deliveries of a section, and the places below which they are: so many packets are surely there.
DELIVERIES = 3
PLACES = 8
SNAPSHOTS = 3
GUESSES = 3
# A guessed moment is one of these entries of the block.
EARLIEST_GUESS = 12
LATEST_GUESS = 70
# Lines that are refused wherever they stand: never born, used, no such packet, no such moment.
REFUSED = ("crash 999", "boot 1", "deliver 60000", "analyse 60000")
# More random words than any event uses.
WORDS = 40
# A block's orders are tried until one prints the same, so many at most.
MOST_ORDERS = 200
HEAD = re.compile(r"together (\d+) accepted (\d+) refused (\d+)")
NODES = re.compile(r'"nodes":\[([\d,]*)\]')

# The scenario: the lines before the block, the sections, the lines after it; the packets, the last entry and the nodes
# of before the block; the moments that there may be.
Plan = collections.namedtuple("Plan", "before sections after packets entries nodes moments")


class Failed(Exception):
    """What is wrong with a run."""


def run(program, lines):
    """The lines that the program prints for a scenario of these lines."""
    text = "\n".join(lines) + "\n"
    return subprocess.run([program, "run"], input=text, capture_output=True, text=True, check=True).stdout.splitlines()


def words(choices):
    """A line that gives random words."""
    return "words " + " ".join(str(choices.getrandbits(64)) for _ in range(WORDS))


def bag_of(program, lines):
    """The packets that are on their way after these lines."""
    return [packet_of(it) for it in run(program, [*lines, "packets"]) if it.startswith("packet ")]


def grown(program, choices):
    """The lines by which the old nodes join, with all packets delivered, and a snapshot half-way and at the end."""
    lines = [PARAMETERS, f"seed {choices.getrandbits(32)}"]
    for node in OLD_NODES:
        lines.append(f"boot {node} by {choices.randrange(1, node)}" if node > 1 else f"boot {node}")
        while bag_of(program, lines):
            lines.append("deliver 0")
        lines += ["snapshot"] if node in (OLD_NODES[-1] // 2, OLD_NODES[-1]) else []
    return lines


def on_their_way(program, lines, choices):
    """The same lines, and those after which walks and shuffles are on their way, with a snapshot before the shuffles
    and one at the end."""
    lines = list(lines)
    for node in WALKING_NODES:
        lines.append(f"boot {node} by {choices.choice(OLD_NODES)}")
        while others := [at for at, it in enumerate(bag_of(program, lines)) if it.kind != FORWARDJOIN]:
            lines.append(f"deliver {others[-1]}")
    lines += ["snapshot", *(f"shuffle {node}" for node in OLD_NODES)]
    walks = sum(it.kind == FORWARDJOIN for it in bag_of(program, lines))
    lines += [f"deliver {walks + choices.randrange(12)}" for _ in range(6)]
    return [*lines, "snapshot"]


def line(kind, *numbers, given=()):
    """A line of a section, after the lines that are given."""
    return Line(kind, numbers, [*given, " ".join(map(str, (kind, *numbers)))])


def birth(node, contact):
    """The line by which a node is born and joins by a contact."""
    return Line("boot", (node, contact), [f"boot {node} by {contact}"])


def section_lines(section, choices, delivery, moments, guesses):
    """The lines of one section. All deliveries have the same random words, so that it does not matter which section
    makes which. The last sections crash the nodes that the first ones crash."""
    first = [line("shuffle", node, given=[words(choices)]) for node in OLD_NODES[section::SECTIONS][:2]]
    first += [line("deliver", choices.randrange(PLACES), given=[delivery]) for _ in range(DELIVERIES)]
    first += [line("crash", OLD_NODES[5 * (section % 4) + 2])] if section % 4 < 3 else []
    first += [line("snapshot")] * (SNAPSHOTS - 1) + [line("analyse", moments[section % len(moments)])]
    first.append(Line("refused", (), [choices.choice(REFUSED)]))
    last = [birth(node, choices.choice(OLD_NODES)) for node in NEW_NODES[section::SECTIONS]] + [line("snapshot")]
    choices.shuffle(first)
    choices.shuffle(last)
    return [*first, *last, *(line("analyse", guess) for guess in sorted(choices.sample(guesses, GUESSES)))]


def planned(program, seed):
    """The scenario of a seed."""
    choices = random.Random(seed)
    before = on_their_way(program, grown(program, choices), choices)
    packets = bag_of(program, before)
    if len(packets) < SECTIONS * DELIVERIES + PLACES:
        raise Failed("too few packets are on their way; take another seed")
    events = [it for it in before if it.split()[0] not in ("params", "seed")]
    entries = len(events)
    moments = [at for at, it in enumerate(events, 1) if it == "snapshot"]
    guesses = range(entries + EARLIEST_GUESS, entries + LATEST_GUESS)
    delivery = words(choices)
    sections = [section_lines(it, choices, delivery, moments, guesses) for it in range(SECTIONS)]
    later = range(entries + 1, entries + 2 + sum(it.kind != "analyse" for lines in sections for it in lines))
    moments += later
    nodes = [*OLD_NODES, *WALKING_NODES]
    return Plan(before, sections, after_block(sections, moments), packets, entries, nodes, moments)


def after_block(sections, moments):
    """The lines after the block."""
    crashed = {it.numbers[0] for lines in sections for it in lines if it.kind == "crash"}
    group = ",".join(str(node) for node in OLD_NODES if node not in crashed)
    lines = ["snapshot", "packets", *(f"show {node}" for node in [*OLD_NODES, *WALKING_NODES, *NEW_NODES])]
    lines += [f"{kind} {it}" for kind in ("certificate", "analyse", "certificate") for it in moments]
    return lines + [f"{kind} {it} group {group}" for kind in ("analyse", "certificate") for it in moments]


def block(plan):
    """The scenario with its sections."""
    inside = [text for section in plan.sections for text in ["also", *(it for own in section for it in own.text)]]
    return [*plan.before, "together", *inside[1:], "end", *plan.after]


def in_order(plan, order):
    """The scenario without sections: their lines one after another, in this order of the sections."""
    left = [iter(section) for section in plan.sections]
    return [*plan.before, *(text for section in order for text in next(left[section]).text), *plan.after]


def of_moments(plan, printed):
    """What was printed of each moment: its certificate when the block ended, its analysis, its certificate, and both
    for the group."""
    count = len(plan.moments)
    told = printed[len(printed) - 5 * count:]
    return [dict(zip(plan.moments, told[at * count:(at + 1) * count])) for at in range(5)]


def seen_in(plan, printed):
    """What the lines after a block tell of it."""
    bag = [packet_of(it) for it in printed if it.startswith("packet ")]
    filed, _, certificates, _, _ = of_moments(plan, printed)
    delivered = sum(it.kind == "deliver" for section in plan.sections for it in section)
    nodes = {moment: frozenset(map(int, NODES.search(text)[1].split(",")))
             for moment, text in certificates.items() if not text.startswith("refused")}
    is_filed = frozenset(moment for moment, text in filed.items() if not text.startswith("refused"))
    return Seen(bag[len(plan.packets) - delivered:], int(printed[0].split()[1]) - 1, nodes, is_filed)


def check_counts(plan, head, seen):
    """Judges the line of the block, and returns how many of its lines were accepted and how many refused."""
    count, accepted, refused = map(int, HEAD.fullmatch(head).groups())
    if count != SECTIONS or accepted + refused != sum(map(len, plan.sections)):
        raise Failed(f"not all lines are counted: {head}")
    if accepted != seen.entries - plan.entries + len(seen.filed):
        raise Failed(f"{head}: {seen.entries - plan.entries} entries and {len(seen.filed)} reports came")
    return accepted, refused


def check_certificates(checker, plan, printed, known):
    """Judges each certificate by the checker, each text once, and returns how many were printed."""
    filed, *later = of_moments(plan, printed)
    count = 0
    for analyses, certificates in ({}, filed), later[:2], later[2:]:
        for moment, text in certificates.items():
            if text.startswith("refused"):
                continue
            count += 1
            if text not in known:
                known[text] = subprocess.run([checker], input=text, capture_output=True, text=True).stdout.strip()
            if not known[text].startswith(f"holds {moment} "):
                raise Failed(f"the checker says {known[text]!r} of {text}")
            if analyses.get(moment, "refused 52") not in ("report" + known[text][5:], "refused 52"):
                raise Failed(f"{analyses[moment]!r} is printed, and {known[text]!r} is checked")
    return count


def found_order(program, plan, printed, seen):
    """An order of all lines that prints the same after them, and how many orders were tried."""
    start = State((0,) * SECTIONS, tuple(range(len(plan.packets))), 0, plan.entries, frozenset(), frozenset())
    lines = sum(map(len, plan.sections))
    accepted = seen.entries - plan.entries + len(seen.filed)
    for tried, order in enumerate(Search(plan.sections, plan.packets, plan.nodes, seen).orders(start), 1):
        told = run(program, in_order(plan, order))
        own = told[plan.entries:plan.entries + lines]
        if told[plan.entries + lines:] == printed and sum(not it.startswith("refused") for it in own) == accepted:
            return order, tried
        if tried == MOST_ORDERS:
            break
    raise Failed("no order was found that prints the same")


def table(rows):
    """A table in Markdown."""
    return "\n".join(["| what was seen | |", "|---|---:|", *(f"| {name} | {value} |" for name, value in rows)])


def spread(numbers):
    """The least, the mean and the most of these numbers."""
    return f"{min(numbers)}, {sum(numbers) / len(numbers):.1f}, {max(numbers)}"


def changes(order):
    """How often the line after a line is one of another section."""
    return sum(one != other for one, other in zip(order, order[1:]))


class Tally:
    """What all runs came to."""

    def __init__(self):
        self.runs, self.known, self.outcomes = 0, {}, {}
        self.accepted, self.refused, self.filed, self.certificates = [], [], [], 0

    def judge(self, program, checker, plan, lines):
        """Judges one run by the lines that it printed."""
        head, printed = lines[plan.entries], lines[plan.entries + 1:]
        seen = seen_in(plan, printed)
        accepted, refused = check_counts(plan, head, seen)
        self.certificates += check_certificates(checker, plan, printed, self.known)
        outcome = "\n".join([head, *printed])
        if outcome not in self.outcomes:
            self.outcomes[outcome] = found_order(program, plan, printed, seen)
        self.runs += 1
        self.accepted.append(accepted)
        self.refused.append(refused)
        self.filed.append(len(seen.filed))

    def rows(self, program, plan):
        """The rows of the table."""
        orders, tried = zip(*self.outcomes.values())
        by_file = [at for at, section in enumerate(plan.sections) for _ in section]
        one_by_one = run(program, in_order(plan, by_file))[plan.entries + len(by_file):]
        return [
            ("runs", self.runs),
            ("outcomes that differ", len(self.outcomes)),
            ("lines accepted in a block: least, mean, most", spread(self.accepted)),
            ("lines refused in a block", spread(self.refused)),
            ("reports filed in a block", spread(self.filed)),
            ("certificates printed", self.certificates),
            ("of these, texts that differ; the checker says yes to each", len(self.known)),
            ("outcomes for which an order was found that prints the same", len(orders)),
            ("how many orders were run for that", spread(tried)),
            ("outcomes that the sections print one after another", sum(
                outcome.split("\n")[1:] == one_by_one for outcome in self.outcomes)),
            ("how often the next line in the order is one of another section", spread([*map(changes, orders)])),
        ]


def main(program, checker, runs="10000", seed="2"):
    plan, tally = planned(program, int(seed)), Tally()
    scenario = block(plan)
    lines = []
    try:
        for _ in range(int(runs)):
            lines = run(program, scenario)
            tally.judge(program, checker, plan, lines)
    except KeyboardInterrupt:
        print(f"ended after {tally.runs} runs")
    except Failed as why:
        pathlib.Path("failed.scenario").write_text("\n".join(scenario) + "\n")
        pathlib.Path("failed.txt").write_text("\n".join(lines) + "\n")
        raise SystemExit(f"run {tally.runs + 1}: {why}") from None
    print(table(tally.rows(program, plan)))


if __name__ == "__main__":
    if len(sys.argv) not in (3, 4, 5):
        sys.exit(__doc__)
    main(*sys.argv[1:])
