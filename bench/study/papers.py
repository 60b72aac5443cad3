#!/usr/bin/env python3
"""papers.py --simulate PROGRAM [--overlay PROGRAM] [--hold] [NAME ..]: makes the rows of docs/PAPERS.md into out/, and
writes its tables and figures anew.

Rows that `overlay sweep` can make come from it if a program is named, and else from the simulation. Rows that are there
stay: remove their files to make them anew. With names only these tables and figures are made. With --hold nothing is
written: rows of `overlay sweep` that are there are held against those of the simulation. A figure of several overlays
is the mean over their seeds of a figure of each; with it stand the least and the largest.
"""

import argparse
import pathlib
import re
import subprocess
import sys

from figures import Axis, Panel, drawn, whole_numbers
from options import CHOICES
from study import DOCS
from sweeps import PAPERS, ROWS, SWEEPS, grouped, held, make, rows
from tables import table

HERE = pathlib.Path(__file__).resolve().parent
PAGES = (DOCS / "PAPERS.md", DOCS / "TABLES.md")
RULES = CHOICES["refill"]
CRASHES = ("10", "30", "50", "70", "80", "90", "95")
ROUNDS = range(5)
# From few crashes to many; and the same for a dark background.
LIGHT = ["#2c3e94", "#1d8aa8", "#2a9d8f", "#a08a00", "#d95f02", "#c0302a", "#7a1020"]
DARK = ["#9db0ff", "#6fd0e8", "#6fd6c8", "#e0cf5a", "#ff9a52", "#ff8a80", "#ff6fa0"]
# Messages that are told together: in figures, and in tables.
PIECES = ((1, 1), (2, 2), (3, 4), (5, 8), (9, 14), (15, 20), (21, 50), (51, 100), (101, 200), (201, 500), (501, 1000))
OF_TABLE = ((1, 1), (2, 5), (6, 10), (11, 20), (41, 50), (91, 100), (191, 200), (491, 500), (901, 1000))
OF_TREE = ((1, 1), (2, 2), (3, 10), (11, 20))
OF_SWEPT = ((1, 1), (2, 5), (6, 10))
PERCENT = Axis("", 0, 100, whole_numbers(0, 20, 40, 60, 80, 100))
# What `simulate` has no part in: random graphs, in which each node has as many links.
RANDOM = "--random --nodes 10000 --active 5 --runs 5"


def over_seeds(some, figure):
    """A figure of the rows of each seed: the mean, the least and the largest."""
    found = {}
    for row in some:
        found.setdefault(row["seed"], []).append(row)
    values = [figure(of_seed) for of_seed in found.values()]
    return sum(values) / len(values), min(values), max(values)


def spread(some, figure, form):
    """The mean over seeds and their range, in words."""
    if not some:
        return ""
    mean, least, largest = (f"{value:{form}}" for value in over_seeds(some, figure))
    return mean if least == largest else f"{mean} ({least} to {largest})"


def mean_of(column):
    """What finds the mean of a column."""
    return lambda some: sum(float(row[column]) for row in some) / len(some)


def links_of(some):
    """The mean number of links of a node of settled overlays."""
    return 2 * sum(int(row["settle_links"]) for row in some) / sum(int(row["settle_nodes"]) for row in some)


def delivered(some):
    """The mean share of live nodes that delivered, in percent."""
    return 100 * sum(int(row["delivered"]) / int(row["live"]) for row in some) / len(some)


def in_largest(some):
    """The mean share of live nodes in the largest component, in percent."""
    return 100 * sum(int(row["largest"]) / int(row["live"]) for row in some) / len(some)


def reached(some):
    """The mean share of live nodes that deliver the broadcasts after a round, in percent."""
    return 100 * mean_of("delivered")(some)


def redundancy(some):
    """The mean relative redundancy of broadcasts that two nodes delivered."""
    found = [int(row["gossip"]) / (int(row["delivered"]) - 1) - 1 for row in some if int(row["delivered"]) > 1]
    return sum(found) / len(found)


def piece(some, first, last):
    """The rows of messages by their numbers."""
    return [row for row in some if first <= int(row["number"]) <= last]


def of_phase(some, phase):
    """The rows of messages of a phase."""
    return [row for row in some if row["phase"] == phase]


def panels_of_crashes(titles, across, points):
    """A figure of panels with these titles, and in each a line for each share of crashes, with bars from the least to
    the largest of the seeds; `points` finds its points, by the panel's place and the share."""
    panels, wide = [], 1110 // len(titles)
    for at, title in enumerate(titles):
        panel = Panel(60 + wide * at, wide - 70, title, across, PERCENT)
        panel.axes()
        for tone, crash in enumerate(CRASHES):
            with_bars(panel, tone, points(at, crash))
        panels.append(panel)
    for tone, crash in enumerate(CRASHES):
        x, y = 1120, 90 + 26 * tone
        panels[-1].parts += [
            f'<line class="bar s{tone}" x1="{x}" x2="{x + 22}" y1="{y}" y2="{y}"/>',
            f'<text class="said s{tone}" x="{x + 28}" y="{y + 5}">{crash} %</text>',
        ]
    return drawn(*panels, tones=(LIGHT, DARK))


def with_bars(panel, tone, points):
    """A line through means, and the range of each."""
    panel.line(tone, [(x, mean) for x, (mean, _, _) in points])
    for x, (_, least, largest) in points:
        panel.bar(tone, x, least, largest)


def by_message():
    """The share of live nodes that deliver each message after a crash."""
    sent, told = (grouped(name, "refill", "crash") for name in ("papers-crash", "papers-told"))
    # many messages were made where the first 20 do not tell how it ends
    sent |= grouped("papers-crash-long", "refill", "crash")
    across = Axis("message after the crash", 1, 1000, whole_numbers(1, 10, 100, 1000), is_log=True)
    panels = {
        "% that deliver: never, found by sending": (sent, "never"),
        "always, found by sending": (sent, "always"),
        "always, everybody told before": (told, "always"),
    }

    def points(at, crash):
        found, rule = list(panels.values())[at]
        some = found[rule, crash]
        return in_pieces(some, delivered, max(int(row["number"]) for row in some))

    return panels_of_crashes(panels, across, points)


def in_pieces(some, figure, last):
    """A figure for each piece of the messages of a run, over the middle of the piece."""
    pieces = [(first, min(end, last)) for first, end in PIECES if first <= last]
    return [((first * end) ** 0.5, over_seeds(piece(some, first, end), figure)) for first, end in pieces]


def healing():
    """The share of live nodes in the largest component after rounds of shuffles."""
    found, rules = grouped("papers-heal", "refill", "crash", "round"), ("never", "always")
    across = Axis("rounds of shuffles after the crash", 0, max(ROUNDS), whole_numbers(*ROUNDS))

    def points(at, crash):
        return [(heal, over_seeds(found[rules[at], crash, str(heal)], in_largest)) for heal in ROUNDS]

    return panels_of_crashes([f"% of live nodes in the largest component: {rule}" for rule in rules], across, points)


def tree():
    """Redundancy and hops of messages one after the other, by one sender and many."""
    across = Axis("message", 1, 20, whole_numbers(1, 2, 5, 10, 20), is_log=True)
    panels = [
        Panel(60, 480, "relative redundancy", across, Axis("", 0, 4, whole_numbers(0, 1, 2, 3, 4))),
        Panel(620, 480, "most hops of a message", across, Axis("", 0, 50, whole_numbers(0, 10, 20, 30, 40, 50))),
    ]
    for panel in panels:
        panel.axes()
    tone = 0
    for order in CHOICES["order"]:
        for name, senders in (("papers-one", "one sender"), ("papers-many", "many senders")):
            some = of_phase(grouped(name, "refill", "order")["always", order], "settle")
            for panel, figure in zip(panels, (redundancy, mean_of("hops"))):
                with_bars(panel, tone, in_pieces(some, figure, 20))
            said = f"{senders}, packets in order {order}"
            panels[0].parts.append(f'<text class="said s{tone}" x="250" y="{84 + 11 * tone}">{said}</text>')
            tone += 2
    return drawn(*panels, tones=(LIGHT, DARK))


# What is said of each sweep of shapes behind the rule.
FILLED = ", a free place is asked for in each of {} rounds"
SHAPES = {
    "papers-shape": "",
    "papers-shape-fill": FILLED.format(3),
    "papers-random": "random graph, 5 links at each node",
}
# Whose links the tool tells.
LINKS = {"papers-shape": "papers-links"}
VARIED_SHAPES = {
    "papers-shape-filled": FILLED.format(10),
    "papers-shape-contact": ", all join by node 1",
    "papers-shape-oldest": ", the oldest packet is always the next",
}


def shape_table(names, first=()):
    """The shape of settled overlays; each sweep by what is said of it."""
    columns = (("largest", ",.0f"), ("clustering", ".5f"), ("path", ".3f"), ("farthest", ".2f"))
    lines = list(first)
    for name, said in names.items():
        swept = grouped(LINKS[name], "refill") if name in LINKS else {}
        for (rule,), some in grouped(name, "refill" if name in PAPERS else "active").items():
            of_rule = f"`{rule}`{said}" if name in PAPERS else said
            links = spread(swept[rule,], links_of, ".2f") if swept else spread(some, mean_of("links"), ".2f")
            lines.append([of_rule, links, *(spread(some, mean_of(column), form) for column, form in columns)])
    head = ["links of a node", "largest component", "clustering coefficient", "mean shortest path", "farthest"]
    return table(["rule", *head], lines)


def beside_the_paper():
    """The shape of settled overlays beside that of the paper."""
    return shape_table(SHAPES, [["HyParView's paper, Table 1", "", "", "0.00092", "6.38590", "9.0"]])


def crash_table(names):
    """What messages after a crash reach; each sweep by what is said of it."""
    most, lines = max(last_of(name) for name in names), []
    pieces = [(first, last) for first, last in OF_TABLE if last <= most]
    for name, said in names.items():
        for (rule, crash), some in grouped(name, "refill", "crash").items():
            found = [piece(some, *ends) if ends[1] <= last_of(name) else [] for ends in pieces]
            lines.append([f"`{rule}`{said}", crash, *(spread(of_piece, delivered, ".1f") for of_piece in found)])
    head = [f"message {first}" if first == last else f"{first} to {last}" for first, last in pieces]
    return table(["rule", "% that crash", *head], lines)


def last_of(name):
    """The number of the last message of a sweep."""
    return max(int(row["number"]) for row in rows(name))


def told_table():
    """What broadcasts of a phase reach after the crash and when everybody was told, by the tool."""
    lines = []
    for (rule, crash), some in grouped("papers-told-250", "refill", "crash").items():
        shares = [[100 * float(row[f"{phase}_delivered"]) for row in some] for phase in ("settle", "crash", "heal")]
        means = [f"{sum(values) / len(values):.1f}" for values in shares]
        lines.append([f"`{rule}`", crash, *means, f"{min(shares[-1]):.1f} to {max(shares[-1]):.1f}"])
    return table(["rule", "% that crash", "settled", "after the crash", "all are told", "range of these"], lines)


def swept_table():
    """What messages reach after a crash, and after two rounds of shuffles that follow, by the tool."""
    lines = []
    for (rule, crash), some in grouped("papers-swept", "refill", "crash").items():
        pieces = [piece(of_phase(some, phase), *ends) for phase in ("crash", "heal") for ends in OF_SWEPT]
        lines.append([f"`{rule}`", crash, *(spread(of_piece, delivered, ".1f") for of_piece in pieces)])
    head = ["after the crash: message 1", "2 to 5", "6 to 10", "after two rounds: message 1", "2 to 5", "6 to 10"]
    return table(["rule", "% that crash", *head], lines)


def small_shape_table():
    """The shape of settled overlays of 1,000 nodes, by the tool."""
    columns = (("largest", ",.0f"), ("clustering", ".4f"), ("path", ".3f"), ("diameter", ".1f"))
    lines = []
    for (rule,), some in grouped("papers-shape-1000", "refill").items():
        shape = (spread(some, mean_of(f"settle_{column}"), form) for column, form in columns)
        lines.append([f"`{rule}`", spread(some, links_of, ".2f"), *shape])
    head = ["links of a node", "largest component", "clustering coefficient", "mean shortest path", "diameter"]
    return table(["rule", *head], lines)


def heal_table():
    """What broadcasts reach after rounds of shuffles, and how much of an overlay is one part."""
    lines = []
    for (rule, crash), some in grouped("papers-heal", "refill", "crash").items():
        cells = []
        for at in map(str, ROUNDS):
            of_round = [row for row in some if row["round"] == at]
            cells.append(f"{spread(of_round, reached, '.1f')}; {over_seeds(of_round, in_largest)[0]:.1f}")
        lines.append([f"`{rule}`", crash, *cells])
    return table(["rule", "% that crash", *(f"{at} round{'' if at == 1 else 's'}" for at in ROUNDS)], lines)


def tree_table():
    """Redundancy and hops of the first messages and of later ones."""
    lines = []
    for name, senders in (("papers-one", "one"), ("papers-many", "many")):
        for (rule, order), some in grouped(name, "refill", "order").items():
            line = [f"`{rule}`, {senders}, `{order}`"]
            for ends in OF_TREE:
                of_piece = piece(of_phase(some, "settle"), *ends)
                line.append(f"{spread(of_piece, redundancy, '.3f')}; {spread(of_piece, mean_of('hops'), '.1f')}")
            lines.append(line)
    head = [f"message {first}" if first == last else f"{first} to {last}" for first, last in OF_TREE]
    return table(["rule, senders, order of packets", *head], lines)


CRASH = {
    "papers-crash": ", found by sending",
    "papers-crash-long": ", found by sending, more messages",
    "papers-passed": ", found by sending, and passed on to whoever is found",
    "papers-told": ", everybody told",
}
VARIED = {
    "papers-varied": ", found by sending",
    "papers-varied-until": ", found by sending, an attempt goes on until the view is full",
    "papers-varied-passed": ", found by sending, and passed on to whoever is found",
    "papers-varied-both": ", the same, and an attempt goes on until the view is full",
    "papers-varied-rounds": ", found by sending, after 50 rounds of shuffles",
    "papers-varied-tree": ", found by sending, by Plumtree's rules",
    "papers-varied-told": ", everybody told, one report after the other",
    "papers-varied-at-once": ", everybody told, all reports at once",
}
# Each table by its mark in the document, each figure by its file, and the sweeps that it is made of.
TABLES = {
    "shape": (beside_the_paper, [*LINKS.values(), *SHAPES]),
    "shape-varied": (lambda: shape_table(VARIED_SHAPES), list(VARIED_SHAPES)),
    "messages": (lambda: crash_table(CRASH), list(CRASH)),
    "told-250": (told_table, ["papers-told-250"]),
    "shape-1000": (small_shape_table, ["papers-shape-1000"]),
    "swept": (swept_table, ["papers-swept"]),
    "crash-varied": (lambda: crash_table(VARIED), list(VARIED)),
    "heal": (heal_table, ["papers-heal"]),
    "tree": (tree_table, ["papers-one", "papers-many"]),
}
FIGURES = {
    "papers-crash.svg": (by_message, list(CRASH)),
    "papers-heal.svg": (healing, ["papers-heal"]),
    "papers-tree.svg": (tree, ["papers-one", "papers-many"]),
}


def command(name):
    """What makes the rows of a sweep, in words."""
    if name in SWEEPS:
        return f"overlay sweep {SWEEPS[name]}"
    return f"simulate {PAPERS[name]}" if name in PAPERS else f"shape.py {RANDOM}"


def make_rows(name, simulate, overlay):
    """Makes the rows of a sweep, unless they are there."""
    if name in PAPERS or name in SWEEPS:
        make(name, simulate, overlay, 1)
    elif not (ROWS / f"{name}.csv").exists():
        ROWS.mkdir(exist_ok=True)
        done = subprocess.run([sys.executable, HERE / "shape.py", *RANDOM.split()], stdout=subprocess.PIPE, check=True)
        (ROWS / f"{name}.csv").write_bytes(done.stdout)


def put(text, name):
    """The page with a table and its commands in its place, between its marks."""
    made, sources = TABLES[name]
    commands = "; ".join(f"`{command(source)}`" for source in sources)
    lines = "\n".join([*made(), "", f"Rows: {commands}."])
    place = re.compile(rf"(<!-- table {name} -->\n).*?(<!-- end -->)", re.DOTALL)
    return place.sub(lambda found: f"{found[1]}{lines}\n{found[2]}", text)


def main():
    parser = argparse.ArgumentParser(description=__doc__, formatter_class=argparse.RawDescriptionHelpFormatter)
    parser.add_argument("--simulate", required=True)
    parser.add_argument("--overlay")
    parser.add_argument("--hold", action="store_true")
    parser.add_argument("names", nargs="*", choices=[*TABLES, *FIGURES, []])
    given = parser.parse_args()
    of_all = TABLES | FIGURES
    names = given.names or [*of_all]
    if given.hold:
        sources = dict.fromkeys(source for name in names for source in of_all[name][1])
        print(*held(sources, given.simulate), sep="\n")
        return
    for name in names:
        made, sources = of_all[name]
        for source in sources:
            make_rows(source, given.simulate, given.overlay)
        if name in TABLES:
            for page in PAGES:
                page.write_text(put(page.read_text(), name))
        else:
            (DOCS / name).write_text(made())


if __name__ == "__main__":
    main()
