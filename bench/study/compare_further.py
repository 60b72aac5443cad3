#!/usr/bin/env python3
"""compare_further.py [--simulate PROGRAM] [--networkx] [--overlay PROGRAM [--grows]] [--nodes M] [--count N]
[--first SEED] [--jobs J]: grows N overlays, of M nodes at most, with options drawn at random, --sequential, --sender
and --detect among them, in J processes side by side, and holds others against grow.py:

  --simulate  this simulation prints the same scenario, the same row, with and without further columns, and the same row
              of each broadcast
  --networkx  networkx finds the same largest component, clustering, paths and diameter after each phase
  --overlay   the scenario, run strictly by this program, prints event for event what growing saw
  --grows     this program grows the same scenario, and its sweep prints the same row, without further columns, with
              --costs, with --shape and with both, and the same row of each broadcast, or refuses all as grow.py does

It ends with status 1 at the first difference. The same seeds give the same options.
"""

import argparse
import math
import random
import sys
from fractions import Fraction

from compare import add_counts, drawn, first_difference, found_of_all, refusals, run, seeds, status_of, words_of
from grow import Growing
from rows import asks_further, further_header, further_row, header, message_rows, row_of, swept_header, swept_row
from shapes import articulations, clustering, coefficient, largest, paths, quartiles
from world import Refusal

# The further columns of a sweep: whether they tell what broadcasts cost, and the shape of the overlay.
COLUMNS = {"--costs": (True, False), "--shape": (False, True), "--costs --shape": (True, True)}


def drawn_further(seed, most=None, least=1):
    """Options, drawn at random: those of compare.py, and further ones. If so many nodes are the most, how many there
    are is drawn anew, and is at least another number; and a sender that is no longer there is the last node."""
    options, draw = drawn(seed), random.Random(f"further {seed}")
    options.sequential, options.detect = draw.random() < 0.7, draw.random() < 0.7
    options.sender = draw.choice([None, draw.randint(1, options.nodes)])
    options.broadcasts = draw.choice([0, 1, draw.randint(2, 6), draw.randint(2, 20)])
    if most is not None:
        options.nodes = random.Random(f"nodes {seed}").randint(least, most)
        options.sender = options.sender and min(options.sender, options.nodes)
    return options


def by_simulate(simulate, growing, words, scenario):
    """What a simulation is asked for, and how it differs, in words."""
    told = growing.options, growing.phases
    asked = {
        "--scenario": scenario,
        "--csv": "\n".join([header(), row_of(*told), ""]),
        "--csv --costs --shape": "\n".join([further_header(), further_row(*told), ""]),
    }
    if growing.options.sequential:
        asked["--messages"] = "\n".join([*message_rows(*told), ""])
    for mode, text in asked.items():
        yield f"simulate {mode}", first_difference(text, run(simulate, [*words, *mode.split()])[1])


def by_networkx(neighbours):
    """The largest component, the clustering coefficient, the mean path, the diameter, the quartiles of degrees and the
    articulation points that networkx finds."""
    import networkx

    graph = networkx.Graph(neighbours)
    triangles, total = networkx.triangles(graph), Fraction(0)
    for node, degree in graph.degree:
        total += coefficient(triangles[node], degree * (degree - 1) // 2)
    component = max(networkx.connected_components(graph), key=lambda some: (len(some), -min(some)))
    part = graph.subgraph(component)
    steps = sum(sum(found.values()) for _, found in networkx.all_pairs_shortest_path_length(part))
    pairs = len(part) * (len(part) - 1)
    path = Fraction(steps, pairs) if pairs else None
    degrees = sorted(degree for _, degree in graph.degree)
    quarters = [degrees[math.ceil(part * len(degrees) / 4) - 1] for part in (1, 2, 3)]
    points = sorted(networkx.articulation_points(part))
    return sorted(component), total / len(graph), path, networkx.diameter(part), quarters, points


def shape_difference(neighbours):
    """How the shape differs from that which networkx finds, in words."""
    component = largest(neighbours)
    points = articulations(neighbours, component)
    here = (component, clustering(neighbours), *paths(neighbours, component), quartiles(neighbours), points)
    there = by_networkx(neighbours)
    return None if here == there else f"{here} and {there}"


def swept_rows(growing):
    """The rows of a sweep of this one overlay."""
    is_further = asks_further(growing.options)
    return "\n".join([swept_header(is_further), swept_row(growing.options, growing.phases, is_further), ""])


def by_overlay(overlay, growing, words, scenario):
    """What a program is asked to grow, and how it differs, in words."""
    told = growing.options, growing.phases
    asked = {"grow": scenario, "sweep --runs 1": swept_rows(growing)}
    none = "" if growing.options.broadcasts else "--broadcasts 0 "
    for named, columns in COLUMNS.items():
        rows = [further_header(*columns), further_row(*told, *columns), ""]
        asked[f"sweep --runs 1 {none}{named}"] = "\n".join(rows)
    if growing.options.sequential and growing.options.broadcasts:
        asked["sweep --runs 1 --messages"] = "\n".join([*message_rows(*told), ""])
    for command, text in asked.items():
        yield f"overlay {command}", first_difference(text, run(overlay, [*command.split(), *words])[1])


def differences(given, options):
    """What is compared, and how it differs, in words."""
    growing, words = Growing(options), words_of(options)
    try:
        scenario = "\n".join([*growing.grow(), ""])
    except Refusal as fault:
        yield from refusals(given, options, fault)
        return
    if given.simulate:
        yield from by_simulate(given.simulate, growing, words, scenario)
    if given.networkx:
        for phase in growing.phases:
            yield "networkx", shape_difference(phase.graph.neighbours)
    if given.overlay and given.grows:
        yield from by_overlay(given.overlay, growing, words, scenario)
    if given.overlay:
        status, printed = run(given.overlay, ["run", "--strict"], scenario.encode())
        seen = "\n".join([*growing.printed, ""])
        yield "overlay run", first_difference(seen, printed) or (f"the status is {status}" if status else None)


def main():
    parser = argparse.ArgumentParser(description=__doc__, formatter_class=argparse.RawDescriptionHelpFormatter)
    parser.add_argument("--simulate")
    parser.add_argument("--networkx", action="store_true")
    parser.add_argument("--overlay")
    parser.add_argument("--grows", action="store_true")
    parser.add_argument("--nodes", type=int)
    add_counts(parser)
    given = parser.parse_args()
    settings = (drawn_further(seed, given.nodes) for seed in seeds(given))
    return status_of(found_of_all(differences, given, settings))


if __name__ == "__main__":
    sys.exit(main())
