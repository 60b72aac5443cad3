#!/usr/bin/env python3
"""equal.py --overlay PROGRAM --simulate PROGRAM [--further [--costs [--shape]]] [--least NODES] [--most NODES]
[--count N] [--first SEED] [--jobs J]: grows N overlays of 1 to 250 nodes, or as many as --least and --most say, with
options drawn at random, in J processes side by side, by `overlay grow` and `overlay sweep` and by the simulation, and
compares what they print byte for byte: the scenario, and the row of the sweep. Both must refuse the same overlays.

With --further the further options of docs/GROWING.md are drawn too, and scenarios alone are compared; with --costs also
the rows of the sweep with what broadcasts cost, and with --sequential the row of each broadcast. With --shape the rows
with costs have the shape too, which takes seconds for some thousand nodes.

It ends with status 1 at the first difference. The same seeds give the same options.
"""

import argparse
import dataclasses
import sys

from compare import add_counts, drawn, first_difference, found_of_all, run, seeds, status_of, words_of
from compare_further import drawn_further

MOST_NODES = 250


def options_of(seed, given):
    """Options, drawn at random, of so many nodes as are asked for."""
    options = drawn_further(seed, given.most, given.least)
    return options if given.further else dataclasses.replace(drawn(seed), nodes=options.nodes)


def asked_for(given, options):
    """The rows that both are asked for: the words of one and of the other."""
    if not given.further:
        yield ["sweep", "--runs", "1"], ["--csv"]
    if given.costs:
        none = [] if options.broadcasts else ["--broadcasts", "0"]
        further = ["--costs", "--shape"] if given.shape else ["--costs"]
        yield ["sweep", "--runs", "1", *none, *further], ["--csv", *further]
    if given.costs and options.sequential and options.broadcasts:
        yield ["sweep", "--runs", "1", "--messages"], ["--messages"]


def differences(given, options):
    """What is compared, and how it differs, in words."""
    words, exact = words_of(options), ["--exact", str(given.most)]
    one, other = run(given.overlay, ["grow", *words]), run(given.simulate, [*words, "--scenario", *exact])
    status = None if one[0] == other[0] else f"the status is {one[0]} and {other[0]}"
    yield "refused" if one[0] else "overlay grow", status or first_difference(one[1], other[1])
    if one[0]:
        return
    for ours, theirs in asked_for(given, options):
        rows = run(given.overlay, [*ours, *words])[1], run(given.simulate, [*words, *theirs, *exact])[1]
        yield " ".join(["overlay", *ours]), first_difference(*rows)


def main():
    parser = argparse.ArgumentParser(description=__doc__, formatter_class=argparse.RawDescriptionHelpFormatter)
    parser.add_argument("--overlay", required=True)
    parser.add_argument("--simulate", required=True)
    parser.add_argument("--further", action="store_true")
    parser.add_argument("--costs", action="store_true")
    parser.add_argument("--shape", action="store_true")
    parser.add_argument("--least", type=int, default=1)
    parser.add_argument("--most", type=int, default=MOST_NODES)
    add_counts(parser)
    given = parser.parse_args()
    settings = (options_of(seed, given) for seed in seeds(given))
    return status_of(found_of_all(differences, given, settings))


if __name__ == "__main__":
    sys.exit(main())
