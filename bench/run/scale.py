#!/usr/bin/env python3
"""scale.py PROGRAM SVG: measures how `overlay run` scales, prints tables, and draws them into the file SVG.

Events a second over the length of the journal, for several numbers of nodes: the scenario of make_scenario.py is run up
to each length, and what is printed is the events between two lengths over the difference of their times, the lowest of
RUNS runs each. The births are over before the first length. The peak of memory over the number of lines: many_lines.py.
Each run is a whole process that writes into a file. An MB is 1,000 times 1,024 bytes.
"""

import pathlib
import subprocess
import sys
import tempfile

from measure import HERE, run

RUNS = 9
NODES = [50, 100, 200, 256]
LENGTHS = [4000, 8000, 16000, 32000, 48000, 64000]
LINES = [100000, 250000, 500000, 750000, 1000000]
COLOURS = ["#1b6ca8", "#c8553d", "#588157", "#7b2d8b"]
WIDTH, HEIGHT, LEFT, TOP, ACROSS, DOWN = 1100, 420, 80, 50, 400, 290


def lowest(program, room, maker, *words):
    """The lowest time and the highest peak of several runs of the scenario that a maker writes, and its bytes."""
    scenario, output = pathlib.Path(room, "scenario"), pathlib.Path(room, "output")
    with open(scenario, "wb") as file:
        subprocess.run([sys.executable, HERE / maker, *map(str, words)], stdout=file, check=True)
    taken = [run(program, scenario, output) for _ in range(RUNS)]
    return min(it[0] for it in taken), max(it[1] for it in taken), scenario.stat().st_size


def rates(program, room):
    """For each number of nodes the events a second up to each length from the one before."""
    found = {}
    for nodes in NODES:
        times = [lowest(program, room, "make_scenario.py", length, nodes)[0] for length in LENGTHS]
        spans = zip(LENGTHS, LENGTHS[1:], times, times[1:])
        found[nodes] = [(high - low) / (late - early) for low, high, early, late in spans]
    return found


def peaks(program, room):
    """The peak of memory in MB for each number of lines, and the bytes of the file."""
    taken = [lowest(program, room, "many_lines.py", count) for count in LINES]
    return [(peak / 1000, size) for _, peak, size in taken]


def curve(places, values, highest, colour, left):
    """One curve, with a dot for each value; places go from 0 to 1."""
    points = [(left + ACROSS * x, TOP + DOWN * (1 - y / highest)) for x, y in zip(places, values)]
    line = " ".join(f"{x:.1f},{y:.1f}" for x, y in points)
    yield f'<polyline points="{line}" fill="none" stroke="{colour}" stroke-width="2"/>'
    yield from (f'<circle cx="{x:.1f}" cy="{y:.1f}" r="3.5" fill="{colour}"/>' for x, y in points)


def axes(left, title, marks, highest, unit):
    """The axes of one picture: its title, marks at the numbers below it, and five values."""
    yield f'<text x="{left}" y="{TOP - 20}" font-weight="bold">{title}</text>'
    for step in range(6):
        y = TOP + DOWN * (1 - step / 5)
        yield f'<line x1="{left}" y1="{y:.1f}" x2="{left + ACROSS}" y2="{y:.1f}" stroke="#ddd"/>'
        yield f'<text x="{left - 8}" y="{y + 4:.1f}" text-anchor="end">{highest * step / 5:,.0f}{unit}</text>'
    for place, count in zip(places(marks), marks):
        yield f'<text x="{left + ACROSS * place:.1f}" y="{TOP + DOWN + 20}" text-anchor="middle">{short(count)}</text>'


def places(counts):
    """Where these numbers are between 0, which is at 0, and the last, which is at 1."""
    return [it / counts[-1] for it in counts]


def short(count):
    """A number in thousands or millions."""
    return f"{count // 1000000}M" if count >= 1000000 else f"{count // 1000}k"


def drawn(found, memory):
    """The picture."""
    top = max(max(it) for it in found.values())
    highest = (int(top / 1000 / 250) + 1) * 250
    most = (int(max(it[0] for it in memory) / 25) + 1) * 25
    right, size = LEFT + ACROSS + 140, f"0 0 {WIDTH} {HEIGHT}"
    yield f'<svg xmlns="http://www.w3.org/2000/svg" viewBox="{size}" font-family="sans-serif" font-size="13">'
    yield f'<rect width="{WIDTH}" height="{HEIGHT}" fill="white"/>'
    yield from axes(LEFT, "thousand events a second, over the journal's length", LENGTHS[1:], highest, "")
    for colour, (nodes, values) in zip(COLOURS, found.items()):
        yield from curve(places(LENGTHS[1:]), [it / 1000 for it in values], highest, colour, LEFT)
        at = TOP + 14 + 18 * NODES.index(nodes)
        yield f'<text x="{LEFT + ACROSS + 12}" y="{at}" fill="{colour}">{nodes} nodes</text>'
    yield from axes(right, "peak of memory, over the lines of the scenario", LINES, most, " MB")
    yield from curve(places(LINES), [it[0] for it in memory], most, COLOURS[0], right)
    said = ("Left: each dot is the rate since the length before. "
            "Right: 65,000 lines are events, the others look at nodes.")
    yield f'<text x="{LEFT}" y="{HEIGHT - 25}">{said}</text>'
    yield "</svg>"


def main(program, picture):
    """Measures, prints and draws."""
    with tempfile.TemporaryDirectory() as room:
        found, memory = rates(program, room), peaks(program, room)
    print(f"| nodes | {' | '.join(f'to {it:,}' for it in LENGTHS[1:])} |\n|---|{'---:|' * (len(LENGTHS) - 1)}")
    for nodes, values in found.items():
        print(f"| {nodes} | {' | '.join(f'{it:,.0f}' for it in values)} |")
    print("\n| lines | bytes of the file | peak MB |\n|---:|---:|---:|")
    for count, (peak, size) in zip(LINES, memory):
        print(f"| {count:,} | {size:,} | {peak:.1f} |")
    pathlib.Path(picture).write_text("\n".join(drawn(found, memory)) + "\n")


if __name__ == "__main__":
    if len(sys.argv) != 3:
        sys.exit(__doc__)
    main(*sys.argv[1:])
