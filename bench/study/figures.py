"""Draws the figures of docs/DESIGN-STUDY.md as SVG, of the rows of sweeps."""

import math

from sweeps import LARGE, grouped, mean, numbers, quantile, split, wilson

WIDTH, HEIGHT = 1200, 480
# Light tones, and for a dark background lighter ones, for series in order: from few active members to many.
LIGHT = ["#8c2d04", "#d94801", "#f16913", "#1b6ca8", "#2a9d8f", "#5b4b8a", "#333333", "#7a7a7a"]
DARK = ["#ffb38a", "#ff9a52", "#fdbe85", "#74b9e8", "#6fd6c8", "#b9a8ee", "#e0e0e0", "#b0b0b0"]


def scheme(paper, ink, grid, tones):
    """The colours of one scheme."""
    yield f".paper {{ fill: {paper} }} text {{ fill: {ink} }} .grid {{ stroke: {grid} }}"
    for at, tone in enumerate(tones):
        yield f".s{at}.line, .s{at}.bar {{ stroke: {tone} }} .s{at}.dot, .s{at}.said {{ fill: {tone} }}"


def style(tones):
    """The colours, by the reader's scheme. Plain rules: some drawing programs know no variables."""
    light = "\n".join(scheme("#ffffff", "#222222", "#dddddd", tones[0]))
    dark = "\n".join(scheme("#15181c", "#e6e6e6", "#3a3f46", tones[1]))
    return (
        f"<style>\n.line {{ fill: none; stroke-width: 2 }} .bar {{ stroke-width: 1.5 }} .wide {{ stroke-width: 7 }}\n"
        f"{light}\n@media (prefers-color-scheme: dark) {{\n{dark}\n}}\n</style>"
    )


class Panel:
    """A drawing with two axes."""

    def __init__(self, left, width, title, across, upward):
        self.left, self.width, self.top, self.bottom = left, width, 60, HEIGHT - 60
        self.across, self.upward = across, upward
        self.parts = [f'<text x="{left}" y="28" font-weight="bold">{title}</text>']

    def place(self, x, y):
        """Where a point is."""
        return (
            self.left + self.width * self.across.part(x),
            self.bottom - (self.bottom - self.top) * self.upward.part(y),
        )

    def axes(self):
        """The grid, the marks and the names of both axes."""
        for mark, said in self.upward.marks:
            _, y = self.place(self.across.least, mark)
            self.parts += [
                f'<line class="grid" x1="{self.left}" x2="{self.left + self.width}" y1="{y:.1f}" y2="{y:.1f}"/>',
                f'<text x="{self.left - 8}" y="{y + 4:.1f}" text-anchor="end">{said}</text>',
            ]
        for mark, said in self.across.marks:
            x, y = self.place(mark, self.upward.least)
            self.parts += [
                f'<line class="grid" x1="{x:.1f}" x2="{x:.1f}" y1="{self.bottom}" y2="{self.bottom + 5}"/>',
                f'<text x="{x:.1f}" y="{y + 20:.1f}" text-anchor="middle">{said}</text>',
            ]
        self.parts += [
            f'<text x="{self.left + self.width / 2}" y="{HEIGHT - 14}" text-anchor="middle">{self.across.name}'
            "</text>",
            f'<text x="{self.left - 8}" y="{self.top - 12}">{self.upward.name}</text>',
        ]

    def line(self, tone, points):
        """A line through points."""
        path = " ".join("{:.1f},{:.1f}".format(*self.place(*point)) for point in points)
        self.parts.append(f'<polyline class="line s{tone}" points="{path}"/>')

    def bar(self, tone, x, low, high):
        """An interval."""
        (across, upper), (_, lower) = self.place(x, high), self.place(x, low)
        self.parts.append(
            f'<line class="bar s{tone}" x1="{across:.1f}" x2="{across:.1f}" y1="{upper:.1f}" ' f'y2="{lower:.1f}"/>'
        )

    def dot(self, tone, x, y, radius=4):
        """A point."""
        across, up = self.place(x, y)
        self.parts.append(f'<circle class="dot s{tone}" cx="{across:.1f}" cy="{up:.1f}" r="{radius}"/>')

    def say(self, tone, x, y, said, right=8, down=4):
        """Words beside a point."""
        across, up = self.place(x, y)
        self.parts.append(f'<text class="said s{tone}" x="{across + right:.1f}" y="{up + down:.1f}">{said}</text>')


class Axis:
    """An axis from a least to a largest value, by values or by their logarithms."""

    def __init__(self, name, least, largest, marks, is_log=False):
        self.name, self.least, self.largest, self.marks, self.is_log = name, least, largest, marks, is_log

    def part(self, value):
        """How far along the axis a value is."""
        if self.is_log:
            return math.log(max(value, self.least) / self.least) / math.log(self.largest / self.least)
        return (value - self.least) / (self.largest - self.least)


def drawn(*panels, tones=(LIGHT, DARK)):
    """A figure."""
    parts = [part for panel in panels for part in panel.parts]
    return "\n".join(
        [
            f'<svg xmlns="http://www.w3.org/2000/svg" viewBox="0 0 {WIDTH} {HEIGHT}" font-family="sans-serif" '
            'font-size="14">',
            style(tones),
            f'<rect class="paper" width="{WIDTH}" height="{HEIGHT}"/>',
            *parts,
            "</svg>",
            "",
        ]
    )


def whole_numbers(*values):
    """Marks at whole numbers."""
    return [(value, f"{value:,}") for value in values]


def rate(size):
    """How many components but the first there are for each node, of 100,000 and 10,000 nodes."""
    some = [row for name in LARGE[2:] for row in grouped(name, "active")[size,]]
    return sum(int(row["components"]) - 1 for row in some) / sum(int(row["nodes"]) for row in some)


def split_shares():
    """How often an overlay is split, by its size, for active sizes: counted, and by the rate of large overlays."""
    panel = Panel(
        80,
        960,
        "overlays that are split, by their size: no loss, no crash",
        Axis("nodes", 0, 210, whole_numbers(0, 50, 100, 150, 200)),
        Axis("% split", 0, 100, whole_numbers(0, 25, 50, 75, 100)),
    )
    panel.axes()
    found = grouped("active", "active", "nodes")
    for tone, size in enumerate(("3", "4", "5", "6", "7", "8", "10")):
        by = rate(size)
        panel.line(tone, [(nodes, 100 - 100 * math.exp(-by * nodes)) for nodes in range(0, 201, 4)])
        for nodes in ("50", "100", "150", "200"):
            some = found[size, nodes]
            low, high = wilson(split(some, "settle"), len(some))
            panel.bar(tone, int(nodes), 100 * low, 100 * high)
            panel.dot(tone, int(nodes), 100 * split(some, "settle") / len(some))
        panel.say(
            tone, 203, 100 - 100 * math.exp(-by * 200), f"active size {size}", down={"8": 0, "10": 9}.get(size, 4)
        )
    return drawn(panel)


def numbers_of_200():
    """k of 200 nodes for each active size: quartiles and the range of nine in ten, after each phase."""
    panel = Panel(
        80,
        960,
        "k of 200 nodes: median, quartiles (thick), and 9 of 10 overlays (thin)",
        Axis("active size", 2, 13, whole_numbers(3, 4, 5, 6, 7, 8, 9, 10, 12)),
        Axis("k", 0, 10, whole_numbers(*range(11))),
    )
    panel.axes()
    found = grouped("active", "active", "nodes")
    for tone, shift, phase, said in (
        (3, -0.2, "settle", "settled"),
        (1, 0, "crash", "20 of 100 crashed"),
        (4, 0.2, "heal", "healed"),
    ):
        for size in ("3", "4", "5", "6", "7", "8", "9", "10", "12"):
            some, x = numbers(found[size, "200"], f"{phase}_k"), int(size) + shift
            panel.bar(tone, x, quantile(some, 0.05), quantile(some, 0.95))
            low, high = (panel.place(x, quantile(some, part)) for part in (0.25, 0.75))
            panel.parts.append(
                f'<line class="bar wide s{tone}" x1="{low[0]:.1f}" x2="{low[0]:.1f}" y1="{low[1]:.1f}" '
                f'y2="{high[1]:.1f}"/>'
            )
            panel.dot(tone, x, quantile(some, 0.5), 6)
        panel.say(tone, 2.2, 9.6 - 0.55 * (shift + 0.2) / 0.2, said)
    return drawn(panel)


def by_rules():
    """How often overlays of 200 nodes are split, and their k, by the rules at DISCONNECT."""
    sizes = ("3", "4", "5", "6", "8")
    across = Axis("active size", 2.5, 8.5, whole_numbers(3, 4, 5, 6, 7, 8))
    of_split = Axis("% split", 0, 100, whole_numbers(0, 25, 50, 75, 100))
    shares = Panel(90, 420, "overlays of 200 nodes that are split", across, of_split)
    of_k = Axis("k", 0, 8, whole_numbers(*range(9)))
    connectivity = Panel(680, 420, "their k: median, and 9 of 10 overlays", across, of_k)
    shares.axes()
    connectivity.axes()
    found = grouped("rules", "refill", "active", "nodes")
    for tone, shift, rule in ((1, -0.12, "never"), (3, 0, "alone"), (4, 0.12, "always")):
        points = []
        for size in sizes:
            some, x = found[rule, size, "200"], int(size) + shift
            low, high = wilson(split(some, "settle"), len(some))
            points.append((x, 100 * split(some, "settle") / len(some)))
            shares.bar(tone, x, 100 * low, 100 * high)
            shares.dot(tone, *points[-1])
            ascending = numbers(some, "settle_k")
            connectivity.bar(tone, x, quantile(ascending, 0.05), quantile(ascending, 0.95))
            connectivity.dot(tone, x, quantile(ascending, 0.5), 5)
        shares.line(tone, points)
        shares.say(tone, 6.6, 92 + 50 * shift, rule)
        connectivity.say(tone, 2.8, 7.4 + 4 * shift, rule)
    return drawn(shares, connectivity)


def large_overlays():
    """Past 256 nodes: the share of nodes that are alone, and the least degrees."""
    nodes = Axis("nodes", 80, 130000, whole_numbers(100, 1000, 10000, 100000), is_log=True)
    alone = Panel(
        90,
        420,
        "nodes that are alone",
        nodes,
        Axis("of 100,000", 1, 4000, whole_numbers(1, 10, 100, 1000), is_log=True),
    )
    least = Panel(680, 420, "least degree, mean", nodes, Axis("links", 0, 7, whole_numbers(*range(8))))
    alone.axes()
    least.axes()
    for tone, size in enumerate(("3", "4", "5", "6", "7", "8")):
        points = []
        for name in LARGE:
            some = grouped(name, "active")[size,]
            count = sum(numbers(some, "alone"))
            if count >= 5:
                points.append((int(some[0]["nodes"]), 1e5 * count / sum(numbers(some, "nodes"))))
        for point in points:
            alone.dot(tone, *point)
        alone.line(tone, points)
        alone.say(tone, *points[-1], f"active {size}")
    for tone, size in ((2, "5"), (5, "8"), (6, "10"), (3, "12"), (4, "16")):
        points = [
            (int(some[0]["nodes"]), mean(some, "least_degree"))
            for some in (grouped(name, "active")[size,] for name in LARGE)
        ]
        for point in points:
            least.dot(tone, *point)
        least.line(tone, points)
        least.say(tone, *points[0], f"active {size}", 12, -4)
    return drawn(alone, least)


# Each figure by its file, and the sweeps that it is made of.
FIGURES = {
    "study-split.svg": (split_shares, ["active", *LARGE[2:]]),
    "study-k.svg": (numbers_of_200, ["active"]),
    "study-rules.svg": (by_rules, ["rules"]),
    "study-large.svg": (large_overlays, list(LARGE)),
}
