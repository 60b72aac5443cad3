"""Overlays of very many hosts whose k is known, for tests; and whether the programs at hand take so many."""

import functools
import random

import tagzirk
from tagzirk.graphs import named_graph
from tagzirk.limits import USUAL_HOSTS
from tagzirk.reports import analysed


@functools.lru_cache(maxsize=None)
def no_large():
    """Why the programs at hand don't serve graphs of more than 1,024 nodes, or nothing if they do."""
    try:
        analysed(named_graph([(0, at) for at in range(1, USUAL_HOSTS + 1)]))
    except tagzirk.TagzirkError as why:
        return f"graphs of more than {USUAL_HOSTS:,} nodes: {why}".split("\n")[0]
    return ""


def harary(names, k):
    """The links of the Harary graph of these names for an even k, which is the number of its connectivity: a ring, in
    which each is linked to the k / 2 next ones on both sides."""
    return [(names[at], names[(at + step) % len(names)]) for at in range(len(names)) for step in range(1, k // 2 + 1)]


def spread(names, k):
    """A ring with long steps, each k / 2 times as long as the one before: as many links, and short paths."""
    steps, links = [1], []
    while len(steps) < k // 2:
        steps.append(steps[-1] * 5 + 2)
    for at in range(len(names)):
        links += [(names[at], names[(at + step) % len(names)]) for step in steps]
    return links


def two_parts(hosts, small, k, inner=6, of=harary):
    """Two parts, that of `hel-..` with so many hosts, whose own number is above k, and k links between them that share
    no host: so k crashes part them, such as of the `ends` in the small part, and fewer part nobody. The ends and the
    hosts of each part stand in any order, which has nothing to do with their names."""
    source = random.Random(hosts)
    parts = [[f"ams-{at:05}" for at in range(hosts - small)], [f"hel-{at:05}" for at in range(small)]]
    links = []
    for part in parts:
        source.shuffle(part)
        links += of(part, inner)
    bridges = list(zip(*(source.sample(part, k) for part in parts)))
    return links + bridges, sorted(end for _, end in bridges)
