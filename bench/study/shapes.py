"""The shape of a graph, by docs/GROWING.md ("The shape of an overlay") alone: exact fractions, of which a node's
clustering coefficient alone is rounded."""

from fractions import Fraction
from itertools import combinations


# A node's clustering coefficient is rounded down to so many parts of one.
MILLION = 1_000_000


def coefficient(linked, pairs):
    """The share of the pairs of a node's neighbours that are linked, rounded down to a millionth; 0 without pairs."""
    return Fraction(linked * MILLION // pairs, MILLION) if pairs else Fraction(0)


def clustering(neighbours):
    """The mean, over all nodes, of their clustering coefficients."""
    total = Fraction(0)
    for others in neighbours.values():
        pairs = list(combinations(others, 2))
        total += coefficient(sum(two in neighbours[one] for one, two in pairs), len(pairs))
    return total / len(neighbours)


def steps_from(neighbours, node):
    """How many steps it takes from a node to each that it reaches."""
    found, front = {node: 0}, [node]
    for one in front:
        for other in neighbours[one]:
            if other not in found:
                found[other] = found[one] + 1
                front.append(other)
    return found


def largest(neighbours):
    """The largest component; of several the one with the smallest id."""
    left, found = set(neighbours), []
    for node in sorted(neighbours):
        if node in left:
            some = sorted(steps_from(neighbours, node))
            left.difference_update(some)
            found = some if len(some) > len(found) else found
    return found


def paths(neighbours, component):
    """The mean length of shortest paths within a component, or None if it has one node; and its diameter."""
    steps = [count for node in component for count in steps_from(neighbours, node).values()]
    pairs = len(component) * (len(component) - 1)
    return Fraction(sum(steps), pairs) if pairs else None, max(steps)


def quartiles(neighbours):
    """The degrees at a quarter, at half and at three quarters of all."""
    degrees = sorted(map(len, neighbours.values()))
    return [degrees[-(-part * len(degrees) // 4) - 1] for part in (1, 2, 3)]


def articulations(neighbours, component):
    """The nodes of a component after whose crash, alone, two of its other nodes are no longer joined."""
    found = []
    for node in component:
        left = {one: [other for other in neighbours[one] if other != node] for one in component if one != node}
        if left and len(steps_from(left, min(left))) < len(left):
            found.append(node)
    return found
