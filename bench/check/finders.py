"""Two finders of disjoint paths for certify.py: one asks networkx, one is quick where a graph has many links.

Both have pair(i, j, k), which gives k paths from i to j, two unlinked nodes, that share only these, and
fan(j, earlier, k), which gives k paths from j to distinct nodes of `earlier` that share only j. Nodes are numbered
from 1.
"""

import networkx as nx
from networkx.algorithms.connectivity import build_auxiliary_node_connectivity
from networkx.algorithms.flow import build_residual_network, shortest_augmenting_path

# Stands for "a node of `earlier`": it is linked to each of these, and is cut off the end of each path again.
ANY = 0


class TooFewPaths(Exception):
    """Some pair or fan has fewer than k paths: k is greater than the connectivity."""


class NetworkxFinder:
    """networkx's flow network is built once for all pairs, and anew for each fan."""

    def __init__(self, graph):
        self.graph = graph
        self.auxiliary = build_auxiliary_node_connectivity(graph)
        self.residual = build_residual_network(self.auxiliary, "capacity")

    def pair(self, i, j, k):
        try:
            found = list(nx.node_disjoint_paths(
                self.graph, i, j, flow_func=shortest_augmenting_path, cutoff=k,
                auxiliary=self.auxiliary, residual=self.residual))
        except nx.NetworkXNoPath:
            found = []
        if len(found) < k:
            raise TooFewPaths(f"{i} to {j}: {len(found)} of {k} paths")
        return found

    def fan(self, j, earlier, k):
        joined = self.graph.copy()
        joined.add_edges_from((target, ANY) for target in earlier)
        return [path[:-1] for path in NetworkxFinder(joined).pair(j, ANY, k)]


class DenseFinder:
    """Takes the paths of two steps, then those of three that a matching gives, and searches only for what is missing.

    A set of nodes is a whole number here, with bit x set where node x is a member: two sets of a thousand nodes are met
    in one operation. links[x] is the set of the nodes that x is linked to.
    """

    def __init__(self, graph):
        self.links = {x: set_of(graph[x]) for x in graph}

    def pair(self, i, j, k):
        of_i, of_j = self.links[i], self.links[j]
        paths = [[i, x, j] for x in members(of_i & of_j)]
        matched = matching(self.links, of_i & ~of_j, of_j & ~of_i, k - len(paths))
        return exactly(k, paths + [[i, x, y, j] for x, y in matched], self.links, i, j)

    def fan(self, j, earlier, k):
        of_j, targets = self.links[j], set_of(earlier)
        paths = [[j, x, ANY] for x in members(of_j & targets)]
        matched = matching(self.links, of_j & ~targets, targets & ~of_j, k - len(paths))
        paths += [[j, x, y, ANY] for x, y in matched]
        return [path[:-1] for path in exactly(k, paths, joined_to_any(self.links, targets), j, ANY)]


def set_of(nodes):
    return sum(1 << x for x in nodes)


def lowest(nodes):
    return (nodes & -nodes).bit_length() - 1


def members(nodes):
    """The members of a set, ascending."""
    while nodes:
        yield lowest(nodes)
        nodes &= nodes - 1


def joined_to_any(links, targets):
    """The links with those between ANY and the targets."""
    return {x: of_x | (targets >> x & 1) << ANY for x, of_x in links.items()} | {ANY: targets}


def matching(links, left, right, wanted):
    """Linked nodes (x, y) of the sets left and right, no node twice: as many as wanted, or as there can be."""
    matched = {}  # a node of right: its node of left
    alone = []
    free = right
    for x in members(left):
        if links[x] & free:
            y = lowest(links[x] & free)
            matched[y] = x
            free &= ~(1 << y)
        else:
            alone.append(x)
    for x in alone:
        if len(matched) < wanted:
            free &= ~match_one_more(links, x, right, free, matched)
    return [(x, y) for y, x in matched.items()]


def match_one_more(links, x, right, free, matched):
    """Matches x too, where the others can change their nodes of right so that one is left for x: a search in breadth.

    The answer is the set of the free node that is taken, or the empty set.
    """
    given_up = {x: None}  # a node of left: the node of right that it would give up
    asked_by = {}  # a node of right: the node of left that would take it
    queue = [x]
    unseen = right
    for a in queue:
        found = links[a] & unseen
        if found & free:
            taken = y = lowest(found & free)
            while y is not None:
                matched[y] = a
                y = given_up[a]
                a = asked_by.get(y)
            return 1 << taken
        unseen &= ~found
        for y in members(found):
            asked_by[y] = a
            given_up[matched[y]] = y
            queue.append(matched[y])
    return 0


def exactly(k, paths, links, source, sink):
    """k paths from source to sink that share only these, beginning with those that are there."""
    while len(paths) < k:
        more = one_path_more(links, source, sink, paths)
        if more is None:
            raise TooFewPaths(f"{source} to {sink}: {len(paths)} of {k} paths")
        paths = more
    return paths[:k]


def one_path_more(links, source, sink, paths):
    """As many paths and one more, others or the same ones; None where there are not so many.

    This is the search of Ford and Fulkerson, in breadth, over nodes that are split in two: a node is come into ("in")
    and gone out of ("out"), and a node of a path can't be come into and gone out of once more.
    """
    steps = {step for path in paths for step in zip(path, path[1:])}
    before = {b: a for a, b in steps if b != sink}
    came_from = {(source, "out"): None}
    queue = [(source, "out")]
    for place in queue:
        for following in places_after(place, links, source, steps, before):
            if following not in came_from:
                came_from[following] = place
                queue.append(following)
        if (sink, "in") in came_from:
            return paths_of(changed(steps, came_from, (sink, "in")), source, sink)
    return None


def places_after(place, links, source, steps, before):
    """Where the search can go: over links that no path takes, and back over steps of the paths."""
    x, way = place
    if way == "in":
        return [(before.get(x, x), "out")]
    inwards = [(x, "in")] if x in before else []
    return inwards + [(y, "in") for y in members(links[x]) if y != source and (x, y) not in steps]


def changed(steps, came_from, place):
    """The steps with those that the search took, and without those that it went back over."""
    steps = set(steps)
    while came_from[place] is not None:
        (b, way), (a, _) = place, came_from[place]
        if a != b and way == "in":
            steps.add((a, b))
        elif a != b:
            steps.remove((b, a))
        place = came_from[place]
    return steps


def paths_of(steps, source, sink):
    """The paths from source to sink that are made of these steps."""
    after = dict(steps)
    paths = []
    for first in sorted(b for a, b in steps if a == source):
        path = [source, first]
        while path[-1] != sink:
            path.append(after[path[-1]])
        paths.append(path)
    return paths
