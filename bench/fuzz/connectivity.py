"""Finds the node connectivity of a group of a graph, and its certificate, by docs/CONNECTIVITY.md alone.

Every piece of Even's test is asked by plain maximum flow: one path more at a time, by a breadth-first search on the
graph in which each node has an entrance and an exit. This is slow, and meant to be plainly right.
"""

import json
from collections import deque

EXIT, ENTRANCE = 1, 0
MOST_OF_VERSION_1 = 256


class Net:
    """Paths from a source to different targets that share only the source, and have no node of `avoided`."""

    def __init__(self, neighbours, source, targets, avoided=()):
        self.neighbours, self.source, self.targets, self.avoided = neighbours, source, targets, set(avoided)
        # the node before each node of a path, and the nodes at which paths end
        self.before, self.ends = {}, set()

    def next_places(self, place):
        """The places that can be reached from a place by one step, of the paths that are held or around them."""
        node, side = place
        if side == ENTRANCE:
            yield (self.before[node], EXIT) if node in self.before else (node, EXIT)
            return
        if node in self.before:
            yield node, ENTRANCE
        for other in self.neighbours[node]:
            if other != self.source and other not in self.avoided:
                yield other, ENTRANCE

    def search(self):
        """The place before each place that is reached, and the exit of a target where one more path can end."""
        start = self.source, EXIT
        came, waiting = {start: None}, deque([start])
        while waiting:
            place = waiting.popleft()
            if place[1] == EXIT and place[0] in self.targets and place[0] not in self.ends:
                return came, place
            for other in self.next_places(place):
                if other not in came:
                    came[other] = place
                    waiting.append(other)
        return came, None

    def grow(self):
        """Whether there is one path more, which is then held."""
        came, place = self.search()
        if place is None:
            return False
        self.ends.add(place[0])
        gone, new = [], []
        while (last := came[place]) is not None:
            if place[1] == ENTRANCE and last[1] == EXIT and place[0] != last[0]:
                new.append((place[0], last[0]))
            elif place[1] == EXIT and last[1] == ENTRANCE and place[0] != last[0]:
                gone.append(last[0])
            place = last
        for node in gone:
            del self.before[node]
        self.before.update(new)
        return True

    def has(self, level):
        """Whether there are so many paths."""
        while len(self.ends) < level:
            if not self.grow():
                return False
        return True

    def paths(self, level):
        """The first so many paths that are held, by their ends."""
        found = []
        for end in sorted(self.ends)[:level]:
            path = [end]
            while path[-1] != self.source:
                path.append(self.before[path[-1]])
            found.append(path[::-1])
        return found

    def nearest_cut(self):
        """The minimum cut nearest to the source, if no more paths exist: entered by a search, and not left."""
        came, _ = self.search()
        return sorted({node for node, _ in came if (node, EXIT) not in came})


class Graph:
    """A graph: its nodes in ascending order, its links, and the neighbours of each node."""

    def __init__(self, nodes, links):
        self.nodes, self.links = list(nodes), sorted(links)
        self.neighbours = {node: [] for node in nodes}
        for a, b in self.links:
            self.neighbours[a].append(b)
            self.neighbours[b].append(a)

    def is_group(self, group):
        """Whether these are a group of nodes of the graph."""
        return (bool(group) and all(a < b for a, b in zip(group, group[1:]))
                and all(node in self.neighbours for node in group))

    def side(self, near, cut):
        """All nodes that are joined to a node without a cut."""
        found, waiting = {near}, [near]
        while waiting:
            for node in self.neighbours[waiting.pop()]:
                if node not in found and node not in cut:
                    found.add(node)
                    waiting.append(node)
        return sorted(found)


class Analysis:
    """The number of a group of a graph, and what a certificate says of it: `fields`."""

    def __init__(self, graph, group):
        self.graph, self.group, self.nets = graph, list(group), {}
        linked = {node: set(graph.neighbours[node]) for node in self.group}
        self.unlinked = [(a, b) for at, b in enumerate(self.group) for a in self.group[:at] if a not in linked[b]]
        self.rank = {node: at for at, node in enumerate(self.group)}
        if self.unlinked:
            self.settle()
        else:
            self.fields = {"verdict": "linked", "k": len(self.group) - 1}

    def pairs(self, level):
        """The unlinked pairs among the first so many members, by the second member and then by the first."""
        return [pair for pair in self.unlinked if self.rank[pair[1]] < level]

    def pair(self, i, j):
        """The paths from i to a neighbour of j: those of the pair, less their last node."""
        if (i, j) not in self.nets:
            targets = set(self.graph.neighbours[j])
            self.nets[i, j] = Net(self.graph.neighbours, i, targets, {j})
        return self.nets[i, j]

    def fan(self, j):
        """The paths from a member to earlier members."""
        if j not in self.nets:
            self.nets[j] = Net(self.graph.neighbours, j, set(self.group[: self.rank[j]]))
        return self.nets[j]

    def first_failing(self, level):
        """The first piece of a level that is not good: its paths, its near member, and its targets in order."""
        for i, j in self.pairs(level):
            if not self.pair(i, j).has(level):
                return self.pair(i, j), i, [j]
        for j in self.group[level:]:
            if not self.fan(j).has(level):
                return self.fan(j), j, self.group[: self.rank[j]]
        return None

    def settle(self):
        """Looks for the first piece that is not good, level by level."""
        level = 1
        while (failing := self.first_failing(level)) is None:
            level += 1
        net, near, targets = failing
        cut = net.nearest_cut()
        far = next(node for node in targets if node not in cut)
        side = self.graph.side(near, set(cut))
        self.fields = {"verdict": "split", "k": level - 1, "cut": cut, "near": near, "far": far, "side": side}

    def entries(self):
        """The pairs and the fans of the certificate, with paths of this reader's own finding."""
        k = self.fields["k"]
        pairs = [{"i": i, "j": j, "paths": [[*path, j] for path in self.pair(i, j).paths(k)]}
                 for i, j in self.pairs(k)]
        fans = [{"j": j, "paths": self.fan(j).paths(k)} for j in (self.group[k:] if k else [])]
        return {"pairs": pairs, "fans": fans}

    def is_whole(self):
        """Whether the group is all nodes."""
        return self.group == self.graph.nodes

    def line(self, moment):
        """The line `report ..`."""
        said, text = self.fields, f"report {moment} {self.fields['verdict']} k {self.fields['k']}"
        if said["verdict"] == "split":
            text += f" cut {listed(said['cut'])} near {said['near']} far {said['far']} side {listed(said['side'])}"
        return text if self.is_whole() else f"{text} group {listed(self.group)}"

    def certificate(self, moment):
        """The text of a certificate file. Its paths are this reader's; others may be as right."""
        has_group = not self.is_whole() or len(self.graph.nodes) > MOST_OF_VERSION_1
        file = self.fields | {"moment": moment, "version": 2 if has_group else 1, "nodes": self.graph.nodes,
                              "links": self.graph.links}
        if has_group:
            file["group"] = self.group
        if self.fields["verdict"] == "split":
            file |= self.entries()
        return json.dumps(file, sort_keys=True, separators=(",", ":"))


def listed(ids):
    """Ids with commas between them, or `-` if there are none."""
    return ",".join(map(str, ids)) or "-"
