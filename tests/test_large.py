#!/usr/bin/env python3
"""test_large.py [--more]: tests of `overlay --large` and `overlay-check-large` on graphs of more than 1,024 nodes.

TAGZIRK_OVERLAY, TAGZIRK_OVERLAY_CHECK and TAGZIRK_OVERLAY_CHECK_LARGE name the programs. The connectivity of each graph
is known by its construction (Harary graphs, hypercubes, tori, complete bipartite graphs, stars, paths, two parts over a
cut that was planned), so that nothing is taken from the programs. That a cut disconnects, and that the graphs are what
they should be, is walked through here. Of random graphs networkx tells the number, where it is there. Each certificate
is judged by both checkers. What is kept as lists is held against what is kept as rows: a small graph is analysed beside
nodes without links, which make it large. With --more graphs are larger, up to 32,768 nodes, which takes some minutes.
"""

import itertools
import json
import os
import pathlib
import random
import re
import resource
import signal
import subprocess
import sys
import tempfile
import unittest

try:
    import networkx
    from networkx.algorithms.connectivity import build_auxiliary_node_connectivity, local_node_connectivity
    from networkx.algorithms.flow import build_residual_network
except ImportError:
    networkx = None

ROOT = pathlib.Path(__file__).resolve().parent.parent
sys.path.insert(0, str(ROOT / "tools"))
import check  # noqa: E402, from the folder that was just named

OVERLAY = os.environ.get("TAGZIRK_OVERLAY")
CHECK = os.environ.get("TAGZIRK_OVERLAY_CHECK")
CHECK_LARGE = os.environ.get("TAGZIRK_OVERLAY_CHECK_LARGE")
MORE = "--more" in sys.argv
MOST, MOST_LARGE = 1024, 32768
# How many forged certificates are judged by both checkers.
FORGED = 600 if MORE else 120
# A small graph and what is added to it so that it is kept as lists.
PADDING = range(100_001, 100_001 + MOST)


def run(program, *words, given=""):
    """What a program prints on standard output and standard error, and its status."""
    given = given if isinstance(given, bytes) else given.encode()
    ended = subprocess.run([program, *map(str, words)], input=given, capture_output=True, timeout=600)
    return ended.stdout.decode(), ended.stderr.decode(), ended.returncode


def text_of(nodes, links):
    """The graph file of these nodes and links."""
    pairs = sorted({(min(link), max(link)) for link in links})
    lines = [*(f"node {node}\n" for node in sorted(nodes)), *(f"link {a} {b}\n" for a, b in pairs)]
    return "".join(lines)


def neighbours_of(nodes, links):
    found = {node: set() for node in nodes}
    for a, b in links:
        found[a].add(b)
        found[b].add(a)
    return found


def component(neighbours, start, gone):
    """The nodes that are reached from one, without those that are gone."""
    seen, left = {start}, [start]
    while left:
        for other in neighbours[left.pop()] - seen - gone:
            seen.add(other)
            left.append(other)
    return seen


def report(line):
    """What the line of an answer says: the verdict, k, and where the graph splits its cut, near, far and side."""
    words = line.split()
    said = dict(zip(words[3::2], words[4::2]))
    ids = {key: set(map(int, filter(str.isdigit, said[key].split(",")))) for key in ("cut", "side", "group")
           if key in said}
    return {"verdict": words[2], **said, "k": int(said["k"]), **ids}


# ---- graphs whose connectivity is known: nodes, links and k


def harary(k, count):
    """Harary's graph: the fewest links with which the crash of k nodes is needed (Proc. Natl. Acad. Sci. 48, 1962)."""
    links = {(i, (i + step) % count) for i in range(count) for step in range(1, k // 2 + 1)}
    if k % 2:
        links |= {(i, i + count // 2) for i in range((count + 1) // 2)}
        if count % 2:
            links |= {(0, count // 2)}
    return range(count), {link for link in links if link[0] != link[1]}, k


def hypercube(dimensions):
    nodes = range(2**dimensions)
    return nodes, {(i, i ^ 1 << bit) for i in nodes for bit in range(dimensions)}, dimensions


def torus(rows, columns):
    links = set()
    for row, column in itertools.product(range(rows), range(columns)):
        here = row * columns + column
        links |= {(here, row * columns + (column + 1) % columns), (here, (row + 1) % rows * columns + column)}
    return range(rows * columns), links, 4


def bipartite(few, many):
    nodes = range(few + many)
    return nodes, {(a, b) for a in range(few) for b in range(few, few + many)}, few


def star(count):
    return range(count), {(0, leaf) for leaf in range(1, count)}, 1


def weak_ends(count, weak):
    """A ring with four links each, and then nodes with three: each piece before these is good at the level above k."""
    ring = count - weak
    links = {(i, (i + step) % ring) for i in range(ring) for step in (1, 2)}
    return range(count), links | {(ring + end, 7 * end + step) for end in range(weak) for step in range(3)}, 3


def path(count):
    return range(count), {(i, i + 1) for i in range(count - 1)}, 1


def nothing(count):
    return range(count), set(), 0


def scattered(graph, seed):
    """The same graph with ids at random."""
    nodes, links, k = graph
    ids = random.Random(seed).sample(range(1, 40 * len(nodes)), len(nodes))
    return ids, {(ids[a], ids[b]) for a, b in links}, k


def two_parts(count, cut, seed):
    """Two hypercube-like parts that meet only in a cut, each node of which is linked to many of both: the cut is the
    only one of its size, since each part is as connected as its dimension is high."""
    dimension = (count - cut).bit_length() - 2
    half = 2**dimension
    assert cut < dimension
    _, links, _ = hypercube(dimension)
    both = links | {(a + half, b + half) for a, b in links}
    middle = range(2 * half, 2 * half + cut)
    drawn = random.Random(seed)
    for node in middle:
        both |= {(node, other) for other in drawn.sample(range(half), 3 * dimension)}
        both |= {(node, half + other) for other in drawn.sample(range(half), 3 * dimension)}
    return range(2 * half + cut), both, cut


def known_graphs():
    """A name for each graph that is tried, and the graph."""
    for k, count in (2, 1025), (3, 1026), (4, 1100), (5, 1200), (8, 1500), *(((6, 10_000), (9, 5001)) if MORE else ()):
        yield f"Harary {k} of {count}", scattered(harary(k, count), k)
    for dimensions in (11, 12, 13) if MORE else (11,):
        yield f"hypercube of {dimensions} dimensions", scattered(hypercube(dimensions), dimensions)
    yield "hypercube in order", hypercube(11)
    yield "torus", scattered(torus(33, 37), 1)
    yield "torus in order", torus(32, 33)
    yield "complete bipartite", bipartite(20, 5000 if MORE else 1100)
    yield "star", scattered(star(10_000 if MORE else 2000), 2)
    yield "path", scattered(path(10_000 if MORE else 2000), 3)
    yield "path in order", path(1500)
    yield "a weak last node", weak_ends(1200, 1)
    yield "weak last nodes", weak_ends(1300, 9)
    yield "no links", nothing(MOST_LARGE if MORE else 3000)
    if MORE:
        yield "star of all", star(MOST_LARGE)
        yield "Harary of all", scattered(harary(3, MOST_LARGE), 4)


class Programs(unittest.TestCase):
    """All tests need the programs."""

    def setUp(self):
        if not (OVERLAY and CHECK and CHECK_LARGE):
            self.skipTest("TAGZIRK_OVERLAY, TAGZIRK_OVERLAY_CHECK and TAGZIRK_OVERLAY_CHECK_LARGE name no programs")

    def answered(self, text, *words):
        """The answer's line, and the certificate file if one is asked for."""
        out, err, status = run(OVERLAY, "analyse", "--large", *words, given=text)
        self.assertEqual((status, err), (0, ""), out[:200])
        return out.splitlines()

    def judged(self, text, line, *words):
        """The certificate of a graph, after both checkers have said of it what the answer says."""
        told, certificate = self.answered(text, "--certificate", *words)
        self.assertEqual(told, line)
        holds = line.replace("report 0", "holds 0")
        self.assertEqual(run(CHECK_LARGE, given=certificate + "\n"), (holds + "\n", "", 0))
        self.assertEqual(check.judge(certificate.encode(), check.NEWEST_LARGE), holds)
        return certificate

    def assert_parts(self, nodes, links, line, k):
        """The answer has a cut of k nodes, without which near is in its side and far is not."""
        said = report(line)
        self.assertEqual((said["verdict"], said["k"], len(said["cut"])), ("split", k, k), line[:200])
        side = component(neighbours_of(nodes, links), int(said["near"]), said["cut"])
        self.assertEqual(said["side"], side)
        self.assertNotIn(int(said["far"]), side | said["cut"])


class Known(Programs):
    def test_each_graph_has_its_connectivity(self):
        for name, (nodes, links, k) in known_graphs():
            with self.subTest(name):
                text = text_of(nodes, links)
                line, = self.answered(text)
                self.assert_parts(nodes, links, line, k)
                if len(nodes) <= 2100:
                    self.assertEqual(self.answered(text, "--workers", "4"), [line])
                    version = json.loads(self.judged(text, line))["version"]
                    self.assertEqual(version, 3)

    def test_a_cut_that_was_planned_is_found(self):
        for count, cut, seed in (1100, 1, 1), (1100, 3, 2), (2100, 6, 3), *(((9000, 7, 4),) if MORE else ()):
            with self.subTest((count, cut)):
                nodes, links, k = two_parts(count, cut, seed)
                middle = set(list(nodes)[-cut:])
                line, = self.answered(text_of(nodes, links))
                said = report(line)
                self.assertEqual((said["k"], said["cut"]), (k, middle))

    def test_groups(self):
        nodes, links, k = hypercube(11)
        for group, expected in ([0, 2047], 11), ([5, 2042, 77], 11), ([0, 1, 3], 11):
            line, = self.answered(text_of(nodes, links), "--group", ",".join(map(str, sorted(group))))
            self.assertEqual(report(line)["k"], expected, line[:200])
        line, = self.answered(text_of(nodes, links), "--group", "0,1")
        self.assertEqual(report(line), {"verdict": "linked", "k": 1, "group": {0, 1}})
        nodes, links, _ = path(1500)
        line, = self.answered(text_of(nodes, links), "--group", "0,1499")
        self.assert_parts(nodes, links, line, 1)

    def test_every_two_linked(self):
        nodes = range(1, 1041)
        line, = self.answered(text_of(nodes, itertools.combinations(nodes, 2)))
        self.assertEqual(line, "report 0 linked k 1039")


@unittest.skipUnless(networkx, "there is no networkx")
class BesideNetworkx(Programs):
    """Random graphs with groups: k is the fewest nodes that part two members that are not linked."""

    def drawn_graphs(self):
        """Graphs of networkx, and how many members their groups have."""
        for turn, members in enumerate((2, 3, 4, 5)):
            yield networkx.random_regular_graph(3 + turn, 1026 + 90 * turn, seed=turn), members
        yield networkx.gnm_random_graph(1025, 4500, seed=4), 3
        yield networkx.random_partition_graph([600, 700], 0.015, 0.00001, seed=5), 4

    def fewest(self, graph, group):
        """The number by networkx, one question for each two members."""
        unlinked = [pair for pair in itertools.combinations(group, 2) if not graph.has_edge(*pair)]
        doubled = build_auxiliary_node_connectivity(graph)
        rooms = {"auxiliary": doubled, "residual": build_residual_network(doubled, "capacity")}
        return min((local_node_connectivity(graph, *pair, **rooms) for pair in unlinked), default=len(group) - 1)

    def test_groups_of_random_graphs(self):
        drawn = random.Random(81)
        for graph, members in self.drawn_graphs():
            nodes, group = sorted(graph), sorted(drawn.sample(sorted(graph), members))
            with self.subTest((len(nodes), group)):
                self.assertTrue(1025 <= len(nodes) <= 1300)
                links = list(graph.edges())
                words = ["--group", ",".join(map(str, group))]
                line, = self.answered(text_of(nodes, links), *words)
                self.assert_parts(nodes, links, line, self.fewest(graph, group))
                self.judged(text_of(nodes, links), line, *words)


class Limits(Programs):
    def test_who_is_refused(self):
        for count, words, is_refused in ((MOST, [], False), (MOST + 1, [], True), (MOST + 1, ["--large"], False),
                                         (MOST_LARGE, ["--large"], False), (MOST_LARGE + 1, ["--large"], True)):
            with self.subTest((count, words)):
                out, err, status = run(OVERLAY, "analyse", *words, given=text_of(range(count), []))
                self.assertEqual((out == "", "refused 31" in err, status), (is_refused, is_refused, int(is_refused)))
                self.assertEqual("--large" in err, is_refused and not words)

    def test_least_numbers(self):
        text = text_of(*star(1500)[:2])
        for words, status in (["--at-least", "1"], 0), (["--at-least", "2"], 3), (["--at-least", "32767"], 3), \
                (["--at-least", "32768"], 2):
            self.assertEqual(run(OVERLAY, "analyse", "--large", *words, given=text)[2], status, words)
        self.assertEqual(run(OVERLAY, "analyse", "--at-least", "1024", given="node 1\n")[2], 2)

    def test_other_programs_read_no_version_3(self):
        text = text_of(*star(1100)[:2])
        _, certificate = self.answered(text, "--certificate")
        self.assertEqual(run(CHECK, given=certificate)[0::2], ("refused 64\n", 1))
        self.assertEqual(run(OVERLAY, "graph", given=certificate)[2], 1)
        self.assertEqual(run(OVERLAY, "graph", "--large", given=certificate)[0], text)


class ListsAndRows(Programs):
    """Nodes without links make a small graph large, and change nothing of the answer for its own nodes."""

    def test_answers_are_the_same(self):
        drawn = random.Random(79)
        for turn in range(120 if MORE else 24):
            count, share = drawn.choice([2, 3, 5, 9, 17, 40, 65, 90]), drawn.choice([0.05, 0.2, 0.5, 0.9])
            nodes = sorted(drawn.sample(range(1, 300), count))
            links = [pair for pair in itertools.combinations(nodes, 2) if drawn.random() < share]
            group = sorted(drawn.sample(nodes, drawn.randint(1, count)))
            with self.subTest((turn, count, share)):
                words = ["--certificate", "--group", ",".join(map(str, group))]
                small, _, _ = run(OVERLAY, "analyse", *words, given=text_of(nodes, links))
                large = self.answered(text_of([*nodes, *PADDING], links), *words)
                (line, by_rows), (other_line, by_lists) = small.splitlines(), large
                of_group = f" group {words[-1]}"
                self.assertEqual(line.removesuffix(of_group), other_line.removesuffix(of_group))
                by_rows, by_lists = json.loads(by_rows), json.loads(by_lists)
                self.assertEqual(by_lists.pop("nodes"), by_rows.pop("nodes") + list(PADDING))
                self.assertEqual(by_lists.pop("version"), 3)
                by_rows.pop("version"), by_rows.pop("group", None), by_lists.pop("group")
                self.assertEqual(by_lists, by_rows)


class Forged(Programs):
    """Certificates that were changed: both checkers say the same of each."""

    def test_both_checkers_agree(self):
        nodes, links, _ = scattered(harary(3, 1030), 5)
        line, = self.answered(text_of(nodes, links))
        whole = self.judged(text_of(nodes, links), line)
        drawn, accepted = random.Random(80), 0
        for turn in range(FORGED):
            forged = self.forged(whole, drawn)
            out, _, status = run(CHECK_LARGE, given=forged)
            try:
                expected = (check.judge(forged.encode(), check.NEWEST_LARGE), 0)
            except check.Answer as fault:
                expected = (str(fault), 1)
            self.assertEqual((out.strip(), status), expected, turn)
            accepted += status == 0
        self.assertLess(accepted, FORGED // 4)

    def forged(self, text, drawn):
        """The text of a certificate with one thing changed."""
        kind = drawn.randrange(7)
        if kind == 0:
            return text[: drawn.randrange(len(text))]
        if kind == 1:
            return text.replace('"version":3', f'"version":{drawn.choice([0, 1, 2, 4, "3.0"])}')
        if kind == 2:
            return text.replace('"moment":0', f'"moment":{drawn.choice([-1, 65537, 2**32 - 1, 2**32, "1.0"])}')
        said = json.loads(text)
        entry = drawn.choice(said["fans"] + said["pairs"])
        walk = drawn.choice(entry["paths"])
        if kind == 3:
            walk[drawn.randrange(len(walk))] = drawn.choice(said["nodes"])
        elif kind == 4:
            entry["paths"][0] = entry["paths"][-1]
        elif kind == 5:
            said["links"].pop(drawn.randrange(len(said["links"])))
        else:
            key = drawn.choice(["cut", "side", "group", "nodes"])
            said[key].pop(drawn.randrange(len(said[key])))
        return json.dumps(said)


class Bounds(Programs):
    """With little memory, and on a small stack, a program does its work, says that memory is out, or prints nothing."""

    # What the loader of programs ends with if it has no memory, and what the system ends a program with whose stack has
    # no room to grow.
    CANNOT_START, NO_STACK = 127, -signal.SIGSEGV

    def setUp(self):
        super().setUp()
        nodes, links, _ = scattered(harary(4, 1500), 6)
        graph = text_of(nodes, links)
        line, certificate = self.answered(graph, "--certificate")
        self.analysed = [
            ([OVERLAY, "analyse", "--large"], graph, f"{line}\n"),
            ([OVERLAY, "analyse", "--large", "--certificate"], graph, f"{line}\n{certificate}\n"),
        ]
        self.checked = [CHECK_LARGE], certificate, line.replace("report 0", "holds 0") + "\n"

    def bounded(self, kind, most, words, given):
        """What a program prints on standard output, the first line on standard error, and its status, if it has no more
        of a resource than this."""
        limits = {"preexec_fn": lambda: resource.setrlimit(kind, (most, most)), "timeout": 600}
        ended = subprocess.run(words, input=given.encode(), capture_output=True, **limits)
        said = ended.stderr.decode().splitlines()[:1]
        return ended.stdout.decode(), said if ended.returncode == 1 else [], ended.returncode

    def test_a_small_stack(self):
        for words, given, right in [*self.analysed, self.checked]:
            with self.subTest(words[1:]):
                self.assertTrue(self.bounded(resource.RLIMIT_STACK, 256 * 1024, words, given) == (right, [], 0))

    def test_little_memory(self):
        refused = "", ["refused 99"], 1
        ended = [("", [], self.NO_STACK), ("", [], self.CANNOT_START)]
        seen = []
        for words, given, right in [*self.analysed, self.checked]:
            most = 64_000_000
            while seen[-1:] != ended[1:]:
                with self.subTest((words[1:], most)):
                    seen.append(self.bounded(resource.RLIMIT_AS, most, words, given))
                    self.assertTrue(seen[-1] in [(right, [], 0), refused, *ended], seen[-1][1:])
                most = most * 19 // 20
            self.assertTrue((right, [], 0) in seen, words[1:])
            seen = [refused] if refused in seen else []
        self.assertEqual(seen, [refused])


class Sizes(Programs):
    """A certificate of more than 10,000,000 ids is announced on standard error, and a smaller one is not."""

    def certified(self, count):
        """What is printed of a ring with ids in order: on standard error, and the answer with its certificate."""
        out, err, status = run(OVERLAY, "analyse", "--large", "--certificate", given=text_of(*harary(2, count)[:2]))
        self.assertEqual(status, 0, err)
        return err, out

    def test_rings_in_order(self):
        # Of each node but the first two one path has 2 ids, and the other leads up to the last node and the first one.
        for count, ids in (4470, 9_997_150), (4471, 10_001_622):
            self.assertEqual(ids, sum(2 + count - node + 1 for node in range(2, count)))
        self.assertEqual(self.certified(4470)[0], "")
        err, out = self.certified(4471)
        told = re.fullmatch(r"the certificate has 10001622 ids in its paths, about (\d+) MB; [^\n]+\n", err)
        self.assertTrue(told, err)
        self.assertLess(abs(int(told[1]) - len(out) / 1e6), len(out) / 1e7)
        said = json.loads(out.splitlines()[1])
        walks = (walk for entry in said["pairs"] + said["fans"] for walk in entry["paths"])
        self.assertEqual(sum(map(len, walks)), ids)


class Imports(Programs):
    """A ring of hosts that are named in order: ids are scattered, so that its certificate stays short."""

    def test_a_ring_in_order(self):
        count = 10_000 if MORE else 2000
        names = [f"host-{i:05}" for i in range(count)]
        edges = "".join(f"{names[i]} {names[(i + 1) % count]}\n" for i in range(count))
        with tempfile.TemporaryDirectory() as room:
            graph, err, status = run(OVERLAY, "import", "--large", "--edges", given=edges)
            self.assertEqual(status, 0, err)
            said = [line.split() for line in graph.splitlines()]
            told = {int(words[1]): words[2] for words in said if words[0] == "#"}
            self.assertEqual([told[i + 1] for i in range(count)], self.names_by_key(sorted(names)))
            pathlib.Path(room, "ring.graph").write_text(graph)
            line, certificate = self.answered(graph, "--certificate")
            self.assertEqual(report(line)["k"], 2)
            self.assertLess(len(certificate), 2000 * count)
        self.assertEqual(run(OVERLAY, "import", "--edges", given=edges)[2], 1)

    def names_by_key(self, names):
        """The names in the order of their nodes, by the rule of docs/FORMATS.md."""
        return [name for _, name in sorted((place * 20251 % 32768, name) for place, name in enumerate(names))]


if __name__ == "__main__":
    unittest.main(argv=[it for it in sys.argv if it != "--more"])
