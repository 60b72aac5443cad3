#!/usr/bin/env python3
"""test_pictures.py [--write]: tests of `overlay picture`, and of the pictures that docs/ keeps.

TAGZIRK_OVERLAY names the program overlay. What a picture shows is held against a reading of the certificate that is
written here: which class each node and each link has, which path goes along which link, what nodes are called, and
which components the crash leaves, which networkx walks through. Where things stand is looked at only roughly. The
pictures of docs/ are made again, and compared; with --write they are written.
"""

import json
import math
import os
import pathlib
import random
import re
import subprocess
import sys
import tempfile
import unittest
import xml.etree.ElementTree as xml

try:
    import networkx
except ImportError:
    networkx = None

ROOT = pathlib.Path(__file__).resolve().parent.parent
DOCS, DUMPS = ROOT / "docs", ROOT / "examples" / "dumps"
OVERLAY = os.environ.get("TAGZIRK_OVERLAY")
SVG = "{http://www.w3.org/2000/svg}"
TIP = re.compile(r"node (\d+) \(([a-z-]+)(, no member)?\): (.*)")
DOT_NODE = re.compile(r'  (\d+) \[class="([a-z-]+)( no-member)?", (?:component=(\d+), )?fillcolor="(#[0-9a-f]{6})".*'
                      r'label="(.*)", pos="[\d.,-]+"\];')
DOT_LINK = re.compile(r'  (\d+) -- (\d+) \[class="([a-z-]+)", color="#[0-9a-f]{6}"(?:, penwidth=3, path=(\d+))?\];')
RULE = re.compile(r"(?m)^\.nodes \.(c\d)\{fill:(#[0-9a-f]{6})\}$")
# So many components have colours of their own, and so many sizes are told.
COLOURED = 6
# At these letters an end of all names may begin.
SEPARATORS = ".-_:/"
# What a link is, by what its ends are.
BETWEEN = {("far", "far"): "within-far", ("near", "near"): "within-side", ("cut", "cut"): "within-cut",
           ("cut", "near"): "side-to-cut", ("cut", "far"): "cut-to-far", ("unparted", "unparted"): "unparted"}


def overlay(*words, given=""):
    """What the program prints on standard output, if its status is 0."""
    given = given if isinstance(given, bytes) else given.encode()
    run = subprocess.run([OVERLAY, *map(str, words)], input=given, stdout=subprocess.PIPE, timeout=60, check=True)
    return run.stdout.decode()


def certificate_of(graph, *words):
    """The certificate file of a graph file."""
    return overlay("analyse", "--certificate", *words, given=graph).splitlines()[-1]


def picture_with_names(certificate, graph, *words):
    """The picture of a certificate, with the names of a graph file."""
    with tempfile.NamedTemporaryFile(suffix=".graph") as names:
        names.write(graph.encode())
        names.flush()
        return overlay("picture", "--names", names.name, *words, given=certificate)


# ---- what a certificate says


def classes_of(said):
    """The class of each node."""
    if said["verdict"] == "linked":
        return dict.fromkeys(said["nodes"], "unparted")
    found = dict.fromkeys(said["nodes"], "far-side")
    found |= dict.fromkeys(said["side"], "near-side") | dict.fromkeys(said["cut"], "cut")
    return found | {said["near"]: "near", said["far"]: "far"}


def members_of(said):
    """The members of the group, which is all nodes if none is said."""
    return set(said.get("group", said["nodes"]))


def class_of_link(classes, a, b):
    """The class of a link."""
    return BETWEEN[tuple(sorted(classes[node].removesuffix("-side") for node in (a, b)))]


def steps_of(paths):
    """The number of the path, from 1, that goes along each link."""
    found = {}
    for number, path in enumerate(paths, 1):
        for a, b in zip(path, path[1:]):
            found.setdefault((min(a, b), max(a, b)), number)
    return found


def names_in(graph):
    """The names of the nodes of a graph file."""
    return {int(at): name for at, name in re.findall(r"(?m)^# (\d+) (.*)\nnode \1$", graph)}


def end_of(said, names):
    """What all names end in, and is left out of labels: the longest such end that begins at a separator and is all of
    no name, if a name is too long that would be a label."""
    called = [names.get(it, str(it)) for it in said["nodes"]]
    main = {said.get("near"), said.get("far"), *(said.get("cut", []) if len(said.get("cut", [])) <= 60 else [])}
    shown = called if len(called) <= 60 else [names.get(it, str(it)) for it in main]
    if all(letters(name) <= 24 for name in shown):
        return ""
    ends = [called[0][at:] for at, letter in enumerate(called[0]) if at and letter in SEPARATORS]
    return next((end for end in ends if all(it.endswith(end) and it != end for it in called)), "")


def letters(name):
    """How many letters wide a name is."""
    return sum(1 if it.isascii() else 2 for it in name)


class Components:
    """The connected components that the crash of a certificate's cut leaves, each a set of nodes: by their numbers,
    which count from 1 in the order of the lowest ids, and in the order of their ranks."""

    def __init__(self, said):
        graph = networkx.Graph(map(tuple, said["links"]))
        graph.add_nodes_from(said["nodes"])
        graph.remove_nodes_from(said.get("cut", []))
        found = [] if said["verdict"] == "linked" else sorted(networkx.connected_components(graph), key=min)
        self.numbers = {node: number for number, part in enumerate(found, 1) for node in part}
        self.ranked = sorted(found, key=lambda it: (said["near"] not in it, said["far"] not in it, -len(it), min(it)))
        self.colours = {node: f"c{min(rank, COLOURED)}" for rank, part in enumerate(self.ranked) for node in part}

    def told(self, said):
        """The line of the heading that tells them, if there is one."""
        if not self.ranked:
            return []
        sizes = [str(len(part)) for part in self.ranked]
        more = f" and {len(sizes) - COLOURED} more" if len(sizes) > COLOURED else ""
        listed = ", ".join(sizes[:COLOURED]) + more
        if not more:
            listed = " and ".join(filter(None, [", ".join(sizes[:-1]), sizes[-1]]))
        begin = "The crash leaves" if said["cut"] else "Without any crash there are"
        return [f"{begin} {len(sizes)} components, of sizes {listed}"]

    def legend(self, said):
        """What the legend says of each of the first ones, and of all others, with its colour."""
        whose = {self.numbers[said[it]]: f", {it}'s" for it in ("near", "far")} if self.ranked else {}
        items = []
        for rank, part in enumerate(self.ranked[:COLOURED]):
            number = self.numbers[min(part)]
            items.append((f"component {number}{whose.get(number, '')}: {counted(len(part), 'node')}", f"c{rank}"))
        if others := self.ranked[COLOURED:]:
            nodes = counted(sum(map(len, others)), "node")
            items.append((f"{counted(len(others), 'further component')}: {nodes}", f"c{COLOURED}"))
        return items


def counted(number, word):
    """A number with its word."""
    return f"{number} {word}{'' if number == 1 else 's'}"


def sentence_of(said, names):
    """What stands above a picture whose names are short."""
    if said["verdict"] == "linked":
        return "Every two members are linked: no crash separates survivors"
    near, far, *cut = (names.get(it, str(it)) for it in (said["near"], said["far"], *said["cut"]))
    near, far = f"node {near}", f"node {far}"
    if not cut:
        return f"N{near[1:]} is separated from {far} without any crash"
    shown = [*cut[:6], f"{len(cut) - 6} more"] if len(cut) > 6 else cut
    listed = " and ".join(filter(None, [", ".join(shown[:-1]), shown[-1]]))
    return f"Crashing node{'s' * (len(cut) > 1)} {listed} separates {near} from {far}"


# ---- what a picture shows


class Picture:
    """The nodes, the links and the texts of a picture as SVG."""

    def __init__(self, text):
        self.top = xml.fromstring(text)
        self.shapes, self.members = {}, set()
        for shape in [*self.top.iter(f"{SVG}circle"), *self.top.iter(f"{SVG}rect")]:
            if (tip := shape.find(f"{SVG}title")) is not None:
                node, kind, outside, name = TIP.fullmatch(tip.text).groups()
                self.shapes[int(node)] = (shape, kind, name)
                self.members |= set() if outside else {int(node)}
        self.places = {node: self.place(shape) for node, (shape, _, _) in self.shapes.items()}
        groups = self.top.findall(f"{SVG}g")
        self.links = [it for group in groups if group.get("class") == "links" for it in group]
        first = next((group for group in groups if group.get("class") == "paths"), None)
        self.steps = [] if first is None else list(first)
        self.labels = [it.text for group in groups if group.get("class") == "labels" for it in group]
        legend = [list(group) for group in groups if group.get("class") == "nodes"][-1]
        self.legend = [(text.text, sign.get("class").split()) for sign, text in zip(legend[::2], legend[1::2])]
        style, described = self.top.find(f"{SVG}style").text, self.top.find(f"{SVG}desc").text
        self.grounds = [dict(RULE.findall(part)) for part in style.partition("@media")[::2]]
        self.told = described.removesuffix(".").split(". ")[1:]

    @staticmethod
    def place(shape):
        """The middle of a shape."""
        if shape.tag == f"{SVG}circle":
            return float(shape.get("cx")), float(shape.get("cy"))
        half = float(shape.get("width")) / 2
        return round(float(shape.get("x")) + half, 1), round(float(shape.get("y")) + half, 1)

    def ends(self, line):
        """The two places that a line joins."""
        numbers = [float(it) for it in re.findall(r"[\d.]+", line.get("d"))]
        return tuple(numbers[:2]), tuple(numbers[-2:])

    def touched(self):
        """The lines of paths that touch a node which is none of their ends, each with this node."""
        found = []
        for line in self.steps:
            points, ends = points_of(line.get("d")), self.ends(line)
            for node, place in self.places.items():
                shape = self.shapes[node][0]
                reach = float(shape.get("r") or float(shape.get("width")) / 2)
                nearest = min(math.dist(place, point) for point in points)
                if nearest < reach and not any(near_by(place, end) for end in ends):
                    found.append((line.get("d"), node))
        return found


def points_of(line, parts=200):
    """Points on a line, which is straight or bent by one point."""
    numbers = [float(it) for it in re.findall(r"-?[\d.]+", line)]
    (x, y), (right, down) = numbers[:2], numbers[-2:]
    aside, below = numbers[2:4] if "Q" in line else ((x + right) / 2, (y + down) / 2)
    shares = [((1 - at) ** 2, 2 * at * (1 - at), at ** 2) for at in (step / parts for step in range(parts + 1))]
    return [(a * x + b * aside + c * right, a * y + b * below + c * down) for a, b, c in shares]


def near_by(one, other):
    """Whether two places are the same, but for what is rounded."""
    return abs(one[0] - other[0]) < 0.3 and abs(one[1] - other[1]) < 0.3


@unittest.skipUnless(OVERLAY and networkx, "TAGZIRK_OVERLAY names no program, or there is no networkx")
class Pictures(unittest.TestCase):
    def judge_nodes(self, picture, said, names):
        """Each node has one shape, of its class, with its name, within the picture; only members are not hollow."""
        classes, members = classes_of(said), members_of(said)
        self.assertEqual(picture.members, members)
        hollow = {node for node, (shape, _, _) in picture.shapes.items() if "no-member" in shape.get("class").split()}
        self.assertEqual(hollow, set(said["nodes"]) - members)
        told = [it.text for it in picture.top.iter(f"{SVG}text") if "not in the group" in (it.text or "")]
        self.assertEqual(told, [f"{len(hollow)} not in the group"] if hollow else [])
        self.assertEqual({node: kind for node, (_, kind, _) in picture.shapes.items()}, classes)
        called = {node: names.get(node, str(node)) for node in said["nodes"]}
        self.assertEqual({node: name for node, (_, _, name) in picture.shapes.items()}, called)
        width, height = (float(picture.top.get(it)) for it in ("width", "height"))
        for node, (shape, kind, _) in picture.shapes.items():
            x, y = picture.places[node]
            self.assertTrue(0 < x < width and 0 < y < height)
            self.assertEqual(shape.tag == f"{SVG}rect", kind == "cut")

    def judge_sides(self, picture, said):
        """The near side is on the left, the cut between, the other survivors on the right."""
        if said["verdict"] == "linked":
            return
        parts = {"near": [], "cut": [], "far": []}
        for node, kind in classes_of(said).items():
            parts[kind.removesuffix("-side")].append(picture.places[node][0])
        self.assertLess(max(parts["near"]), min(parts["cut"] + parts["far"]))
        self.assertLess(max(parts["near"] + parts["cut"]), min(parts["far"]))

    def judge_components(self, picture, said, names):
        """Each node has the colour of its component, and the heading and the legend say how large these are."""
        components = Components(said)
        coloured = {node: [it for it in shape.get("class").split() if it in picture.grounds[0]]
                    for node, (shape, _, _) in picture.shapes.items()}
        wanted = {node: [components.colours[node]] if node in components.colours else [] for node in said["nodes"]}
        self.assertEqual(coloured, wanted)
        for ground in picture.grounds:
            self.assertEqual(list(ground), [f"c{at}" for at in range(COLOURED + 1)])
            self.assertEqual(len(set(ground.values())), COLOURED + 1)
        items = [(text, [it for it in kinds if it in picture.grounds[0]]) for text, kinds in picture.legend]
        self.assertEqual([(text, *kinds) for text, kinds in items if kinds], components.legend(said))
        plain = [text for text, kinds in items if not kinds and "not in the group" not in text]
        if said["verdict"] == "linked":
            self.assertEqual(plain, [counted(len(said["nodes"]), "node")])
        else:
            self.assertEqual(plain, ["near", *([f"{len(said['cut'])} in the cut"] if said["cut"] else []), "far"])
        end = end_of(said, names)
        wanted = [*components.told(said), *([f"All names end in {end}"] if end else [])]
        begins = ("The crash leaves", "Without any crash", "All names")
        self.assertEqual([it for it in picture.told if it.startswith(begins)], wanted)

    def judge_links(self, picture, said, paths):
        """Each link has one line, of its class or of its path, from node to node; a link between two survivors has the
        colour of their component."""
        classes, steps, colours = classes_of(said), steps_of(paths), Components(said).colours
        plain = [link for link in said["links"] if tuple(link) not in steps]
        wanted = sorted((class_of_link(classes, a, b), a, b) for a, b in plain)
        wanted = [(f"{kind} {colours[a]}" if kind in ("within-side", "within-far") else kind, a, b)
                  for kind, a, b in wanted]
        self.assertEqual(sorted(line.get("class") for line in picture.links), sorted(it[0] for it in wanted))
        lines = [(line.get("class"), picture.ends(line)) for line in picture.links]
        lines += [(line.get("class"), picture.ends(line)) for line in picture.steps]
        wanted += [(f"p{(number - 1) % 12}", a, b) for (a, b), number in steps.items()]
        self.assertEqual(len(lines), len(wanted))
        for kind, a, b in wanted:
            here = [it for it in lines if it[0] == kind and near_by(it[1][0], picture.places[a])
                    and near_by(it[1][1], picture.places[b])]
            self.assertEqual(len(here), 1, (kind, a, b))

    def judge(self, text, said, names=None, paths=()):
        """A picture as SVG shows the certificate."""
        picture, names = Picture(text), names or {}
        end = end_of(said, names)
        short = {node: name.removesuffix(end) for node, name in names.items()}
        self.assertEqual(picture.top.find(f"{SVG}title").text, sentence_of(said, short))
        self.judge_nodes(picture, said, names)
        self.judge_components(picture, said, names)
        self.judge_sides(picture, said)
        self.judge_links(picture, said, paths)
        if len(said["nodes"]) <= 60 and not any(len(name) > 24 for name in short.values()):
            self.assertEqual(sorted(picture.labels), sorted(short.get(it, str(it)) for it in said["nodes"]))
        self.assertNotIn("script", text)

    def judge_dot(self, text, said, names=None, paths=()):
        """A picture in DOT shows the certificate."""
        classes, steps, names, components = classes_of(said), steps_of(paths), names or {}, Components(said)
        found = DOT_NODE.findall(text)
        nodes = {int(at): (kind, name) for at, kind, _, _, _, name in found}
        self.assertEqual({int(it[0]) for it in found if not it[2]}, members_of(said))
        self.assertEqual({int(it[0]): int(it[3]) for it in found if it[3]}, components.numbers)
        fills = {(components.colours[int(it[0])], it[4]) for it in found if it[1].endswith("-side") and not it[2]}
        self.assertEqual(len(fills), len({colour for colour, _ in fills}))
        self.assertEqual(len(fills), len({fill for _, fill in fills}))
        heading = text.splitlines()[1]
        for line in components.told(said):
            self.assertIn(f"\\n{line}", heading)
        self.assertEqual(nodes, {it: (classes[it], names.get(it, str(it))) for it in said["nodes"]})
        links = [(int(a), int(b), kind, int(path or 0)) for a, b, kind, path in DOT_LINK.findall(text)]
        self.assertEqual(links, [(a, b, class_of_link(classes, a, b), steps.get((a, b), 0)) for a, b in said["links"]])
        self.assertEqual(len(text.splitlines()), 4 + len(nodes) + len(links))

    def test_each_entry_of_the_examples(self):
        paths = sorted([*ROOT.glob("examples/*.json"), DUMPS / "certificate.json"])
        held = [it for it in paths if subprocess.run([OVERLAY, "picture", it], capture_output=True).returncode == 0]
        self.assertEqual(len(held), 10)
        for path in held:
            said = json.loads(path.read_text())
            entries = [((), [])]
            entries += [(("--pair", f"{it['i']},{it['j']}"), it["paths"]) for it in said.get("pairs", [])]
            entries += [(("--fan", it["j"]), it["paths"]) for it in said.get("fans", [])][:6]
            for words, of_entry in entries:
                with self.subTest(path=path.name, words=words):
                    self.judge(overlay("picture", path, *words), said, paths=of_entry)
                    self.judge_dot(overlay("picture", path, "--dot", *words), said, paths=of_entry)

    def test_groups(self):
        graph = two_halls()
        for group in ("1,2", "3,50,120,121", ",".join(map(str, range(1, 200, 7)))):
            with self.subTest(group=group):
                certificate = certificate_of(graph, "--group", group)
                said, names = json.loads(certificate), names_in(graph)
                self.judge(picture_with_names(certificate, graph), said, names)
                self.judge_dot(picture_with_names(certificate, graph, "--dot"), said, names)

    def test_no_line_of_a_path_touches_another_node(self):
        """The line of each link of a path keeps off all nodes but its ends, in each of these pictures."""
        kept = kept_pictures().values()
        pictures = [picture_with_names(certificate_of(graph), graph, *words) for graph, words in kept]
        for count in 10, 14, 20, 24, 30, 40:
            for seed in 1, 2:
                certificate = certificate_of(two_rings(count, seed))
                pictures += [overlay("picture", *words, given=certificate) for words in some_entries(certificate)]
        touched = [picture.touched() for picture in map(Picture, pictures)]
        self.assertEqual(len(pictures), 4 + 12 * 8)
        self.assertEqual([it for it in touched if it], [])
        self.assertGreater(sum("Q" in line.get("d") for it in pictures for line in Picture(it).steps), 100)

    def test_labels_of_long_names(self):
        """A name of more than 24 letters has its first ones, its last ones and its id as label; others are whole."""
        hosts = [f"cassandra-production-eu-west-1{it}" for it in "abc"]
        others = ["abcdefghijklmnopqrstuvwx", "bcdefghijklmnopqrstuvwxyz", "zürich-rechenzentrum-süd-1"]
        names = [*hosts, *others, "日" * 12, "月" * 13]
        graph = graph_of(names, zip(names, names[1:]))
        certificate = certificate_of(graph)
        picture = Picture(picture_with_names(certificate, graph))
        self.assertEqual(sorted(picture.labels), sorted([
            "abcdefghijklmnopqrstuvwx", "bcdefghijklm…qrstuvwxyz (2)", "cassandra-pr…eu-west-1a (3)",
            "cassandra-pr…eu-west-1b (4)", "cassandra-pr…eu-west-1c (5)", "zürich-rech…rum-süd-1 (6)",
            "日日日日日日日日日日日日", "月月月月月月…月月月月月 (8)"]))
        sentence = ("Crashing node cassandra-pr…eu-west-1b (4) separates node cassandra-pr…eu-west-1a (3) "
                    "from node abcdefghijklmnopqrstuvwx")
        self.assertEqual(picture.top.find(f"{SVG}title").text, sentence)
        text = picture_with_names(certificate, graph, "--dot")
        told = "The crash leaves 2 components, of sizes 1 and 6"
        self.assertIn(f'label="{sentence} {told}"', text.replace("\\n", " "))
        self.assertIn('label="cassandra-production-eu-west-1a"', text)

    def test_components(self):
        """Of two to nine components round a hub, some of them of one node, each is told and coloured."""
        cases = ["3 2", "1 1", "2 5 3", "4 1 3 2", "2 2 2 2 2", "6 5 4 3 2 1", "1 1 1 1 1 1 1", "5 4 3 3 2 2 1 1 1",
                 "90 120 60 30 1"]
        for sizes in (list(map(int, case.split())) for case in cases):
            with self.subTest(sizes=sizes):
                graph = round_a_hub(sizes)
                certificate = certificate_of(graph)
                said, names = json.loads(certificate), names_in(graph)
                self.assertEqual((said["k"], sorted(map(len, Components(said).ranked))), (1, sorted(sizes)))
                self.judge(picture_with_names(certificate, graph), said, names)
                self.judge_dot(picture_with_names(certificate, graph, "--dot"), said, names)

    def test_components_without_a_cut(self):
        graph = graph_of("abcde", ["ab", "cd"])
        certificate = certificate_of(graph)
        said, names = json.loads(certificate), names_in(graph)
        self.judge(picture_with_names(certificate, graph), said, names)
        self.assertEqual(Components(said).told(said), ["Without any crash there are 3 components, of sizes 2, 2 and 1"])

    def test_the_end_of_all_names(self):
        """An end that all names share, from a separator on, is left out of labels and told once, if a label is too
        long; it is all of no name, and whole names stand where one points and in DOT."""
        cases = [
            # letters may be shared before the separator, but no word is torn
            (["cassandra-prod-{}1.eu-west-1a.example.net"], ".eu-west-1a.example.net"),
            (["{}-0123456789-abcdefghijklm"], "-0123456789-abcdefghijklm"),
            (["{}:7946/gossip/cluster/of/production"], ":7946/gossip/cluster/of/production"),
            (["{}_berlin_hall_two_of_the_north"], "_berlin_hall_two_of_the_north"),
            # the longest is taken that leaves something of each name
            (["{}.x.example-of-a-long-name.org", "x.example-of-a-long-name.org"], ".example-of-a-long-name.org"),
            (["{}.example-of-a-long-name.org", ".example-of-a-long-name.org"], "-of-a-long-name.org"),
            # no label is too long
            (["{}.example-of-a-name.org"], ""),
            # no end is shared
            (["{}.example-of-a-long-name.org", "{}.example-of-a-long-name.com"], ""),
            (["host{}withoutaseparatorbutlong"], ""),
        ]
        for forms, end in cases:
            with self.subTest(forms=forms):
                names = list(dict.fromkeys(form.format(letter) for form in forms for letter in "abc"))
                graph = graph_of(names, zip(names, names[1:]))
                certificate = certificate_of(graph)
                said, called = json.loads(certificate), names_in(graph)
                self.assertEqual(end_of(said, called), end)
                picture = Picture(picture_with_names(certificate, graph))
                told = [it for it in picture.told if it.startswith("All")]
                self.assertEqual(told, [f"All names end in {end}"] if end else [])
                if all(letters(name.removesuffix(end)) <= 24 for name in names):
                    self.assertEqual(sorted(picture.labels), sorted(name.removesuffix(end) for name in names))
                self.assertEqual(sorted(name for _, _, name in picture.shapes.values()), sorted(names))
                self.judge_dot(picture_with_names(certificate, graph, "--dot"), said, called)

    def test_a_name_that_is_long_without_its_end(self):
        """Of such a name eighteen first letters and four last ones are kept, and its id."""
        sites = ["eu-west-1a", "us-east-2c"]
        names = [f"cassandra-prod-{at:03}.{site}.example.net" for site in sites for at in range(1, 4)]
        graph = graph_of(names, zip(names, names[1:]))
        picture = Picture(picture_with_names(certificate_of(graph), graph))
        wanted = [f"cassandra-prod-{at:03}…{site[-4:]} ({2 * at - 1 + sites.index(site)})"
                  for site in sites for at in range(1, 4)]
        self.assertEqual(sorted(picture.labels), sorted(wanted))

    def test_long_names_make_no_picture_wider(self):
        """No line has more than 90 letters, and each has room in the picture."""
        for count in 2, 24, 200:
            names = [f"node-{at:03}-of-a-data-centre-far-away.example.org" for at in range(count)]
            graph = graph_of(names, zip(names, names[1:]))
            picture = Picture(picture_with_names(certificate_of(graph), graph))
            lines = [it for it in picture.top.findall(f"{SVG}text") if it.get("class") in ("heading", "told")]
            self.assertLessEqual(max(len(it.text) for it in lines), 90)
            for line in lines:
                wide = 10.8 if line.get("class") == "heading" else 6.9
                self.assertLess(len(line.text) * wide, float(picture.top.get("width")))

    def test_kept_examples(self):
        for of, certificate, names in (("", "certificate.json", "import-entries.out"),
                                       ("-of-seven-components", "seven-parts.json", "seven-parts.graph")):
            said, names = json.loads((DUMPS / certificate).read_text()), names_in((DUMPS / names).read_text())
            self.judge((DUMPS / f"picture{of}.out").read_text(), said, names)
            self.judge_dot((DUMPS / f"picture-dot{of}.out").read_text(), said, names)

    def test_signs(self):
        said = {"verdict": "linked", "nodes": [1, 2], "links": [[1, 2]]}
        self.judge((DUMPS / "picture-of-signs.out").read_text(), said, {1: "a\\u{1b}[31m<&>\"\\'"})
        self.judge_dot((DUMPS / "picture-dot-of-signs.out").read_text(), said, {1: "a\\\\u{1b}[31m<&amp;>\\\"\\\\'"})

    def test_pictures_of_the_documents(self):
        for name, (graph, words) in kept_pictures().items():
            with self.subTest(name=name):
                certificate = certificate_of(graph)
                said = json.loads(certificate)
                entry = [it["paths"] for it in said["pairs"] if words == ("--pair", f"{it['i']},{it['j']}")]
                text = picture_with_names(certificate, graph, *words)
                self.judge(text, said, names_in(graph), entry[0] if entry else ())
                self.assertEqual((DOCS / name).read_text(), text, f"{name} is kept otherwise")


# ---- the pictures of the documents


def graph_of(names, pairs):
    """The graph file that `overlay import` makes of these names, in which each has a link to the next of its pairs."""
    views = {name: [] for name in names}
    for a, b in pairs:
        views[a].append(b)
        views[b].append(a)
    return overlay("import", "--views", given=json.dumps(views))


def cube():
    """The graph of the corners and edges of a cube in four dimensions, with letters for names."""
    names = "abcdefghijklmnop"
    return graph_of(names, [(names[a], names[a | 1 << bit]) for a in range(16) for bit in range(4) if not a & 1 << bit])


def hall(name, count, chords):
    """The names of the hosts of a hall, and links: a ring with the two next ones, and chords that look random."""
    hosts = [f"{name}-{at:03}" for at in range(count)]
    links = {frozenset((at, (at + step) % count)) for at in range(count) for step in (1, 2)}
    state = count
    while len(links) < 2 * count + chords:
        state = (state * 1103515245 + 12345) % 2**31
        links.add(frozenset((state // 7 % count, state // 1009 % count)))
    return hosts, [[hosts[at] for at in sorted(link)] for link in sorted(map(sorted, links)) if len(link) == 2]


def two_halls():
    """Two halls of 120 and 77 hosts, which three gateways join."""
    (one, of_one), (other, of_other) = hall("hall-a", 120, 150), hall("hall-b", 77, 100)
    gates = [f"gate-{at}" for at in range(1, 4)]
    links = [(gate, hosts[(7 + 29 * at + 11 * step) % len(hosts)])
             for at, gate in enumerate(gates) for hosts in (one, other) for step in range(5)]
    return graph_of([*one, *other, *gates], [*of_one, *of_other, *links])


def round_a_hub(sizes):
    """The graph file of parts of these sizes, each of nodes that are linked in a row and to the first one, which is
    linked to a hub. Names have an end in common, and those of a part do not follow each other."""
    parts, links = [[] for _ in sizes], []
    left, at = list(sizes), 0
    while any(left):
        for part, more in enumerate(left):
            if more:
                at += 1
                parts[part].append(f"worker-{at:03}.rack-4.hall-2.example.net")
        left = [max(more - 1, 0) for more in left]
    hub = "hub-1.rack-4.hall-2.example.net"
    for part in parts:
        links += [(hub, name) for name in part[:3]]
        links += zip(part, part[1:])
    return graph_of([hub, *(name for part in parts for name in part)], links)


def two_rings(count, seed):
    """The graph file of nodes on two rings, each in an order of its own: most nodes have four links."""
    order, links, chance = list(range(1, count + 1)), set(), random.Random(seed)
    for _ in range(2):
        chance.shuffle(order)
        links |= {tuple(sorted(link)) for link in zip(order, [*order[1:], order[0]])}
    nodes = "".join(f"node {at}\n" for at in range(1, count + 1))
    return nodes + "".join(f"link {a} {b}\n" for a, b in sorted(links))


def some_entries(certificate):
    """The options for eight entries of a certificate, pairs first, then the last fans."""
    said = json.loads(certificate)
    pairs = [("--pair", f"{it['i']},{it['j']}") for it in said["pairs"]][:4]
    fans = [("--fan", it["j"]) for it in said["fans"]]
    return [*pairs, *fans[len(pairs) - 8:]]


def random_partition():
    """The graph of python/README.md, whose names are whole numbers, from the edges that networkx wrote."""
    lines = (DUMPS / "partition.edges").read_text().splitlines()
    links = sorted(sorted(map(int, line.split()[:2])) for line in lines)
    nodes = sorted({node for link in links for node in link})
    return "".join([*(f"# {it} {it}\nnode {it}\n" for it in nodes), *(f"link {a} {b}\n" for a, b in links)])


def kept_pictures():
    """The graph file and the options of each picture of the documents."""
    return {
        "picture-cluster.svg": ((DUMPS / "import-entries.out").read_text(), ()),
        "picture-paths.svg": (cube(), ("--pair", "1,4")),
        "picture-halls.svg": (two_halls(), ()),
        "picture-notebook.svg": (random_partition(), ()),
    }


def write():
    """Writes the pictures of the documents."""
    for name, (graph, words) in kept_pictures().items():
        (DOCS / name).write_text(picture_with_names(certificate_of(graph), graph, *words))


if __name__ == "__main__":
    if sys.argv[1:] == ["--write"]:
        sys.exit(write())
    unittest.main()
