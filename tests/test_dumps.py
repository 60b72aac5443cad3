#!/usr/bin/env python3
"""test_dumps.py: tests of `overlay import`, `overlay graph` and `overlay picture --dot`, on dumps that are made here.

TAGZIRK_OVERLAY names the program overlay. What is printed is held against a reading of the dumps of a few lines, which
is written here. With networkx, dumps that it writes are read too; with pydot besides, also those in DOT, and networkx
reads what `overlay picture --dot` prints. Debian has both as python3-networkx and python3-pydot.
"""

import io
import json
import os
import random
import re
import subprocess
import unittest
import warnings

try:
    import networkx
except ImportError:
    networkx = None
try:
    import pydot
except ImportError:
    pydot = None

OVERLAY = os.environ.get("TAGZIRK_OVERLAY")


def overlay(*words, given=""):
    """What the program prints on standard output and standard error, and its status."""
    given = given if isinstance(given, bytes) else given.encode()
    run = subprocess.run([OVERLAY, *words], input=given, capture_output=True, timeout=60)
    return run.stdout.decode(), run.stderr.decode(), run.returncode


def shown(name):
    """A name as a graph file shows it: a backslash before `u{`, and control characters, by their codes."""
    text = name.replace("\\u{", "\\u{5c}u{")
    return re.sub("[\0-\x1f\x7f-\x9f]", lambda it: f"\\u{{{ord(it[0]):x}}}", text)


def named(text):
    """The name that a graph file shows so."""
    return re.sub(r"\\u\{([0-9a-f]+)\}", lambda it: chr(int(it[1], 16)), text)


def in_order_of_ids(names):
    """The names in the order of their nodes: ascending, byte by byte; more than 1,024 in the order of the keys of their
    places among the ascending ones, which are counted from 0."""
    names = sorted(names, key=str.encode)
    if len(names) <= 1024:
        return names
    return [names[place] for place in sorted(range(len(names)), key=lambda place: place * 20251 % 32768)]


def graph_file(names, links):
    """The graph file of these names and pairs of names."""
    ids = {name: at for at, name in enumerate(in_order_of_ids(names), 1)}
    pairs = sorted({tuple(sorted((ids[a], ids[b]))) for a, b in links})
    nodes = (f"# {at} {shown(name)}\nnode {at}\n" for name, at in ids.items())
    return "".join([*nodes, *(f"link {a} {b}\n" for a, b in pairs)])


def some_overlay(count, links, seed):
    """Names of hosts, and some pairs of them in which each name stands."""
    chance = random.Random(seed)
    names = [f"node-{chance.randrange(10**6)}-{at}.rack{at % 7}.example.org" for at in range(count)]
    ring = [(names[at], names[at - 1]) for at in range(count)]
    return names, ring + [tuple(chance.sample(names, 2)) for _ in range(links)]


def views_of(names, links):
    """The views of nodes in which both ends of a link list each other, as JSON."""
    views = {name: set() for name in names}
    for a, b in links:
        views[a].add(b)
        views[b].add(a)
    return json.dumps({name: sorted(peers) for name, peers in views.items()}, indent=1)


def some_views(chance):
    """Views of nodes some of which have crashed, list whom lists them not, or list themselves: a dict from name to the
    names listed. Some names are numerals, and some end in a colon."""
    names = [f"{chance.choice(['x', 'y', '', '', '-'])}{at}{':' * (chance.random() < 0.2)}"
             for at in range(chance.randint(1, 14))]
    entries = [name for name in names if chance.random() < 0.8]
    density, loops = chance.choice([0.1, 0.4, 0.9]), chance.choice([0, 0.3, 1])
    return {name: [it for it in names if chance.random() < (loops if it == name else density)] for name in entries}


def written(views, chance):
    """Views as JSON, in which some numerals are numbers, nobody stands here and there, and some lists of none are
    nobody."""
    def item(name):
        return int(name) if re.fullmatch(r"-?[1-9]\d*|0", name) and chance.random() < 0.5 else name

    def view(peers):
        items = [it for name in peers for it in [None] * (chance.random() < 0.2) + [item(name)]]
        return items or chance.choice([None, [], [None]])
    return json.dumps({name: view(peers) for name, peers in views.items()})


def graph_of_views(views, either, entries):
    """The graph file that follows from views."""
    listings = [(name, peer) for name, peers in views.items() for peer in peers]
    names = set(views) if entries else set(views) | {peer for _, peer in listings}
    links = [(a, b) for a, b in listings if a != b and {a, b} <= names and (either or (b, a) in listings)]
    return graph_file(names, links)


def notes_of_views(views, either, entries):
    """What is told of views on standard error."""
    listings = [(name, peer) for name, peers in views.items() for peer in peers]
    alone = [(a, b) for a, b in listings if (b, a) not in listings]
    missing = {peer for _, peer in listings} - set(views)
    told = [] if views else ["the dump has no names"]
    told += [f"listed by one end only: {len(alone)}"] if alone else []
    told += [f"{a} lists {b}, and {b} does not list {a}" for a, b in alone[:10]]
    if not either and 2 * len(alone) > sum(a != b for a, b in listings):
        told.append("more than half of the listings are not answered; "
                    "--either links two names also if only one of them lists the other")
    told += notes_of_names(missing, "listed without an entry", "is listed and has no entry")
    if missing and not entries:
        become = "are linked, and so look alive" if either else "become nodes without links"
        told.append(f"they {become}; --entries leaves them out")
    told += notes_of_names({a for a, b in listings if a == b}, *["lists itself"] * 2,
                           "a link of a name to itself is passed over")
    told += notes_of_names({it for it in {*views, *(peer for _, peer in listings)} if it[-1] == ":"},
                           *["ends in a colon"] * 2, "a line `a: b c` of an adjacency list is no form of a dump here; "
                           "`tagzirk import` of the Python package reads it")
    return "".join(f"{line}\n" for line in told)


def notes_of_names(names, kind, is_so, *behind):
    """What is told of names of a kind: how many there are, the first ten, and what stands behind them."""
    told = [f"{name} {is_so}" for name in sorted(names, key=str.encode)[:10]]
    return [f"{kind}: {len(names)}", *told, *behind] if names else []


def arrows_of(views):
    """The same views in DOT."""
    arrow = '"{}" -> "{}"; '.format
    lines = [f'"{name}"; {"".join(arrow(name, peer) for peer in peers)}' for name, peers in views.items()]
    return "\n".join(["digraph {", *lines, "}"])


def some_lines(chance):
    """Lines of two names, each with its number; some say two that stand in no other line, and some one name twice."""
    names = [f"n{at}" for at in range(chance.randint(2, 6))]
    pairs = [chance.choices(names, k=2) for _ in range(chance.randint(0, 5))]
    if chance.random() < 0.5:
        pairs.insert(chance.choice([0, 0, len(pairs)]), ["source", "target"])
    return [(2 * at, a, b) for at, (a, b) in enumerate(pairs, 1)]


def notes_of_lines(lines):
    """What is told of lines of two names on standard error."""
    if not lines:
        return "the dump has no names\n"
    (at, a, b), *others = lines
    is_apart = a != b and others and not {a, b} & {name for _, *pair in others for name in pair}
    told = [f"line {at}: {a} and {b} stand in no other line; if it is a header, remove it"] if is_apart else []
    told += notes_of_names({a for _, a, b in lines if a == b}, *["lists itself"] * 2,
                           "a link of a name to itself is passed over")
    return "".join(f"{line}\n" for line in told)


def edges_of(links, seed):
    """Lines of two names, with every separator and with comments."""
    chance = random.Random(seed)
    lines = ["# links of a cluster"]
    for a, b in links:
        between = chance.choice([" ", "\t", ",", ", ", "  ", " , "])
        lines.append(f"{a}{between}{b}" + chance.choice(["", " # seen", "  "]))
    return "\n".join([*lines, ""])


def dot_of(names, links):
    """The graph in the language of Graphviz."""
    nodes = [f'  "{name}" [label="{name}", pos="1,2"];' for name in names]
    edges = (f'  "{a}" -- "{b}";' for a, b in links)
    return "\n".join(["strict graph {", "  node [shape=box];", *nodes, *edges, "}", ""])


@unittest.skipUnless(OVERLAY, "TAGZIRK_OVERLAY names no program")
class Dumps(unittest.TestCase):
    def test_each_format_gives_the_same_graph(self):
        for count, links in (3, 1), (200, 700), (800, 4000):
            names, pairs = some_overlay(count, links, count)
            wanted = graph_file(names, pairs)
            views, edges, dot = views_of(names, pairs), edges_of(pairs, count), dot_of(names, pairs)
            dumps = {"--views": views, "--edges": edges, "--dot": dot}
            for form, dump in dumps.items():
                for words in ("import", form), ("import", form, "-"), ("import",):
                    with self.subTest(count=count, words=words):
                        self.assertEqual(overlay(*words, given=dump), (wanted, "", 0))

    def test_ids_of_many_names_are_scattered(self):
        for count in 1024, 1025, 5000, 32768:
            names, pairs = some_overlay(count, 2 * count, count)
            for form, dump in ("--views", views_of(names, pairs)), ("--edges", edges_of(pairs, count)):
                with self.subTest(count=count, form=form):
                    self.assertEqual(overlay("import", "--large", form, given=dump), (graph_file(names, pairs), "", 0))

    def test_one_name_too_many(self):
        for words, most in ((), 1024), (("--large",), 32768):
            lines = "".join(f"{at} {at + 1}\n" for at in range(most))
            text, told, status = overlay("import", *words, "--edges", given=lines)
            with self.subTest(words=words):
                self.assertEqual((text, status), ("", 1))
                self.assertIn(f"line {most}: {most} is one name too many", told)
                self.assertIn(f"{most} nodes", told)

    def test_views_that_differ(self):
        chance = random.Random(4)
        for _ in range(60):
            views = some_views(chance)
            for form, dump in ("--views", written(views, chance)), ("--dot", arrows_of(views)):
                for either in (), ("--either",):
                    for entries in (), ("--entries",):
                        choice = views, either, entries
                        wanted = graph_of_views(*choice), notes_of_views(*choice), 0
                        self.assertEqual(overlay("import", form, *either, *entries, given=dump), wanted, choice)

    def test_lines_that_differ(self):
        chance = random.Random(6)
        for _ in range(60):
            lines = some_lines(chance)
            dump = "".join(f"# before\n{a}{chance.choice([' ', ','])}{b}\n" for _, a, b in lines)
            links = [(a, b) for _, a, b in lines if a != b]
            wanted = graph_file({name for _, *pair in lines for name in pair}, links), notes_of_lines(lines), 0
            self.assertEqual(overlay("import", "--edges", given=dump), wanted, dump)

    def test_what_is_no_list_of_names(self):
        for value in '"b"', "1", "true", "{}", "[1.0]", "[1e2]", "[null, 2E0]", "[false]", "[[]]", "[{}]", '["b", 0.5]':
            told = "refused 83\nentry 2, of a, is no list of names: texts or whole numbers\n"
            given = f'{{"b": [null, -7], "a": {value}}}'
            self.assertEqual(overlay("import", "--views", given=given), ("", told, 1), value)

    def test_names_come_back(self):
        names, pairs = some_overlay(50, 60, 1)
        text, _, _ = overlay("import", given=views_of(names, pairs))
        printed, _, status = overlay("analyse", "--names", given=text)
        self.assertEqual(status, 0)
        report, *told = printed.splitlines()
        cut = report.split(" cut ")[1].split()[0].split(",")
        ids = dict(line[2:].split(" ", 1) for line in text.splitlines() if line.startswith("# "))
        self.assertEqual([line for line in told if line.startswith("cut ")], [f"cut {it} {ids[it]}" for it in cut])

    def test_no_two_names_look_alike(self):
        chance = random.Random(5)
        names = {"".join(chance.choices("\\u{}a5c\n\x85 #", k=chance.randint(1, 8))) for _ in range(200)}
        names |= {"a\nb", "a\\u{a}b", "a\\u{5c}u{a}b", "\\", "\\u", "\\\\u{", "\\u{\n"}
        text, _, status = overlay("import", given=views_of(names, []))
        self.assertEqual((text, status), (graph_file(names, []), 0))
        told = [line.split(" ", 2)[2] for line in text.split("\n") if line.startswith("# ")]
        self.assertEqual([named(it) for it in told], sorted(names, key=str.encode))

    def test_the_graph_of_a_certificate_is_the_one_analysed(self):
        names, pairs = some_overlay(40, 60, 2)
        text, _, _ = overlay("import", "--edges", given=edges_of(pairs, 2))
        printed, _, _ = overlay("analyse", "--certificate", given=text)
        certificate = printed.splitlines()[-1]
        bare = "".join(line for line in text.splitlines(True) if not line.startswith("#"))
        self.assertEqual(overlay("graph", given=certificate), (bare, "", 0))
        drawn, _, status = overlay("picture", "--dot", given=certificate)
        self.assertEqual(status, 0)
        again, _, status = overlay("import", "--dot", given=drawn)
        self.assertEqual(status, 0)
        pairs = [line.split()[1:] for line in bare.splitlines() if "link" in line]
        wanted = graph_file([str(it) for it in range(1, 41)], pairs)
        self.assertEqual(again, wanted)


@unittest.skipUnless(OVERLAY and networkx, "TAGZIRK_OVERLAY names no program, or there is no networkx")
class Networkx(unittest.TestCase):
    def test_edges_that_networkx_writes(self):
        graph = networkx.random_regular_graph(4, 60, seed=3)
        graph = networkx.relabel_nodes(graph, {it: f"host-{it}" for it in graph})
        for data in True, False:
            lines = "\n".join(networkx.generate_edgelist(graph, data=data)) + "\n"
            self.assertEqual(overlay("import", given=lines), (graph_file(graph, graph.edges), "", 0))

    @unittest.skipUnless(pydot, "there is no pydot")
    def test_dot_that_networkx_writes(self):
        graph = networkx.random_regular_graph(4, 60, seed=3)
        graph = networkx.relabel_nodes(graph, {it: f"host {it}" for it in graph})
        with warnings.catch_warnings():
            warnings.simplefilter("ignore")
            text = networkx.nx_pydot.to_pydot(graph).to_string()
        self.assertEqual(overlay("import", given=text), (graph_file(graph, graph.edges), "", 0))

    @unittest.skipUnless(pydot, "there is no pydot")
    def test_networkx_reads_the_picture(self):
        graph = networkx.petersen_graph()
        text = graph_file(map(str, graph), [(str(a), str(b)) for a, b in graph.edges])
        printed, _, _ = overlay("analyse", "--certificate", given=text)
        drawn, _, _ = overlay("picture", "--dot", given=printed.splitlines()[-1])
        with warnings.catch_warnings():
            warnings.simplefilter("ignore")
            again = networkx.Graph(networkx.nx_pydot.read_dot(io.StringIO(drawn)))
        drawn_links = {tuple(sorted(map(int, link))) for link in again.edges if all(end.isdigit() for end in link)}
        # the names 0 to 9 have the ids 1 to 10
        self.assertEqual({tuple(sorted((a + 1, b + 1))) for a, b in graph.edges}, drawn_links)


if __name__ == "__main__":
    unittest.main()
