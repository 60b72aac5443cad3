"""Tests with both programs: those that the variables TAGZIRK_OVERLAY and TAGZIRK_OVERLAY_CHECK name, or that are found.

Others stand in for a program that lies or fails.
"""

import dataclasses
import doctest
import importlib
import itertools
import json
import os
import pathlib
import random
import re
import stat
import subprocess
import sys
import tempfile
import tracemalloc
import unittest
import warnings
from unittest import mock

import tagzirk
from tagzirk.answers import read_answer
from tagzirk.certificates import members_of
from tagzirk.graphs import named_graph
from tagzirk.limits import MOST_HOSTS
from tagzirk.programs import CHECKOUT, find
from tagzirk.reports import analysed

from .large_overlays import no_large

EXAMPLES = CHECKOUT / "examples"
CHECKER = CHECKOUT / "tools" / "check.py"
# all but that which runs the command
MODULES = [
    "tagzirk",
    *(
        ".".join(it.relative_to(CHECKOUT / "python").with_suffix("").parts)
        for it in sorted((CHECKOUT / "python" / "tagzirk").rglob("[a-z]*.py"))
    ),
]
RING_WITH_TAIL = [(1, 2), (2, 3), (3, 4), (4, 5), (1, 5), (2, 6)]


def load_tests(loader, tests, pattern):
    """The examples in the docstrings are tests too."""
    for name in MODULES:
        tests.addTests(doctest.DocTestSuite(importlib.import_module(name)))
    return tests


def two_clusters():
    """Two clusters, a b c and f g h, which meet at d and e alone."""
    links = [(a, b) for a in "abc" for b in "abcde" if a < b] + [(a, b) for a in "defgh" for b in "fgh" if a < b]
    return links


def reached(nodes, links, crashed, start):
    """The nodes that a survivor reaches."""
    found, more = {start}, [start]
    while more:
        now = more.pop()
        for link in links:
            if now in link:
                other = link[0] if link[1] == now else link[1]
                if other not in found and other not in crashed:
                    found.add(other)
                    more.append(other)
    return found


def is_split(nodes, links, crashed, members):
    """Whether crashes separate two surviving members."""
    alive = [it for it in members if it not in crashed]
    return bool(alive) and not set(alive) <= reached(nodes, links, crashed, alive[0])


def without_names(graph_file):
    """The lines of a graph file that are no comments."""
    return "".join(line for line in graph_file.splitlines(True) if not line.startswith("# "))


def some_views(source):
    """Views of nodes with odd names, in any order. Some list whom lists them not, some themselves, and some have
    crashed."""
    names = ["10", "9", "oslo-1", "Oslo 2", "a\nb", "a\\u{a}b", "\u00e9 <&>", "\ufffd", "\U0001f600", "#", " ", "\x85"]
    source.shuffle(names)
    views = {name: {name} if source.random() < 0.1 else set() for name in names[:source.randint(1, 12)]}
    for a, b in itertools.combinations(names, 2):
        for one, other in ((a, b), (b, a)) if source.random() < 0.7 else ((a, b),):
            if one in views and source.random() < 0.9:
                views[one].add(other)
    return {name: source.sample(sorted(peers), len(peers)) for name, peers in views.items()}


def printed_by(*words, given=""):
    """What overlay prints on standard output and on standard error."""
    ended = subprocess.run([find("overlay", None), *words], input=given.encode(), stdout=subprocess.PIPE,
                           stderr=subprocess.PIPE, check=True)
    return ended.stdout.decode(), ended.stderr.decode()


class Analyses(unittest.TestCase):
    def test_two_clusters(self):
        report = tagzirk.analyse(two_clusters())
        self.assertEqual((report.k, report.survives, report.is_linked), (2, 1, False))
        self.assertEqual((set(report.cut), report.near, report.far), (set("de"), "f", "a"))
        self.assertEqual(set(report.side), set("fgh"))
        words = "Crashing d, e separates f from a. Fewer crashes separate no two surviving nodes."
        self.assertEqual(str(report), words)

    def test_linked(self):
        for number in 1, 2, 5:
            names = [f"node {at}" for at in range(number)]
            report = tagzirk.analyse({name: [other for other in names if other != name] for name in names})
            self.assertEqual((report.k, report.is_linked, report.survives), (number - 1, True, max(number - 2, 0)))
            self.assertEqual((report.cut, report.near, report.far, report.side), ((), None, None, ()))
            self.assertEqual(str(report), "Every two nodes are linked: no crashes separate two of them.")

    def test_split_without_a_crash(self):
        report = tagzirk.analyse([("a", "b"), ("c", "d")])
        self.assertEqual((report.k, report.survives, report.cut, report.is_linked), (0, 0, (), False))
        self.assertEqual(str(report), "c and a are separated without any crash.")

    def test_control_characters_are_not_printed(self):
        report = tagzirk.analyse([("\x1b[2J", "b\nc"), ("b\nc", "d\r")], group=["\x1b[2J", "d\r"])
        words = "Crashing b\\u{a}c separates \\u{1b}[2J from d\\u{d}. Fewer crashes separate no two surviving members"
        self.assertEqual(str(report), f"{words} of the group \\u{{1b}}[2J, d\\u{{d}}.")
        self.assertEqual(str(tagzirk.analyse([("a\n", "b"), ("c\n", "d")])),
                         "c\\u{a} and a\\u{a} are separated without any crash.")

    def test_groups(self):
        self.assertEqual(tagzirk.analyse(RING_WITH_TAIL).k, 1)
        report = tagzirk.analyse(RING_WITH_TAIL, group=[5, 1, 3])
        self.assertEqual((report.k, report.group), (2, (1, 3, 5)))
        self.assertIn("no two surviving members of the group 1, 3, 5.", str(report))
        self.assertEqual(tagzirk.analyse(RING_WITH_TAIL, group={1, 2}).k, 1)
        self.assertEqual(tagzirk.analyse(RING_WITH_TAIL, group=range(1, 7)).group, (1, 2, 3, 4, 5, 6))
        with self.assertRaises(tagzirk.BadGraph):
            tagzirk.analyse(RING_WITH_TAIL, group=[7])

    def test_against_all_crashes(self):
        source = random.Random(3)
        for _ in range(25):
            number = source.randint(2, 7)
            nodes = [(at, "name") for at in range(number)]
            links = [link for link in itertools.combinations(nodes, 2) if source.random() < 0.6]
            members = source.sample(nodes, source.randint(1, number))
            views = {a: [b for b in nodes if (a, b) in links or (b, a) in links] for a in nodes}
            report = tagzirk.analyse(views, group=members, workers=source.choice((1, 3)))
            for size in range(number + 1):
                splits = any(is_split(nodes, links, them, members) for them in itertools.combinations(nodes, size))
                if report.is_linked or size <= report.survives and report.k > 0:
                    self.assertFalse(splits, (links, members, size))
                elif size == report.k:
                    self.assertTrue(splits, (links, members, size))
            if report.is_linked:
                self.assertEqual(report.k, len(members) - 1)
            else:
                self.assertEqual(len(report.cut), report.k)
                self.assertEqual(set(report.side), reached(nodes, links, report.cut, report.near))
                self.assertNotIn(report.far, report.side)

    def test_other_checkers_agree(self):
        report = tagzirk.analyse(two_clusters())
        for words, printed in ([], "holds 0 split k 2"), (["--graph"], without_names(report.graph_file)):
            ended = subprocess.run([sys.executable, CHECKER, *words], input=report.certificate.encode(),
                                   stdout=subprocess.PIPE)
            self.assertEqual(ended.returncode, 0)
            self.assertTrue(ended.stdout.decode().startswith(printed))
        self.assertEqual(report.ids["a"], 1)

    def test_more_nodes_than_version_1_has(self):
        ring = [(at, (at + 1) % 1024) for at in range(1024)]
        report = tagzirk.analyse(ring, workers=4)
        self.assertEqual((report.k, json.loads(report.certificate)["version"]), (2, 2))

    def test_what_is_refused(self):
        for graph, workers, number, reason in [
            ([], 1, 30, "the graph has no nodes"),
            ([(1, 2)], 65, 73, "it takes a number from 1 to 64"),
        ]:
            with self.assertRaises(tagzirk.Refused) as raised:
                tagzirk.analyse(graph, workers=workers)
            self.assertEqual((raised.exception.number, raised.exception.line), (number, f"refused {number}"))
            self.assertIn(reason, raised.exception.reason)

    def test_too_many_nodes(self):
        with self.assertRaises(tagzirk.ProgramFailed if no_large() else tagzirk.Refused) as raised:
            tagzirk.analyse({at: [] for at in range(MOST_HOSTS + 1)})
        told = "takes at most 1,024 nodes" if no_large() else "refused 31"
        self.assertIn(told, str(raised.exception))


class LargeCertificates(unittest.TestCase):
    """Certificates of some MB, of which no second whole copy is made."""

    def setUp(self):
        links = random.Random(1).sample(list(itertools.combinations(range(1, 257), 2)), 16320)
        self.graph = named_graph(links)

    def peak_of(self, call):
        """The most bytes that Python holds during a call, and what it gives."""
        tracemalloc.start()
        try:
            given = call()
            return tracemalloc.get_traced_memory()[1], given
        finally:
            tracemalloc.stop()

    def test_no_second_copy(self):
        peak, report = self.peak_of(lambda: analysed(self.graph))
        size = len(report.certificate)
        self.assertGreater(size, 4_000_000)
        # one copy is the answer; the links are lists of two numbers, each less than 200 bytes
        links = 200 * len(self.graph.links)
        self.assertLess(peak - links, 1.5 * size)
        peak, verdict = self.peak_of(lambda: tagzirk.check(report.certificate))
        self.assertTrue(verdict)
        self.assertLess(peak, 0.7 * size)
        peak, (nodes,) = self.peak_of(lambda: members_of(report.certificate, "nodes"))
        self.assertEqual(nodes, self.graph.nodes)
        self.assertLess(peak, 0.1 * size)


class Dumps(unittest.TestCase):
    """A graph has the same ids in the package as `overlay import` gives it."""

    def test_views(self):
        source = random.Random(7)
        for _ in range(40):
            views = some_views(source)
            with warnings.catch_warnings(record=True) as caught:
                warnings.simplefilter("always")
                report = tagzirk.analyse(views)
            imported, told = printed_by("import", "--views", "--entries", given=json.dumps(views))
            self.assertEqual(report.graph_file, imported, views)
            # `overlay import` shows a backslash before `u{` by its code in the graph file only; and here is no --either
            messages = "".join(f"{it.message}\n" for it in caught).replace("\\u{5c}", "\\")
            told = "".join(line for line in told.splitlines(keepends=True) if "--either" not in line)
            self.assertEqual(messages, told, views)
            self.assertEqual({(it.category, it.filename) for it in caught} - {(tagzirk.ViewsDiffer, __file__)}, set())
            graph, _ = printed_by("graph", given=report.certificate)
            self.assertEqual(graph, without_names(imported), views)

    def test_edges(self):
        edges = [("oslo-1", "Oslo-2"), ("10", "oslo-1"), ("9", "10"), ("9", "\u00e9"), ("10", "9")]
        imported, _ = printed_by("import", "--edges", given="".join(f"{a} {b}\n" for a, b in edges))
        self.assertEqual(tagzirk.analyse(edges).graph_file, imported)

    def test_what_the_page_says(self):
        # the two commands of the page that compare the graph in a certificate with one's own
        page = (CHECKOUT / "docs" / "CHECK-A-REPORT.md").read_text()
        compared = page.split("```\n")[3].replace("bin/overlay", find("overlay", None))
        self.assertIn("cmp", compared)
        views = {"c\nd": ["b"], "b": ["a", "c\nd", "gone"], "a": ["b"], "\u00e9": ["gone"]}
        with self.assertWarns(tagzirk.ViewsDiffer):
            report = tagzirk.analyse(views)
        mine, _ = printed_by("import", "--views", "--entries", given=json.dumps(views))
        other, _ = printed_by("import", "--views", given=json.dumps(views))
        with tempfile.TemporaryDirectory() as room:
            (pathlib.Path(room) / "certificate.json").write_text(report.certificate)
            for graph, status in (mine, 0), (report.graph_file, 0), (other, 1):
                (pathlib.Path(room) / "mine.graph").write_text(graph)
                ended = subprocess.run(["sh", "-c", compared], cwd=room, stdout=subprocess.PIPE)
                self.assertEqual((ended.returncode, ended.stdout == b""), (status, status == 0))
                words = [find("overlay", None), "picture", "certificate.json", "--names", "mine.graph"]
                ended = subprocess.run(words, cwd=room, stdout=subprocess.PIPE, stderr=subprocess.DEVNULL)
                self.assertEqual((ended.returncode, b": c\\u{a}d</title>" in ended.stdout), (status, status == 0))

    def test_names_in_the_answer(self):
        report = tagzirk.analyse(two_clusters())
        printed, _ = printed_by("analyse", "--names", given=report.graph_file)
        told = [line for line in printed.splitlines() if line.startswith("cut ")]
        self.assertEqual(told, [f"cut {report.ids[name]} {name}" for name in report.cut])


class Checks(unittest.TestCase):
    def test_the_examples(self):
        for name, line in ("square", "holds 0 split k 2 cut 2,4 near 1 far 3 side 1"), ("no-nodes", "fails 47"), \
                ("five-but-one-pair-missing", "fails 43 1 2"), ("not-json", "refused 60"):
            path = EXAMPLES / f"{name}.json"
            for given in path, path.read_bytes(), path.read_text():
                verdict = tagzirk.check(given)
                self.assertEqual((verdict.line, verdict.holds), (line, name == "square"))
                self.assertEqual((bool(verdict), verdict.reason == ""), (verdict.holds, verdict.holds))

    def test_answers(self):
        answer = tagzirk.check(EXAMPLES / "ring-with-tail-group.json").answer
        self.assertEqual(answer, tagzirk.Answer(0, 2, False, (2, 5), 1, 3, (1,), (1, 3, 5)))
        answer = tagzirk.check(EXAMPLES / "two-unlinked.json").answer
        self.assertEqual(answer, tagzirk.Answer(4, 0, False, (), 2, 1, (2,), None))

    def test_lines_that_are_no_answers(self):
        mixed = "holds 0 linked k 1 cut 2 near 3 far 1 side 3"
        for line in "holds 0 split k 1", mixed, "holds 0 linked k", "holds", "":
            self.assertIsNone(read_answer(line, "holds"), line)
        self.assertIsNone(read_answer("report 0 linked k 1", "holds"))

    def test_a_text_names_no_file(self):
        self.assertEqual(tagzirk.check(str(EXAMPLES / "square.json")).line, "refused 60")
        with self.assertRaises(FileNotFoundError):
            tagzirk.check(EXAMPLES / "nowhere.json")


class Pictures(unittest.TestCase):
    def test_the_picture_of_the_document(self):
        lines = (EXAMPLES / "dumps" / "partition.edges").read_text().splitlines()
        report = tagzirk.analyse([tuple(map(int, line.split()[:2])) for line in lines])
        self.assertEqual(report.picture(), (CHECKOUT / "docs" / "picture-notebook.svg").read_text())

    def test_names(self):
        names = {"near": "a\nb", "cut": "\u00e9 <&>", "far": ("x", 1)}
        report = tagzirk.analyse([(names["near"], names["cut"]), (names["cut"], names["far"])])
        tips = re.findall(r"<title>node (\d) \((\S+)\): (.*)</title>", report.picture())
        self.assertEqual({(report.ids[names["near"]], "a\\u{a}b"), (report.ids[names["cut"]], "\u00e9 &lt;&amp;&gt;"),
                          (report.ids[names["far"]], "(&apos;x&apos;, 1)")}, {(int(at), name) for at, _, name in tips})

    def test_paths(self):
        report = tagzirk.analyse([(a, b) for b in range(1, 6) for a in range(1, b) if (a, b) != (1, 2)])
        self.assertEqual(report.k, 3)
        picture = report.picture(pair=(2, 1))
        self.assertIn("3 paths from node 1 to node 2 ", picture)
        self.assertIn("3 paths from node 5 ", report.picture(fan=5))
        self.assertNotIn("3 paths from node ", report.picture())
        with self.assertRaises(tagzirk.Refused) as refused:
            report.picture(fan=1)
        self.assertEqual(refused.exception.number, 86)
        no_nodes = {"fan": "zz"}, {"fan": ["x"]}, {"fan": {}}, {"pair": (2, "zz")}, {"pair": (2, [1])}
        for entry in *no_nodes, {"pair": (2,)}, {"pair": (2, 2)}, {"pair": (1, 2, 3)}, {"pair": 2}, {"pair": "12"}:
            with self.subTest(entry), self.assertRaises(tagzirk.BadGraph):
                report.picture(**entry)

    def test_the_entries_that_there_are(self):
        names = ["zero", "one", "two\n", "three", "four", "five"]
        report = tagzirk.analyse([(names[a], names[b]) for b in range(1, 6) for a in range(b) if (a, b) != (0, 2)])
        said = json.loads(report.certificate)
        by_id = {place: name.replace("\n", "\\u{a}") for name, place in report.ids.items()}
        pairs = ", ".join(f"{by_id[it['i']]} and {by_id[it['j']]}" for it in said["pairs"])
        fans = ", ".join(by_id[it["j"]] for it in said["fans"])
        with self.assertRaises(tagzirk.Refused) as refused:
            report.picture(pair=("three", "four"))
        reason = refused.exception.reason.split("\n")
        self.assertEqual(reason[0], "the certificate has no such entry")
        self.assertEqual(re.sub(r"\d+ (pair|fan)s?", r"\1", reason[1]).replace("no pairs", "pair ()"),
                         f"it has pair ({pairs}) and fan ({fans})")
        with self.assertRaisesRegex(tagzirk.Refused, "every two members are linked, so it has none"):
            tagzirk.analyse([("a", "b")]).picture(fan="a")


class Runs(unittest.TestCase):
    def test_twenty_four_nodes(self):
        run = tagzirk.run(EXAMPLES / "twenty-four-nodes.scenario")
        kept = (EXAMPLES / "twenty-four-nodes.txt").read_text().splitlines()
        self.assertEqual(list(run.texts), kept)
        self.assertEqual(len(run.entries), sum(line.startswith("entry ") for line in kept))
        self.assertEqual([it.moment for it in run.reports], [int(it.split()[1]) for it in kept if it[:6] == "report"])
        first = run.reports[0]
        self.assertEqual((first.moment, first.k, first.cut), (886, 2, (9, 10)))
        certificate = run.certificate(886)
        self.assertEqual(tagzirk.check(certificate).answer, first)
        group = next(it.group for it in run.reports if it.group)
        moment = next(it.moment for it in run.reports if it.group)
        self.assertEqual(tagzirk.check(run.certificate(moment, reversed(group))).answer.group, group)
        with self.assertRaises(tagzirk.Refused) as raised:
            run.certificate(885)
        self.assertEqual(raised.exception.number, 50)

    def test_each_line_is_known(self):
        for path in EXAMPLES.glob("*.scenario"):
            run = tagzirk.run(path.read_text())
            self.assertEqual(run.of_kind(tagzirk.OtherLine), (), path.name)
            self.assertEqual(len(run.lines), len(run.texts))

    def test_lines(self):
        run = tagzirk.run("boot 1\nboot 2 by 1\npackets\ncrash 3\ncrash 2\nshow 1\nbroadcast 1 hi\ntogether\nend")
        born, other, packet, refusal, gone, view, sent, sections = run.lines
        self.assertEqual(born, tagzirk.Entry(1, (tagzirk.Change("born", 1),), None))
        self.assertEqual((packet.place, packet.to, packet.content[:2]), (0, 1, b"\x01\x01"))
        self.assertEqual((refusal, run.refusals), (tagzirk.Refusal(10), (refusal,)))
        self.assertEqual(gone.changes, (tagzirk.Change("gone", 2),))
        self.assertEqual((view.node, view.active), (1, ()))
        self.assertEqual(sent.delivery, tagzirk.Delivery(1, 1, 0))
        self.assertEqual(sections, tagzirk.Sections(1, 0, 0))
        self.assertEqual(run.explanations, ("line 4: no node 3 was born", "4 events accepted, 1 refused"))

    def test_a_report_that_only_a_section_filed(self):
        run = tagzirk.run("boot 1\nsnapshot\ntogether\nanalyse 2\nend\n")
        self.assertEqual(run.reports, ())
        self.assertEqual(tagzirk.check(run.certificate(2)).line, "holds 2 linked k 0")

    def test_scenarios_that_cannot_be_read(self):
        with self.assertRaises(tagzirk.Refused) as raised:
            tagzirk.run(EXAMPLES / "mistakes" / "via-for-by.scenario")
        self.assertEqual(raised.exception.number, 70)
        self.assertRegex(raised.exception.line, r"^line \d+: refused 70$")
        self.assertIn("expected `by` or the end of the line", str(raised.exception))


class StandIns(unittest.TestCase):
    """Programs that lie or fail."""

    def setUp(self):
        room = tempfile.TemporaryDirectory()
        self.addCleanup(room.cleanup)
        self.room = pathlib.Path(room.name)

    def program(self, text, name="stand-in"):
        """A program that runs this Python text."""
        path = self.room / name
        path.write_text(f"#!{sys.executable}\nimport sys\n{text}\n")
        path.chmod(path.stat().st_mode | stat.S_IXUSR)
        return path

    def that_prints(self, *lines):
        return self.program(f"sys.stdin.read()\nprint({chr(10).join(lines)!r})")

    def test_an_overlay_that_lies(self):
        path = [("a", "b"), ("b", "c")]
        right = tagzirk.analyse(path)
        line = "report 0 split k 1 cut 2 near 3 far 1 side 3"
        self.assertEqual(tagzirk.analyse(path, overlay=self.that_prints(line, right.certificate)), right)
        square, other = (EXAMPLES / f"{name}.json" for name in ("square", "two-unlinked"))
        of_moment = right.certificate.replace('"moment":0', '"moment":7')
        longer = right.certificate.replace('"nodes":[1,2,3]', '"nodes":[1,2,3,4]')
        others = {
            "another group": tagzirk.analyse(path, group=["a", "c"]),
            "other links": tagzirk.analyse([(1, 2), (1, 3)]),
            "another node": tagzirk.analyse({1: [2], 2: [1, 3], 3: [2], 4: []}),
        }
        with self.assertRaises(tagzirk.NotConfirmed):
            tagzirk.analyse(path, overlay=self.program("sys.stdin.read()"))
        for text, printed in [
            ("another graph", [f"report{tagzirk.check(square).line[5:]}", square.read_text().strip()]),
            ("another graph, of another moment", [f"report{tagzirk.check(other).line[5:]}", other.read_text().strip()]),
            ("another moment", [line.replace("report 0", "report 7"), of_moment]),
            ("a line of another number", [line.replace("k 1", "k 2"), right.certificate]),
            ("no line", ["report", right.certificate]),
            ("no certificate", [line]),
            ("a certificate that fails", [line, longer]),
        ] + [(text, [f"report{tagzirk.check(other.certificate).line[5:]}", other.certificate])
             for text, other in others.items()]:
            with self.assertRaises(tagzirk.NotConfirmed, msg=text):
                tagzirk.analyse(path, overlay=self.that_prints(*printed))

    def test_a_key_that_occurs_twice(self):
        # the last member counts, however its key is spelled
        path = [("a", "b"), ("b", "c")]
        right, other = tagzirk.analyse(path), tagzirk.analyse([(1, 2), (1, 3)])
        links = '"links":[[1,2],[2,3]]'
        self.assertIn(links, right.certificate)
        escaped = other.certificate.replace('"links"', '"\\u006cinks"')
        for text in other.certificate, f"{{{links},{other.certificate[1:]}", f"{{{links},{escaped[1:]}", \
                escaped.replace("[[1,2],[1,3]]", f"[[1,2],[1,3]],{links},{escaped[escaped.index('u006c') - 2:]}"[:-1]):
            said = tagzirk.check(text)
            self.assertTrue(said, msg=(text, said))
            with self.assertRaisesRegex(tagzirk.NotConfirmed, "the graph in the certificate", msg=text):
                tagzirk.analyse(path, overlay=self.that_prints(f"report{said.line[5:]}", text))
        line = f"report{tagzirk.check(right.certificate).line[5:]}"
        for text in f'{{"links":[],{right.certificate[1:]}', right.certificate.replace('"links"', '"\\u006cinks" '), \
                json.dumps(json.loads(right.certificate), indent=1):
            self.assertEqual(tagzirk.analyse(path, overlay=self.that_prints(line, text)).certificate, text)

    def test_a_checker_that_does_not_say_yes(self):
        for text in "print('fails 44 3'); sys.exit(1)", "print('refused 60'); sys.exit(1)":
            with self.assertRaises(tagzirk.NotConfirmed):
                tagzirk.analyse([(1, 2)], overlay_check=self.program(text))
        for text in "print('yes')", "print('holds 0 linked k 1'); sys.exit(1)", "print('fails 44 3')", \
                "print('oh', file=sys.stderr); sys.exit(1)", "":
            with self.assertRaises(tagzirk.ProgramFailed, msg=text):
                tagzirk.analyse([(1, 2)], overlay_check=self.program(text))
        with self.assertRaisesRegex(tagzirk.ProgramFailed, "was ended by signal 9"):
            tagzirk.check("{}", overlay_check=self.program("import os; os.kill(os.getpid(), 9)"))
        with self.assertRaises(tagzirk.Refused) as raised:
            tagzirk.check("{}", overlay_check=self.program("print('refused 99', file=sys.stderr); sys.exit(1)"))
        self.assertEqual(raised.exception.number, 99)

    def test_an_overlay_that_runs_otherwise_the_second_time(self):
        run = tagzirk.run("boot 1\nsnapshot\nanalyse 2\n")
        for texts in ("entry 1 born 1",), (*run.texts[:2], "report 2 linked k 7"):
            other = tagzirk.Run(texts, (), run.scenario, run.overlay, None)
            with self.assertRaises(tagzirk.NotConfirmed):
                other.certificate(2)
        other = tagzirk.Run((*run.texts[:2], "report 2 linked k 7"), (), run.scenario, "", None)
        other = dataclasses.replace(other, overlay=str(self.that_prints(*other.texts, run.certificate(2))))
        with self.assertRaisesRegex(tagzirk.NotConfirmed, "the report is not that of the certificate"):
            other.certificate(2)

    def test_certificates_that_lie(self):
        # its report is filed in a section, so no line says what the certificate must be
        run = tagzirk.run("boot 1\nboot 2 by 1\nsnapshot\ntogether\nanalyse 3\nend\n")
        text = run.certificate(3)
        self.assertEqual(tagzirk.check(text).line, "holds 3 split k 0 cut - near 2 far 1 side 2")
        group = text.replace('"far":1,', '"far":1,"group":[1,2],').replace('"version":1', '"version":2')
        self.assertTrue(tagzirk.check(group))
        alone = {"k": 0, "links": [], "moment": 3, "nodes": [1, 2], "group": [1], "verdict": "linked", "version": 2}
        for text, asked, is_right in [
            (text, None, True), (group, None, True), (group, [2, 1], True), (text, [1], False),
            (json.dumps(alone), [1], True), (json.dumps(alone), None, False), (json.dumps(alone), [1, 2], False),
            (text.replace('"moment":3', '"moment":4'), None, False), (text.replace('"k":0', '"k":1'), None, False),
        ]:
            other = dataclasses.replace(run, overlay=str(self.that_prints(*run.texts, text)))
            if is_right:
                self.assertEqual(other.certificate(3, asked), text)
            else:
                with self.assertRaises(tagzirk.NotConfirmed, msg=(text, asked)):
                    other.certificate(3, asked)

    def test_where_programs_are_found(self):
        program = str(self.program("", "overlay-check"))
        with mock.patch.dict(os.environ, {"PATH": str(self.room)}):
            os.environ.pop("TAGZIRK_OVERLAY_CHECK", None)
            self.assertEqual(find("overlay_check", None), program)
            os.environ["TAGZIRK_OVERLAY_CHECK"] = "/of/the/variable"
            self.assertEqual(find("overlay_check", None), "/of/the/variable")
            self.assertEqual(find("overlay_check", pathlib.Path("/given")), "/given")
            with self.assertRaisesRegex(tagzirk.ProgramMissing, "/of/the/variable could not be started: No such file"):
                tagzirk.check("{}")
            os.environ.pop("TAGZIRK_OVERLAY_CHECK")
            with mock.patch("tagzirk.programs.CHECKOUT", self.room), mock.patch.dict(os.environ, {"PATH": ""}):
                with self.assertRaisesRegex(tagzirk.ProgramMissing, "TAGZIRK_OVERLAY_CHECK"):
                    tagzirk.check("{}")

    def test_programs_of_a_checkout(self):
        # of one crate, whose program lies where bin/overlay-check keeps it
        source = self.room / "crates" / "overlay_check" / "src" / "main.rt"
        for folder in source.parent, *(self.room / it for it in ("bin", "dev", "crates/overlay_check/out")):
            folder.mkdir(parents=True)
        source.write_text("fn main() {}\n")
        (self.room / "crates.txt").write_text("overlay_check:\n")
        for name in "unproved.py", "repository.py", "start-program":
            (self.room / "dev" / name).write_bytes((CHECKOUT / "dev" / name).read_bytes())

        def of_dev(*words):
            return subprocess.run([sys.executable, "-B", *words], cwd=self.room / "dev", capture_output=True, text=True)

        def keep(name):
            folder = self.room / "out" / "unproved" / "overlay_check" / name
            folder.mkdir(parents=True)
            return str(self.program(f"print({name!r})", folder / "overlay-check"))

        variables = {"PATH": "", "XDG_CACHE_HOME": str(self.room / "cache"), "TAGZIRK_OVERLAY_CHECK": ""}
        with mock.patch("tagzirk.programs.CHECKOUT", self.room), mock.patch.dict(os.environ, variables):
            keep("of-other-sources")
            with self.assertRaisesRegex(tagzirk.ProgramMissing, "without a proof, by bin/overlay-check"):
                find("overlay_check", None)
            asked = "import unproved; print(unproved.checksum(unproved.ROOT, 'overlay_check'))"
            checksum = of_dev("-c", asked).stdout.strip()
            unproved = keep(checksum)
            self.assertEqual(find("overlay_check", None), unproved)
            self.program("", self.room / "bin" / "overlay-check")
            with mock.patch.dict(os.environ, {"PATH": str(self.room / "bin")}):
                self.assertEqual(find("overlay_check", None), unproved)
            started = of_dev("start-program", "overlay_check", "overlay-check")
            self.assertEqual((started.stdout, "NOT PROVED" in started.stderr), (f"{checksum}\n", True))
            proved = self.program("", self.room / "crates" / "overlay_check" / "out" / "overlay_check")
            self.assertEqual(find("overlay_check", None), str(proved))
            proved.unlink()
            os.remove(unproved)
            self.assertRaises(tagzirk.ProgramMissing, find, "overlay_check", None)


if __name__ == "__main__":
    unittest.main()
