"""Tests of the command tagzirk, with both programs, as the tests of programs have them."""

import base64
import contextlib
import csv
import datetime
import io
import itertools
import json
import os
import pathlib
import re
import shutil
import subprocess
import sys
import tempfile
import unittest
from unittest import mock

import tagzirk
from tagzirk.command import main
from tagzirk.graphs import named_graph
from tagzirk.programs import CHECKOUT

try:
    import matplotlib
except ImportError:
    matplotlib = None

DUMPS = CHECKOUT / "examples" / "dumps"
# Two cliques of three, two links between them, and a leaf.
CLIQUES = [*itertools.combinations("abc", 2), *itertools.combinations("def", 2), ("a", "d"), ("b", "e"), ("c", "leaf")]


def edges_of(graph):
    return "".join(f"{a} {b}\n" for a, b in graph)


def views_of(nodes, links):
    return {it: [b if a == it else a for a, b in links if it in (a, b)] for it in nodes}


class Commands(unittest.TestCase):
    def setUp(self):
        room = tempfile.TemporaryDirectory()
        self.addCleanup(room.cleanup)
        self.room = pathlib.Path(room.name)

    def file(self, name, text):
        path = self.room / name
        path.parent.mkdir(exist_ok=True)
        path.write_bytes(text if isinstance(text, bytes) else text.encode())
        return str(path)

    def tagzirk(self, *words, given=""):
        """What the command prints on standard output and standard error, and its status."""
        out, err = io.StringIO(), io.StringIO()
        stdin = io.TextIOWrapper(io.BytesIO(given.encode()))
        with contextlib.redirect_stdout(out), contextlib.redirect_stderr(err), mock.patch("sys.stdin", stdin):
            try:
                status = main(list(map(str, words)))
            except SystemExit as end:
                status = end.code
        return out.getvalue(), err.getvalue(), status


class Import(Commands):
    def test_the_same_graph_in_each_form(self):
        wanted = named_graph(CLIQUES).text_with_names
        nodes = sorted({it for link in CLIQUES for it in link})
        for name, text in (
            ("net.json", json.dumps(views_of(nodes, CLIQUES))),
            ("net.edges", edges_of(CLIQUES)),
            (
                "links.json",
                json.dumps(
                    {"nodes": [{"id": it} for it in nodes], "links": [{"source": a, "target": b} for a, b in CLIQUES]}
                ),
            ),
            ("net.csv", "source,target\n" + "".join(f"{a},{b}\n" for a, b in CLIQUES)),
            ("net.utf16", ("source,target\n" + "".join(f"{a},{b}\n" for a, b in CLIQUES)).encode("utf-16")),
            (
                "net.jsonl",
                "".join(
                    json.dumps({"host": it, "peers": peers}) + "\n" for it, peers in views_of(nodes, CLIQUES).items()
                ),
            ),
            ("net.weights", "".join(f"{a};{b};0.5\n" for a, b in CLIQUES)),
            ("net.dot", "graph {" + "; ".join(f'"{a}" -- "{b}"' for a, b in CLIQUES) + "}"),
            ("net.lists", "".join(f"{it}: {' '.join(peers)}\n" for it, peers in views_of(nodes, CLIQUES).items())),
        ):
            out, err, status = self.tagzirk("import", self.file(name, text))
            self.assertEqual((out, status), (wanted, 0), name)
            self.assertEqual("was read as" in err, name not in ("net.json", "net.edges", "net.dot"), name)
        for name, peers in views_of(nodes, CLIQUES).items():
            self.file(f"hosts/{name}.json", json.dumps({"peers": peers}))
        for words in [self.room / "hosts"], sorted((self.room / "hosts").iterdir()):
            out, err, status = self.tagzirk("import", *words)
            self.assertEqual((out, status), (wanted, 0))
            self.assertIn(" 7 files, one a host\n", err)
        self.assertEqual(self.tagzirk("import", given=edges_of(CLIQUES)), (wanted, "", 0))

    def test_options_and_notes(self):
        for words in [], ["--entries"], ["--either", "--entries"]:
            name = "cluster.json"
            kept = {"": "import", "--entries": "import-entries", "--either --entries": "import-either"}[" ".join(words)]
            out, err, status = self.tagzirk("import", *words, DUMPS / name)
            self.assertEqual((out, status), ((DUMPS / f"{kept}.out").read_text(), 0))
            self.assertIn("listed by one end only: 3\n", err)

    def test_links_to_itself_numbers_and_nobody(self):
        wanted = named_graph({"1": ["2"], "2": ["1"], "3": []}).text_with_names
        for name, text in (
            ("views.json", '{"1": [1, 2, null], "2": ["1"], "3": null}'),
            ("hosts.json", '{"1": {"peers": [1, null, "2"]}, "2": {"peers": [1]}, "3": {"peers": null}}'),
            (
                "links.json",
                '{"nodes": [{"id": 1}, {"id": "2"}, {"id": 3}], "links": [{"source": 1, "target": 1}, '
                '{"source": 2, "target": 1}]}',
            ),
            ("net.csv", "host,peer\n1,1\n1,2\n2,1\n3,\n"),
            ("net.lists", "1: 2 1\n2: 1\n3:\n"),
            ("net.dot", "digraph { 1 -> 1 -> 2; 2 -> 1; 3 }"),
        ):
            out, err, status = self.tagzirk("import", self.file(name, text))
            self.assertEqual((out, status), (wanted, 0), name)
            told = "lists itself: 1\n1 lists itself\na link of a name to itself is passed over\n"
            told += "without any link, though others are linked: 1 of 3 hosts: 3\n"
            self.assertTrue(err.endswith(told) and "one end only" not in err, err)

    def test_subgraphs(self):
        out, err, status = self.tagzirk("import", self.file("net.dot", "graph { a -- {b c} }"))
        self.assertEqual((out, status), (named_graph([("a", "b"), ("a", "c")]).text_with_names, 0))
        self.assertIn("was read as DOT", err)

    def test_slips(self):
        empty, graph = self.file("empty", ""), self.file("net.graph", "node 1\nnode 2\nlink 1 2\n")
        (self.room / "folder").mkdir()
        for words, told, status in (
            (["import", self.room / "nothing"], "nothing: No such file", 1),
            (["import", graph], "looks like a graph file", 1),
            (["import", self.room / "folder"], "the folder has no files", 1),
            (["import", empty], "the dump has no names", 0),
            (["each", empty], "refused 30", 1),
            (["mend", empty, "--to", 1], "refused 30", 1),
            (["report", empty], "refused 30", 1),
            (["import", self.file("many", "".join(f"hub leaf-{at}\n" for at in range(32768)))], "--only PATTERN", 1),
            (["import", self.file("x", "a b c\nd e\n")], "is no pair of names", 1),
            (["import", self.file("t", "a b rtt\nd e 3\n")], "--columns FROM,TO names the columns", 1),
            (["import", self.file("h", "from_host to_host\na b\nb c\n")], "say --columns from_host,to_host\n", 0),
            (["import", empty, self.file("y", "a,b\n")], "line 1 has several words", 1),
            (["import", self.file("u", "a b\n".encode("utf-16-le"))], "UTF-16", 1),
            (["import", self.file("z", b"\x1f\x8b\0")], "gzip", 1),
            (["import", DUMPS / "certificate.json"], "certificate", 1),
            (["import", "--form", "csv", graph], "no known header", 1),
            (["each", self.file("bad.graph", "node 1\nlink 1 2\n")], "link 1 2", 1),
            (["each", self.file("worse.graph", "node 1\nnoode 2\n")], "worse.graph: line 2: no line begins", 1),
            (["import", self.file("a.json", '{"\\u001b[2J": 7}')], "the entry of \\u{1b}[2J is no list of peers", 1),
            (["mend", graph], "--to", 2),
            (["mend", graph, "--to", 0], "from 1 to 32768", 2),
            (["mend", graph, "--to", 32769], "from 1 to 32768", 2),
            (["mend", graph, "--to", "x"], "32768", 2),
            ([], "usage", 2),
            (["imprt", graph], "imprt", 2),
            (["history"], "FILE", 2),
            (["metrics", graph], "--textfile", 2),
        ):
            out, err, ended = self.tagzirk(*words)
            self.assertEqual((ended, told in err), (status, True), (words, err))
            self.assertNotIn("Traceback", err)
            if status:
                self.assertEqual(out, "", words)

    def test_a_program_that_is_missing(self):
        with mock.patch.dict(os.environ, {"TAGZIRK_OVERLAY": str(self.room / "none")}):
            out, err, status = self.tagzirk("import", given="a b\n")
        self.assertEqual((out, status), ("", 1))
        self.assertIn("none could not be started", err)

    def test_closed_streams(self):
        for words, status, told in ("import - >&-", 1, b"standard output is closed"), (
            "each <&-",
            1,
            b"input is closed",
        ):
            line = f'"{sys.executable}" -B -m tagzirk {words}'
            run = subprocess.run(
                ["sh", "-c", line], input=b"a b\n", stderr=subprocess.PIPE, cwd=CHECKOUT / "python", timeout=60
            )
            self.assertEqual((run.returncode, told in run.stderr), (status, True), run.stderr)

    def test_many_blank_lines(self):
        self.assertEqual(self.tagzirk("import", given="\n" * 5000 + "a b\n")[2], 0)
        self.assertIn("k is 1 now", self.tagzirk("each", given="\n" * 5000 + "# two\r\nnode 1\nnode 2\nlink 1 2\n")[0])

    def test_the_module(self):
        run = subprocess.run(
            [sys.executable, "-B", "-m", "tagzirk", "each"],
            input=b"a b\n",
            stdout=subprocess.PIPE,
            cwd=CHECKOUT / "python",
            timeout=60,
        )
        self.assertEqual((run.returncode, run.stdout[:11]), (0, b"k is 1 now:"))


class History(Commands):
    def test_rows(self):
        files = [
            self.file("net-2026-11-28T0930.json", json.dumps(views_of("abc", [("a", "b"), ("b", "c")]))),
            self.file("net-2026-11-28T0910.json", (DUMPS / "cluster.json").read_text()),
            self.file("net-2026-11-28T0920.json", "oh no no\n"),
        ]
        out, err, status = self.tagzirk("history", "--entries", *files)
        rows = list(csv.reader(out.splitlines()))
        known = ["time", "nodes", "links", "k", "cut", "one_sided", "without_entry", "file", "fault", "doubts"]
        self.assertEqual(rows[0], known)
        self.assertEqual([row[0][:16] for row in rows[1:]], [f"2026-11-28T09:{it}" for it in (10, 20, 30)])
        self.assertEqual(rows[1][1:8], ["8", "14", "2", "relay-1;relay-2", "3", "1", files[1]])
        self.assertEqual(rows[3][1:7], ["3", "2", "1", "b", "0", "0"])
        self.assertEqual(rows[2][1:7], [""] * 6)
        self.assertIn("refused 70", rows[2][8])
        self.assertEqual((status, "net-2026-11-28T0920.json" in err), (1, True))

    def test_doubts(self):
        links = "source,target,lag\na,b,0\nb,c,0\na,c,7\n"
        files = [self.file("net-2026-11-28T0930.csv", links), self.file("net-2026-11-28T0940.csv", "a,b\nb,c\n")]
        rows = list(csv.reader(self.tagzirk("history", *files)[0].splitlines()))
        self.assertIn("taken all, though some may be down: of 3 links lag is 0 (2) or 7 (1)", rows[1][9])
        self.assertEqual(rows[2][9], "")
        values = json.loads(self.tagzirk("history", "--json", *files)[0])
        self.assertEqual([rows[1][9], ""], ["; ".join(it["doubts"]) for it in values])
        each = json.loads(self.tagzirk("each", "--json", files[0])[0])
        change = json.loads(self.tagzirk("diff", "--json", *files)[0])
        told = json.loads(self.tagzirk("status", "--json", files[0])[0])
        for value in each, change["old"], told:
            self.assertEqual(value["doubts"], values[0]["doubts"])
            self.assertIn(value["doubts"][0], value["notes"])
        self.assertEqual(change["new"]["doubts"], [])
        for page in self.tagzirk("report", files[0])[0], self.tagzirk("diff", "--html", "-", *files)[0]:
            heading, doubt = page.index("</h1>"), page.index("though some may be down: of 3 links lag")
            self.assertLess(heading, doubt)
            self.assertLess(doubt, page.index("<h2"))

    def test_times(self):
        from tagzirk.histories import time_in, times_of

        for name, wanted in (
            ("net-20261128.2210.json", "2026-11-28T22:10:00"),
            ("2026-11-28", "2026-11-28T00:00:00"),
            ("20261128T221045", "2026-11-28T22:10:45"),
            ("10.0.0.1", None),
            ("2026-13-01", None),
            ("12345678901", None),
        ):
            found = time_in(name)
            self.assertEqual(found and found.isoformat()[:19], wanted, name)
        self.assertEqual(
            time_in("2026-11-28T22:10Z").timestamp(),
            time_in(f"{int(time_in('2026-11-28T22:10Z').timestamp())}").timestamp(),
        )
        one, other = self.file("2026-01-01", ""), self.file("net", "")
        os.utime(one, (2000000000, 2000000000))
        self.assertEqual(times_of([one, other])[one].timestamp(), 2000000000)

    @unittest.skipUnless(matplotlib, "matplotlib is not there")
    def test_a_picture(self):
        files = [self.file(f"2026-11-28T{at}00", edges_of(CLIQUES[at - 10 :])) for at in range(10, 14)]
        _, _, status = self.tagzirk("history", "--svg", self.room / "day.svg", *files)
        self.assertEqual(((self.room / "day.svg").read_text()[:5], status), ("<?xml", 0))

    def test_without_matplotlib(self):
        with mock.patch.dict("sys.modules", {"matplotlib": None}):
            out, err, status = self.tagzirk("history", "--svg", self.room / "day.svg", self.file("net", "a b\n"))
        self.assertEqual((out, status, "Debian: python3-matplotlib" in err), ("", 1, True))


class ForPrometheus(Commands):
    def values(self, name="out.prom"):
        """The samples in a file: each name with its labels, and its value."""
        lines = (self.room / name).read_text().splitlines()
        return {line.rpartition(" ")[0]: float(line.rpartition(" ")[2]) for line in lines if line[0] != "#"}

    def test_values(self):
        out, _, status = self.tagzirk(
            "metrics", "--entries", DUMPS / "cluster.json", "--textfile", self.room / "out.prom"
        )
        found = self.values()
        changed = os.stat(DUMPS / "cluster.json").st_mtime
        self.assertEqual((out, status, found.pop("tagzirk_dump_timestamp_seconds")), ("", 0, int(changed)))
        self.assertLess(abs(found.pop("tagzirk_run_timestamp_seconds") - datetime.datetime.now().timestamp()), 60)
        for program in "overlay", "overlay-check":
            self.assertIn(found.pop(f'tagzirk_program_proved{{program="{program}"}}'), (0, 1))
        self.assertEqual(
            found,
            {
                "tagzirk_dump_read": 1,
                "tagzirk_nodes": 8,
                "tagzirk_links": 14,
                "tagzirk_connectivity": 2,
                "tagzirk_all_linked": 0,
                "tagzirk_pieces": 2,
                "tagzirk_largest_piece": 3,
                "tagzirk_hosts_cut_off": 3,
                "tagzirk_one_sided_listings": 3,
                "tagzirk_listed_without_entry": 1,
                'tagzirk_doubts{kind="may be down"}': 0,
                'tagzirk_doubts{kind="not read"}': 0,
                'tagzirk_cut_member{host="relay-1"}': 1,
                'tagzirk_cut_member{host="relay-2"}': 1,
                # oslo-2 and oslo-3 list oslo-4, which is dead, and berlin-3 lists oslo-1
                'tagzirk_host_one_sided_listings{host="oslo-4"}': 2,
                'tagzirk_host_one_sided_listings{host="berlin-3"}': 1,
                'tagzirk_host_one_sided_listings{host="oslo-1"}': 1,
                'tagzirk_host_one_sided_listings{host="oslo-2"}': 1,
                'tagzirk_host_one_sided_listings{host="oslo-3"}': 1,
            },
        )

    def test_the_oldest_file_says_how_old_the_dump_is(self):
        files = {"oslo": "rome\n", "rome": "oslo\n", "bern": "rome\n"}
        (self.room / "hosts").mkdir()
        for at, (name, text) in enumerate(files.items()):
            (self.room / "hosts" / name).write_text(text)
            os.utime(self.room / "hosts" / name, (2e9 - at, 1e9 - 60 * at))
        places = sorted((self.room / "hosts").iterdir())
        for words in [self.room / "hosts"], places, places[::-1]:
            self.tagzirk("metrics", *words, "--textfile", self.room / "out.prom")
            self.assertEqual(self.values()["tagzirk_dump_timestamp_seconds"], 1e9 - 120)
        self.tagzirk("metrics", "--textfile", self.room / "out.prom", given="a b\n")
        self.assertNotIn("tagzirk_dump_timestamp_seconds", self.values())

    def test_a_dump_that_cannot_be_read(self):
        for text in "a b c\n", "":
            out, err, status = self.tagzirk("metrics", self.file("net", text), "--textfile", self.room / "out.prom")
            found = self.values()
            self.assertEqual((found["tagzirk_dump_read"], status, err[:17]), (0, 1, "tagzirk metrics: "))
            self.assertEqual({it for it in found if "timestamp" not in it}, {"tagzirk_dump_read"})
        _, _, status = self.tagzirk("metrics", self.room / "nothing", "--textfile", self.room / "out.prom")
        self.assertEqual((self.values()["tagzirk_dump_read"], status), (0, 1))

    def test_whole_or_not_at_all(self):
        _, err, status = self.tagzirk(
            "metrics", self.file("net", "a b\n"), "--textfile", self.room / "none" / "out.prom"
        )
        self.assertEqual((status, "none" in err), (1, True))
        made = tagzirk.metrics([self.file("net", 'a" \\b\n')])
        self.assertEqual(sorted(os.listdir(self.room)), ["net"])
        with mock.patch("os.replace", side_effect=OSError("full")), self.assertRaises(OSError):
            made.write(str(self.room / "out.prom"))
        self.assertEqual(sorted(os.listdir(self.room)), ["net"])
        made = tagzirk.metrics([self.file("net", 'a x"\\y\nx"\\y c\n')])
        self.assertIn('tagzirk_cut_member{host="x\\"\\\\y"} 1.0\n', made.text)


class Pages(Commands):
    def test_the_page(self):
        out, _, status = self.tagzirk("report", "--entries", DUMPS / "cluster.json")
        self.assertEqual(status, 0)
        words = re.sub("</?span[^>]*>", "", out)
        for told in (
            "<title>2 crashes part this overlay</title>",
            "relay-1, relay-2</strong> crash, 3 hosts are cut off",
            "2 pieces after the crash",
            "No single crash parts two",
            "<svg ",
            "holds 0 split k 2 cut 7,8",
            "oslo-4 is listed and has no entry",
        ):
            self.assertIn(told, words)
        self.assertIsNone(re.search(r'(?:src|href)="(?!data:)|@import|<script', out))
        saved = {
            name: base64.b64decode(data).decode()
            for name, data in re.findall(r'download="([^"]+)" href="data:[^,]+,([^"]+)"', out)
        }
        self.assertTrue(tagzirk.check(saved["certificate.json"]))
        self.assertEqual(saved["overlay.graph"], (DUMPS / "import-entries.out").read_text())

    def test_other_answers(self):
        for text, told in (
            ("a b\n", "No crash parts this overlay"),
            ("a b\nc d\n", "This overlay is parted already"),
            (edges_of(CLIQUES), "A single crash is enough"),
            ('{"a": []}', "<title>One host is left alone</title>"),
            ('{"a": []}', "There is one host alone, "),
            ('{"a": []}', "<li><b>1</b>host</li><li><b>0</b>links</li>"),
        ):
            out, _, status = self.tagzirk("report", given=text)
            self.assertEqual((status, told in out), (0, True), text)

    def test_what_cannot_be_known_is_not_said(self):
        for text in "# 1 a\nnode 1\n# 2 b\nnode 2\nlink 1 2\n", "a b\nb c\n":
            out, _, _ = self.tagzirk("report", given=text)
            self.assertNotIn("listing", out)
            self.assertIn("Reading it gave no notes", out)
        self.assertIn("A crash of all that a host is linked to", self.tagzirk("report", given="a b\nb c\n")[0])
        self.assertNotIn("A crash of all that a host is linked to", self.tagzirk("report", given="a b\n")[0])

    def test_how_bad_it_is(self):
        for text, k, kind in (
            ("a b\nc d\n", 0, "split"),
            ("a b\nb c\n", 1, "one"),
            ("a b\n", 1, "fine"),
            ('{"a": []}', 0, "split"),
            ("a b\nb c\nc d\nd a\n", 2, "few"),
            (edges_of(itertools.combinations("abcde", 2)).replace("a b\n", ""), 3, "fine"),
        ):
            self.assertIn(f'<div class="t-k t-{kind}">k<b>{k}</b>', self.tagzirk("report", given=text)[0])

    def test_the_worst_of_the_smallest_cuts(self):
        # two hubs of three pods, each of which is linked to both by one node: two nodes and a hub, or both hubs
        pods = [f"{pod}{at}" for pod in "pqr" for at in "123"]
        links = [(a, b) for a in pods for b in pods if a < b and a[0] == b[0]]
        links += [(f"{pod}1", "hub-a") for pod in "pqr"] + [(f"{pod}2", "hub-b") for pod in "pqr"]
        out, _, _ = self.tagzirk("report", "--site", "^[pqr]", given=edges_of(links))
        words = re.sub("</?(?:span|strong)[^>]*>", "", out)
        first = words.index("<p>If hub-a, hub-b crash, 6 hosts are cut off, and the largest of the 3 pieces")
        self.assertLess(first, words.index("Picture and certificate have another one: if hub-a, p2 crash"))
        self.assertIn("another one: if hub-a, p2 crash, 2 hosts are cut off: p1, p3.", words)
        pieces = words.partition("<h2>3 pieces after the crash</h2>")[2].partition("<h2>")[0]
        self.assertIn("<p>Crashed: hub-a, hub-b</p>", pieces)
        self.assertEqual(pieces.count("<td>3 hosts</td>"), 3)
        out, _, _ = self.tagzirk("each", given=edges_of(links))
        told = "k is 2 now: Crashing hub-a, hub-b cuts off 6 hosts, the most of the smallest cuts found."
        other = " The certificate has another one: Crashing hub-a, p2 separates hub-b from p1."
        self.assertEqual(out.partition(other)[0], told)
        # by hand: the hubs, and in each pod its first two, or one of these with the hub of the other
        self.assertIn("There are 10 smallest cuts, of 2 hosts each.", words)
        self.assertRegex(words, r"<tr><td>hub-a, hub-b</td><td[^>]*>6</td><td[^>]*>3</td><td>sites \w \(3 hosts\), ")

    def test_names_to_paste(self):
        names = [f"{it}.prod.example.net" for it in ("a", "b", "c d")]
        out, _, _ = self.tagzirk("report", given=json.dumps(views_of(names, [names[:2], names[1:]])))
        self.assertIn("All names end in .prod.example.net", out)
        self.assertIn('<pre class="t-paste">b.prod.example.net</pre>', out)
        self.assertRegex(out, r'<pre class="t-paste">(?:a|&#x27;c d)\.prod\.example\.net(?:&#x27;)?</pre>')

    def test_who_has_listings_that_are_not_answered(self):
        out, _, _ = self.tagzirk("report", "--entries", DUMPS / "cluster.json")
        self.assertIn('<tr><td>oslo-4</td><td class="t-number">2</td></tr>', out)

    def test_each_piece_has_a_colour(self):
        out, _, _ = self.tagzirk("report", given="a b\nc d\nd e\nf g\ng h\nh i\n")
        circles = re.findall(r'<circle class="(\S+) c(\d)"[^>]*><title>node \d \(\S+\): (\w)<', out)
        colours = {}
        for _, colour, name in circles:
            colours.setdefault(colour, set()).add(name)
        # near's piece has the first colour, and that of far the second
        self.assertEqual(sorted(colours), ["0", "1", "2"])
        self.assertEqual({frozenset(it) for it in colours.values()}, {frozenset(it) for it in ("ab", "cde", "fghi")})
        self.assertIn("3 pieces", out)

    def test_names_are_text(self):
        out, _, _ = self.tagzirk(
            "report", given=json.dumps(views_of(["<b>", "&amp;", "\x1b"], [("<b>", "&amp;"), ("&amp;", "\x1b")]))
        )
        self.assertNotIn("<b>&", out.replace("<b>1", "").replace("<b>2", ""))
        self.assertIn("&amp;amp;", out)
        self.assertNotIn("\x1b", out)


class Liars(Commands):
    """Nothing is printed that the checker does not confirm."""

    def test_a_checker_that_says_no(self):
        checker = self.room / "no"
        checker.write_text("#!/bin/sh\ncat > /dev/null\necho fails 44 3\nexit 1\n")
        checker.chmod(0o755)
        path = self.file("net", edges_of(CLIQUES))
        with mock.patch.dict(os.environ, {"TAGZIRK_OVERLAY_CHECK": str(checker)}):
            for words in ["mend", path, "--to", "2"], ["each", path], ["each", path, "--csv"], ["report", path]:
                out, err, status = self.tagzirk(*words)
                self.assertEqual((out, status), ("", 1), words)
                self.assertIn("does not hold", err)
            out, _, status = self.tagzirk("history", path)
            self.assertEqual((next(csv.reader(out.splitlines()[1:]))[1:7], status), ([""] * 6, 1))
            out, _, status = self.tagzirk("metrics", path, "--textfile", "-")
            self.assertEqual(
                (status, "tagzirk_dump_read 0.0\n" in out, "tagzirk_connectivity" in out), (1, True, False)
            )


if __name__ == "__main__":
    unittest.main()
