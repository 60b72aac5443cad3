#!/usr/bin/env python3
"""test_check.py: the tests of check.py, over the examples, over changed ones, and over the inputs that fuzzing kept.

What is expected comes from docs/FORMATS.md, docs/CONNECTIVITY.md and the tables of examples/README.md. If the variable
TAGZIRK_OVERLAY_CHECK names the program overlay-check, or TAGZIRK_OVERLAY_CHECK_LARGE overlay-check-large, both must
print the same line for examples that are changed at random, and for files of version 3.
"""

import base64
import json
import os
import pathlib
import random
import re
import subprocess
import sys
import tempfile
import time
import unittest

ROOT = pathlib.Path(__file__).resolve().parent.parent
TOOLS, EXAMPLES = ROOT / "tools", ROOT / "examples"
CORPUS = ROOT / "bench" / "fuzz" / "corpus" / "certificate.jsonl"
sys.path.insert(0, str(TOOLS))
import check  # noqa: E402, from the folder that was just named

ROW = re.compile(r"\| `([a-z0-9-]+\.json)`[^|]*\| `([^`]+)` \| ([01]) \|")
HOLDING = ["five-but-one", "path-group-linked", "ring-with-tail-group", "square", "square-group", "two-linked",
           "two-unlinked"]
SQUARE = (EXAMPLES / "square.json").read_bytes().strip()
RANDOM_CHANGES = 300
PIECES = (b"", b"0", b"1", b"4", b"9", b"-", b",", b"[", b"]")


def line_of(data, newest=check.NEWEST):
    """The line for the bytes of a file, where this is the newest version that is read."""
    try:
        return check.judge(data, newest)
    except check.Answer as fault:
        return str(fault)


def large_line_of(data):
    """The line for the bytes of a file, of version 3 too."""
    return line_of(data, check.NEWEST_LARGE)


def example(name):
    return json.loads((EXAMPLES / f"{name}.json").read_text())


def changed(value, **keys):
    """The bytes of a certificate file with other values."""
    return json.dumps({**value, **keys}).encode()


def in_version_3(name, **keys):
    """An example with other values, as a file of version 3."""
    value = example(name)
    return changed({"group": value["nodes"], **value, "version": 3}, **keys)


def row_of_nodes(number, k, **keys):
    """A file of version 3 of a row of nodes, each linked to the k before it, which is split by k nodes in its midst."""
    nodes = list(range(7, 7 + number))
    cut = number // 2
    value = {
        "cut": nodes[cut:cut + k], "far": nodes[-1], "group": nodes, "k": k, "moment": 65537, "near": nodes[0],
        "fans": [{"j": j, "paths": [[j, j - step] for step in range(1, k + 1)]} for j in nodes[k:]],
        "links": [[a, b] for a in nodes for b in range(a + 1, min(a + k, nodes[-1]) + 1)],
        "nodes": nodes, "pairs": [], "side": nodes[:cut], "verdict": "split", "version": 3}
    return {**value, **keys}


def rows_of_nodes():
    """Files of rows of nodes, some of them with a fault near their end: each with the line that is printed of it."""
    number, k = 2000, 3
    value = row_of_nodes(number, k)
    holds = f"holds 65537 split k 3 cut 1007,1008,1009 near 7 far 2006 side {','.join(map(str, range(7, 1007)))}"
    yield value, holds
    yield {**value, "version": 2, "moment": 0}, "refused 31"
    yield {**value, "fans": value["fans"][:-1]}, "fails 44 2006"
    yield {**value, "fans": [*value["fans"][:-1], {"j": 2006, "paths": [[2006, 2005], [2006, 2004], [2006, 2005]]}]}, \
        "fails 44 2006"
    yield {**value, "links": value["links"][:-1]}, "fails 44 2006"
    yield {**value, "links": [*value["links"], [2005, 2007]]}, "refused 33"
    yield {**value, "links": [*value["links"][:-2], [2003, 2006], *value["links"][-2:]]}, "refused 32"
    yield {**value, "nodes": [*value["nodes"][:-1], 2005]}, "refused 32"
    yield {**value, "group": [*value["nodes"], 2007]}, "fails 49"
    yield {**value, "side": value["side"][:-1]}, "fails 42"
    yield {**value, "fans": [*value["fans"], value["fans"][-1]]}, "fails 45"
    yield {**value, "far": 2007}, "fails 42"


def files_of_version_3():
    """Files of version 3, or almost: each with the line that is printed of it."""
    for name in HOLDING:
        tail = line_of(json.dumps(example(name)).encode()).split(" ", 2)[2]
        for moment in 0, 1, 65536, 65537, 70000, 2**32 - 1:
            yield in_version_3(name, moment=moment), f"holds {moment} {tail}"
        for moment in 2**32, -1, 0.5, 70000.0, "70000", None, True, [70000], 10**400:
            yield in_version_3(name, moment=moment), "refused 60" if moment == 10**400 else "refused 63"
        for version in 0, 4, 5, -3, 3.0, "3", None, True, [3], 2**64 + 3:
            yield in_version_3(name, version=version), "refused 64"
        yield in_version_3(name, version=2, moment=70000), "refused 63"
        yield in_version_3(name, version=1), "refused 62"
        yield in_version_3(name, k=example(name)["k"] + 1), "fails 40"
        yield in_version_3(name, group=[]), "fails 49"
        yield in_version_3(name, more=1), "refused 62"
        for key in json.loads(in_version_3(name)):
            less = {other: it for other, it in json.loads(in_version_3(name)).items() if other != key}
            yield json.dumps(less).encode(), "refused 61"


def run(*words, **how):
    """Standard output, standard error and the status of check.py."""
    ended = subprocess.run([sys.executable, str(TOOLS / "check.py"), *words],
                           **{"stdin": subprocess.DEVNULL, "stdout": subprocess.PIPE, "stderr": subprocess.PIPE, **how})
    return *((it or b"").decode() for it in (ended.stdout, ended.stderr)), ended.returncode


class Examples(unittest.TestCase):
    def test_the_lines_of_the_table(self):
        rows = ROW.findall((EXAMPLES / "README.md").read_text())
        self.assertEqual({name for name, _, _ in rows}, {path.name for path in EXAMPLES.glob("*.json")})
        for name, line, status in rows:
            with self.subTest(name):
                out, err, ended = run(str(EXAMPLES / name))
                self.assertEqual((out, ended), (f"{line}\n", int(status)))
                self.assertEqual(err.count("\n"), int(status))

    def test_mistakes(self):
        for path in (EXAMPLES / "mistakes").glob("*.json"):
            with self.subTest(path.name):
                out, err, status = run(str(path))
                self.assertEqual((out, status), (path.with_suffix(".txt").read_text().split("\n")[0] + "\n", 1))
                self.assertEqual(err.count("\n"), 1)

    def test_inputs_that_fuzzing_kept(self):
        rows = [json.loads(line) for line in CORPUS.read_text().splitlines()[1:]]
        self.assertGreater(len(rows), 600)
        for row in rows:
            data = row["text"].encode() if "text" in row else base64.b64decode(row["base64"])
            self.assertEqual([line_of(data)], row["out"], data)


class ChangedFiles(unittest.TestCase):
    """One change of an example that holds, and the fault that the rules name."""

    def test_keys(self):
        for name in HOLDING:
            value = example(name)
            for key in value:
                less = {other: value[other] for other in value if other != key}
                self.assertEqual(line_of(json.dumps(less).encode()), "refused 61", (name, key))
            self.assertEqual(line_of(changed(value, colour=1)), "refused 62")

    def test_forms(self):
        for name in HOLDING:
            value = example(name)
            for key in value:
                for other in None, True, "1", 1.5, -1, 2**32, [[1.5]], {}, [{}]:
                    line = "refused 64" if key == "version" else "refused 63"
                    self.assertEqual(line_of(changed(value, **{key: other})), line, (name, key, other))
        self.assertEqual(line_of(changed(example("square"), moment=65536))[:13], "holds 65536 s")
        self.assertEqual(line_of(changed(example("square"), moment=65537)), "refused 63")
        for written in b"2.0", b"2e0", b"-2", b"-0", b"1" + b"0" * 308:
            self.assertEqual(line_of(SQUARE.replace(b'"k":2', b'"k":' + written)), "refused 63", written)

    def test_graph(self):
        value = example("square")
        for nodes in [1, 2, 2, 3, 4], [2, 1, 3, 4]:
            self.assertEqual(line_of(changed(value, nodes=nodes)), "refused 32")
        for link in [2, 1], [1, 1], [1, 5]:
            self.assertEqual(line_of(changed(value, links=[link])), "refused 33", link)
        for links in [[1, 2], [1, 2]], [[2, 3], [1, 2]]:
            self.assertEqual(line_of(changed(value, links=links)), "refused 32", links)
        for version, most in (1, 256), (2, 1024):
            for number, line in (most, "fails 46"), (most + 1, "refused 31"):
                graph = {"links": [], "moment": 0, "nodes": list(range(number)), "verdict": "linked", "k": number - 1}
                group = {"group": graph["nodes"]} if version == 2 else {}
                self.assertEqual(line_of(changed(graph, version=version, **group)), line)

    def test_frame(self):
        for name in HOLDING:
            value = example(name)
            for k in value["k"] - 1, value["k"] + 1:
                if k >= 0:
                    self.assertEqual(line_of(changed(value, k=k)), "fails 40", name)
            if value["verdict"] == "split":
                near, far = value["near"], value["far"]
                self.assertEqual(line_of(changed(value, near=far, far=near)), "fails 42", name)
                for side in [], value["side"] * 2, value["side"] + [far], value["side"] + [99]:
                    self.assertEqual(line_of(changed(value, side=side)), "fails 42", (name, side))
                if value["cut"]:
                    self.assertEqual(line_of(changed(value, near=value["cut"][0])), "fails 42", name)
                    self.assertEqual(line_of(changed(value, cut=value["cut"][:-1] + [99])), "fails 41", name)
                    self.assertEqual(line_of(changed(value, cut=value["cut"][::-1])), "fails 41", name)
        for group in [], [2, 1], [1, 1], [1, 9]:
            self.assertEqual(line_of(changed(example("square-group"), group=group)), "fails 49", group)
        self.assertEqual(line_of(changed(example("ring-with-tail-group"), far=6)), "fails 42")

    def test_paths(self):
        for name in HOLDING:
            value = example(name)
            for key, number in ("pairs", 43), ("fans", 44):
                for place, entry in enumerate(value.get(key, [])):
                    ids = " ".join(str(entry[end]) for end in ("i", "j") if end in entry)
                    for entries in self.changed_entries(value[key], place):
                        self.assertEqual(line_of(changed(value, **{key: entries})), f"fails {number} {ids}", name)

    def changed_entries(self, entries, place):
        """Lists of entries whose first fault is at this place."""
        def put(**keys):
            return entries[:place] + [{**entries[place], **keys}] + entries[place + 1:]

        paths = entries[place]["paths"]
        yield entries[:place]
        yield entries[:place] + entries[place + 1:]
        yield put(j=entries[place]["j"] + 1)
        yield put(paths=paths + [paths[0]])
        for at, path in enumerate(paths):
            def other(it):
                return put(paths=paths[:at] + [it] + paths[at + 1:])

            yield put(paths=paths[:at] + paths[at + 1:])
            yield from map(other, ([], path[:1], path[1:], path[:-1] + [99], path[::-1], path + path[-2:]))
            if len(paths) > 1:
                yield other(paths[at - 1])

    def test_more_paths_than_k(self):
        value = {"cut": [3], "far": 1, "k": 1, "links": [[1, 2], [1, 3], [2, 3], [3, 4]], "moment": 0, "near": 4,
                 "nodes": [1, 2, 3, 4], "pairs": [], "side": [4], "verdict": "split", "version": 1}
        for paths, line in ([[3, 1]], "holds 0 split k 1 cut 3 near 4 far 1 side 4"), ([[3, 1], [3, 2]], "fails 44 3"):
            fans = [{"j": 2, "paths": [[2, 1]]}, {"j": 3, "paths": paths}, {"j": 4, "paths": [[4, 3]]}]
            self.assertEqual(line_of(changed(value, fans=fans)), line)

    def test_entries_too_many(self):
        for name in HOLDING:
            value = example(name)
            if value["verdict"] == "split":
                fans = value["fans"] + [{"j": 1, "paths": []}]
                self.assertEqual(line_of(changed(value, fans=fans)), "fails 45", name)


class LargeFiles(unittest.TestCase):
    """Version 3, which --large reads; and versions 1 and 2, of which it says the same."""

    def test_version_3(self):
        for data, line in files_of_version_3():
            self.assertEqual(large_line_of(data), line, data)

    def test_it_is_no_version_without_large(self):
        for name in HOLDING:
            for moment in 0, 70000, 2**32:
                self.assertEqual(line_of(in_version_3(name, moment=moment)), "refused 64", name)

    def test_forged(self):
        """Each change of a list of paths, of ends and of sides makes another fault than in version 2, or the same."""
        for name in HOLDING:
            value = {"group": example(name)["nodes"], **example(name)}
            for key in value.keys() - {"version"}:
                for other in [], [[1, 2]], [1], 1, 99, "split", "linked", [{"j": 3, "paths": []}]:
                    second, third = (changed(value, **{key: other, "version": it}) for it in (2, 3))
                    self.assertEqual(large_line_of(third), line_of(second), third)

    def test_cut_at_each_byte(self):
        data = in_version_3("square", moment=70000)
        for end in range(len(data)):
            self.assertEqual(large_line_of(data[:end]), "refused 60", end)

    def test_nodes(self):
        for number, line in (1024, "fails 46"), (1025, "fails 46"), (32768, "fails 46"), (32769, "refused 31"):
            nodes = list(range(number))
            value = {"group": nodes, "k": number - 1, "links": [], "moment": 0, "nodes": nodes, "verdict": "linked"}
            self.assertEqual(large_line_of(changed(value, version=3)), line)
            self.assertEqual(large_line_of(changed(value, version=2)), line if number == 1024 else "refused 31")

    def test_rows_of_nodes(self):
        for value, line in rows_of_nodes():
            self.assertEqual(large_line_of(changed(value)), line)
            self.assertEqual(line_of(changed(value)), "refused 31" if value["version"] == 2 else "refused 64")

    def test_ten_thousand_nodes(self):
        data = changed(row_of_nodes(10_000, 5))
        started = time.process_time()
        self.assertEqual(large_line_of(data)[:42], "holds 65537 split k 5 cut 5007,5008,5009,5")
        self.assertLess(time.process_time() - started, 20)

    def test_versions_1_and_2(self):
        for path in [*EXAMPLES.glob("*.json"), *EXAMPLES.glob("mistakes/*.json")]:
            data = path.read_bytes()
            if path.name != "version-three.json":
                self.assertEqual(large_line_of(data), line_of(data), path.name)
        self.assertEqual(large_line_of((EXAMPLES / "version-three.json").read_bytes()), "refused 61")
        self.assertEqual(large_line_of(changed(example("square"), moment=70000)), "refused 63")
        self.assertEqual(large_line_of(changed(example("square-group"), moment=70000)), "refused 63")

    def test_the_option(self):
        data = in_version_3("square", moment=70000)
        line = "holds 70000 split k 2 cut 2,4 near 1 far 3 side 1\n"
        self.assertEqual(run("--large", stdin=None, input=data), (line, "", 0))
        self.assertEqual(run("--large", "-", stdin=None, input=data), (line, "", 0))
        self.assertEqual(run(stdin=None, input=data)[::2], ("refused 64\n", 1))
        graph = "node 1\nnode 2\nnode 3\nnode 4\nlink 1 2\nlink 1 4\nlink 2 3\nlink 3 4\n"
        for words in ("--large", "--graph"), ("--graph", "--large"):
            self.assertEqual(run(*words, stdin=None, input=data), (graph, "", 0))
        self.assertEqual(run("--graph", stdin=None, input=data)[::2], ("", 1))


class Json(unittest.TestCase):
    """What JSON a text is, by the format."""

    def with_key(self, text):
        """The line of the square with one more key."""
        return line_of(SQUARE[:-1] + b',"more":' + text + b"}")

    def test_what_is_no_json(self):
        for end in range(len(SQUARE)):
            self.assertEqual(line_of(SQUARE[:end]), "refused 60", end)
            self.assertEqual(line_of(SQUARE[:end] + b"\xff" + SQUARE[end + 1:]), "refused 60", end)
        self.assertEqual(line_of(b"\xef\xbb\xbf" + SQUARE), "refused 60")
        self.assertEqual(line_of(SQUARE + b"{}"), "refused 60")
        for text in b"NaN", b"-Infinity", b"01", b"1.", b".5", b"'a'", b'"\t"', b"[1,]", b"nul":
            self.assertEqual(self.with_key(text), "refused 60", text)

    def test_deep_nesting(self):
        for opened, closed in (b"[", b"]"), (b'{"a":', b"}"):
            for levels, line in (126, "refused 62"), (127, "refused 60"), (500, "refused 60"), (200_000, "refused 60"):
                value = opened * levels + b"1" + closed * levels
                self.assertEqual(self.with_key(value), line, levels)
                self.assertEqual(self.with_key(value + b',"more":1'), line, levels)
        self.assertEqual(self.with_key(b'"' + b"[" * 500 + b'\\"' + b"]" * 500 + b'"'), "refused 62")

    def test_huge_numbers(self):
        for text in b"1e400", b"-1e400", b"1" + b"0" * 309, b"-" + b"9" * 309, b"9" * 5000, b"1" * 400 + b".5":
            self.assertEqual(self.with_key(text), "refused 60", text)
            self.assertEqual(self.with_key(text + b',"more":1'), "refused 60", text)
        for text in b"1" + b"0" * 308, b"1e308", b"1e-400", b"-1e-400":
            self.assertEqual(self.with_key(text), "refused 62", text)

    def test_halves_of_surrogate_pairs(self):
        for text in rb'"\ud800"', rb'"\udc00"', rb'"\ud800\ud800"', rb'["\udc00\ud800"]', rb'{"\ud800":1}':
            self.assertEqual(self.with_key(text), "refused 60", text)
        for text in rb'"\ud800\udc00"', rb'"\\ud800"', rb'"\u0000"':
            self.assertEqual(self.with_key(text), "refused 62", text)

    def test_other_texts_of_one_value(self):
        line, value = line_of(SQUARE), example("square")
        self.assertEqual(line, "holds 0 split k 2 cut 2,4 near 1 far 3 side 1")
        backwards = dict(reversed(value.items()))
        for text in json.dumps(value, indent=4), json.dumps(backwards), f"\r\n\t {SQUARE.decode()} \n":
            self.assertEqual(line_of(text.encode()), line)
        self.assertEqual(line_of(SQUARE.replace(b'"k"', rb'"\u006b"')), line)
        self.assertEqual(line_of(b'{"k":7,' + SQUARE[1:]), line)
        self.assertEqual(line_of(SQUARE[:-1] + b',"k":7}'), "fails 40")


class Command(unittest.TestCase):
    """Arguments, devices and --graph."""

    def test_a_file_that_is_not_there(self):
        with tempfile.TemporaryDirectory() as folder:
            for name in os.path.join(folder, "nowhere.json"), folder:
                out, err, status = run(name)
                self.assertEqual((out, status), ("", 1))
                self.assertRegex(err, r"\Arefused 71\n[^\n]+ can't be read: [^\n]+\n\Z")

    def test_arguments(self):
        for words in ("a", "b"), ("--graph", "a", "b"), ("--grahp",), ("-x", "a"), ("--graph", "--graph"), ("--large", "-l"):
            out, err, status = run(*words)
            self.assertEqual((out, status), ("", 2), words)
            self.assertEqual(err.split("\n")[0], "usage: check.py [--graph] [--large] [FILE]")
        out, err, status = run("--help")
        self.assertEqual((out, err, status), (check.__doc__, "", 0))

    def test_standard_input(self):
        for words in (), ("-",):
            self.assertEqual(run(*words, stdin=None, input=SQUARE), (f"{line_of(SQUARE)}\n", "", 0))
        self.assertEqual(run()[::2], ("refused 60\n", 1))

    def test_devices(self):
        def shell(redirected):
            command = f'"$0" "$1" "$2" {redirected}'
            ended = subprocess.run(["sh", "-c", command, sys.executable, TOOLS / "check.py", EXAMPLES / "square.json"],
                                   stdout=subprocess.PIPE, stderr=subprocess.PIPE)
            return ended.stdout.decode(), ended.stderr.decode().split("\n")[0], ended.returncode

        for redirected in ">&-", ">/dev/full":
            self.assertEqual(shell(redirected), ("", "refused 72", 1), redirected)
        self.assertEqual(shell("2>&-"), (f"{line_of(SQUARE)}\n", "", 0))
        self.assertEqual(shell("--too-many 2>&-"), ("", "", 2))
        end, other = os.pipe()
        os.close(end)
        out, err, status = run(str(EXAMPLES / "square.json"), stdout=other)
        os.close(other)
        self.assertEqual((err.split("\n")[0], status), ("refused 72", 1))

    def test_the_graph(self):
        text = (EXAMPLES / "two-clusters.graph").read_text()
        lines = [line.split() for line in text.splitlines() if not line.startswith("#")]
        nodes = [int(ids[0]) for kind, *ids in lines if kind == "node"]
        links = [[int(a) for a in ids] for kind, *ids in lines if kind == "link"]
        # whether the certificate holds is not asked
        data = changed(example("two-linked"), nodes=nodes, links=links)
        out, err, status = run("--graph", stdin=None, input=data)
        self.assertEqual((err, status), ("", 0))
        self.assertEqual(out, "".join(f"{line}\n" for line in text.splitlines()[1:]))
        self.assertEqual(run("--graph", str(EXAMPLES / "no-nodes.json")), ("", "", 0))
        out, err, status = run("--graph", str(EXAMPLES / "nodes-unordered.json"))
        self.assertEqual((out, err.split("\n")[0], status), ("", "refused 32", 1))


class BesideAProgram:
    """The tests beside a program: its variable, and the line that check.py prints."""

    def compare(self, data):
        line = self.line_of(data)
        ended = subprocess.run([os.environ[self.variable]], input=data, stdout=subprocess.PIPE,
                               stderr=subprocess.DEVNULL)
        status = 0 if line.startswith("holds ") else 1
        self.assertEqual((ended.stdout.decode(), ended.returncode), (f"{line}\n", status), data)

    def test_random_changes(self):
        source = random.Random(1)
        texts = [path.read_bytes() for path in sorted(EXAMPLES.glob("*.json")) if path.stat().st_size < 5000]
        texts += self.more
        for _ in range(RANDOM_CHANGES):
            data = bytearray(source.choice(texts))
            for _ in range(source.choice((1, 1, 2, 3))):
                at = source.randrange(len(data))
                data[at:at + source.choice((0, 1, 1))] = source.choice(PIECES)
            self.compare(bytes(data))

    def test_version_3(self):
        for data, _ in files_of_version_3():
            self.compare(data)

    def test_version_3_cut_at_each_byte(self):
        data = in_version_3("square", moment=70000)
        for end in range(len(data) + 1):
            self.compare(data[:end])


@unittest.skipUnless(os.environ.get("TAGZIRK_OVERLAY_CHECK"), "TAGZIRK_OVERLAY_CHECK is not set")
class BesideOverlayCheck(BesideAProgram, unittest.TestCase):
    variable, line_of, more = "TAGZIRK_OVERLAY_CHECK", staticmethod(line_of), []


@unittest.skipUnless(os.environ.get("TAGZIRK_OVERLAY_CHECK_LARGE"), "TAGZIRK_OVERLAY_CHECK_LARGE is not set")
class BesideOverlayCheckLarge(BesideAProgram, unittest.TestCase):
    variable, line_of = "TAGZIRK_OVERLAY_CHECK_LARGE", staticmethod(large_line_of)
    more = [in_version_3(name, moment=70000) for name in HOLDING]

    def test_rows_of_nodes(self):
        for value, _ in rows_of_nodes():
            self.compare(changed(value))
        for number in 32_768, 32_769:
            self.compare(changed(row_of_nodes(number, 2)))


if __name__ == "__main__":
    unittest.main()
