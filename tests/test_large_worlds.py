#!/usr/bin/env python3
"""test_large_worlds.py [--more]: tests of worlds of the scale `large`, in which more than 256 nodes are born.

TAGZIRK_OVERLAY names the program; if TAGZIRK_OVERLAY_CHECK_LARGE names that one, it judges certificates too. Nothing is
taken from the programs: overlays of 257 nodes and more, with options drawn at random, are held byte for byte against
the simulation of bench/study, which is built if there is a g++; what a run prints, against the second opinion of
bench/fuzz; certificates, against tools/check.py; and limits, against the table of docs/PROTOCOL.md. With little memory
and on a small stack a program prints what is right, or says that memory is out. With --more overlays have up to 2,000
nodes, which takes some minutes.
"""

import json
import os
import pathlib
import resource
import shutil
import subprocess
import sys
import tempfile
import unittest

from test_large import ROOT, report, run, text_of

sys.path.insert(0, str(ROOT / "bench" / "fuzz"))
import second_opinion  # noqa: E402, from the folder that was just named
from second_opinion import check  # noqa: E402

OVERLAY = os.environ.get("TAGZIRK_OVERLAY")
CHECK_LARGE = os.environ.get("TAGZIRK_OVERLAY_CHECK_LARGE")
MORE = "--more" in sys.argv
STUDY = ROOT / "bench" / "study"
# The line of each scale, how many nodes may be born, how many packets there may be, and how many of these must be free.
SCALES = ("", 256, 65_536), ("scale large\n", 32_768, 1_048_576)
FREE = 64
# The entries of a world of the profile's scale, the most nodes of a certificate of version 2, and its last moment.
MOST_ENTRIES, MOST_NODES, LAST_MOMENT = 65_536, 1024, 65_536


def births(count):
    """The lines of so many births."""
    return "".join(f"boot {node}\n" for node in range(1, count + 1))


def chain(count):
    """Lines by which each node joins by the one before, and all packets come."""
    joins = (f"boot {node} by {node - 1}\n" + 3 * "deliver 0\n" for node in range(2, count + 1))
    return "scale large\nboot 1\n" + "".join(joins)


class Programs(unittest.TestCase):
    """All tests need the program."""

    def setUp(self):
        if not OVERLAY:
            self.skipTest("TAGZIRK_OVERLAY names no program")

    def printed(self, *words, given=""):
        """The lines of a program that ends well."""
        out, err, status = run(OVERLAY, *words, given=given)
        self.assertEqual((status, err), (0, ""), out[:200])
        return out.splitlines()

    def assert_as_asked(self, scenario):
        """A run prints what the second opinion asks for. Its lines."""
        out, err, status = run(OVERLAY, "run", given=scenario)
        asked = second_opinion.answer_run(scenario.encode())
        self.assertIsNone(second_opinion.unlike(asked, out.encode(), err.encode(), status))
        return out.splitlines()

    def judged(self, certificate, line):
        """What a certificate says, after both checkers have said of it what the line of its report says."""
        holds = line.replace("report ", "holds ", 1)
        self.assertEqual(check.judge(certificate.encode(), check.NEWEST_LARGE), holds)
        if CHECK_LARGE:
            self.assertEqual(run(CHECK_LARGE, given=certificate + "\n"), (holds + "\n", "", 0))
        return json.loads(certificate)


class Grown(Programs):
    """Overlays of more than 256 nodes."""

    # An overlay that is kept as lists, and that no phase leaves split.
    LARGE = "--nodes", "1100", "--active", "7", "--crash", "5", "--refill", "always", "--rounds", "1", "--heal", "1"

    @classmethod
    def setUpClass(cls):
        cls.room = tempfile.TemporaryDirectory()
        cls.addClassCleanup(cls.room.cleanup)
        cls.simulate = pathlib.Path(cls.room.name, "simulate")
        if OVERLAY and shutil.which("g++"):
            words = ["g++", "-std=c++17", "-O1", "-o", cls.simulate, STUDY / "simulate.cpp"]
            subprocess.run(words, check=True)

    def simulated(self, *words):
        """The lines of the simulation."""
        if not self.simulate.exists():
            self.skipTest("there is no g++, which builds the simulation")
        return run(self.simulate, *words)[0].splitlines()

    def assert_equal_overlays(self, least, most, count, *words):
        """Overlays are equal: scenarios, and rows of sweeps."""
        self.simulated("--nodes", "1")
        given = "--overlay", OVERLAY, "--simulate", self.simulate, "--least", least, "--most", most, "--count", count
        out, err, status = run(sys.executable, "-B", STUDY / "equal.py", *given, *words)
        self.assertEqual((status, err), (0, ""), out)
        self.assertTrue(out.startswith(f"{count} times overlay grow, ") and out.endswith(" agreed\n"), out)

    def test_overlays_are_those_of_the_simulation(self):
        self.assert_equal_overlays(257, 600, 60 if MORE else 3, "--first", 3)

    def test_costs_and_shapes_and_messages_too(self):
        self.assert_equal_overlays(257, 500, 60 if MORE else 3, "--further", "--costs", "--shape", "--first", 101)

    def test_overlays_that_are_kept_as_lists(self):
        self.assert_equal_overlays(1025, 2000, 30 if MORE else 3, "--further", "--costs", "--first", 204)

    def test_runs_print_what_the_second_opinion_asks_for(self):
        for words in (["--seed", "1", "--crash", "10", "--broadcasts", "1", "--rounds", "1", "--heal", "1"],
                      ["--seed", "2", "--rounds", "0", "--heal", "0", "--loss", "5", "--repeat", "5", "--detect"]):
            scenario = "\n".join([*self.printed("grow", "--nodes", "257", *words), ""])
            self.assertIn("\nscale large\n", scenario)
            self.assert_as_asked(scenario)

    def test_the_scale_is_written_where_it_is_wanted(self):
        for nodes, is_written in (1, False), (256, False), (257, True):
            lines = self.printed("grow", "--nodes", nodes, "--rounds", 0, "--heal", 0)
            self.assertEqual("scale large" in lines, is_written, nodes)

    def test_certificates(self):
        scenario = "\n".join(self.printed("grow", *self.LARGE, "--certificates"))
        lines = self.printed("run", "--strict", given=scenario)
        reports = [line for line in lines if line.startswith("report ")]
        for line, certificate in zip(reports, lines[-3:]):
            said = self.judged(certificate, line)
            self.assertEqual(said["version"], 3)
        self.assertEqual([len(json.loads(it)["nodes"]) for it in lines[-3:]], [1100, 1045, 1045])
        numbers = [report(line)["k"] for line in reports]
        self.assertTrue(all(numbers), numbers)
        header, row = (line.split(",") for line in self.printed("sweep", *self.LARGE, "--runs", "1"))
        told = dict(zip(header, row))
        self.assertEqual([int(told[f"{phase}_k"]) for phase in ("settle", "crash", "heal")], numbers)
        self.assertEqual([told[f"{phase}_entries"] for phase in ("settle", "crash", "heal")],
                         [line.split()[1] for line in reports])
        settled = json.loads(lines[-3])
        graph = text_of(settled["nodes"], map(tuple, settled["links"])).splitlines()
        self.assertEqual(self.simulated(*self.LARGE, "--graph"), graph)


class Edges(Programs):
    """The limits of both scales."""

    def test_births(self):
        for scale, most, _ in SCALES:
            lines = self.printed("run", given=scale + births(most + 1))
            self.assertEqual(lines, [*(f"entry {it} born {it}" for it in range(1, most + 1)), "refused 13"])
        self.assertEqual(self.printed("run", given=SCALES[1][0] + births(257))[-1], "entry 257 born 257")

    def test_births_of_those_that_are_gone_count(self):
        gone = "crash 1\ncrash 2\nboot 257\nboot 1\n"
        self.assertEqual(self.printed("run", given=births(256) + gone)[-2:], ["refused 13", "refused 11"])
        lines = self.printed("run", given=SCALES[1][0] + births(256) + gone)[-2:]
        self.assertEqual(lines, ["entry 259 born 257", "refused 11"])

    def test_a_full_bag(self):
        """Of the places 64 must be free: the JOIN is repeated until one place is taken too many."""
        for scale, _, places in SCALES:
            repeats = places - FREE
            given = scale + "boot 1\nboot 2 by 1\n" + repeats * "repeat 0\n"
            ends = "repeat 0\nboot 3\nshuffle 1\ndeliver 0\nlose 0\nrepeat 0\nlose 0\nboot 3\n"
            lines = self.printed("run", given=given + ends)
            self.assertEqual(lines[:2], ["entry 1 born 1", "entry 2 born 2"])
            self.assertEqual(lines[2 : 2 + repeats], [f"entry {it}" for it in range(3, 3 + repeats)])
            last = 2 + repeats
            told = ["refused 15"] * 4 + [f"entry {last + 1}", f"entry {last + 2}", f"entry {last + 3}"]
            self.assertEqual(lines[2 + repeats :], [*told, f"entry {last + 4} born 3"])

    def test_a_full_journal(self):
        for scale, last in (SCALES[0][0], ["refused 16"] * 2), (SCALES[1][0], ["entry 65537", "entry 65538 gone 1"]):
            given = scale + "boot 1\n" + (MOST_ENTRIES - 1) * "shuffle 1\n" + "shuffle 1\ncrash 1\n"
            lines = self.printed("run", given=given)
            self.assertEqual(lines[1:-2], [f"entry {it}" for it in range(2, MOST_ENTRIES + 1)])
            self.assertEqual(lines[-2:], last)


class Certificates(Programs):
    """Those of a run are of version 3 exactly where there are more nodes or later moments than version 2 has."""

    def version(self, scenario):
        """The version of the certificate that a scenario ends with, of the report before."""
        *_, line, certificate = self.printed("run", "--strict", given=scenario)
        return self.judged(certificate, line)["version"]

    def test_versions_by_nodes(self):
        for count, version in (256, 1), (257, 2), (MOST_NODES, 2), (MOST_NODES + 1, 3):
            look = f"snapshot\nanalyse {count + 1}\ncertificate {count + 1}\n"
            self.assertEqual(self.version(SCALES[1][0] + births(count) + look), version, count)

    def test_versions_by_moments(self):
        for moment, version in (LAST_MOMENT, 1), (LAST_MOMENT + 1, 3):
            idle = "shuffle 1\n" * (moment - 2)
            look = f"snapshot\nanalyse {moment}\ncertificate {moment}\n"
            self.assertEqual(self.version(f"{SCALES[1][0]}boot 1\n{idle}{look}"), version, moment)

    def test_groups(self):
        count = 300
        scenario = chain(count)
        moment = int(self.printed("run", given=scenario + "snapshot\n")[-1].removeprefix("entry "))
        looks = (f"analyse {moment} group 1,{count}", f"analyse {moment} group 7,8,9", f"analyse {moment} group 7,7",
                 f"analyse {moment}", f"analyse {moment} group 1,{count}", f"analyse {moment - 1} group 1,2",
                 f"certificate {moment} group 1,{count}", f"certificate {moment} group 7,8")
        lines = self.assert_as_asked("\n".join([scenario + "snapshot", *looks, ""]))
        self.assertEqual(lines[-4:-2] + lines[-1:], ["refused 52", "refused 50", "refused 50"])
        self.assertTrue(lines[-8].endswith(f" group 1,{count}"), lines[-8])
        self.judged(lines[-2], lines[-8])


class Sections(Programs):
    def test_sections_of_a_large_world(self):
        count = 260
        scenario = chain(count) + "snapshot\n"
        moment = int(self.printed("run", given=scenario)[-1].removeprefix("entry "))
        block = f"together\nanalyse {moment}\nalso\ncrash 100\nalso\nboot {count + 1}\nend\n"
        ends = f"snapshot\nanalyse {moment + 3}\nanalyse {moment + 3} group 1,{count + 1}\nshow 99\nanalyse {moment}\n"
        lines = self.assert_as_asked(scenario + block + ends)
        self.assertEqual(lines[-1], "refused 52")

    def test_sections_that_ask_for_the_same_places(self):
        """Of two births in sections one is the 257th, whichever comes last, and the profile's scale refuses it."""
        for scale, told in (SCALES[0][0], "together 2 accepted 1 refused 1"), (SCALES[1][0], "together 2 accepted 2"):
            block = "together\nboot 1000\nalso\nboot 1001\nend\n"
            lines = self.assert_as_asked(scale + births(255) + block + "snapshot\n")
            self.assertTrue(lines[-2].startswith(told), lines[-2])


class Rows(Programs):
    """Rows of overlays of 300 nodes, read again."""

    RUNS, SWEEP = 4, ("sweep", "--nodes", "300", "--active", "3,8", "--crash", "10", "--rounds", "1", "--heal", "1")

    def test_rows_are_read_again(self):
        words = *self.SWEEP, "--runs", self.RUNS
        header, *rows = self.printed(*words)
        told = [dict(zip(header.split(","), row.split(","))) for row in rows]
        self.assertEqual([(it["active"], it["seed"]) for it in told],
                         [(active, str(seed)) for active in "38" for seed in range(self.RUNS)])
        with tempfile.TemporaryDirectory() as room:
            file = pathlib.Path(room, "rows.csv")
            file.write_text("\n".join([header, *rows, ""]))
            for asked in ["--summary"], ["--at-most-split", "60"], ["--at-most-split", "1"]:
                # a sweep that grows says on standard error beforehand where its runs are too few
                grown, _, status = run(OVERLAY, *words, *asked)
                self.assertEqual((self.printed("sweep", "--read", file, *asked), status), (grown.splitlines(), 0))
            for active in "38":
                split = sum(it["active"] == active and it["heal_k"] == "0" for it in told)
                lines = map(str.split, self.printed("sweep", "--read", file, "--at-most-split", "60"))
                self.assertIn([active, str(self.RUNS), str(split)], [line[:3] for line in lines])
            scenario = self.printed("grow", "--row", f"{file}:6")
            alone = "--nodes", "300", "--active", "8", "--crash", "10", "--rounds", "1", "--heal", "1", "--seed", "1"
            self.assertEqual(scenario, self.printed("grow", *alone))
            self.assertEqual(self.printed("sweep", *alone, "--runs", "1"), [header, rows[5]])


class Bounds(Programs):
    """With little memory a sweep prints the right row, or says that memory is out, and prints no row; on a small stack
    a program does its work."""

    SWEEP = "sweep", "--nodes", "3000", "--runs", "1"
    GROW = "grow", "--nodes", "3000", "--rounds", "0", "--heal", "0"
    CANNOT_START = 127

    def bounded(self, kind, most, words, given=""):
        """What a program prints, the first line on standard error, and its status, with so much of a resource."""
        limits = {"preexec_fn": lambda: resource.setrlimit(kind, (most, most)), "timeout": 600}
        ended = subprocess.run([OVERLAY, *words], input=given.encode(), capture_output=True, **limits)
        return ended.stdout.decode(), ended.stderr.decode().partition("\n")[0], ended.returncode

    def test_little_memory(self):
        header, row = self.printed(*self.SWEEP)
        right, refused = (f"{header}\n{row}\n", "", 0), (f"{header}\n", "refused 99", 1)
        bounds = [1_000_000_000, 500_000_000, 200_000_000, 100_000_000]
        bounds += [it * 1_000_000 for it in range(10, 100, 1 if MORE else 30)]
        seen = []
        for most in bounds:
            with self.subTest(most):
                seen.append(self.bounded(resource.RLIMIT_AS, most, self.SWEEP))
                self.assertIn(seen[-1], [right, refused])
        self.assertEqual(seen[:3], [right] * 3)
        self.assertIn(refused, seen)

    def test_a_small_stack(self):
        grown = self.printed(*self.GROW)
        scenario = "\n".join([*grown, ""])
        ran = "\n".join([*self.printed("run", given=scenario), ""])
        for words, given, right in (self.GROW, "", scenario), (("run",), scenario, ran):
            ended = self.bounded(resource.RLIMIT_STACK, 256 * 1024, words, given)
            self.assertTrue(ended == (right, "", 0), (words, ended[1:]))


if __name__ == "__main__":
    unittest.main(argv=[it for it in sys.argv if it != "--more"])
