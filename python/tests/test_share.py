"""Tests of what python/share has for Prometheus, Grafana and systemd, each by its own program where that is there."""

import itertools
import json
import re
import shutil
import subprocess
import unittest
from unittest import mock

import tagzirk
from tagzirk.gauges import HELP
from tagzirk.programs import CHECKOUT

from .test_commands import CLIQUES, DUMPS, Commands, edges_of

try:
    from prometheus_client.parser import text_string_to_metric_families as families
except ImportError:
    families = None

SHARE = CHECKOUT / "python" / "share"
RULES = SHARE / "prometheus" / "tagzirk.rules.yml"
has_promtool = unittest.skipUnless(shutil.which("promtool"), "promtool is not there")


class Rules(Commands):
    def promtool(self, *words, given=""):
        ended = subprocess.run(
            ["promtool", *map(str, words)], input=given.encode(), stdout=subprocess.PIPE, stderr=subprocess.STDOUT
        )
        return ended.returncode, ended.stdout.decode()

    def run_tests(self, rules):
        """What the tests of rules say of a file of rules."""
        text = (CHECKOUT / "python" / "tests" / "rules.test.yml").read_text()
        return self.promtool("test", "rules", self.file("rules.test.yml", text.replace("[RULES]", f"[{rules}]")))

    @has_promtool
    def test_each_alarm(self):
        status, said = self.promtool("check", "rules", RULES)
        self.assertEqual(status, 0, said)
        status, said = self.run_tests(RULES)
        self.assertEqual(status, 0, said)

    @has_promtool
    def test_that_the_tests_see_a_wrong_rule(self):
        text = RULES.read_text()
        for name in re.findall(r"- alert: (\w+)", text):
            wrong = re.sub(rf"(alert: {name}\n(?: *#.*\n)*) *expr: .*", r"\1        expr: vector(0) > 1", text)
            self.assertNotEqual(wrong, text)
            self.assertNotEqual(self.run_tests(self.file("wrong.yml", wrong))[0], 0, name)
        for old, new in (
            ("unless tagzirk_dump_read\n", "unless on() tagzirk_dump_read\n"),
            ("> 300", "> 3000"),
            (" and tagzirk_all_linked == 0", ""),
            ("0.9 *", "0.99 *"),
        ):
            self.assertIn(old, text)
            self.assertNotEqual(self.run_tests(self.file("wrong.yml", text.replace(old, new)))[0], 0, old)

    @has_promtool
    def test_what_is_written(self):
        out, _, _ = self.tagzirk(
            "metrics", "--entries", DUMPS / "cluster.json", "--textfile", "-", "--label", 'overlay=a"b\\'
        )
        status, said = self.promtool("check", "metrics", given=out)
        self.assertEqual((status, said), (0, ""))

    @has_promtool
    def test_the_dashboard(self):
        board = json.loads((SHARE / "grafana" / "tagzirk.json").read_text())
        asked = [target["expr"] for panel in board["panels"] for target in panel["targets"]]
        rules = [{"record": f"x:{at}", "expr": it.replace("$overlay", ".*")} for at, it in enumerate(asked)]
        place = self.file("board.json", json.dumps({"groups": [{"name": "board", "rules": rules}]}))
        status, said = self.promtool("check", "rules", place)
        self.assertEqual((status, f"{len(asked)} rules found" in said), (0, True), said)

    def test_metrics_that_are_named_are_written(self):
        for place in RULES, SHARE / "grafana" / "tagzirk.json":
            named = set(re.findall(r"\btagzirk_\w+", place.read_text()))
            self.assertLessEqual({"tagzirk_connectivity", "tagzirk_dump_read", "tagzirk_doubts"}, named)
            self.assertLessEqual(named, set(HELP), place)

    def test_panels_do_not_overlap(self):
        panels = json.loads((SHARE / "grafana" / "tagzirk.json").read_text())["panels"]
        self.assertEqual(len({it["id"] for it in panels}), len(panels))
        cells = [
            (x, y)
            for at in (it["gridPos"] for it in panels)
            for x, y in itertools.product(range(at["x"], at["x"] + at["w"]), range(at["y"], at["y"] + at["h"]))
        ]
        self.assertEqual(len(set(cells)), len(cells))
        self.assertLess(max(x for x, _ in cells), 24)


class Units(Commands):
    @unittest.skipUnless(shutil.which("systemd-analyze"), "systemd-analyze is not there")
    def test_they_are_right(self):
        for kind in "service", "timer":
            text = (SHARE / "systemd" / f"tagzirk-metrics@.{kind}").read_text()
            # the command need not be installed where this is tested
            self.file(f"tagzirk-metrics@.{kind}", text.replace("/usr/local/bin/tagzirk", "/bin/true"))
        for kind in "service", "timer":
            words = ["systemd-analyze", "verify", str(self.room / f"tagzirk-metrics@.{kind}")]
            ended = subprocess.run(words, stdout=subprocess.PIPE, stderr=subprocess.STDOUT)
            said = [it for it in ended.stdout.decode().splitlines() if "tagzirk" in it]
            self.assertEqual((ended.returncode, said), (0, []), ended.stdout.decode())

    def test_the_command_of_the_service(self):
        """What systemd would run, with its variables filled in."""
        unit = (SHARE / "systemd" / "tagzirk-metrics@.service").read_text()
        (line,) = re.findall(r"^ExecStart=\S+ (.*)$", unit, re.MULTILINE)
        values = {"${DUMP}": str(DUMPS / "cluster.json"), "$OPTIONS": "--all", "${TEXTFILES}": str(self.room)}
        for name, value in values.items():
            line = line.replace(name, value)
        self.assertEqual(self.tagzirk(*line.replace("%i", "prod").split())[1:], ("", 0))
        text = (self.room / "tagzirk-prod.prom").read_text()
        self.assertIn('tagzirk_connectivity{overlay="prod"} 2.0\n', text)


class Labels(Commands):
    @unittest.skipUnless(families, "prometheus_client is not there")
    def test_each_metric_has_them(self):
        value = 'p"r\\o\nd'
        out, _, _ = self.tagzirk("metrics", "--textfile", "-", "--label", f"overlay={value}", given=edges_of(CLIQUES))
        samples = [sample for family in families(out) for sample in family.samples]
        self.assertEqual({it.labels["overlay"] for it in samples}, {value})
        self.assertEqual({it.name for it in samples} - set(HELP), set())
        found = {it.name: it.value for it in samples}
        # by hand: c is the cut, the leaf is cut off from five others
        names = "connectivity", "pieces", "largest_piece", "hosts_cut_off"
        self.assertEqual([found[f"tagzirk_{it}"] for it in names], [1, 2, 5, 1])

    def test_a_torn_dump_has_them_too(self):
        out, _, status = self.tagzirk("metrics", "--textfile", "-", "--label", "overlay=prod", given="{")
        self.assertEqual((status, 'tagzirk_dump_read{overlay="prod"} 0.0\n' in out), (1, True))

    def test_what_is_no_label(self):
        for label in "prod", "=prod", "overlay=", "1a=b", "host=x", "a-b=c", "__a=b", "instance=x":
            out, err, status = self.tagzirk("metrics", "--textfile", "-", "--label", label, given="a b\n")
            self.assertEqual((out, status, "overlay=prod" in err), ("", 2, True), label)

    def test_two_overlays_of_one_machine(self):
        for name in "prod", "test":
            place = self.room / f"{name}.prom"
            self.tagzirk("metrics", "--textfile", place, "--label", f"overlay={name}", given="a b\n")
        lines = [
            line for name in ("prod", "test") for line in (self.room / f"{name}.prom").read_text().splitlines()
            if line[0] != "#"
        ]
        self.assertEqual(len({line.rpartition(" ")[0] for line in lines}), len(lines))

    def test_the_cut_is_the_worst(self):
        # of a path of seven the middle one cuts off three, and the second one a single host
        made = tagzirk.metrics([self.file("net", "".join(f"p{it} p{it + 1}\n" for it in range(1, 7)))])
        self.assertEqual(made.cut, ("p4",))
        self.assertEqual(
            [made.values[f"tagzirk_{it}"] for it in ("connectivity", "pieces", "largest_piece", "hosts_cut_off")],
            [1, 2, 3, 3],
        )

    def test_split_already(self):
        made = tagzirk.metrics([self.file("net", "a b\nb c\nd e\n")])
        self.assertEqual(
            [made.values[f"tagzirk_{it}"] for it in ("connectivity", "pieces", "largest_piece", "hosts_cut_off")],
            [0, 2, 3, 2],
        )

    def test_a_program_that_is_not_proved(self):
        for known, value in ((True, 1.0), (False, 0.0), (None, 0.0)):
            with mock.patch("tagzirk.proofs.is_proved", return_value=known):
                made = tagzirk.metrics([self.file("net", "a b\n")])
            self.assertEqual(made.proved, {"overlay": value, "overlay-check": value})


if __name__ == "__main__":
    unittest.main()
