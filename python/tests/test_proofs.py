"""Tests of which programs are asked, and whether they are said to be proved."""

import hashlib
import os
import pathlib
import re
import shutil
from unittest import mock

from tagzirk.errors import ProgramMissing
from tagzirk.programs import CHECKOUT, find
from tagzirk.proofs import VERSION, is_proved

from .test_commands import Commands


class Proofs(Commands):
    def test_by_the_record_of_an_installation(self):
        (self.room / "bin").mkdir()
        program = self.room / "bin" / "overlay-check"
        shutil.copy(find("overlay_check", None), program)
        checksum = hashlib.sha256(program.read_bytes()).hexdigest()
        self.assertIsNone(is_proved(program, "overlay_check"))
        for word, known in ("proved", True), ("unproved", False):
            self.file("share/x", "")
            self.file("share/tagzirk/programs", f"{'0' * 64} proved overlay\n{checksum} {word} overlay-check\n")
            self.assertIs(is_proved(program, "overlay_check"), known)
            # another program of this name, and the other program
            self.assertIsNone(is_proved(program, "overlay"))
        with program.open("ab") as file:
            file.write(b"\0")
        self.assertIsNone(is_proved(program, "overlay_check"))

    def test_by_the_folder_in_a_checkout(self):
        self.assertIs(is_proved(CHECKOUT / "crates" / "overlay" / "out" / "overlay", "overlay"), True)
        self.assertIs(is_proved(pathlib.Path("/x/out/unproved/overlay/12/overlay"), "overlay"), False)
        self.assertIsNone(is_proved(pathlib.Path("/nowhere/overlay"), "overlay"))

    def test_the_version(self):
        said = re.search('^version = "(.*)"$', (CHECKOUT / "python" / "pyproject.toml").read_text(), re.MULTILINE)
        self.assertEqual(VERSION, said[1])
        for words in ["--version"], ["-V"], ["version"]:
            out, err, status = self.tagzirk(*words)
            self.assertEqual((out.splitlines()[0], err, status), (f"tagzirk {VERSION}", "", 0))
            for name in "overlay", "overlay_check":
                self.assertIn(f"{find(name, None)}: ", out)

    def test_programs_that_are_not_there(self):
        with mock.patch("tagzirk.proofs.find", side_effect=ProgramMissing("none")):
            out, _, status = self.tagzirk("--version")
        self.assertIn("overlay-check was not found: put it on PATH by bin/install, or set the variable TAGZIRK_", out)
        with mock.patch.dict(os.environ, {"TAGZIRK_OVERLAY": "/nowhere/overlay"}):
            out, _, status = self.tagzirk("--version")
        self.assertIn("overlay was not found: TAGZIRK_OVERLAY is /nowhere/overlay, which is no program", out)

    def test_another_program_in_the_place_of_one(self):
        path = self.file("net", "a b\nb c\n")
        for variable, other in (
            ("TAGZIRK_OVERLAY", find("overlay_check", None)),
            ("TAGZIRK_OVERLAY", "/bin/true"),
            ("TAGZIRK_OVERLAY_CHECK", "/bin/true"),
            ("TAGZIRK_OVERLAY_CHECK", find("overlay", None)),
        ):
            for words in ["each", path], ["metrics", path, "--textfile", self.room / "out.prom"]:
                with mock.patch.dict(os.environ, {variable: other}):
                    out, err, status = self.tagzirk(*words)
                self.assertEqual((out, status), ("", 1))
                name = "overlay" if variable == "TAGZIRK_OVERLAY" else "overlay-check"
                self.assertIn(f"tip: {other}, which {variable} names, does not say that it is {name}:", err)
                self.assertEqual(err.count("does not say"), 1, err)
