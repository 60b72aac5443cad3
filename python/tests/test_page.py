"""The examples of README.md, docs/OPERATING.md and docs/DUMPS.md are run: each line `$ ..` of a block `console`, with
what it prints. And the types of the package are checked, if mypy is there."""

import os
import pathlib
import re
import shutil
import subprocess
import sys
import tempfile
import unittest

from tagzirk.programs import CHECKOUT, find

# Each page, with the commands that it has an example of.
PAGES = {
    CHECKOUT / "python" / "README.md": ("import", "mend", "each", "history", "metrics", "report"),
    CHECKOUT / "docs" / "OPERATING.md": ("status", "diff", "each"),
    CHECKOUT / "docs" / "DUMPS.md": ("import",),
}
BLOCK = re.compile(r"^```console\n(.*?)^```$", re.DOTALL | re.MULTILINE)
COMMAND = re.compile(r"^\$ (.*)\n((?:(?!\$ ).*\n)*)", re.MULTILINE)


class Page(unittest.TestCase):
    def test_the_examples(self):
        for page, commands in PAGES.items():
            blocks = BLOCK.findall(page.read_text())
            examples = [it for block in blocks for it in COMMAND.findall(block)]
            self.assertEqual("".join(f"$ {command}\n{printed}" for command, printed in examples), "".join(blocks))
            for command in commands:
                self.assertTrue(any(f"tagzirk {command}" in it for it, _ in examples), command)
            with tempfile.TemporaryDirectory() as room:
                self.run_all(examples, pathlib.Path(room))

    def run_all(self, examples, room):
        """Runs the examples among the dumps of the repository, one after the other."""
        dumps, programs = room / "dumps", room / "bin"
        shutil.copytree(CHECKOUT / "examples" / "dumps", dumps)
        programs.mkdir()
        for name, program in ("overlay", find("overlay", None)), ("overlay-check", find("overlay_check", None)):
            (programs / name).symlink_to(os.path.abspath(program))
        (programs / "tagzirk").write_text(f'#!/bin/sh\nexec "{sys.executable}" -B -m tagzirk "$@"\n')
        (programs / "tagzirk").chmod(0o755)
        environment = {
            **os.environ,
            "PATH": f"{programs}:{os.environ['PATH']}",
            "TZ": "UTC",
            "PYTHONPATH": str(CHECKOUT / "python"),
        }
        for command, printed in examples:
            ended = subprocess.run(
                ["bash", "-c", command],
                cwd=dumps,
                env=environment,
                stdin=subprocess.DEVNULL,
                stdout=subprocess.PIPE,
                stderr=subprocess.STDOUT,
                timeout=60,
            )
            self.assertEqual(ended.stdout.decode(), printed, command)


class Types(unittest.TestCase):
    @unittest.skipUnless(shutil.which("mypy"), "mypy is not there")
    def test_the_package(self):
        words = ["mypy", "--config-file=pyproject.toml", f"--cache-dir={CHECKOUT}/out/mypy", "tagzirk"]
        ended = subprocess.run(words, cwd=CHECKOUT / "python", stdout=subprocess.PIPE, stderr=subprocess.STDOUT)
        self.assertEqual(ended.returncode, 0, ended.stdout.decode())


if __name__ == "__main__":
    unittest.main()
