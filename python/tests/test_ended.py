"""Tests of commands that a signal ends: no half file, nothing beside it, and no program that goes on."""

import os
import pathlib
import signal
import subprocess
import sys
import time

from tagzirk.programs import CHECKOUT

from .test_commands import Commands

# A program that says by a file that it runs, and then takes longer than its end may take.
SLOW = """#!/bin/sh
echo $$ > "{room}/running.$$"
exec sleep 100
"""
# The command, in which the file is complete and not yet in its place when the signal comes.
AT_THE_END = """
import os, signal, sys
from tagzirk import outputs
from tagzirk.command import main

def ended(part, place):
    assert os.path.getsize(part) > 0 and not os.path.exists(place)
    os.kill(os.getpid(), signal.SIGTERM)

outputs.os.replace = ended
sys.exit(main())
"""


class Ended(Commands):
    def setUp(self):
        super().setUp()
        self.dump = self.file("net", "".join(f"n{at} n{(at + 1) % 12}\n" for at in range(12)))
        (self.room / "temporary").mkdir()
        self.slow = self.file("slow", SLOW.format(room=self.room))
        os.chmod(self.slow, 0o755)
        self.before = sorted(self.room.iterdir())

    def begun(self, *words, **variables):
        """A command that was started."""
        kept = {**os.environ, "TMPDIR": str(self.room / "temporary"), **variables}
        piped = subprocess.PIPE
        return subprocess.Popen(
            [sys.executable, "-B", *map(str, words)],
            stdin=piped,
            stdout=piped,
            stderr=piped,
            cwd=CHECKOUT / "python",
            env=kept,
        )

    def test_while_programs_run(self):
        made = self.room / "made"
        for words, variable in (
            (["metrics", self.dump, "--textfile", made], "TAGZIRK_OVERLAY"),
            (["metrics", self.dump, "--textfile", made], "TAGZIRK_OVERLAY_CHECK"),
            (["mend", self.dump, "--to", 3, "--graph", made], "TAGZIRK_OVERLAY_CHECK"),
            (["history", self.dump, self.file("other", "a b\n"), "--workers", 2], "TAGZIRK_OVERLAY_CHECK"),
        ):
            with self.subTest(words=words, variable=variable):
                self.before = sorted(self.room.iterdir())
                with self.begun("-m", "tagzirk", *words, **{variable: self.slow}) as command:
                    running = self.running(2 if words[0] == "history" else 1)
                    command.send_signal(signal.SIGTERM)
                    out, _ = command.communicate(timeout=60)
                self.assertEqual((command.returncode, out), (128 + signal.SIGTERM, b""))
                self.assertFalse(any(map(self.is_there, running)))
                self.assertEqual(sorted(self.room.iterdir()), self.before)
                self.assertEqual(list((self.room / "temporary").iterdir()), [])

    def running(self, number):
        """The numbers of so many programs that have begun, as they wrote them."""
        for _ in range(600):
            found = [it for it in self.room.glob("running.*") if it.read_text()]
            if len(found) == number:
                numbers = [int(it.read_text()) for it in found]
                for it in found:
                    it.unlink()
                return numbers
            time.sleep(0.1)
        self.fail("no program was started")

    @staticmethod
    def is_there(process):
        """Whether a process runs, after some time to end."""
        for _ in range(50):
            place = pathlib.Path(f"/proc/{process}/stat")
            if not place.exists() or place.read_text().rpartition(")")[2].split()[0] == "Z":
                return False
            time.sleep(0.1)
        return True

    def test_before_a_file_is_in_its_place(self):
        for words in ["metrics", self.dump, "--textfile"], ["mend", self.dump, "--to", "3", "--graph"]:
            with self.begun("-c", AT_THE_END, *words, self.room / "made") as command:
                _, err = command.communicate(timeout=60)
            self.assertEqual((command.returncode, err), (128 + signal.SIGTERM, b""))
            self.assertEqual(sorted(self.room.iterdir()), self.before)
