"""Tests of files that commands write: nothing that somebody else wrote is lost, and what is no file is not replaced."""

import os
import stat
import subprocess
import sys
import threading
from unittest import mock

from tagzirk.outputs import Output, write
from tagzirk.programs import CHECKOUT

from .test_commands import CLIQUES, Commands, edges_of, matplotlib

PATH = "a b\nb c\n"


class Kept(Commands):
    """Files that are not to be overwritten."""

    def cases(self):
        """Each command that writes a file, with the option that names it: the words, and the option."""
        dump = self.file("net", edges_of(CLIQUES))
        found = [(["metrics", dump], "--textfile"), (["mend", dump, "--to", "2"], "--graph")]
        found.append((["diff", dump, self.file("old", edges_of(CLIQUES))], "--html"))
        return dump, found + [(["history", dump], "--svg")] * bool(matplotlib)

    def test_an_input(self):
        dump, cases = self.cases()
        for words, option in cases:
            out, err, status = self.tagzirk(*words, option, dump)
            self.assertEqual((out, status), ("", 1), words)
            self.assertIn(f"{option} {dump}: it is an input, and would be overwritten", err)
            with open(dump) as file:
                self.assertEqual(file.read(), edges_of(CLIQUES))

    def test_an_input_by_another_name(self):
        dump, _ = self.cases()
        os.link(dump, self.room / "hard")
        os.symlink(dump, self.room / "soft")
        for name in "hard", "soft":
            self.assertEqual(self.tagzirk("metrics", dump, "--textfile", self.room / name)[2], 1, name)
        self.file("hosts/oslo", "rome\n")
        inner = self.file("hosts/rome", "# HELP tagzirk_dump_read\noslo\n")
        self.assertIn("is an input", self.tagzirk("metrics", self.room / "hosts", "--textfile", inner)[1])
        racks = self.file("racks", "# tagzirk mend\na r\n")
        output = Output("each", "--graph", racks, ("# tagzirk mend",))
        with self.assertRaisesRegex(Exception, "is an input"):
            output.demand_free([dump, racks])

    def test_a_file_of_somebody_else(self):
        _, cases = self.cases()
        for text in '{"oslo": ["rome"]}', "# 1 oslo\nnode 1\n", "<?xml version='1.0'?><svg/>", "\n", b"\xff\xfe\x00":
            for words, option in cases:
                other = self.file("other", text)
                before = (self.room / "other").read_bytes()
                out, err, status = self.tagzirk(*words, option, other)
                self.assertEqual((out, status), ("", 1), (words, text))
                self.assertEqual((self.room / "other").read_bytes(), before)
                self.assertIn("did not write this file", err)
                self.assertIn("add --force", err)

    def test_the_dump_is_forgotten(self):
        dump, _ = self.cases()
        out, err, status = self.tagzirk("metrics", "--textfile", dump)
        self.assertEqual((out, status), ("", 1))
        self.assertIn("tagzirk metrics FILE --textfile OTHER", err)

    def test_force_and_what_was_written_before(self):
        _, cases = self.cases()
        for words, option in cases:
            place = self.file("made", "somebody's\n")
            self.assertEqual(self.tagzirk(*words, option, place, "--force")[2], 0, words)
            written = (self.room / "made").read_text()
            self.assertNotIn("somebody", written)
            # and now the command knows its own file
            self.assertEqual(self.tagzirk(*words, option, place)[2], 0, words)
            self.file("made", "")
            self.assertEqual(self.tagzirk(*words, option, place)[2], 0, words)
            self.assertEqual((self.room / "made").read_text()[:40], written[:40])

    def test_the_graph_is_read_again(self):
        dump, _ = self.cases()
        made = self.room / "made.graph"
        self.tagzirk("mend", dump, "--to", "2", "--graph", made)
        self.assertIn("k is 2 now", self.tagzirk("each", made)[0])

    def test_no_file(self):
        dump, cases = self.cases()
        for words, option in cases:
            for place, told in (self.room, "it is a folder"), (self.room / "none" / "x", "there is no folder"):
                _, err, status = self.tagzirk(*words, option, place)
                self.assertEqual((status, told in err, "Traceback" in err), (1, True, False), err)
        self.assertEqual({it.name for it in self.room.iterdir()}, {"net", "old"})


class InFolders(Commands):
    """Files in a folder that is read, which the next time would be read too."""

    def setUp(self):
        super().setUp()
        for host, peers in ("oslo", "rome\n"), ("rome", "oslo\nbern\n"), ("bern", "rome\n"):
            self.file(f"hosts/{host}", peers)
        self.hosts = self.room / "hosts"
        self.before = sorted(self.room.rglob("*"))

    def test_files_of_options(self):
        (self.room / "link").symlink_to(self.hosts)
        (self.room / "out").symlink_to(self.hosts / "new")
        self.before = sorted(self.room.rglob("*"))
        for place in "hosts/new", "link/new", "out":
            for words in ["metrics", self.hosts, "--textfile"], ["mend", self.hosts, "--to", "2", "--graph"]:
                for more in [], ["--force"]:
                    out, err, status = self.tagzirk(*words, self.room / place, *more)
                    self.assertEqual((out, status), ("", 1), (words, place))
                    self.assertIn(f"the folder {self.hosts} is an input, and the next time this file would be one", err)
        self.assertEqual(sorted(self.room.rglob("*")), self.before)
        for place in self.hosts / ".hidden", self.room / "new":
            self.assertEqual(self.tagzirk("metrics", self.hosts, "--textfile", place)[2], 0, place)
            self.assertEqual(self.tagzirk("metrics", self.hosts, "--textfile", place)[2], 0, place)

    def test_history(self):
        """Of a folder of dumps, some of which are folders of one file a host."""
        self.file("days/one", "a b\n")
        self.hosts.rename(self.room / "days" / "two")
        days, before = self.room / "days", sorted(self.room.rglob("*"))
        for place in days / "day.svg", days / "two" / "day.svg":
            out, err, status = self.tagzirk("history", days, "--svg", place)
            self.assertEqual((out, status, f"the folder {place.parent} is an input" in err), ("", 1, True), err)
        self.assertEqual(sorted(self.room.rglob("*")), before)

    def test_standard_output(self):
        """The shell makes the file, or empties it, before the command begins."""
        edges, days = self.file("net.edges", PATH), self.room / "days"
        self.hosts.rename(self.file("days/one", "a b\n").replace("one", "two"))
        for words, place, told in (
            (["report", days / "two"], days / "two" / "new", f"a file in {days / 'two'}, all of which are read"),
            (["history", days], days / "two" / "new", f"a file in {days / 'two'}, all of which are read"),
            (["history", days], days / "new", f"a file in {days}, all of which are read: remove it"),
            (["diff", "--html", "-", edges, days / "one"], days / "one", f"{days / 'one'}, which is read: name"),
            (["import", edges], edges, f"{edges}, which is read: name another file behind >"),
        ):
            with open(place, "w") as out:
                ended = subprocess.run(
                    [sys.executable, "-B", "-m", "tagzirk", *words],
                    stdout=out,
                    stderr=subprocess.PIPE,
                    cwd=CHECKOUT / "python",
                    timeout=60,
                )
            self.assertIn(f"standard output goes to {told}", ended.stderr.decode())
            self.assertEqual((ended.returncode, os.path.getsize(place)), (1, 0))


class Written(Commands):
    """How a file is written."""

    def test_whole_or_as_it_was(self):
        place = self.room / "made"
        write(place, "one\n")
        for name in "os.replace", "os.chmod":
            with mock.patch(name, side_effect=OSError(28, "No space left on device")):
                with self.assertRaises(OSError) as raised:
                    write(place, "two\n")
            self.assertEqual(raised.exception.filename, str(place))
            self.assertEqual(place.read_text(), "one\n")
            self.assertEqual([it.name for it in self.room.iterdir()], ["made"])

    def test_rights_and_links_stay(self):
        place = self.room / "made"
        write(place, "one\n")
        place.chmod(0o640)
        (self.room / "link").symlink_to(place)
        write(self.room / "link", "two\n")
        self.assertEqual((place.read_text(), stat.S_IMODE(place.stat().st_mode)), ("two\n", 0o640))
        self.assertTrue((self.room / "link").is_symlink())

    def test_a_pipe(self):
        pipe, heard = self.room / "pipe", []
        os.mkfifo(pipe)
        listener = threading.Thread(target=lambda: heard.append(pipe.read_text()))
        listener.start()
        self.assertEqual(self.tagzirk("metrics", self.file("net", PATH), "--textfile", pipe)[2], 0)
        listener.join(20)
        self.assertIn("tagzirk_connectivity 1.0\n", heard[0])
        self.assertTrue(stat.S_ISFIFO(pipe.stat().st_mode))

    def test_a_device(self):
        one, other = os.openpty()
        self.addCleanup(os.close, one)
        device = os.ttyname(other)
        before = os.stat(device)
        self.assertEqual(self.tagzirk("mend", self.file("net", PATH), "--to", "2", "--graph", device)[2], 0)
        self.assertTrue(os.path.samestat(os.stat(device), before))
        self.assertTrue(os.read(one, 1000).startswith(b"# tagzirk mend --to 2\r\n# 1 a\r\nnode 1\r\n"))
        os.close(other)

    def test_standard_output_by_its_name(self):
        place = self.room / "out"
        place.write_text("before\n")
        words = [sys.executable, "-B", "-m", "tagzirk", "metrics", self.file("net", PATH), "--textfile", "/dev/stdout"]
        with place.open("a") as out:
            ended = subprocess.run(words, stdout=out, cwd=CHECKOUT / "python", timeout=60)
        self.assertEqual(ended.returncode, 0)
        self.assertEqual(place.read_text()[:31], "before\n# HELP tagzirk_dump_read")
        self.assertEqual([it.name for it in self.room.iterdir() if "part" in it.name], [])
