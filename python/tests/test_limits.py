"""Tests of how much a dump may ask for: short texts that ask for much time or memory are read or refused within bounds,
and what can't be read is told, without a traceback. They need both programs."""

import gzip
import pathlib
import random
import subprocess
import sys
import unittest

from tagzirk.errors import BadDump
from tagzirk.limits import MOST_UNPACKED, unpacked
from tagzirk.racks import racks_of

HEAVY = pathlib.Path(__file__).resolve().parent / "heavy_dumps.py"


class Heavy(unittest.TestCase):
    def test_each_ends(self):
        # memory is measured by a process that is small itself
        words = [sys.executable, "-B", HEAVY, "--quick"]
        ended = subprocess.run(words, stdout=subprocess.PIPE, stderr=subprocess.STDOUT, text=True)
        self.assertEqual(ended.returncode, 0, ended.stdout)


class Packed(unittest.TestCase):
    def test_what_is_unpacked(self):
        source = random.Random(7)
        host = "{{'name': 'host-{}.example.net', 'state': 'Established', 'peers': []}}\n"
        large = "".join(host.format(source.randrange(10**6)) for _ in range(40_000)).encode()
        for data in (b"", b"a b\n", bytes(999_990), large):
            packed = gzip.compress(data)
            self.assertEqual(unpacked(packed), data)
            self.assertEqual(unpacked(packed + bytes(9) + gzip.compress(b"b c\n")), data + b"b c\n")
            for cut in (9, len(packed) // 2, len(packed) - 1):
                with self.assertRaisesRegex(BadDump, "torn"):
                    unpacked(packed[:cut])
        self.assertGreater(len(large), 2_000_000)

    def test_bombs(self):
        for data in (bytes(1_000_001), b"a b\n" * 400_000, bytes(MOST_UNPACKED + 1)):
            with self.assertRaisesRegex(BadDump, "it may be a bomb: `zcat FILE"):
                unpacked(gzip.compress(data))
        # however little it is packed
        with self.assertRaisesRegex(BadDump, f"unpack to more than {MOST_UNPACKED:,}, so"):
            unpacked(gzip.compress(random.Random(8).randbytes(MOST_UNPACKED + 1), 0))

    def test_many_parts_take_no_time(self):
        heads = []
        self.assertEqual(unpacked(gzip.compress(b"") * 40_000, heads), b"")
        self.assertEqual((len(heads), {len(it) for it in heads}), (40_000, {20}))


class Racks(unittest.TestCase):
    def test_what_is_refused(self):
        for text, told in (
            ('{"a": ' * 100_000, "nested too deep"),
            ('{"r1": ["a"], "r1": ["b"]}', "the key r1 twice"),
            (f"{'a' * 140_000},r1\n", "line 1 is no row of a table"),
        ):
            with self.assertRaisesRegex(BadDump, f"^racks: .*{told}"):
                racks_of(text, "racks")


if __name__ == "__main__":
    unittest.main()
