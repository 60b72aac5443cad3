"""Tests of very many forms of dumps: each is read as the same overlay, right away or by the words that a refusal names,
or is refused with a reason. They need both programs."""

import contextlib
import io
import os
import pathlib
import tempfile
import unittest
from unittest import mock

from tagzirk.command import main
from tagzirk.dumps import read_graph_file

from tests.many_forms import FORMS, RING


class ManyForms(unittest.TestCase):
    def setUp(self):
        room = tempfile.TemporaryDirectory()
        self.addCleanup(room.cleanup)
        self.place = os.path.join(room.name, "net")

    def imported(self, *words):
        """What `tagzirk import` prints on standard output and standard error, and its status."""
        out, err = io.StringIO(), io.StringIO()
        with contextlib.redirect_stdout(out), contextlib.redirect_stderr(err), mock.patch("sys.stdin", None):
            status = main(["import", self.place, *words])
        return out.getvalue(), err.getvalue(), status

    def links(self, graph_file):
        """The hosts of a graph file, and its links by their names."""
        graph = read_graph_file(graph_file)
        return set(graph.ids), {frozenset((graph.names[a], graph.names[b])) for a, b in graph.pairs}

    def test_each_form(self):
        for it in FORMS:
            with self.subTest(it.name):
                pathlib.Path(self.place).write_bytes(it.data)
                out, err, status = self.imported(*it.words)
                if it.told is not None:
                    self.assertEqual((out, status), ("", 1), err)
                    self.assertIn(it.told, err)
                    continue
                self.assertEqual(status, 0, err)
                wanted = {frozenset((it.hosts[a - 1], it.hosts[b - 1])) for a, b in RING}
                self.assertEqual(self.links(out), (set(it.hosts), wanted), err)

    def test_a_refusal_names_the_words(self):
        for it in FORMS:
            if not it.words:
                continue
            with self.subTest(it.name):
                pathlib.Path(self.place).write_bytes(it.data)
                out, err, status = self.imported()
                if status == 0:
                    # it is read without these words too, with other names or fewer links
                    self.assertIn(it.words[0], ("--by", "--either"))
                else:
                    self.assertEqual((out, status), ("", 1), err)
                    self.assertIn(it.words[0], err)


if __name__ == "__main__":
    unittest.main()
