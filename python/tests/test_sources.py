"""Tests of the sources of the package: Python 3.9 reads them, and they keep to the rules on how long things are."""

import ast
import unittest

from tagzirk.programs import CHECKOUT

OLDEST, MOST_COLUMNS, MOST_LINES, MOST_IN_A_FILE = (3, 9), 120, 40, 800


class Sources(unittest.TestCase):
    def setUp(self):
        places = (CHECKOUT / "python").rglob("*.py")
        self.sources = {str(it.relative_to(CHECKOUT)): it.read_text(encoding="utf-8") for it in places}
        self.assertIn("python/tagzirk/command.py", self.sources)

    def test_the_oldest_grammar(self):
        for place, text in self.sources.items():
            with self.subTest(place=place):
                ast.parse(text, place, feature_version=OLDEST)

    def test_how_long_things_are(self):
        for place, text in self.sources.items():
            lines = text.split("\n")
            long = [f"line {at}" for at, line in enumerate(lines, 1) if len(line) > MOST_COLUMNS]
            for it in ast.walk(ast.parse(text)):
                if isinstance(it, (ast.FunctionDef, ast.AsyncFunctionDef)):
                    begin = min([it.lineno, *(mark.lineno for mark in it.decorator_list)])
                    long += [it.name] * (it.end_lineno - begin >= MOST_LINES)
            long += ["the file"] * (len(lines) > MOST_IN_A_FILE)
            self.assertEqual(long, [], place)


if __name__ == "__main__":
    unittest.main()
