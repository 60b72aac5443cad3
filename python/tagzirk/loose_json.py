"""Values as Python, JavaScript and people write them, turned into JSON: texts in single quotes, keys without quotes,
comments, tuples, and a comma before a closing bracket."""

from __future__ import annotations

import json
import re
from typing import Dict, List, Match, Tuple

# A text in quotes, which need not have an end; a comment; a comma right before a closing bracket; the brackets of a
# tuple; a word.
TOKEN = re.compile(
    r'"[^"\\]*(?:\\.[^"\\]*)*(?:"|\\?\Z)'
    r"|'[^'\\\n]*(?:\\.[^'\\\n]*)*(?:'|\\?\Z|(?=\n))"
    r"|//[^\n]*|/\*[^*]*(?:\*(?!/)[^*]*)*(?:\*/|\Z)"
    r"|,(?=\s*[}\])])|[()]|[A-Za-z_$][\w$.-]*",
    re.DOTALL,
)
COLON = re.compile(r"\s*:")
# What is written otherwise between single quotes.
ESCAPED = re.compile(r"\\(.)|\"", re.DOTALL)
# A key that JavaScript writes without quotes.
PLAIN_KEY = re.compile(r"[A-Za-z_$][\w$]*")
WORDS = {"True": "true", "False": "false", "None": "null", "undefined": "null"}
SINGLE, DOUBLE, BARE = "in single quotes", "in double quotes", "keys without quotes"


class Loose:
    """A text that says values, as JSON, and what stands beside them: comments, and texts that are written otherwise
    than most.

    >>> Loose("{'a': ('b', None,)} // at noon").text, Loose("{a: []} // at noon").beside
    ('{"a": ["b", null]}  ', [('comments', '// at noon')])
    """

    def __init__(self, text: str) -> None:
        self.comments: List[str] = []
        self.ways: Dict[str, List[str]] = {SINGLE: [], DOUBLE: [], BARE: []}
        # keys in quotes that need none
        self.quoted: List[str] = []
        self.text = TOKEN.sub(self.strict, text)

    def strict(self, found: Match[str]) -> str:
        """A token, as JSON has it."""
        token = found[0]
        if token[0] in "\"'":
            return self.quotes(found)
        if token[0] == "/":
            self.comments.append(token)
            return " "
        if token in ("(", ")", ","):
            return {"(": "[", ")": "]"}.get(token, "")
        if COLON.match(found.string, found.end()):
            self.ways[BARE].append(token)
            return json.dumps(token)
        return WORDS.get(token, token)

    def quotes(self, found: Match[str]) -> str:
        """A text in quotes, between double ones."""
        token, inner = found[0], found[0][1:-1]
        if PLAIN_KEY.fullmatch(inner) and COLON.match(found.string, found.end()):
            self.quoted.append(inner)
        if token[0] == "'":
            self.ways[SINGLE].append(inner)
            bare = ESCAPED.sub(lambda it: "'" if it[1] == "'" else '\\"' if it[0] == '"' else it[0], inner)
            return f'"{bare}"' if token[-1] == "'" and len(token) > 1 else token
        if "'" not in inner:
            self.ways[DOUBLE].append(inner)
        return token

    @property
    def beside(self) -> List[Tuple[str, str]]:
        """What stands beside the values."""
        found = [("comments", it) for it in self.comments]
        single, double, bare = (self.ways[it] for it in (SINGLE, DOUBLE, BARE))
        if single and double:
            found += [(SINGLE, it) for it in single] if len(single) < len(double) else [(DOUBLE, it) for it in double]
        if bare and self.quoted:
            is_bare = len(bare) < len(self.quoted)
            found += [(BARE, it) for it in bare] if is_bare else [("keys in quotes", it) for it in self.quoted]
        return found
