"""Lines of text as rows of words, for the forms of dumps that are lines."""

from __future__ import annotations

import re
from typing import List, NamedTuple

# A host and those that it lists, behind a colon.
LIST = re.compile(r"(\S+):(?:\s+(.*))?")
NUMBER = re.compile(r"[-+]?(?:\d+(?:\.\d*)?|\.\d+)(?:[eE][-+]?\d+)?")
# A comment, and how what networkx writes behind an edge begins.
COMMENT, ATTRIBUTES = re.compile(r"(^|\s)#.*"), re.compile(r"\s\{")
# What begins a line that is a comment in some forms, if white space follows, and no word.
MARKS = ("//", "%", ";", "--")
MARKED = re.compile(rf"^[^\S\n]*(?:{'|'.join(MARKS)})(?:\s|$)", re.MULTILINE)
# What a comment has that says anything.
WORDS = re.compile(r"[\w\x80-\U0010ffff]")
# A word, or a text in quotes; with what may stand between two.
WORD = re.compile(r"\"([^\"]*)\"(?=[\s,;]|$)|'([^']*)'(?=[\s,;]|$)|([^\s,;\"'][^\s,;]*)")


class Row(NamedTuple):
    """A line that is not skipped: its number, its text without what is behind it, and this: attributes in brackets, as
    networkx writes them, and a comment."""

    number: int
    text: str
    attributes: str = ""
    comment: str = ""

    @property
    def words(self) -> List[str]:
        """Its words, with white space or one comma between two."""
        return re.split(r"\s*,\s*|\s+", self.text) if "," in self.text else self.text.split()


def is_comment(line: str) -> bool:
    """Whether a line is a comment by another mark than `#`, with white space or nothing behind it."""
    return line[0] in "/%;-" and line.split(None, 1)[0] in MARKS


def rows_of(text: str) -> List[Row]:
    """The lines of a text but those that are blank or comments.

    >>> rows_of("# seen\\n% at noon\\na b {}\\n\\nb c # late\\n")
    [Row(number=3, text='a b', attributes='{}', comment=''), Row(number=5, text='b c', attributes='', comment='late')]
    """
    rows = []
    for number, line in enumerate(text.split("\n"), 1):
        found = COMMENT.search(line) if "#" in line else None
        bare = (line[: found.start()] if found else line).strip()
        at = ATTRIBUTES.search(bare) if bare.endswith("}") else None
        if bare and not is_comment(bare):
            text, attributes = (bare[: at.start()].rstrip(), bare[at.start() :].strip()) if at else (bare, "")
            comment = (found[0].strip(" \t\r#") or "#") if found else ""
            rows.append(Row(number, text, attributes, comment))
    return rows


def comments_in(text: str) -> List[str]:
    """The lines of a text that are comments, with a word in them.

    >>> comments_in("# seen\\na b # late\\n; n3 is gone\\n#\\n")
    ['# seen', '; n3 is gone']
    """
    lines = (line.strip() for line in text.split("\n"))
    return [it for it in lines if it and (it[0] == "#" or is_comment(it)) and WORDS.search(it)]


def unquoted(text: str) -> List[str]:
    """The words of a line, without the quotes around some. Nothing, if quotes stand elsewhere.

    >>> unquoted('"oslo 1",rome,5'), unquoted('"a"b c')
    (['oslo 1', 'rome', '5'], [])
    """
    words, at = [], 0
    for found in WORD.finditer(text):
        if text[at : found.start()].strip(" \t,;"):
            return []
        # one of the three kinds of words was found
        words.append(found[found.lastindex or 0])
        at = found.end()
    return [] if text[at:].strip(" \t,;") or any(it[:1] in "\"'" and it for it in words) else words
