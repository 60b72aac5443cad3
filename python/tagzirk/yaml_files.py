"""YAML as values like JSON's: every scalar is a text, since a host may be called 010, 1.10, no or 2026-11-30. Only what
stands for nothing is None, and a whole number that is written as Python writes it is a number."""

from __future__ import annotations

import itertools
import re
from typing import Any, Dict, List, NamedTuple, Optional, Set, Tuple, Union

from .errors import BadDump, LibraryMissing
from .fields import words_of
from .limits import DEEPEST, MOST_SLOW_YAML, need_few_implied
from .states import STATE_WORDS
from .values import Scalar

NOTHING = ("", "~", "null", "Null", "NULL")
NUMBER = re.compile(r"0|-?[1-9][0-9]{0,17}")
# Tags of YAML itself; others ask a program to do something.
TAG = re.compile(r"!|tag:yaml\.org,2002:(?:str|int|float|bool|null|seq|map|set|timestamp)")
# How YAML begins, where the file's name does not say that it is YAML: an item of a list; a key with a list or an object
# in brackets, which may go on in the next line; an object whose first key has no quotes.
# A comment, and what it has that says anything.
COMMENT, WORD = re.compile(r"#[^\n]*"), re.compile(r"[\w\x80-\U0010ffff]")
# What stands above the values: directives, of which one that tells the version of YAML says nothing.
BEGIN = re.compile(r"\ufeff?(?:[ \t]*(?:#[^\n]*)?\r?\n|%[^\n]*\n)*")
DIRECTIVE = re.compile(r"^%(?!YAML 1\.[0-9]\s*$)[^\n]*", re.MULTILINE)
# A text that needs no quotes.
SIMPLE = re.compile(r"(?!(?:null|true|false|yes|no|on|off|y|n)$)[A-Za-z][\w.-]*", re.IGNORECASE)
# A key without a value, and one that is farther in.
KEY_ALONE, INNER = re.compile(r"[\w.-]+:"), re.compile(r"[ ]+[\w.-]+:")
# Where a name stands.
KEY, ITEM, VALUE = "key", "item", "value"
BRACKET = re.compile(r":\s*[\[{]")
OBJECT = re.compile(r"\{\s*[^\s\"'{}\[\],:]+\s*:(?:\s.*)?")


def begins_yaml(text: str) -> bool:
    """Whether a text begins like YAML, and like no other form. Of two lines `hosts:`, the second one is farther in.

    >>> begins_yaml("{a: [b], b: [a]}"), begins_yaml("a: [b, c]\\n"), begins_yaml("a:\\n  - b\\n")
    (True, True, True)
    >>> begins_yaml('{"a": ["b"]}'), begins_yaml("a: b c\\n"), begins_yaml("a b\\n")
    (False, False, False)
    """
    found = (it.rstrip() for it in text.split("\n") if it.strip() and it.strip()[0] != "#")
    lines = [*itertools.islice(found, 2)]
    if not lines:
        return False
    first = lines[0].strip()
    is_inner = len(lines) > 1 and INNER.fullmatch(lines[1]) and KEY_ALONE.fullmatch(lines[0])
    has_bracket = first[0] not in "[{" and first[-1] in "[]{}," and BRACKET.search(first, 1)
    is_list = first.endswith(":") and len(lines) > 1 and lines[1].strip().startswith("- ")
    return bool(first.startswith("- ") or has_bracket or is_list or is_inner or OBJECT.fullmatch(first))


class Open(NamedTuple):
    """A list or an object that is being read, the keys of which have no value yet, and its anchor."""

    value: Union[List[Any], Dict[str, Any]]
    keys: List[str]
    anchor: Optional[str]


class Reader:
    """Makes a value of the events of a parser of YAML."""

    def __init__(self) -> None:
        self.open: List[Open] = []
        self.anchors: Dict[str, Any] = {}
        self.aliases: Set[str] = set()
        # what stands in the text beside its values: anchors of names, and tags
        self.beside: List[Tuple[str, Scalar]] = []
        # of keys, of items of lists and of other values: names in quotes that need none, and those without quotes
        self.quoted: Dict[str, List[str]] = {it: [] for it in (KEY, ITEM, VALUE)}
        self.bare: Dict[str, List[str]] = {it: [] for it in (KEY, ITEM, VALUE)}
        # where scalars begin and end in the text
        self.scalars: List[Tuple[int, int]] = []
        self.documents, self.implied = 0, 0
        self.value: Any = None

    def put(self, value: Any, key: Optional[str], line: int) -> None:
        """A value was read. `key` is what it is as a key, if it can be one."""
        if not self.open:
            self.value = value
            return
        around = self.open[-1]
        if isinstance(around.value, list):
            around.value.append(value)
        elif around.keys:
            around.value[around.keys.pop()] = value
        elif key is None:
            raise BadDump(f"line {line}: a list or an object is no name of a host")
        elif key in around.value:
            raise BadDump(f"line {line}: the key {key} stands twice in one object")
        else:
            around.value[key] = None
            around.keys.append(key)

    def begin(self, event: Any, value: Union[List[Any], Dict[str, Any]], line: int) -> None:
        if len(self.open) >= DEEPEST:
            raise BadDump(f"line {line}: its YAML is nested more than {DEEPEST} deep")
        self.need_known(event, line)
        self.put(value, None, line)
        self.open.append(Open(value, [], event.anchor))

    def end(self) -> None:
        ended = self.open.pop()
        if ended.anchor:
            self.anchors[ended.anchor] = ended.value

    def alias(self, event: Any, line: int) -> None:
        """What was read at an anchor stands here once more."""
        if event.anchor not in self.anchors:
            raise BadDump(f"line {line}: *{event.anchor} names nothing that stands above it")
        value = self.anchors[event.anchor]
        self.aliases.add(event.anchor)
        self.implied = size_of(value, self.implied + 1)
        self.put(value, value if isinstance(value, str) else None, line)

    def scalar(self, event: Any, line: int) -> None:
        self.need_known(event, line)
        self.scalars.append((event.start_mark.index, event.end_mark.index))
        text, is_plain = event.value, not event.style
        if text == "<<" and is_plain:
            raise BadDump(f"line {line}: keys << that join objects are not read: write them out")
        is_number = is_plain and NUMBER.fullmatch(text)
        value = None if is_plain and text in NOTHING else int(text) if is_number else text
        if event.anchor:
            self.anchors[event.anchor] = value
            self.beside.append(("anchors", event.anchor))
        if SIMPLE.fullmatch(text):
            around = self.open[-1] if self.open else None
            kind = VALUE if around is None or around.keys else KEY if isinstance(around.value, dict) else ITEM
            (self.bare if is_plain else self.quoted)[kind].append(text)
        self.put(value, text, line)

    def need_known(self, event: Any, line: int) -> None:
        """Refuses a tag that is not of YAML itself."""
        if event.tag and not TAG.fullmatch(event.tag):
            raise BadDump(f"line {line}: the tag {event.tag[:60]} is not read")
        if event.tag:
            tag = event.tag.replace("tag:yaml.org,2002:", "!!")
            self.beside.append(("tags", f"{tag} {getattr(event, 'value', '')}"))

    def read(self, event: Any) -> None:
        """Takes in one event."""
        line = event.start_mark.line + 1
        kind = type(event).__name__
        if kind == "ScalarEvent":
            self.scalar(event, line)
        elif kind == "SequenceStartEvent":
            self.begin(event, [], line)
        elif kind == "MappingStartEvent":
            self.begin(event, {}, line)
        elif kind in ("SequenceEndEvent", "MappingEndEvent"):
            self.end()
        elif kind == "AliasEvent":
            self.alias(event, line)
        elif kind == "DocumentStartEvent":
            self.documents += 1
            if self.documents > 1:
                raise BadDump(f"line {line}: a second document of YAML begins: give a file of one")


def size_of(value: Any, so_far: int) -> int:
    """So far, and how many values a value has in it, each as often as it stands there. Refused is what is too much."""
    more = [value]
    while more:
        inner = more.pop()
        so_far += 1
        need_few_implied(so_far, "aliases stand for many values")
        if isinstance(inner, (list, dict)):
            more += inner if isinstance(inner, list) else inner.values()
    return so_far


def quotes_in(reader: Reader) -> List[Tuple[str, Scalar]]:
    """The names in quotes that need none, if most of their kind have none; of items of lists those that are fewer."""
    found: List[Tuple[str, Scalar]] = []
    for kind, quoted in reader.quoted.items():
        bare = reader.bare[kind]
        if 2 * len(quoted) < len(bare) or kind == ITEM and len(quoted) <= len(bare):
            found += [("in quotes", it) for it in quoted]
        elif kind == ITEM:
            found += [("without quotes", it) for it in bare]
    return found


def beside_in(text: str, reader: Reader) -> List[Tuple[str, Scalar]]:
    """What stands in a text of YAML beside its values: comments; directives, tags, and names of anchors that nothing
    repeats, that stand for a name, or have a word of a state; and in which quotes names stand."""
    between, at = [], 0
    for begin, end in reader.scalars:
        # a text of several lines may end behind the line break that ends it
        between.append(text[at:begin])
        between.append("\n" if text[begin:end].endswith("\n") else "")
        at = end
    found = [it for it in COMMENT.findall("".join([*between, text[at:]])) if WORD.search(it)]
    above = BEGIN.match(text)
    directives = [("directives", it.strip()) for it in DIRECTIVE.findall(above[0] if above else "")]
    lists = [it for it, value in reader.anchors.items() if isinstance(value, (dict, list))]
    anchors = [it for it in lists if it not in reader.aliases or words_of(it) & STATE_WORDS]
    beside = [*reader.beside, *(("anchors", it) for it in anchors), *quotes_in(reader)]
    return [*(("comments", it) for it in found), *directives, *beside]


def yaml_of(text: str, beside: Optional[List[Tuple[str, Scalar]]] = None) -> Any:
    """The value that a text of YAML says. What stands beside it is put into a list.

    >>> yaml_of("010: [8, '8', 1.10, no, null]")
    {'010': [8, '8', '1.10', 'no', None]}
    """
    try:
        import yaml
    except ImportError:
        raise LibraryMissing(
            "YAML is read by Python's library yaml, which is not there (Debian: python3-yaml)"
        ) from None
    has_c = bool(yaml.__with_libyaml__)
    if not has_c and len(text) > MOST_SLOW_YAML:
        raise BadDump(f"YAML of more than {MOST_SLOW_YAML:,} bytes is read with libyaml alone, which is not there")
    reader = Reader()
    try:
        parser: Any = yaml
        for event in parser.parse(text, Loader=yaml.CBaseLoader if has_c else yaml.BaseLoader):
            reader.read(event)
    except yaml.YAMLError as why:
        raise BadDump("it is no YAML: " + " ".join(str(why).split()).replace(' in "<unicode string>"', "")) from None
    if beside is not None:
        beside += beside_in(text, reader)
    return reader.value
