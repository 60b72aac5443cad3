"""JSON as values: one text, or a value on each line. No key may stand twice in one object."""

from __future__ import annotations

import json
import re
from typing import Any, Dict, List, Optional, Tuple

from .errors import BadDump
from .loose_json import Loose
from .values import Scalar

BLANK = re.compile(r"\s*")
# How many digits a whole number may have.
MOST_DIGITS = 1000


class Twice(BadDump):
    """An object of JSON has a key twice."""


def no_twice(pairs: List[Tuple[str, Any]]) -> Dict[str, Any]:
    """An object of JSON, in which no key stands twice."""
    found = dict(pairs)
    if len(found) < len(pairs):
        seen = set()
        for key, _ in pairs:
            if key in seen:
                raise Twice(f"an object has the key {key} twice")
            seen.add(key)
    return found


def whole(digits: str) -> int:
    """A whole number. One of very many digits takes long, and is none that a dump says."""
    if len(digits) > MOST_DIGITS:
        raise BadDump(f"its JSON has a number of {len(digits)} digits")
    return int(digits)


def parsed(text: str) -> Any:
    """The value of one text of JSON."""
    try:
        return json.loads(text, object_pairs_hook=no_twice, parse_int=whole)
    except RecursionError:
        raise BadDump("its JSON is nested too deep") from None


def json_of(text: str, beside: Optional[List[Tuple[str, Scalar]]] = None) -> Any:
    """The value that a text of JSON says; or the list of those on its lines, if its first line is one, or of those that
    stand one behind the other. Values as Python or JavaScript write them are read too, and what stands beside these is
    put into a list.

    >>> json_of('{"a": ["b",],}'), json_of('["a", "b"]\\n["b", "c"]'), json_of("[('a', 'b')]")
    ({'a': ['b']}, [['a', 'b'], ['b', 'c']], [['a', 'b']])
    """
    try:
        return parsed(text)
    except json.JSONDecodeError:
        values = several(text)
        if values is not None:
            return values
        loose = Loose(text)
        if beside is not None:
            beside += loose.beside
        if loose.text != text and is_json(loose.text):
            return parsed(loose.text)
        values = several(loose.text) if loose.text != text else None
        if values is None:
            raise
        return values


def several(text: str) -> Optional[List[Any]]:
    """The values on the lines of a text, if the first line is one; or those that stand one behind the other, as curl
    and jq write those of several hosts. None if there are no such.

    >>> several('{"a": []}{"b": []}\\n')
    [{'a': []}, {'b': []}]
    """
    numbered = [(at, line) for at, line in enumerate(text.split("\n"), 1) if line.strip()]
    if len(numbered) > 1 and is_json(numbered[0][1]):
        return [parsed_line(at, line) for at, line in numbered]
    decoder = json.JSONDecoder(object_pairs_hook=no_twice, parse_int=whole)
    values: List[Any] = []
    at = BLANK.match(text, 0).end()  # type: ignore[union-attr]
    while at < len(text):
        try:
            value, at = decoder.raw_decode(text, at)
        except json.JSONDecodeError as why:
            if not values:
                return None
            raise BadDump(f"line {why.lineno}: it is no JSON, and what stands above it is: {why.msg}") from None
        except RecursionError:
            raise BadDump("its JSON is nested too deep") from None
        values.append(value)
        at = BLANK.match(text, at).end()  # type: ignore[union-attr]
        if len(values) == 1 and (not isinstance(value, (dict, list)) or text[at : at + 1] not in ("{", "[")):
            return None
    return values


def parsed_line(at: int, line: str) -> Any:
    """The value of one line."""
    try:
        return parsed(line)
    except json.JSONDecodeError:
        raise BadDump(f"line {at} is no JSON, and the first line is") from None


def is_json(text: str) -> bool:
    """Whether a text is JSON, its keys aside."""
    try:
        parsed(text)
    except json.JSONDecodeError:
        return False
    except BadDump:
        pass
    return True
