"""Fields that a dump has beside its hosts and links: which values each has, and how often."""

from __future__ import annotations

import collections
import datetime
import email.utils
import functools
import math
import re
from dataclasses import dataclass
from typing import Counter, Dict, Iterable, List, Optional, Sequence, Set, Tuple

from .values import FURTHER, MOST_DIFFERENT, Said, Scalar, Views

NUMBER = re.compile(r"[-+]?([0-9]+(\.[0-9]*)?|\.[0-9]+)([eE][-+]?[0-9]{1,3})?")
CLOCK = r"[0-9]{2}:[0-9]{2}(:[0-9]{2})?([.,][0-9]{1,9})?( ?(Z|UTC|[-+][0-9]{2}:?[0-9]{2}))?"
MOMENT = re.compile(rf"[0-9]{{4}}-[0-9]{{2}}-[0-9]{{2}}([T ]{CLOCK})?")
MAIL_DATE = re.compile(r"[A-Z][a-z]{2}, [0-9]{1,2} [A-Z][a-z]{2} [0-9]{4} [0-9:]{5,8} [-+A-Z0-9]{1,5}")
SPAN = re.compile(r"(?:[0-9.]+ ?(?:ms|us|s|secs?|seconds?|m|mins?|minutes?|h|hours?|d|days?|w|weeks?)[ ,]*)+(?:ago)?")
PART = re.compile(r"([0-9.]+) ?([a-z]+)")
SECONDS = {"u": 1e-6, "ms": 1e-3, "s": 1.0, "m": 60.0, "h": 3600.0, "d": 86400.0, "w": 604800.0}
# Seconds since 1970 of today's clocks, and what else counts so, by how many of them are a second.
EPOCHS = (1e9, 4e9)
PARTS = (1.0, 1e3, 1e6, 1e9)
WORD = re.compile(r"[A-Z]?[a-z]+|[A-Z]+(?![a-z])|[0-9]+")
NUMERAL = frozenset("+-.0123456789")
# What is shown of a field that is not there.
MISSING = "missing"


@dataclass(frozen=True)
class Field:
    """A field of all hosts or of all listings and links: its name, and what is said in it of each that has it, with the
    host that it is said of, or the two that are linked. So many lack it."""

    of: str
    name: str
    said: Sequence[Tuple[Tuple[str, ...], Scalar]]
    missing: int

    @functools.cached_property
    def counts(self) -> Counter[str]:
        """How often each value is there, as texts. Letters may be capitals or not."""
        shown: Dict[str, str] = {}
        texts = (text_of(it) for _, it in self.said)
        found = collections.Counter(shown.setdefault(it.casefold(), it) for it in texts)
        if self.missing:
            found[MISSING] += self.missing
        return found

    @functools.cached_property
    def words(self) -> Set[str]:
        """The words of its name."""
        return words_of(self.name)

    @property
    def is_of_hosts(self) -> bool:
        return self.of == "hosts"

    @functools.cached_property
    def numbers(self) -> List[Optional[float]]:
        """The number that each value says, if it is one."""
        return [number_of(value) for _, value in self.said]

    @functools.cached_property
    def moments(self) -> List[float]:
        """The times that values say, if most of them are times; a zero among them is a time before all others."""
        found = [moment_of(value) if number is None or number >= EPOCHS[0] else None
                 for (_, value), number in zip(self.said, self.numbers)]
        if not any(found):
            return []
        moments = [0.0 if moment is None and number == 0 else moment for moment, number in zip(found, self.numbers)]
        return most_of(moments)

    @functools.cached_property
    def spans(self) -> List[float]:
        """The seconds that values say by units, if most of them do."""
        return most_of([span_of(value) for _, value in self.said])


def most_of(values: Sequence[Optional[float]]) -> List[float]:
    """The numbers among values, if they are more than half of them."""
    found = [it for it in values if it is not None]
    return found if 2 * len(found) > len(values) else []


def words_of(text: str) -> Set[str]:
    """The words of a name or a value, in small letters.

    >>> sorted(words_of("linkState_v2 isUP")), sorted(words_of("NotReady"))
    (['2', 'is', 'link', 'state', 'up', 'v'], ['not', 'ready'])
    """
    return {it.lower() for it in WORD.findall(text)}


@functools.lru_cache(maxsize=65536, typed=True)
def text_of(value: Scalar) -> str:
    """A value as `--up` names it.

    >>> [text_of(it) for it in (True, None, 3.0, " up ", "")]
    ['true', 'null', '3', 'up', '']
    """
    if isinstance(value, bool):
        return "true" if value else "false"
    if isinstance(value, float) and value.is_integer() and abs(value) < 1e15:
        return str(int(value))
    return "null" if value is None else str(value).strip()


def fields_of(views: Views) -> List[Field]:
    """The fields of hosts, and those of listings and links."""
    hosts: Dict[str, Dict[str, List[Scalar]]] = {}
    links = [it for it in views.statements if it.other is not None]
    for it in views.statements:
        for name, value in it.said.items() if it.other is None else ():
            values = hosts.setdefault(it.one, {}).setdefault(name, [])
            # what is said twice, and otherwise, is both
            if len(values) == 1 and text_of(values[0]) == text_of(value):
                values[0] = value
            else:
                values.append(value)
    of_hosts = (((name,), {field: joined(them) for field, them in hosts[name].items()})
                for name in views.peers if name in hosts)
    of_links = (((it.one, str(it.other)), it.said) for it in links if it.said)
    kind = "links" if all(it.is_link for it in links) else "listings"
    return [*of_kind("hosts", of_hosts, len(views.peers)), *of_kind(kind, of_links, len(links))]


def joined(values: List[Scalar]) -> Scalar:
    """Several values as one text, or one value as it is."""
    return values[0] if len(values) == 1 else ",".join(map(text_of, values))


def of_kind(kind: str, said: Iterable[Tuple[Tuple[str, ...], Said]], count: int) -> List[Field]:
    """The fields of hosts, or of links and listings, of which there are so many. Further fields than very many are one
    together."""
    found: Dict[str, List[Tuple[Tuple[str, ...], Scalar]]] = {}
    for who, beside in said:
        further: List[Scalar] = []
        for name, value in beside.items():
            if name != FURTHER and (name in found or len(found) < MOST_DIFFERENT):
                found.setdefault(name, []).append((who, value))
            else:
                further.append(value)
        if further:
            found.setdefault(FURTHER, []).append((who, joined(further)))
    return [Field(kind, name, values, count - len(values)) for name, values in found.items()]


def number_of(value: Scalar) -> Optional[float]:
    """The number that a value or its text says, if it is a finite one.

    >>> number_of("3.5"), number_of(True), number_of("1e999"), number_of("v3")
    (3.5, None, None, None)
    """
    if isinstance(value, bool) or value is None:
        return None
    if isinstance(value, str):
        text = value.strip()
        if not text[:1] in NUMERAL:
            return None
        number = float(text) if len(text) < 40 and NUMBER.fullmatch(text) else math.nan
    else:
        number = float(value) if abs(value) < 1e300 else math.inf
    return number if math.isfinite(number) else None


def mail_date(text: str) -> Optional[float]:
    """The seconds since 1970 of a date as mails have it.

    >>> mail_date("Thu, 01 Jan 1970 00:00:10 +0000")
    10.0
    """
    try:
        return email.utils.parsedate_to_datetime(text).timestamp() if MAIL_DATE.fullmatch(text) else None
    except (ValueError, TypeError, OverflowError):
        return None


def moment_of(value: Scalar) -> Optional[float]:
    """The seconds since 1970 that a value says, if it is a time: by a date, or by seconds or smaller parts of them.

    >>> moment_of("1970-01-02T00:00:10Z"), moment_of(1764493200), moment_of(1764493200000), moment_of(60)
    (86410.0, 1764493200.0, 1764493200.0, None)
    """
    if isinstance(value, str) and MOMENT.fullmatch(value.strip()):
        text = re.sub(r"([.,])([0-9]+)", lambda it: f".{it[2][:6]:0<6}", value.strip().replace("UTC", "Z"))
        zoned = re.sub(r" ?([-+][0-9]{2}):?([0-9]{2})$", r"\1:\2", text) if len(text) > 10 else text
        text = re.sub(r" ?Z$", "+00:00", zoned)
        try:
            moment = datetime.datetime.fromisoformat(text)
        except ValueError:
            return None
        return (moment if moment.tzinfo else moment.replace(tzinfo=datetime.timezone.utc)).timestamp()
    number = number_of(value)
    if number is None:
        return mail_date(value.strip()) if isinstance(value, str) else None
    return next((number / part for part in PARTS if EPOCHS[0] <= number / part < EPOCHS[1]), None)


def span_of(value: Scalar) -> Optional[float]:
    """The seconds that a text with units says.

    >>> span_of("1m30s"), span_of("2 hours ago"), span_of("5"), span_of(5)
    (90.0, 7200.0, None, None)
    """
    text = value.strip().lower() if isinstance(value, str) else ""
    if len(text) > 60 or not SPAN.fullmatch(text):
        return None
    total = 0.0
    for number, unit in PART.findall(text):
        try:
            total += float(number) * SECONDS["ms" if unit == "ms" else unit[0]]
        except ValueError:
            return None
    return total
