"""The account of a dump: all that stands in it and was not used as a host, a listing or a link, nor told or asked about
as a state. So a dump without such a note has nothing but hosts and links."""

from __future__ import annotations

import collections
import re
from typing import Dict, List, NamedTuple, Sequence

from .downs import is_down
from .fields import MISSING, Field, moment_of, number_of, text_of, words_of
from .graph_files import NAME_OF_GRAPH, WRITTEN_AT, WRITTEN_BY
from .graphs import shown
from .states import NOTHING, NUMBERS, STATE_NAMES, STATE_WORDS
from .values import Views
from .written import REPEATED, WRITTEN

# How the note begins, and what it ends with.
LEFT, KNOWN = "not read as states", "passed over, as --all asks"
BESIDE = "beside them"
ADVICE = "--up FIELD=VALUE says which count"
# So many fields are told with their values, and so many more by their names; and so many characters of a value.
MOST_TOLD, MOST_NAMED, MOST_LONG = 8, 24, 40
# So many different values are told with their numbers; one that less than this share has is rare.
MOST_VALUES, RARE = 4, 0.25
# Words for peers that a host keeps beside those of its links.
IN_RESERVE = frozenset("passive standby idle pending".split())
# Numbers that stand for none, or for the worst; and none with a unit, or as an address.
ZERO = re.compile(r"[0:.]+ ?[a-zµ%]*")
SENTINELS = (0.0, -1.0, 16.0, 100.0, 255.0, 999.0, 9999.0, 65535.0)


class Item(NamedTuple):
    """What was not used: of what it is, how it is told, its name, and how little it looks like a state."""

    of: str
    text: str
    name: str
    rank: int


def account_of(views: Views, fields: Sequence[Field], is_known: bool = False) -> List[str]:
    """The note on these fields, and on what stands beside hosts and links; none, if there is nothing. If a person took
    all of it on purpose, it `is_known`.

    >>> views = Views()
    >>> views.link("a", "b", {"loss": 100})
    >>> views.pass_over("comments", "# n3")
    >>> account_of(views, [Field("links", "loss", [(("a", "b"), 100)], 0)])[0]
    'not read as states: beside them comments (# n3); of 1 link loss (100); --up FIELD=VALUE says which count'
    """
    items = [item_of(it) for it in fields if not says_nothing(it)]
    items += [beside_item(what, values) for what, values in grouped(views).items() if not is_state(what, values, views)]
    if not items:
        return []
    items.sort(key=lambda it: it.rank)
    kinds: Dict[str, List[str]] = {}
    for it in items[:MOST_TOLD]:
        kinds.setdefault(it.of, []).append(it.text)
    told = [f"{kind} {', '.join(texts)}" for kind, texts in kinds.items()]
    more = items[MOST_TOLD:]
    if more:
        names = ", ".join(it.name for it in more[:MOST_NAMED])
        rest = f" and {len(more) - MOST_NAMED} more" if len(more) > MOST_NAMED else ""
        told.append(f"and {names}{rest}")
    has_advice = not is_known and any(it.of != BESIDE for it in items)
    return [f"{KNOWN if is_known else LEFT}: {'; '.join([*told, *[ADVICE] * has_advice])}"]


def grouped(views: Views) -> Dict[str, List[str]]:
    """What stands beside hosts and links: all values of each thing."""
    found: Dict[str, List[str]] = {}
    for what, value in views.beside:
        if is_news(what, text_of(value)):
            found.setdefault(what, []).append(text_of(value))
    return found


def is_news(what: str, value: str) -> bool:
    """Whether something beside hosts and links says more than a name of the graph of one word, or by which program or
    when a graph file was written.

    >>> [is_news("name of the graph", it) for it in ("overlay1", "without_n3")] + [is_news("written by", "down")]
    [False, True, True]
    """
    words = {it for it in words_of(value) if not it.isdigit()}
    if words & STATE_WORDS:
        return True
    if what == NAME_OF_GRAPH:
        return len(words) > 1 or not re.fullmatch("[A-Za-z]*[0-9]*", value)
    return what != WRITTEN_BY and (what != WRITTEN_AT or moment_of(value) is None)


def is_state(what: str, values: Sequence[str], views: Views) -> bool:
    """Whether something beside hosts and links is called after a state, or has a word of one in it. A further list of
    peers, beside that which a person named, is none, whatever its hosts are called, unless it is of what is down."""
    if what in views.other_lists:
        return is_down(words_of(what) - IN_RESERVE)
    return any(words_of(text) & STATE_WORDS for text in values) or bool(words_of(what) & STATE_NAMES)


def doubtful(views: Views) -> List[str]:
    """What stands beside hosts and links and may say a state, in words."""
    return [beside_item(what, values).text for what, values in grouped(views).items() if is_state(what, values, views)]


def says_nothing(field: Field) -> bool:
    """Whether nothing stands in a field anywhere, or it repeats the names of hosts, or of one end of each link."""
    if field.missing:
        return False
    if set(field.counts) <= {"", "{}", "[]"}:
        return True
    texts = [text_of(value) for _, value in field.said]
    return any(all(who[at] == it for (who, _), it in zip(field.said, texts)) for at in range(len(field.said[0][0])))


def item_of(field: Field) -> Item:
    """A field that was not used."""
    said = sum(field.counts.values()) - field.missing
    name = f"column {field.name}" if field.name.isdigit() else shown(field.name) or '""'
    counts = patterns_of(field)
    whole = said + field.missing
    of, rank = f"of {whole} {field.of if whole != 1 else field.of[:-1]}", rank_of(field, counts)
    if len(field.counts) == 1:
        # what differs in capitals alone is one value, and still told
        texts = list(dict.fromkeys(text_of(it) for _, it in field.said)) or list(field.counts)
        return Item(of, f"{name} ({', '.join(map(quoted, texts[:3]))})", name, rank)
    if len(counts) <= MOST_VALUES:
        often = sorted(counts.items(), key=lambda it: -it[1])
        told = ", ".join(f"{quoted(value)}: {number}{whose(field, value, number)}" for value, number in often)
        return Item(of, f"{name} ({told})", name, rank)
    odd = "".join(f", {quoted(value)}: {counts[value]}" for value in odd_of(field, counts)[:2])
    return Item(of, f"{name} ({len(field.counts) - bool(field.missing)} values{odd})", name, rank)


def whose(field: Field, value: str, number: int) -> str:
    """The host or the link that alone is written so; nothing of other fields, and of values that several have."""
    if number != 1 or field.name not in (REPEATED, WRITTEN):
        return ""
    who = next((who for who, it in field.said if text_of(it).casefold() == value.casefold()), ())
    return f" ({' - '.join(map(shown, who))})" if who else ""


def patterns_of(field: Field) -> Dict[str, int]:
    """How often each value is there. Texts that differ in numbers alone are one, if many are there.

    >>> patterns_of(Field("links", "x", [((), it) for it in ("a 1", "a 2", "a 3", "a 4", "no 7")], 0))
    {'a #': 4, 'no 7': 1}
    """
    counts = dict(field.counts)
    if len(counts) <= MOST_VALUES or all(number_of(it) is not None for it in counts if it != MISSING):
        return counts
    alike: Dict[str, List[str]] = {}
    for value in counts:
        alike.setdefault(NUMBERS.sub("#", value), []).append(value)
    if len(alike) > MOST_VALUES or len(alike) == 1:
        return counts
    return {them[0] if len(them) == 1 else it: sum(counts[one] for one in them) for it, them in alike.items()}


def is_odd(value: str, has_numbers: bool) -> bool:
    """Whether one of many values stands out: nothing, a number that may stand for the worst, or a word in numbers."""
    number = number_of(value.rstrip("%"))
    if number is not None:
        return number in SENTINELS
    return has_numbers or value == MISSING or value.casefold() in NOTHING or bool(ZERO.fullmatch(value))


def odd_of(field: Field, counts: Dict[str, int]) -> List[str]:
    """The values that stand out, the rarest first."""
    has_numbers = any(it is not None for it in field.numbers)
    return sorted((it for it in counts if is_odd(it, has_numbers)), key=counts.__getitem__)


def rank_of(field: Field, counts: Dict[str, int]) -> int:
    """How little a field looks like a state: 0 of few values of which one is rare or stands for none, 1 of many with
    such a one, 2 of few, 3 of one, 4 of many."""
    whole = sum(counts.values())
    if field.name in (REPEATED, WRITTEN):
        return 0
    if len(field.counts) == 1:
        return 3
    has_odd = bool(odd_of(field, counts))
    if len(counts) <= MOST_VALUES:
        return 0 if has_odd or any(number < RARE * whole for number in counts.values()) else 2
    return 1 if has_odd else 4


def beside_item(what: str, values: Sequence[str]) -> Item:
    """Something that stands beside hosts and links, with its values."""
    different = collections.Counter(values)
    name = shown(what)
    if len(different) == 1 or len(values) <= 3:
        text = f"{name} ({', '.join(map(quoted, values[:3] if len(different) > 1 else different))})"
        return Item(BESIDE, text, name, 2)
    first = next((it for it in values if words_of(it) & STATE_WORDS), values[0])
    return Item(BESIDE, f"{name} ({len(values)}, as {quoted(first)})", name, 2)


def quoted(value: str) -> str:
    """A value as it is shown: nothing as two quotes, and a long one cut."""
    text = shown(" ".join(value.split()))
    return f"{text[:MOST_LONG]}.." if len(text) > MOST_LONG else text or '""'
