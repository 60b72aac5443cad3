"""Which hosts, listings and links of a dump are taken: those that a person says are up, or all, if nothing says that
some are down."""

from __future__ import annotations

from typing import Callable, Dict, List, NamedTuple, Optional, Sequence, Set, Tuple

from .account import LEFT, MOST_NAMED, MOST_VALUES, RARE, account_of, doubtful, odd_of, patterns_of
from .asked import Asked
from .errors import BadDump
from .fields import MISSING, Field, fields_of, moment_of, most_of, number_of, span_of, text_of
from .states import STATE_NAMES, Kind, all_down, clearness, kind_of
from .values import Scalar, Statement, Views, one_of
from .written import tell_how_often

# So many values of a field, and so many fields, are shown.
MOST_SHOWN = 5
# How a field of hosts or of links is told from one of the other that has the same name.
HOST, LINK = "host:", "link:"


# How the note on fields begins that may say what is down, and that on such which a person knows.
DOUBT, ANYWAY = "taken all, though some may be down", "taken all the same, as --all asks"


class Up(NamedTuple):
    """What a person says is up: the field, and the values that are."""

    field: str
    values: str


def taken_of(views: Views, asked: Asked) -> Tuple[Views, List[str]]:
    """What is taken of a dump, and what is to be told of it. `BadDump` asks which is up, if that is not clear.

    >>> views = Views()
    >>> views.link("a", "b", {"state": "up"})
    >>> views.link("b", "c", {"state": "down"})
    >>> taken_of(views, Asked(up=("state=up",)))[0].value
    {'a': ['b'], 'b': ['a'], 'c': []}
    """
    tell_how_often(views)
    notes, settled = [], []
    for it in map(up_of, asked.up):
        field = field_of(views, it)
        views, note = only(views, field, it)
        notes.append(note)
        settled.append((field.is_of_hosts, field.name))
    kinds = [(it, kind_of(it)) for it in fields_of(views) if (it.is_of_hosts, it.name) not in settled]
    differ = sorted((it for it, kind in kinds if kind is Kind.ASKED), key=clearness, reverse=True)
    if differ and not asked.all:
        raise BadDump(question(differ))
    same = [it for it, kind in kinds if kind is Kind.TOLD and len(it.counts) == 1]
    told = [(it, next(iter(it.counts)) or "empty") for it in same[:MOST_SHOWN]]
    notes += [f"{it.name} is {value} of all {len(it.said)} {it.of}" for it, value in told]
    maybe = [it for it, kind in kinds if kind is Kind.TOLD and len(it.counts) > 1]
    doubts = [many([*differ, *maybe])] * bool(differ or maybe) + doubtful(views)
    if doubts and asked.all:
        notes.append(f"{ANYWAY}: {'; '.join(doubts)}")
    elif doubts:
        advice = "--up FIELD=VALUE takes what has this value" if maybe else "leave out of the dump what is down"
        notes.append(f"{DOUBT}: {'; '.join(doubts)}; {advice}")
    left = [it for it, kind in kinds if kind is Kind.NONE]
    return views, [*notes, *account_of(views, [*same[MOST_SHOWN:], *left], asked.all)]


def doubts_in(notes: Sequence[str]) -> List[str]:
    """Those notes on a dump without which its k may be believed and be too high. With `--all` there are none."""
    return [it for it in notes if it.startswith((DOUBT, LEFT))]


def up_of(text: str) -> Up:
    """What the words of `--up` say."""
    name, equals, values = text.partition("=")
    if not equals or not name:
        tip = "; a column without a name is called by its number, as 3=1" if equals else ""
        raise BadDump(f"--up takes FIELD=VALUE or FIELD=VALUE,VALUE, and not {text}{tip}")
    return Up(name, values)


def field_of(views: Views, up: Up) -> Field:
    """The field that is meant: of links or of hosts, and if it is of both, the one that is said. A column may be meant
    by its number."""
    fields = fields_of(views)
    before = next((it for it in (HOST, LINK) if up.field.startswith(it)), "")
    name = up.field[len(before) :]
    if all(it.name != name for it in fields):
        name = views.column(name)
    kinds = [it for it in fields if not before or it.is_of_hosts == (before == HOST)]
    found = [it for it in kinds if it.name == name] or [it for it in kinds if it.name.casefold() == name.casefold()]
    if not found:
        there = list(dict.fromkeys(it.name for it in fields))
        shown = f"has {', '.join(there[:12])}" if there else "says nothing beside its hosts and links"
        raise BadDump(f"there is no field {up.field}, that --up asks for: the dump {shown}")
    if len(found) > 1:
        raise BadDump(f"{name} is a field of hosts and of {found[-1].of}: say --up {HOST}{name}=.. or {LINK}{name}=..")
    return found[0]


def only(views: Views, field: Field, up: Up) -> Tuple[Views, str]:
    """What is left of a dump with what has one of these values alone, and how much was left out."""
    is_up = test_of(field, up)
    places = [it for it in views.statements if (it.other is None) == field.is_of_hosts]
    if field.is_of_hosts:
        said = {who[0]: value for who, value in field.said}
        hosts = {name: is_up(said.get(name), name in said) for name in views.peers}
        count, whole = list(hosts.values()).count(False), len(hosts)
        left = without_hosts(views, {name for name, it in hosts.items() if not it})
    else:
        ups = [is_up(it.said.get(field.name), field.name in it.said) for it in places]
        count, whole = ups.count(False), len(ups)
        left = without_links(views, [it for it, is_taken in zip(places, ups) if not is_taken])
    if count == whole:
        raise BadDump(f"none of {whole} {field.of} has {field.name}={up.values}: {one(field)}")
    return left, f"left out, as --up {up.field}={up.values} asks: {count} of {whole} {field.of}"


def without_hosts(views: Views, down: Set[str]) -> Views:
    """A dump without some hosts, and without all links and listings of these."""
    left = views.emptied()
    for it in views.statements:
        if it.one not in down and it.other not in down:
            left.take(it)
    return left


def without_links(views: Views, down: Sequence[Statement]) -> Views:
    """A dump without some links and listings, whose hosts stay."""
    left, gone = views.emptied(), set(map(id, down))
    for it in views.statements:
        if id(it) not in gone:
            left.take(it)
        else:
            for name in (it.one, it.other) if it.is_link else (it.one,):
                left.enter(str(name))
    return left


def test_of(field: Field, up: Up) -> Callable[[Scalar, bool], bool]:
    """Whether a value, or that there is none, is one of those that are up."""
    low, dots, high = up.values.partition("..")
    if dots and all(not it or measured(it) is not None for it in (low, high)):
        return in_range(field, low, high)
    asked = {up.values.casefold()} if up.values.casefold() in {it.casefold() for it in field.counts} else set()
    wanted = asked or {it.strip().casefold() for it in up.values.split(",")}

    def is_up(value: Scalar, is_there: bool) -> bool:
        text = text_of(value).casefold() if is_there else ""
        return text in wanted or not is_there and MISSING in wanted

    return is_up


def measured(value: Scalar) -> Optional[float]:
    """The number, or the seconds, that a value says."""
    number = number_of(value)
    return span_of(value) if number is None else number


def in_range(field: Field, low: str, high: str) -> Callable[[Scalar, bool], bool]:
    """Whether a number lies between two; of times, so many seconds before the newest time in the dump."""
    newest = max(field.moments) if field.moments else None
    least, most = measured(low), measured(high)

    def is_up(value: Scalar, is_there: bool) -> bool:
        moment = moment_of(value) if newest is not None else None
        number = newest - moment if newest is not None and moment is not None else None
        if newest is None:
            number = measured(value)
        return number is not None and (least is None or least <= number) and (most is None or number <= most)

    return is_up


def one(field: Field) -> str:
    """A field, with its values and how often each is there. If these are many, it is told first of how many it is
    missing; then come its rarest words, that which is there most often, and the least and the greatest number."""
    counts = field.counts.most_common()
    name = f"column {field.name}" if field.name.isdigit() else quoted(field.name)
    if len(counts) <= MOST_SHOWN:
        return f"{name} is {one_of([f'{quoted(value)} ({number})' for value, number in counts])}"
    way = moment_of if field.moments else measured
    texts = {number: text_of(value) for number, value in ((way(value), value) for _, value in field.said)}
    numbers = sorted(it for it in texts if it is not None)
    words = [it for it in reversed(counts) if way(it[0]) is None]
    words.sort(key=lambda it: it[0] != MISSING)
    first = words if len(words) <= MOST_SHOWN else [*words[: MOST_SHOWN - 1], words[-1]]
    told = [f"{quoted(value)} ({number})" for value, number in first]
    if numbers:
        often = f" ({sum(field.counts.values()) - sum(number for _, number in words)})" if words else ""
        told.append(" to ".join(dict.fromkeys((texts[numbers[0]], texts[numbers[-1]]))) + often)
    more = len(words) - len(first)
    return f"{name} is {', '.join(told)} and {more} more values" if more else f"{name} is {one_of(told)}"


def rare_first(fields: Sequence[Field]) -> List[Field]:
    """Fields in the order in which they are told. If not all can be told with their values, those with a rare value
    come first, as in the account."""
    if len(fields) <= MOST_SHOWN:
        return [*fields]
    return sorted(fields, key=lambda it: not has_rare(it))


def has_rare(field: Field) -> bool:
    """Whether a rare value is among few, or among those of many that stand out."""
    counts = patterns_of(field)
    values = counts if len(counts) <= MOST_VALUES else odd_of(field, counts)
    return any(counts[it] < RARE * sum(counts.values()) for it in values)


def many(fields: Sequence[Field]) -> str:
    """Several fields with their values."""
    kinds: Dict[str, List[str]] = {}
    fields = rare_first(fields)
    for it in fields[:MOST_SHOWN]:
        kinds.setdefault(f"{sum(it.counts.values())} {it.of}", []).append(one(it))
    rest = sorted(fields[MOST_SHOWN:], key=lambda it: it.words.isdisjoint(STATE_NAMES))
    unnamed = f" and {len(rest) - MOST_NAMED} more fields" if len(rest) > MOST_NAMED else ""
    more = f", and {', '.join(quoted(it.name) for it in rest[:MOST_NAMED])}{unnamed}" if rest else ""
    return "; ".join(f"of {kind} {'; '.join(said)}" for kind, said in kinds.items()) + more


def question(fields: Sequence[Field]) -> str:
    """What a person is asked of fields that may say what is down."""
    first = rare_first(fields)[0]
    is_measured = bool(first.moments or first.spans or len(first.counts) > 2 and most_of(first.numbers))
    is_range = is_measured and not first.missing and "null" not in first.counts
    word = f"{first.name}={'LOW..HIGH' if is_range else 'VALUE[,VALUE]'}"
    unit = ", in seconds before the newest," if is_range and first.moments else ""
    word = f'"{word}"' if " " in word else word
    some = "all" if all(map(all_down, fields)) else "some"
    return f"{some} may be down: {many(fields)}; say --up {word}{unit} to take those that are up, or --all to take all"


def quoted(value: str) -> str:
    """A value as it is shown: nothing is shown as two quotes."""
    return value or '""'
