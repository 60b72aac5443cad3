"""Whether a field says a state: which hosts, listings or links are down. docs/DUMPS.md tells the rules that stand here.

A dump whose states differ, or say that all are down, is refused, unless a person said which are up: else a link that is
down would count, and k would be too high.
"""

from __future__ import annotations

import enum
import re
from typing import AbstractSet, Callable, Dict, Optional, Sequence, Set

from .downs import says_down
from .fields import MISSING, Field, text_of, words_of
from .written import REPEATED, WRITTEN

# Words of a field's name that say a state, the time of a last contact, or when something began.
STATE_NAMES = frozenset(
    """state states status up down connected disconnected alive dead live liveness online offline active inactive
    passive reachable unreachable reachability enabled disabled healthy unhealthy health established ready
    failed failing failure fail suspect suspected available unavailable availability valid invalid ok error err
    errors fault faulty stale expired lost left gone removed deleted closed open phase condition operational
    oper admin visible invisible broken flag flags alarm working running responsive responding answering drained
    banned blocked usable carrier synced failures missed tombstone phi shutdown""".split()
)
CONTACT_NAMES = frozenset(
    """age ago seen heard contact handshake handshakes heartbeat heartbeats idle silence silent quiet elapsed expires
    expiry refreshed""".split()
)
BEGIN_NAMES = frozenset("since created began begin start started joined first uptime born conntime added".split())
# Words of a name that say what a link or a host is, or its measure, and not whether it is up.
KIND_NAMES = frozenset(
    """region zone dc datacenter rack site city country location version ver release build os arch platform port
    protocol proto transport interface iface device dev vlan vrf network net family direction directed inbound
    outbound incoming outgoing initiator index name host hostname address addr ip key id uid uuid comment
    description note tag tags group cluster model vendor medium cable fiber provider isp asn encrypted tls
    compressed persistent static dynamic manual local seed relay voter leader whitelisted multigraph title url
    uri route path subgraph""".split()
)
MEASURE_NAMES = frozenset(
    """weight w cost metric distance dist length len hops hop bandwidth bw speed capacity rate mtu priority prio rank
    preference level order rtt latency ping delay jitter loss rx tx bytes quality x y z lat lon pos width height
    size penwidth label""".split()
)
# Names of ids.
ID_NAMES = frozenset("id uid uuid index key number row".split())
# Names of how a link or a host is drawn.
LOOK_NAMES = frozenset("color colour fillcolor style shape class classes".split())
# Words of a value that say a state.
STATE_WORDS = frozenset(
    """up down connected disconnected connecting disconnecting reconnecting alive dead online offline active inactive
    passive reachable unreachable enabled disabled healthy unhealthy established estab failed failing fail
    failure suspect suspected left leaving joining joined gone removed deleted closed closing open opening half
    stale expired lost timeout refused reset error ok okay bad broken ready unready notready pending idle init
    initializing loading exstart exchange attempt standby draining drained quarantined banned blocked blocking
    discarding invis invisible hidden running stopped crashed exited terminated killed unavailable available
    degraded critical faulty un dn uj ul um serving evicted wait decommissioned maintenance handshake noaddr
    unknown never absent isolated partitioned ghost zombie shutdown shut stopping halted rebooting dying""".split()
)
# Two values, one of which says no.
PAIRS = [set(it.split()) for it in ("true false", "yes no", "y n", "t f", "on off", "0 1", "+ -", "✓ ✗")]
# What stands where there is no value, and numbers that stand for none.
NOTHING = frozenset(("", *"null none nil nan n/a na - -- inf infinity infinite ? undefined".split()))
LARGEST = frozenset(float(2**bits - 1) for bits in (16, 24, 31, 32, 63, 64))
# Values with more different ones than this are no states, and times within so many seconds are of one moment. Words of
# states in longer values stand among others. Texts that all differ have at most so many shapes, but for their numbers.
MOST_VALUES, ONE_MOMENT, MOST_LONG, MOST_SHAPES = 12, 60.0, 60, 4
NUMBERS = re.compile(r"[0-9]+(?:\.[0-9]+)*")
# A name that says since when something is not there any more, as `since_reply`, and not since when it is.
SINCE = re.compile(r"(?:^|[._])since[_A-Z-]")


class Kind(enum.Enum):
    """What a field may be: no state, maybe one, which is told, or one that differs or that says of all that they are
    down, which is asked about."""

    NONE = 0
    TOLD = 1
    ASKED = 2


def kind_of(field: Field) -> Kind:
    """What a field may be, by the first rule that knows.

    >>> said = [(("a", "b"), "up"), (("b", "c"), "down")]
    >>> kind_of(Field("links", "x", said, 0)), kind_of(Field("links", "x", said[:1], 0))
    (<Kind.ASKED: 2>, <Kind.TOLD: 1>)
    """
    return next((kind for kind in (rule(field) for rule in RULES) if kind is not None), Kind.NONE)


def clearness(field: Field) -> int:
    """By how many signs a field says a state: by its name, by yes or no, by words, and by a value everywhere."""
    asked = (by_name(field), by_pair(field), by_words(field))
    return asked.count(Kind.ASKED) + (not field.missing)


def is_named(field: Field, names: AbstractSet[str]) -> bool:
    return not field.words.isdisjoint(names)


def is_kind(field: Field, names: AbstractSet[str]) -> bool:
    """Whether a field is called so by its own name, whatever the objects are called in which it stands."""
    return not words_of(field.name.rpartition(".")[2]).isdisjoint(names)


def state_words(text: str) -> Set[str]:
    """The words of a value that say a state."""
    return words_of(text) & STATE_WORDS


def by_writing(field: Field) -> Optional[Kind]:
    """How something is written, and how often, is no state by itself, but for words of one: it is for the account."""
    is_plain = not is_pair({it.casefold() for it in field.counts}) and not any(map(state_words, field.counts))
    return Kind.NONE if field.name in (WRITTEN, REPEATED) and is_plain else None


def all_down(field: Field) -> bool:
    """Whether each value says that something is down."""
    is_of_kind = is_kind(field, KIND_NAMES)
    return not field.missing and all(len(it) <= MOST_LONG and says_down(field, it, is_of_kind) for it in field.counts)


def by_one_value(field: Field) -> Optional[Kind]:
    """One value for all says no difference; if it is one of a state, it is told. That all are down is asked about."""
    if len(field.counts) != 1:
        return None
    value = next(iter(field.counts))
    if all_down(field):
        return Kind.ASKED
    is_number = value == "1" or value == "0" and is_kind(field, MEASURE_NAMES)
    is_answer = is_pair({value.casefold()}) and not is_number and not is_kind(field, KIND_NAMES)
    return Kind.TOLD if is_named(field, STATE_NAMES) or state_words(value) or is_answer else Kind.NONE


def is_of_contact(field: Field) -> bool:
    """Whether a field is called after an age or a last contact: also as `last..`, and `since..` in front of a word."""
    is_last = any(it.startswith("last") for it in field.words) or SINCE.search(field.name)
    return bool(is_last) or is_named(field, CONTACT_NAMES)


def by_contact(field: Field) -> Optional[Kind]:
    """Ages, and times of a last contact: they differ, unless all are times within a minute."""
    is_contact = is_of_contact(field)
    if not field.moments and (not is_contact or not field.spans):
        has_digits = 2 * sum(any(map(str.isdigit, text_of(value))) for _, value in field.said) > len(field.said)
        return Kind.ASKED if is_contact and has_digits else None
    if not is_contact and is_named(field, BEGIN_NAMES):
        return None
    seconds = field.moments or field.spans
    is_one = len(seconds) == len(field.said) and not field.missing and max(seconds) - min(seconds) <= ONE_MOMENT
    return Kind.TOLD if is_one or field.is_of_hosts and not is_contact else Kind.ASKED


def by_words(field: Field) -> Optional[Kind]:
    """Values with words of states. If all have the same such words, as `Up 3 hours` and `Up 2 days`, they are one; and
    it is asked about where all say that they are down, as `Down 3 hours` and `Down 2 days` do."""
    words = {text: frozenset(state_words(text)) for text in field.counts if text != MISSING}
    with_words = sum(field.counts[text] for text, it in words.items() if it)
    if not with_words:
        return None
    if all(len(text) > MOST_LONG for text, it in words.items() if it):
        # a word among many others
        return Kind.TOLD
    if len(words) > MOST_VALUES and 2 * with_words < len(field.said):
        # a word of some among other values, as a timeout among round trips
        return Kind.TOLD
    return Kind.TOLD if len(set(words.values())) == 1 and not field.missing and not all_down(field) else Kind.ASKED


def by_name(field: Field) -> Optional[Kind]:
    """A name that says a state. With many different numbers the field counts or measures something."""
    if not is_named(field, STATE_NAMES):
        return None
    is_measure = is_numeric(field) and len(set(field.numbers)) > MOST_VALUES // 2
    return Kind.TOLD if is_measure else Kind.ASKED


def is_pair(values: AbstractSet[str]) -> bool:
    """Whether values are one or both of a pair such as true and false."""
    return any(values <= pair for pair in PAIRS)


def by_pair(field: Field) -> Optional[Kind]:
    """Yes or no, in some words; or yes of some, and nothing of others."""
    values = {it.casefold() for it in field.counts} - NOTHING - {MISSING}
    if not values or not is_pair(values) or values == {"1"}:
        return None
    if is_kind(field, KIND_NAMES):
        return Kind.NONE
    return Kind.TOLD if is_named(field, BEGIN_NAMES) or field.is_of_hosts else Kind.ASKED


def by_nothing(field: Field) -> Optional[Kind]:
    """Nothing among values: null, an empty text, a dash, an infinite number, or a negative one among others."""
    numbers = {it for it in field.numbers if it is not None}
    is_for_none = sum(it < 0 for it in numbers) == 1 < len(numbers)
    if not is_for_none and not any(it.casefold() in NOTHING for it in field.counts):
        return None
    return Kind.TOLD if field.is_of_hosts or is_kind(field, KIND_NAMES) else Kind.ASKED


def is_of_some(field: Field) -> bool:
    """Whether each link that has a field has a value of its own, and others have none; or texts that all differ are of
    a few shapes, but for the numbers in them, as `reply 3 ms` and `no reply, 7 tries`."""
    if field.is_of_hosts or is_kind(field, KIND_NAMES):
        return False
    shapes = {NUMBERS.sub("#", it) for it in field.counts}
    is_of_shapes = 1 < len(shapes) <= MOST_SHAPES and len(shapes) < len(field.counts) / 2
    return bool(field.missing) or is_of_shapes and not is_numeric(field) and not field.spans and not field.moments


def by_identity(field: Field) -> Optional[Kind]:
    """A value of its own for each listing, or for each host that is listed or lists, is a name or an address."""
    pairs = [(who, text_of(value).casefold()) for who, value in field.said]
    if len(set(it for _, it in pairs)) < 3:
        return None
    if is_of_some(field) and len(set(it for _, it in pairs)) == len(pairs):
        return Kind.TOLD
    for place in range(len(pairs[0][0])):
        of_host: Dict[str, Set[str]] = {}
        for who, value in pairs:
            of_host.setdefault(who[place], set()).add(value)
        is_of_each = all(len(it) == 1 for it in of_host.values()) and len(of_host) < len(pairs)
        if is_of_each and len(set().union(*of_host.values())) == len(of_host):
            return Kind.NONE
    return Kind.NONE if len(set(it for _, it in pairs)) == len(pairs) and not is_numeric(field) else None


def is_numeric(field: Field) -> bool:
    return None not in field.numbers


def by_number(field: Field) -> Optional[Kind]:
    """Numbers: zero among others, or the largest that some counter holds, may stand for a link that is down. Zero right
    below the two ends, as in a matrix, is no link."""
    if not is_numeric(field):
        return None
    numbers = {it for it in field.numbers if it is not None}
    has_zero = 0 in numbers and len(numbers) > 1
    if field.is_of_hosts:
        return Kind.TOLD if has_zero and not is_kind(field, KIND_NAMES | MEASURE_NAMES) else None
    if has_zero and is_count_of_ids(field):
        return Kind.NONE
    if has_zero:
        return Kind.ASKED if field.name == "value" else Kind.TOLD
    is_exact = not all(it.is_integer() for it in numbers) and (len(numbers) > 2 or field.name.isdigit())
    is_measure = is_exact or len(numbers) > MOST_VALUES // 2
    is_plain = is_measure or is_kind(field, KIND_NAMES | MEASURE_NAMES | BEGIN_NAMES)
    if not LARGEST.isdisjoint(numbers) or field.missing and not is_kind(field, KIND_NAMES):
        return Kind.TOLD
    return Kind.NONE if is_plain else Kind.TOLD


def is_count_of_ids(field: Field) -> bool:
    """Whether a field is called after an id, and counts all that have one from 0 on."""
    is_id = is_kind(field, ID_NAMES) and not field.missing
    return is_id and sorted(it for it in field.numbers if it is not None) == list(range(len(field.said)))


def by_few(field: Field) -> Optional[Kind]:
    """A few texts that say neither a name nor a kind may be states in words that are not known here."""
    if is_kind(field, KIND_NAMES) or len(field.counts) > MOST_VALUES:
        return None
    if field.is_of_hosts and not is_named(field, LOOK_NAMES):
        return None
    if not field.missing and (field.spans and 0 not in field.spans or is_named(field, BEGIN_NAMES)):
        return None
    return Kind.TOLD if 2 * len(field.counts) <= len(field.said) + field.missing or field.missing else None


RULES: Sequence[Callable[[Field], Optional[Kind]]] = (
    by_writing,
    by_one_value,
    by_contact,
    by_words,
    by_name,
    by_pair,
    by_nothing,
    by_identity,
    by_number,
    by_few,
)
