"""Whether the one value that a field has everywhere says that all are down."""

from __future__ import annotations

from typing import AbstractSet

from .fields import Field, number_of, words_of

# Words of a field's name, or of a value, that say that something is up, and such that say that it is down.
UP_WORDS = frozenset(
    """up connected alive live liveness online active reachable reachability enabled healthy established estab ready
    available availability valid ok okay open operational working running responsive responding answering serving
    usable carrier synced visible""".split()
)
DOWN_WORDS = frozenset(
    """down disconnected connecting disconnecting reconnecting dead offline inactive passive unreachable disabled
    unhealthy fail failed failing failure failures suspect suspected left leaving joining gone removed deleted closed
    closing opening stale expired lost timeout refused reset err error errors bad broken unready notready pending idle
    init initializing loading exstart attempt standby draining drained quarantined banned blocked blocking discarding
    invis invisible stopped crashed exited terminated killed unavailable critical fault faulty dn evicted invalid
    decommissioned maintenance noaddr never absent isolated partitioned ghost zombie shutdown shut stopping halted
    rebooting dying missed tombstone tombstoned""".split()
)
# Words of a name that measure, bound or count, so that a number in it does not say yes.
MEASURING_WORDS = frozenset(
    """timeout idle pending init attempt reset passive left max min limit threshold after interval delay time
    period""".split()
)
# Words of a name that ask whether something is up, and those that turn a word round.
ASKING_WORDS = frozenset("state status health condition".split())
TURNING_WORDS = frozenset("not no non isnt".split())
# Words that say of a kind, as in `tls_enabled`, whether something has it, and not whether it is up.
FEATURE_WORDS = frozenset("enabled disabled valid invalid available availability visible supported".split())
YES = frozenset("true yes y t on + ✓".split())
NO = frozenset("false no n f off - ✗".split())


def says_down(field: Field, value: str, is_of_kind: bool) -> bool:
    """Whether a field says by this value that something is down: by a word of it, or by yes, no or a number, where its
    name says what that means; one that is called after a kind may say that it has it.

    >>> def ask(name, value):
    ...     return says_down(Field("links", name, [(("a", "b"), value)], 0), value, False)
    >>> [ask(*it) for it in (("state", "down"), ("up", "false"), ("failed", "1"), ("x", "not ready"))]
    [True, True, True, True]
    >>> [ask(*it) for it in (("state", "up"), ("failed", "0"), ("x", "false"), ("up", "null"), ("state", "not down"))]
    [False, False, False, False, False]
    """
    if is_down(words_of(value)):
        return True
    number, text = number_of(value), value.casefold()
    if number is None and text not in YES | NO:
        return False
    is_yes = number > 0 if number is not None else text in YES
    own = words_of(field.name.rpartition(".")[2])
    name = own if own & (UP_WORDS | DOWN_WORDS | ASKING_WORDS) else field.words
    name = name - FEATURE_WORDS if is_of_kind else name
    if is_yes:
        return is_down(name) and (number is None or name.isdisjoint(MEASURING_WORDS))
    is_asking = number is None and not name.isdisjoint(ASKING_WORDS)
    return (is_up(name) or is_asking and not is_down(name))


def is_down(words: AbstractSet[str]) -> bool:
    """Whether words say that something is down; what is not up is."""
    is_turned = not words.isdisjoint(TURNING_WORDS)
    return not words.isdisjoint(UP_WORDS if is_turned else DOWN_WORDS)


def is_up(words: AbstractSet[str]) -> bool:
    """Whether words say that something is up; what is not down is."""
    is_turned = not words.isdisjoint(TURNING_WORDS)
    return not words.isdisjoint(DOWN_WORDS if is_turned else UP_WORDS) and not is_down(words)
