"""What can go wrong, each with its reason in words."""

from __future__ import annotations


class TagzirkError(Exception):
    """Any error of this package."""


class BadGraph(TagzirkError, ValueError):
    """What was given is no graph, or no group of its nodes."""


class BadDump(TagzirkError, ValueError):
    """A file is no dump that `tagzirk import` reads, or what was asked of a dump can't be done with it."""


class LibraryMissing(TagzirkError):
    """A library or a program is not there that only what was asked for needs."""


class NotWritten(TagzirkError):
    """A file that was to be written can't be, or what stands there would be lost."""


class ViewsDiffer(UserWarning):
    """A warning: some node of a dict of views lists whom lists it not, or whom has no view; or a node of any graph is
    linked to itself, which is passed over. It says how many, and the first ten.
    `warnings.simplefilter("ignore", ViewsDiffer)` silences it, and "error" in place of "ignore" makes it an error."""


class ProgramMissing(TagzirkError):
    """A program was not found, or could not be started."""


class ProgramFailed(TagzirkError):
    """A program ended in a way that its documents do not promise, by a signal for instance."""


class Refused(TagzirkError):
    """A program refused what it was given.

    `number` is the number of the fault, as in docs/FAULTS.md; `line` is the line that says it, such as `refused 31`;
    `reason` is what the program says of it in words.
    """

    def __init__(self, number: int, line: str, reason: str) -> None:
        super().__init__(f"{line}\n{reason}" if reason else line)
        self.number, self.line, self.reason = number, line, reason


def in_words(why: Exception) -> str:
    """An error as a person is told it: the reason first, and then its number.

    >>> print(in_words(Refused(30, "refused 30", "the graph has no nodes")))
    the graph has no nodes (refused 30)
    """
    if isinstance(why, Refused) and why.reason:
        first, *rest = why.reason.split("\n")
        return "\n".join([f"{first} ({why.line})", *rest])
    if isinstance(why, OSError) and why.strerror:
        return f"{why.filename}: {why.strerror}" if why.filename else why.strerror
    return str(why) if isinstance(why, (TagzirkError, OSError)) else f"{type(why).__name__}: {why}"


class NotConfirmed(TagzirkError):
    """The checker did not confirm a report, or its certificate is not of the graph, the group or the moment that was
    asked about. Nothing is known then."""
