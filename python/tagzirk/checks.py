"""What overlay-check says of a certificate."""

from __future__ import annotations

import os
from dataclasses import dataclass
from typing import Optional, Union

from .answers import Answer, read_answer
from .errors import ProgramFailed
from .programs import Data, Program, call, find, opened, refuse

# The checker, and that which reads files of version 3 too; and what the first says of such a file.
CHECKERS = ("overlay_check", "overlay_check_large")
UNKNOWN_VERSION = "refused 64"


@dataclass(frozen=True)
class Verdict:
    """What overlay-check says of a certificate. It is true, as a condition, if the certificate holds.

    `line` is the line that the program prints. If it is `holds ..`, `answer` is what it says; else `answer` is None,
    and `reason` says what is wrong.
    """

    line: str
    answer: Optional[Answer]
    reason: str

    @property
    def holds(self) -> bool:
        """Whether the certificate holds."""
        return self.answer is not None

    def __bool__(self) -> bool:
        return self.holds


def check(certificate: Union[str, bytes, "os.PathLike[str]"], *, overlay_check: Optional[Program] = None) -> Verdict:
    """Asks overlay-check about a certificate: the text of a certificate file, its bytes, or the path of one.

    A text is never taken for the name of a file: name a file by a `pathlib.Path`. A certificate that fails and a file
    that is no certificate file give a verdict, and no error.

    >>> check('{"k":1,"links":[[1,2]],"moment":6,"nodes":[1,2],"verdict":"linked","version":1}').line
    'holds 6 linked k 1'
    >>> verdict = check('{"k":2,"links":[[1,2]],"moment":6,"nodes":[1,2],"verdict":"linked","version":1}')
    >>> verdict.holds, verdict.line
    (False, 'fails 40')

    A file of version 3, as one of more than 1,024 nodes, is given to overlay-check-large, unless a program is named.

    It holds of the graph in the file. Whether this is your graph is to be compared: docs/CHECK-A-REPORT.md says how.
    """
    with opened(certificate) as data:
        verdict = judged(data, overlay_check)
    if overlay_check or verdict.line != UNKNOWN_VERSION:
        return verdict
    with opened(certificate) as data:
        return judged(data, is_large=True)


def judged(data: Data, overlay_check: Optional[Program] = None, is_large: bool = False) -> Verdict:
    """What overlay-check says of a certificate that it reads as its standard input; or overlay-check-large, if it
    `is_large`. A program that is given is asked in any case."""
    program = find(CHECKERS[is_large], overlay_check)
    ended = call(program, [], data)
    line = ended.out.rstrip("\n")
    if not line:
        refuse(*ended.err.partition("\n")[::2])
    answer = read_answer(line, "holds")
    is_said = answer is not None if ended.status == 0 else line.startswith(("fails ", "refused "))
    if not is_said:
        raise ProgramFailed(f"{program} is not overlay-check: it printed {line!r}, with status {ended.status}")
    return Verdict(line, answer, ended.err.rstrip("\n"))
