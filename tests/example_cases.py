"""Tables of cases: what a command prints of many small inputs.

A file NAME.cases of examples/ has cases, with empty lines between them. The first mark of a line says what it is:

    # WORDS         a comment
    $ WORDS         a command of this case, and of those below it; if there are several, each comes to the same
    < TEXT          a line of the input
    % TEXT          the input is this text of Python, as "node 1\n" * 2: an expression, for an input that is large
    ~ OLD => NEW    the input is that of the last case with such lines, with NEW in place of OLD, which it has once; there
                    may be more such pairs behind another =>
    | TEXT          this line alone is an input: the case is run with each such line, and each comes to the same
    > TEXT          a line of standard output
    ! TEXT          a line of standard error; a case without such a line says nothing of standard error, and one whose
                    last such line is .. says how it begins
    = STATUS        the status, which is 0 without such a line

Lines of an input that come to nothing, without output and status, are not run: cases below change them. Behind a mark
with a backslash, as in `<\\ TEXT`, the text has escapes (\\n, \\r, \\t, \\\\ and bytes as \\xff), and no line feed is
added.
"""

import re
import subprocess
from itertools import combinations
from typing import NamedTuple

MARKS = "#$<%~|>!="
ESCAPE = re.compile(rb"\\(x[0-9a-f]{2}|[nrt\\])")
ESCAPED = {b"n": b"\n", b"r": b"\r", b"t": b"\t", b"\\": b"\\"}


class Case(NamedTuple):
    """A case: the number of its first line, its commands, its inputs, and what each of them comes to: standard output,
    standard error or how that begins, and the status."""

    line: int
    commands: list
    inputs: list
    out: bytes
    err: bytes
    is_err_whole: bool
    status: int

    def runs(self):
        """Each command with each input."""
        return [(command, given) for command in self.commands for given in self.inputs]


def bytes_of(line):
    """The bytes that a line stands for."""
    if line[1:2] == "\\":
        text = line[2:].removeprefix(" ").encode()
        return ESCAPE.sub(lambda it: ESCAPED.get(it[1]) or bytes.fromhex(it[1][1:].decode()), text)
    return f"{line[1:].removeprefix(' ')}\n".encode()


def replaced(base, line):
    """The input with some texts in place of others."""
    words = bytes_of(line).removesuffix(b"\n" * (line[1:2] != "\\")).split(b" => ")
    for old, new in zip(words[::2], words[1::2], strict=True):
        if base.count(old) != 1:
            raise ValueError(f"an input has {base.count(old)} times what is to be replaced: {old.decode()}")
        base = base.replace(old, new)
    return base


def blocks(text):
    """The number of the first line of each case, and its lines by their marks."""
    found, begun = {}, 0
    for number, line in enumerate([*text.split("\n"), ""], 1):
        if line and line[0] not in MARKS:
            raise ValueError(f"line {number} begins with no mark")
        if line and line[0] != "#":
            begun = begun or number
            found.setdefault(line[0], []).append(line)
        elif not line and found:
            yield begun, found
            found, begun = {}, 0


def joined(lines):
    """The bytes of all these lines."""
    return b"".join(map(bytes_of, lines))


def written(lines):
    """The bytes of a text that Python writes: that of the expression on this line."""
    (line,) = lines
    return eval(line[2:], {"combinations": combinations}).encode()


def cases(text):
    """The cases of a file."""
    commands, base = [], b""
    for number, lines in blocks(text):
        commands = [line[2:].split() for line in lines["$"]] if "$" in lines else commands
        base = joined(lines["<"]) if "<" in lines else base
        base = written(lines["%"]) if "%" in lines else base
        inputs = [bytes_of(line) for line in lines.get("|", [])]
        inputs += [replaced(base, line) for line in lines.get("~", [])]
        if any(mark in lines for mark in ">!="):
            told = lines.get("!", ["! .."])
            err = joined(told[:-1] if told[-1] == "! .." else told)
            status = int(lines.get("=", ["= 0"])[0][2:])
            yield Case(number, commands, inputs or [base], joined(lines.get(">", [])), err, told[-1] != "! ..", status)


def came_of(case, program, command, given):
    """What a command prints of an input, as far as the case says something of it, and its status."""
    done = subprocess.run([program, *command[1:]], input=given, capture_output=True)
    err = done.stderr if case.is_err_whole else done.stderr[: len(case.err)]
    return done.stdout, err, done.returncode


def unlike(cases_of_file, program_of):
    """What is printed otherwise than the cases have it, in words; program_of gives the program of a command's first
    word."""
    for case in cases_of_file:
        wanted = case.out, case.err, case.status
        for command, given in case.runs():
            came = came_of(case, program_of(command[0]), command, given)
            if came != wanted:
                yield f"line {case.line}, {' '.join(command)}: {given[:300]!r} came to {came}, and {wanted} is kept"
