"""What is fuzzed: how each kind of input is run by the real programs, and what the independent readers say of it."""

import pathlib
import subprocess
import sys
import tempfile

from command_line import BadArguments, is_file, read_arguments
import second_opinion
from growing_words import Open, answer_grow, answer_sweep
from named_answers import answer_named
from scenario_run import Undetermined
from second_opinion import Answer, answer_analyse, answer_run, check, strict_of

SECONDS = 60
VERSION = "overlay 1.0, proved with Rattle's logic dac8208d650f15bf"
# How files begin that gzip, xz, zstd and zip make.
PACKED = (b"\x1f\x8b", b"\xfd7zXZ", b"(\xb5/\xfd", b"PK\x03\x04")
# How `run` in fuzz_loop.c takes the words of a graph file's first line.
OF_WORDS = frozenset(b"0123456789,")


class Case:
    """One call of a program: its crate, its arguments, its standard input, and the answer that is asked."""

    def __init__(self, crate, words, data, answer, more=None):
        self.crate, self.words, self.data, self.answer = crate, words, data, answer
        # what else to ask of standard error, as a function of its bytes that says what is wrong, or None
        self.more = more

    def unlike(self, programs, seconds=SECONDS):
        """What the program prints otherwise than is asked, in words, or None."""
        with tempfile.TemporaryDirectory() as folder:
            command = [programs[self.crate], *self.words]
            try:
                run = subprocess.run(command, input=self.data, capture_output=True, timeout=seconds, cwd=folder)
            except subprocess.TimeoutExpired:
                return f"it has not ended after {seconds} seconds"
        why = second_opinion.unlike(self.answer, run.stdout, run.stderr, run.returncode)
        return why or (self.more and self.more(run.stderr))


def is_of_another_form(data):
    """Whether the first bytes are those of a file in UTF-16, or of a packed one."""
    return data.startswith(PACKED) or data[:2] in (b"\xff\xfe", b"\xfe\xff") or b"\0" in data[:2]


def one_reason(data):
    """What is wrong with standard error, as a function of its bytes, if it is to have a line that says why this file is
    refused or fails, and below it a tip if the file has another form."""
    lines = 2 if is_of_another_form(data) else 1

    def more(err):
        told = err.split(b"\n")
        is_tip = [line.startswith(b"tip: ") for line in told[:-1]]
        is_right = told[-1] == b"" and is_tip == [False, True][:lines]
        return None if is_right else f"standard error is {err!r}, and should have {lines} lines"
    return more


def nothing(err):
    return f"standard error is {err!r}, and should be empty" if err else None


def certificate_cases(data):
    """A certificate file, judged by overlay-check as by tools/check.py."""
    printed, _, status = check.answer(data, has_graph=False)
    answer = Answer(printed.splitlines(), status=status)
    yield Case("overlay_check", [], data, answer, one_reason(data) if status else nothing)


def unlike_explained(lines, asked):
    """What is wrong with the lines on standard error if they are to begin so, or None."""
    if len(lines) != len(asked):
        return f"standard error has {len(lines)} lines, and should have {len(asked)}"
    told = next((pair for pair in zip(lines, asked) if not pair[0].startswith(pair[1])), None)
    return told and f"standard error has {told[0]!r}, and should have {told[1]!r}"


def explained(answer):
    """What is wrong with the explanations on standard error, as a function of its bytes. If several outputs are right,
    they may be those of any."""
    def more(err):
        lines = err.decode(errors="backslashreplace").split("\n")[:-1]
        said = [unlike_explained(lines, it.explained) for it in (answer, *answer.others)]
        return None if None in said else said[0]
    return None if answer.explained is None else more


def scenario_cases(data):
    """A scenario, run without explanations, strictly if it has no sections, and with explanations, as it is kept."""
    answer = answer_run(data)
    yield Case("overlay", ["run"], data, answer, None if answer.fault else nothing)
    if b"together" not in data:
        yield Case("overlay", ["run", "--strict"], data, strict_of(answer))
    yield Case("overlay", ["run", "--explain"], data, answer, explained(answer))


def words_of_graph(data):
    """The arguments that the first line of a graph file gives, as in fuzz_loop.c."""
    line = data.partition(b"\n")[0]
    words = [word for word in line[1:].split(b" ") if word]
    fits = all(word.startswith(b"--") or OF_WORDS.issuperset(word) for word in words)
    return words if line.startswith(b"#") and fits and b"\0" not in line else []


def asked_of_empty(request):
    """What `import`, `picture` and `graph` should print, if standard input is empty and there is no file.

    An empty dump is one of edges, unless it is to be views or DOT, which it is not. A picture reads the file with the
    names before anything is judged.
    """
    if request.command != "import":
        return Answer([], "refused 71" if "names" in request.options else "refused 60", 1)
    if "views" in request.options:
        return Answer([], "refused 60", 1)
    return Answer([], "refused 70", 1) if "dot" in request.options else Answer([])


def asked_of_analysis(options, data):
    """What `analyse` should print with these options."""
    answer = answer_named if "names" in options else answer_analyse
    group, gone = options.get("group"), options.get("without")
    if any(isinstance(it, bytes) and is_file(it) for it in (group, gone)):
        # there is no such file
        return Answer([], "refused 71", 1)
    return answer(data, group, "certificate" in options, gone, options.get("at-least"))


def asked(words, data):
    """What `overlay` should print for these arguments, if it reads this on standard input and there is no file."""
    try:
        request = read_arguments(words)
    except BadArguments:
        return Answer([], "refused 73", 2)
    if request.command == "version":
        return Answer([VERSION])
    if request.command == "help":
        return Answer([Undetermined("", many=True)])
    if request.command == "grow":
        return answer_grow(request.options)
    if request.command == "sweep":
        return answer_sweep(request.options)
    if request.file is not None:
        return Answer([], "refused 71", 1)
    if request.command == "run":
        return answer_run(data)
    if request.command == "analyse":
        return asked_of_analysis(request.options, data)
    return asked_of_empty(request)


def graph_cases(data):
    """A graph file, analysed with the arguments of its first line."""
    words = [b"analyse", *words_of_graph(data)]
    yield Case("overlay", words, data, asked(words, data))


def is_there(word):
    """Whether an argument names something that is there, as a folder of dots is."""
    try:
        return not word.strip(b".") or pathlib.Path(word.decode(errors="replace")).exists()
    except OSError:
        return False


def arguments_cases(data):
    """A command line, an argument a line. None is judged by which a file or a folder could be opened, and none that
    asks for more growing than the second opinion has time for."""
    lines = data.split(b"\n")
    words = [line.partition(b"\0")[0] for line in (lines if lines[-1] else lines[:-1])]
    if not any(word and is_there(word) for word in words):
        try:
            yield Case("overlay", words, b"", asked(words, b""))
        except Open:
            return


CASES = {"certificate": certificate_cases, "scenario": scenario_cases, "graph": graph_cases,
         "arguments": arguments_cases}
CRATES = {"certificate": "overlay_check", "scenario": "overlay", "graph": "overlay", "arguments": "overlay"}
# Python's json follows nested lists by its own stack.
sys.setrecursionlimit(20000)
