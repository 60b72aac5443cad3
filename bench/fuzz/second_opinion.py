#!/usr/bin/env python3
"""second_opinion.py run FILE | analyse FILE [--group IDS] [--without IDS] [--at-least K] [--certificate]: what
`overlay` should print.

A second reader of scenarios and graph files in plain Python, written from docs/FORMATS.md, docs/PROTOCOL.md and
docs/CONNECTIVITY.md and not from the Rattle code. Standard output, the status and the first line of standard error are
those that the documents ask of `overlay run FILE` and `overlay analyse FILE`. FILE `-` is standard input.

The paths of a certificate are this reader's own; others may be as right. If the order of sections decides what is
printed, one of the outputs is printed, and on standard error how many there are. If too many orders are possible, a
line that they decide begins with `?`. There is no limit on memory or time: an analysis of 200 nodes with 8 links each
takes a quarter of a second, one of a thousand nodes with many links may take hours. `unlike` compares what a program
printed with what is asked; other scripts call that.
"""

import argparse
import json
import pathlib
import sys

from connectivity import Analysis, Graph
from node_lists import group_of, without
from scenario_lines import Refused, ScenarioReader, Unreadable, ids, number, read_graph
from scenario_run import Certificate, Run, Undetermined

sys.path.insert(0, str(pathlib.Path(__file__).resolve().parent.parent.parent / "tools"))
import check  # noqa: E402  the independent checker of certificate files

# What two right certificates of one report may have different.
PATHS = ("pairs", "fans")


class Answer:
    """What a program should print: the lines of standard output, the first one of standard error, and the status.

    `explained` has how the lines on standard error begin that `--explain` asks for, or None if they are not determined.
    `others` are further answers that are as right, by other orders of sections.
    """

    def __init__(self, lines, fault=None, status=0, explained=None):
        self.lines, self.fault, self.status, self.explained, self.others = lines, fault, status, explained, []

    def is_determined(self):
        return not self.others and not any(isinstance(line, Undetermined) for line in self.lines)


def answer_of(state, is_determined):
    """The answer of one run of a scenario."""
    accepted, refused = state.events
    count = f"{accepted} event{'s' * (accepted != 1)} accepted, {refused} refused"
    explained = [f"line {place}: " for place in state.refused] + [count]
    return Answer(state.printed, explained=explained if is_determined else None)


def answer_run(data):
    """What `overlay run` should print for the bytes of a scenario."""
    try:
        run = Run(ScenarioReader(data))
    except Refused as fault:
        return Answer([], str(fault), 1)
    found = {}
    for state in run.states:
        found.setdefault((*state.printed, *state.refused), answer_of(state, run.is_determined))
    answer, *answer.others = found.values()
    return answer


def strict_of(answer):
    """What a strict run should print, if this is the answer of a run of a scenario without sections: all before the
    first line that is refused, and which line that is."""
    at = next((at for at, line in enumerate(answer.lines) if line.startswith("refused ")), None)
    return answer if at is None else Answer(answer.lines[:at], answer.explained[0] + answer.lines[at], 1)


def left_of(group, gone):
    """The members of a group that are left without some nodes, or None without a group."""
    return None if group is None else [node for node in group if node not in gone]


def graded(lines, k, least):
    """The answer of these lines, whose number is k, or None if there is no answer: the status is 3 if a least number is
    asked for, and there is no answer or k is below it."""
    return Answer(lines, status=3 if least is not None and (k is None or k < least) else 0)


def answer_analyse(data, group=None, has_certificate=False, gone=None, least=None):
    """What `overlay analyse` should print for the bytes of a graph file: for a group of ids, and without the nodes that
    the text of a list names, if these are given; and its status, if a least number is asked for."""
    try:
        graph = Graph(*read_graph(data))
        gone = group_of(gone, {}, graph) or []
    except Refused as fault:
        return Answer([], str(fault), 1)
    graph, group = without(graph, gone), left_of(group, gone)
    if not graph.nodes:
        return graded(["refused 30"], None, least)
    if group is not None and not graph.is_group(group):
        return graded(["refused 34"], None, least)
    found = Analysis(graph, graph.nodes if group is None else group)
    lines = [found.line(0), *([Certificate(found.certificate(0))] if has_certificate else [])]
    return graded(lines, found.fields["k"], least)


def is_same_certificate(text, other):
    """Whether two texts of certificates differ in their paths alone, and the first one holds."""
    try:
        said, asked = json.loads(text), json.loads(other)
        if not check.judge(text.encode()).startswith("holds "):
            return False
    except (ValueError, check.Answer):
        return False
    is_compact = json.dumps(said, sort_keys=True, separators=(",", ":")) == text
    return is_compact and all(said.get(key) == asked.get(key) for key in {*said, *asked} if key not in PATHS)


def is_fit(line, asked):
    """Whether a line is what is asked."""
    if isinstance(asked, Undetermined):
        return asked.fits(line)
    return line == asked or (isinstance(asked, Certificate) and is_same_certificate(line, asked))


def unlike_lines(lines, asked):
    """What is wrong with lines that were printed, in words, or None."""
    at = 0
    for wanted in asked:
        if isinstance(wanted, Undetermined) and wanted.is_many:
            while at < len(lines) and wanted.fits(lines[at]):
                at += 1
            continue
        if at == len(lines):
            return f"line {at + 1} is missing, and should be {str(wanted)!r}"
        if not is_fit(lines[at], wanted):
            return f"line {at + 1} is {lines[at]!r}, and should be {str(wanted)!r}"
        at += 1
    return None if at == len(lines) else f"line {at + 1} is one too many: {lines[at]!r}"


def unlike(answer, out, err, status):
    """What is wrong with what a program printed, in words, or None: bytes of both outputs, and the status."""
    text = out.decode(errors="backslashreplace")
    if status != answer.status:
        return f"the status is {status}, and should be {answer.status}"
    if text and not text.endswith("\n"):
        return "standard output does not end with a line feed"
    first = err.decode(errors="backslashreplace").partition("\n")[0]
    if answer.fault is not None and first != answer.fault:
        return f"standard error begins with {first!r}, and should with {answer.fault!r}"
    lines = text.split("\n")[:-1]
    if any(unlike_lines(lines, other.lines) is None for other in answer.others):
        return None
    return unlike_lines(lines, answer.lines)


def read_file(name):
    if name == "-":
        return sys.stdin.buffer.read()
    with open(name, "rb") as opened:
        return opened.read()


def answered(given):
    """The answer for the arguments of this script."""
    try:
        data = read_file(given.file)
    except OSError as why:
        print(f"refused 71\n{given.file} can't be read: {why.strerror}", file=sys.stderr)
        return Answer([], status=1)
    if given.command == "run":
        return answer_run(data)
    try:
        group = None if given.group is None else ids(given.group.encode())
        least = None if given.at_least is None else number(given.at_least.encode())
    except Unreadable:
        print("refused 73\n--group takes ids with one comma between two, and --at-least a number", file=sys.stderr)
        return Answer([], status=2)
    gone = None if given.without is None else given.without.encode()
    return answer_analyse(data, group, given.certificate, gone, least)


def main():
    parser = argparse.ArgumentParser(description="Says what overlay should print, by its documents alone.")
    commands = parser.add_subparsers(dest="command", required=True)
    commands.add_parser("run").add_argument("file")
    analyse = commands.add_parser("analyse")
    analyse.add_argument("file")
    analyse.add_argument("--group", metavar="IDS")
    analyse.add_argument("--without", metavar="IDS")
    analyse.add_argument("--at-least", metavar="K")
    analyse.add_argument("--certificate", action="store_true")
    answer = answered(parser.parse_args())
    for line in answer.lines:
        print(line)
    if answer.fault:
        print(answer.fault, file=sys.stderr)
    if answer.others:
        print(f"one of {len(answer.others) + 1} outputs, by the order of sections", file=sys.stderr)
    return answer.status


if __name__ == "__main__":
    try:
        sys.exit(main())
    except BrokenPipeError:
        sys.exit(1)
