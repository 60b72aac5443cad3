"""The cases of check-devices about overlays that are grown: `overlay grow` and `overlay sweep`."""

import contextlib
import itertools
import os
import pathlib
import resource
import subprocess
import sys

from device_cases import UNHEARD, dead_terminal, opened, widowed, without_rights
from device_lab import CASES, LIMITS, MB, MEMORY, READ, RIGHT, RUN, WRITE, Case, Command, case, told
from limit_cases import ENOUGH, has_not_started, memory_steps
from repository import ROOT

# What is printed is known from the second opinion on growing.
sys.path += [str(ROOT / "bench" / "study"), str(ROOT / "bench" / "fuzz")]
from grow import Growing  # noqa: E402
from options import Options  # noqa: E402
from rows import header, row_of  # noqa: E402

# How many nodes the overlays of a sweep have, and how many runs there are of each setting.
SIZES, RUNS = (6, 8), 5
GROWN = ("sweep", "--nodes", ",".join(map(str, SIZES)), "--runs", str(RUNS))
# The commands that grow, or read rows; what follows these words is FILE or nothing.
GROW = Command("grow", "overlay", ("grow", "--nodes", "30", "--crash", "10", "--broadcasts", "2"), "", "grown")
SWEEP = Command("sweep", "overlay", GROWN, "", "rows")
CROWD = Command("sweep --workers 64", "overlay", (*GROWN, "--workers", "64"), "", "rows")
SUMMARY = Command("sweep --summary", "overlay", (*GROWN, "--summary"), "", "summary")
RE_READ = Command("sweep --read FILE --summary", "overlay", ("sweep", "--summary", "--read"), "", "summary")
GROWERS = [GROW, SWEEP, CROWD, SUMMARY, RE_READ]
NO_WRITE = "writing failed: `refused 72`, status 1 (FORMATS.md)"
NO_READ = "reading failed: `refused 71`, status 1 (FORMATS.md)"
ROWS_FIRST = "status 1, the right rows, `refused 72`"
SOME_ROWS = "status 1, whole rows, the first ones of all, and then `refused 99`"


def rows_known():
    """The rows of the sweep, by the second opinion."""
    settings = itertools.product(SIZES, range(RUNS))
    grown = [(it, Growing(it)) for it in (Options(nodes=nodes, seed=seed) for nodes, seed in settings)]
    for _, growing in grown:
        growing.grow()
    return "\n".join([header(), *(row_of(it, growing.phases) for it, growing in grown), ""]).encode()


def right_of(lab, command):
    """What a command prints, by the second opinion. A summary is that of the rows that it gives."""
    if command.kind not in lab.kept:
        if command.kind == "grown":
            options = Options(nodes=30, crash=10, broadcasts=2)
            lab.kept["grown"] = "\n".join([*Growing(options).grow(), ""]).encode()
        elif command.kind == "rows":
            lab.kept["rows"] = rows_known()
        else:
            lab.kept["summary"] = lab.run(words_of(lab, RE_READ)).out
    return lab.kept[command.kind]


def rows_file(lab):
    """A file with the rows of the sweep."""
    path = pathlib.Path(lab.room, "rows.csv")
    if not path.exists():
        path.write_bytes(right_of(lab, SWEEP))
        path.chmod(0o644)
    return str(path)


def words_of(lab, command):
    """The words by which a command is started."""
    return lab.words(command, rows_file(lab) if command is RE_READ else None)


def each(name, done, promised, wanted, **how):
    """Adds a case in which all commands are run in the same way. What opens a stream is called for each run."""

    def act(lab):
        for command in GROWERS:
            right = right_of(lab, command)
            with contextlib.ExitStack() as stack:
                given = {key: it(lab, command) if callable(it) else it for key, it in how.items()}
                for value in given.values():
                    if hasattr(value, "close"):
                        stack.callback(value.close)
                seen = lab.run(words_of(lab, command), **given)
            yield command.name, told(seen, b"" if "stdout" in given else right), wanted

    CASES.append(Case("growing", f"growing: {name}", done, promised, act))


each("all is well", "the same without any trouble; a summary also of rows that were read",
     "scenario and rows are those "
     "of the second opinion, and the summary of what was grown is that of its rows", RIGHT)
each("empty environment", "`env -i`", "no variable is looked at (FORMATS.md, devices)", RIGHT, env={})
each("closed standard output", "`>&-`", NO_WRITE, WRITE, closed=(1,))
each("full device", "`>/dev/full`", NO_WRITE, WRITE, stdout=opened("/dev/full", "wb"))
each("reader gone at once", "a pipe without a reader", NO_WRITE, WRITE, stdout=widowed)
each("a terminal that hangs up", "standard output is a terminal whose other end is closed", NO_WRITE, WRITE,
     stdout=dead_terminal, start_new_session=True)
each("closed standard error", "`2>&-`", UNHEARD, RIGHT, closed=(2,))
each("full standard error", "`2>/dev/full`", UNHEARD, RIGHT, stderr=opened("/dev/full", "wb"))
each("256 KB of stack", "`ulimit -s 256`", "the right output: 256 KB of stack are enough (FORMATS.md, devices)", RIGHT,
     limits={resource.RLIMIT_STACK: ENOUGH})


@case("growing", "growing: a picture that can't be opened",
      "`sweep --svg FILE`, where FILE is a folder, in a folder that is not there, or `''`",
      "FILE is opened before anything is grown (COMMANDS.md), so no row comes: `refused 72`, status 1 (FORMATS.md)")
def unopened_picture(lab):
    for name, file in (("a folder", lab.room), ("no folder", "none/p.svg"), ("''", "")):
        yield f"--svg {name}", told(lab.run([*lab.words(SWEEP), "--svg", file])), WRITE


@case("growing", "growing: a picture that can't be written", "`sweep --svg /dev/full`",
      "it can be opened, so the rows come first (COMMANDS.md); then `refused 72`, status 1 (FORMATS.md)")
def unwritten_picture(lab):
    seen = lab.run([*lab.words(SWEEP), "--svg", "/dev/full"])
    told_rows = told(seen, right_of(lab, SWEEP)).replace("the right output", "the right rows")
    yield "--svg /dev/full", told_rows, ROWS_FIRST


@case("growing", "growing: a picture, and a full device", "`sweep --svg FILE >/dev/full`, where FILE is there",
      "FILE keeps what it has until the picture is written (COMMANDS.md): it is as before, and `refused 72`, status 1")
def kept_picture(lab):
    path = pathlib.Path(lab.room, "kept.svg")
    path.write_bytes(b"as before")
    with open("/dev/full", "wb", buffering=0) as full:
        seen = lab.run([*lab.words(SWEEP), "--svg", str(path)], stdout=full)
    same = "FILE is as before" if path.read_bytes() == b"as before" else "FILE is changed"
    yield "sweep --svg", f"{told(seen)}, {same}", f"{WRITE}, FILE is as before"


@case("growing", "growing: rows that can't be read",
      "`sweep --read FILE --summary`, where FILE is not there, a folder, "
      "/proc/self/mem, or `-` with standard input closed", NO_READ)
def unread_rows(lab):
    for name, file in (("no file", "none"), ("a folder", lab.room), ("a device", "/proc/self/mem")):
        yield f"--read {name}", told(lab.run(lab.words(RE_READ, file))), READ
    yield "--read - <&-", told(lab.run(lab.words(RE_READ, "-"), closed=(0,))), READ


@case("growing", "growing: rows that are cut", "`sweep --read - --summary` of the rows, cut at each of their last 40 "
      "bytes", "a row with another number of fields is `refused 70`; one whose last field is empty or ends early is a "
      "row (FORMATS.md)")
def cut_rows(lab):
    rows, seen_of = right_of(lab, SWEEP), {}
    last = rows.rstrip(b"\n").rpartition(b"\n")[2]
    for size in range(len(rows) - 40, len(rows)):
        path = pathlib.Path(lab.room, "cut.csv")
        path.write_bytes(rows[:size])
        seen = lab.run(lab.words(RE_READ, str(path)))
        row = rows[:size].rpartition(b"\n")[2] or last
        fields = "a row" if row.count(b",") == last.count(b",") and row.split(b",")[-2] else "part of a row"
        text = "a summary" if seen.status == 0 and seen.out and not seen.err else told(seen)
        seen_of.setdefault((fields, text), []).append(size)
    for (fields, text), sizes in seen_of.items():
        wanted = "a summary" if fields == "a row" else "status 1, prints nothing, `refused 70`"
        yield f"{fields}", text, wanted, f"{len(sizes)} times"


@case("growing", "growing: rows that do not end", "`sweep --read /dev/zero --summary` with 512 MB of addresses",
      "out of memory: `refused 99`, status 1, nothing on standard output (FORMATS.md)")
def endless_rows(lab):
    seen = lab.run(lab.words(RE_READ, "/dev/zero"), limits={resource.RLIMIT_AS: 512 * MB})
    yield "--read /dev/zero", told(seen), MEMORY


def told_of_rows(command, seen, right):
    """What was seen of a command with little memory. Of rows the first ones may be there."""
    text = told(seen, right)
    if command.kind == "rows" and text == "status 1, a prefix of the right output, `refused 99`":
        return SOME_ROWS if seen.out.endswith(b"\n") else f"{text}, part of a row"
    return text


@case("growing", "growing: little memory",
      "`grow`, and `sweep` by 1 worker and by 64, with 64 MB of addresses, and fewer in 50 "
      "steps, until it can't start",
      "the right output, or out of memory: `refused 99`, status 1; of rows those before (FORMATS.md)")
def little_growing(lab):
    for command in (GROW, SWEEP, CROWD):
        right, ranges = right_of(lab, command), {}
        for step in list(memory_steps())[::4]:
            try:
                seen = lab.run(words_of(lab, command), limits={resource.RLIMIT_AS: step})
            except (OSError, subprocess.SubprocessError):
                break
            if has_not_started(seen):
                break
            ranges.setdefault(told_of_rows(command, seen, right), []).append(step)
        for text, steps in ranges.items():
            note = f"{len(steps)} limits, {min(steps) / MB:.2f} to {max(steps) / MB:.2f} MB"
            yield command.name, text, (RIGHT, MEMORY, *([SOME_ROWS] if command.kind == "rows" else [])), note


@case("growing", "growing: no thread can be started, or two",
      "`sweep --workers 64` under `ulimit -u 1` and `ulimit -u 3`; "
      "for root as another user (65534)", "a thread that can't be started is no fault: the output is the same "
      "(FORMATS.md, devices)")
def few_growing(lab):
    other, user = without_rights(lab)
    for most in (1, 3):
        limits = {**LIMITS, resource.RLIMIT_NPROC: most}
        words = [other.words(RUN)[0], *CROWD.words]
        yield f"ulimit -u {most}", told(lab.run(words, user=user, limits=limits), right_of(lab, CROWD)), RIGHT
