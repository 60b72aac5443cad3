"""The cases of check-devices about inputs of a gigabyte, little memory and small stacks."""

import contextlib
import fcntl
import itertools
import os
import pathlib
import re
import resource
import select
import shutil
import subprocess
import tempfile
import time
from typing import NamedTuple

from device_lab import ANALYSE, CHECK, COMMANDS, EXAMPLES, EXPLAIN, GB, LIMITS, LONGEST, MB, MEMORY, RIGHT, RUN
from device_lab import WORKERS, Command, Differs, case, confirm_certificate, fault_among, told

# Floods: bytes in all, what a program may take besides what it takes for each, and the addresses that it has.
SIZE, PART, BASE = 1_000_000_000, 100_000_000, 32 * MB
ROOM = LIMITS[resource.RLIMIT_AS]


class Flood(NamedTuple):
    """A long input: what it is, who reads it, the piece that is repeated, what is to be seen, the most bytes of memory
    for each byte of it, how many bytes it has, and what stands before and behind them."""

    what: str
    command: Command
    piece: bytes
    wanted: str
    most: float
    size: int = SIZE
    head: bytes = b""
    tail: bytes = b""


# A text that is refused costs its bytes and, of a certificate, a copy of them. What costs more takes memory up to the
# limit: there the bound is the limit.
FLOODS = [
    Flood("comments", RUN, b"# " + b"x" * 61 + b"\n", "status 0, prints nothing", 1.1),
    Flood("one line without an end", RUN, b"1", "status 1, prints nothing, `line 1: refused 70`", 1.1),
    Flood("lines `x`", RUN, b"x\n", "status 1, prints nothing, `line 1: refused 70`", ROOM / PART, PART),
    Flood("lines `boot 1` of a section", RUN, b"boot 1\n", MEMORY, ROOM / PART, PART, b"together\n", b"end\n"),
    Flood("comments", ANALYSE, b"# " + b"x" * 61 + b"\n", "status 0, `refused 30`", 1.1),
    Flood("lines `node 1`", ANALYSE, b"node 1\n", "status 1, prints nothing, `refused 31`", 2.2, PART),
    Flood("lines `link 1 2`", ANALYSE, b"link 1 2\n", "status 1, prints nothing, `refused 32`", 2.2, PART,
          b"node 1\nnode 2\n"),
    Flood("spaces", CHECK, b" ", "status 1, `refused 60`", 2.2),
    Flood("`[` without an end", CHECK, b"[", "status 1, `refused 60`", 2.2),
    Flood("bytes that are no UTF-8", CHECK, b"\xff", "status 1, `refused 60`", 1.1),
    Flood("a list of numbers, as JSON begins", CHECK, b"0,", MEMORY, ROOM / SIZE, SIZE, b"["),
]


def blocks_of(flood):
    """The bytes of a flood, in blocks of whole pieces."""
    block, count = flood.piece * (MB // len(flood.piece)), flood.size // len(flood.piece)
    yield flood.head
    for _ in range(count * len(flood.piece) // len(block)):
        yield block
    yield flood.piece * (count % (len(block) // len(flood.piece)))
    yield flood.tail


def feed(process, flood):
    """Writes a flood until it ends or nobody reads. Returns how many bytes were written."""
    descriptor, end, written = process.stdin.fileno(), time.monotonic() + LONGEST, 0
    os.set_blocking(descriptor, False)
    with contextlib.suppress(OSError):
        fcntl.fcntl(descriptor, fcntl.F_SETPIPE_SZ, MB)
    with contextlib.suppress(BrokenPipeError):
        for block in blocks_of(flood):
            rest = memoryview(block)
            while rest and time.monotonic() < end:
                if select.select([], [descriptor], [], 1)[1]:
                    with contextlib.suppress(BlockingIOError):
                        count = os.write(descriptor, rest)
                        rest, written = rest[count:], written + count
    process.stdin.close()
    return written


def flooded(lab, floods):
    """What is seen of commands that get long inputs."""
    for flood in floods:
        fed = []
        seen = lab.run(lab.words(flood.command), stdin=subprocess.PIPE, bufsize=0,
                       during=lambda process: fed.append(feed(process, flood)))
        bound = flood.most * fed[0] + BASE
        within = "" if seen.peak <= bound else f", takes more than {bound / 1e6:.0f} MB"
        note = f"{fed[0] / 1e6:.0f} MB were read, peak {seen.peak / 1e6:.0f} MB, {seen.seconds:.1f} s"
        yield f"{flood.command.name}, {flood.what}", told(seen) + within, flood.wanted, note


@case("floods", "1 GB from a pipe", "1 GB, or 100 MB, on standard input, with 3 GB of addresses",
      "the line and the status of FORMATS.md, and memory as FORMATS.md, devices, says")
def floods(lab):
    yield from flooded(lab, FLOODS)


@case("floods", "an input that does not end", "FILE is /dev/zero, with 512 MB of addresses",
      "out of memory: `refused 99`, status 1, nothing on standard output (FORMATS.md)")
def endless(lab):
    for command in COMMANDS:
        seen = lab.run(lab.words(command, "/dev/zero"), limits={resource.RLIMIT_AS: 512 * MB})
        yield command.name, told(seen), MEMORY


# Memory
REFUSED_LINES = "status 0, the right lines up to a `refused 99`"
PARTLY = "status 1, whole lines, and then `refused 99`"


def memory_steps():
    """Limits on addresses in bytes, falling: by a twentieth down to 6 MB, and then by two pages."""
    step = 64 * MB
    while step > 6 * MB:
        yield step
        step = step * 19 // 20
    yield from range(6 * MB, MB, -2 * resource.getpagesize())


def has_not_started(seen):
    """Whether the system's loader had no room for the program."""
    return seen.status == 127 and (b"error while loading" in seen.err or b"cannot allocate" in seen.err)


def is_before_refusal(out, right):
    """Whether an output has whole lines alone, and these are the right ones, to their end or up to a `refused 99`."""
    if out and not out.endswith(b"\n"):
        return False
    for line, other in zip(out.splitlines(), right.splitlines()):
        if line == b"refused 99":
            return True
        if line != other:
            return False
    return len(out) <= len(right)


def told_of_memory(command, seen, right):
    """What was seen of a program with little memory. Ends that are promised alike are told alike."""
    scenario = command.kind == "scenario"
    if seen.status == 0 and seen.out == right:
        return RIGHT
    if seen.status == 1 and fault_among(seen.err) == b"refused 99":
        if not seen.out or (scenario and is_before_refusal(seen.out, right)):
            return PARTLY if seen.out else MEMORY
    if scenario and seen.status == 0 and b"refused 99\n" in seen.out and is_before_refusal(seen.out, right):
        return REFUSED_LINES
    return told(seen, right, command.explains)


def descend(lab, command, file):
    """Runs a command under falling limits until it can't start. For each end, the limits at which it was seen."""
    right, ranges = lab.right(command, file), {}
    for step in memory_steps():
        try:
            seen = lab.run(lab.words(command, file), limits={resource.RLIMIT_AS: step})
        except (OSError, subprocess.SubprocessError):
            break
        if has_not_started(seen):
            break
        ranges.setdefault(told_of_memory(command, seen, right), []).append(step)
    return ranges


def little_memory(lab, files):
    """What commands do with little memory."""
    for command, file in files:
        allowed = [RIGHT, MEMORY]
        if command.kind == "scenario":
            allowed += [REFUSED_LINES, PARTLY]
        for text, steps in descend(lab, command, file).items():
            yield command.name, text, allowed, f"{len(steps)} limits, {min(steps) / MB:.2f} to {max(steps) / MB:.2f} MB"


LITTLE = ("the right output, or out of memory: `refused 99`, status 1; in a run `refused 99` for a line, too; no part "
          "of a line (FORMATS.md, devices)")


@case("memory", "little memory, small input", "64 MB of addresses, 5% less again and again, from 6 MB on 8 KB less, "
      "until it can't start", LITTLE)
def little_small(lab):
    yield from little_memory(lab, [(command, lab.example(command)) for command in [*COMMANDS, WORKERS]])


@case("memory", "little memory, large input", "the same with larger inputs", LITTLE)
def little_large(lab):
    yield from little_memory(lab, [(command, lab.large(command.kind)) for command in [*COMMANDS, WORKERS]])


@case("memory", "little memory, a world", "the same with 200 nodes, 4,600 events, an analysis, its certificate", LITTLE)
def little_world(lab):
    yield from little_memory(lab, [(command, lab.large("world")) for command in (RUN, EXPLAIN)])


# Sharing
# The nodes of a grown overlay, the size of their active views, how often it is analysed, and the addresses that suffice
# if analyses share what is the same. Of what is printed of these analyses without a limit each line is looked at.
GROWN, VIEW, AGAIN, SHARING = 128, 10, 4000, 32 * MB
ALL_BUT_ONE = ",".join(map(str, range(2, GROWN + 1)))
PAIRS = list(itertools.islice(itertools.combinations(range(1, GROWN + 1), 2), AGAIN))


def analyses(moment):
    """Scenarios that follow an overlay and analyse it again and again, by their names: their lines, and what their last
    ones print, or begin with. The next entry has this number."""
    moments = range(moment, moment + AGAIN)
    each = [it for at in moments for it in ("snapshot", f"analyse {at} group {ALL_BUT_ONE}")]
    at_once = [*["snapshot"] * AGAIN, "together", *(f"analyse {at}" for at in moments), "end"]
    pairs = ["snapshot", *(f"analyse {moment} group {a},{b}" for a, b in PAIRS)]
    yield "a group, at as many moments", each, [f"report {at} split k " for at in moments]
    yield "all nodes, at as many moments, in a section", at_once, [f"together 1 accepted {AGAIN} refused 0"]
    yield "as many pairs, at one moment", pairs, [f"report {moment} "] * AGAIN


@case("sharing", "an overlay is analysed again and again", f"a grown overlay of {GROWN} nodes and {AGAIN:,} analyses, "
      f"outside and within sections, with {SHARING // MB} MB of addresses",
      "the right output: an analysis that was made lately is not made again, reports of the same nodes share their "
      "certificate, and snapshots and their reports their graph (DECISIONS.md)")
def shared(lab):
    grown = lab.run([lab.words(RUN)[0], "grow", "--nodes", str(GROWN), "--active", str(VIEW), "--heal", "0"]).out
    path = os.path.join(lab.room, "again.scenario")
    pathlib.Path(path).write_bytes(grown)
    entries = re.findall(rb"(?m)^entry (\d+)", lab.run(lab.words(RUN, path)).out)
    for name, lines, last in analyses(int(entries[-1]) + 1):
        pathlib.Path(path).write_bytes(grown + "\n".join([*lines, ""]).encode())
        right = lab.run(lab.words(RUN, path)).out
        printed = [line for line in right.decode().splitlines() if not line.startswith("entry")][-len(last):]
        if not all(line.startswith(it) for line, it in zip(printed, last, strict=True)):
            raise Differs(f"{name}: without a limit {right[-80:]!r}")
        seen = lab.run(lab.words(RUN, path), limits={resource.RLIMIT_AS: SHARING})
        yield name, told(seen, right), RIGHT


# Stack
DEPTHS = (127, 128, 10_000, 1_000_000)
# What is enough, whatever is read.
ENOUGH = 256 * 1024


def nested(depth):
    """Lists, and objects, nested so deep: their name, their bytes, and what is printed of them."""
    yield "`[`", b"[" * depth + b"]" * depth, 63 if depth < 128 else 60
    yield '`{"a":`', b'{"a":' * depth + b"1" + b"}" * depth, 61 if depth < 128 else 60


def deep(lab, size, also=()):
    """What overlay-check prints of deep JSON on a stack of this size."""
    for depth in DEPTHS:
        for name, data, number in nested(depth):
            with tempfile.TemporaryFile(dir=lab.room) as given:
                given.write(data)
                given.seek(0)
                seen = lab.run(lab.words(CHECK), stdin=given, limits={resource.RLIMIT_STACK: size})
            yield f"{depth:,} {name}", told(seen), (f"status 1, `refused {number}`", *also)


DEEP = "nesting deeper than 127 is `refused 60`; up to 127 the first fault decides, 63 or 61 (FORMATS.md)"
STACK = "; 256 KB of stack are enough (FORMATS.md, devices)"


@case("stack", "deep JSON, 8 MB of stack", "`overlay-check` of lists and objects nested deep", DEEP)
def deep_wide(lab):
    yield from deep(lab, 8 * MB)


@case("stack", "deep JSON, 256 KB of stack", "the same under `ulimit -s 256`", DEEP + STACK)
def deep_enough(lab):
    yield from deep(lab, ENOUGH)


@case("stack", "deep JSON, 64 KB of stack", "the same under `ulimit -s 64`",
      "with less than 256 KB of stack SIGSEGV may end it, before it prints its line (FORMATS.md, devices)")
def deep_narrow(lab):
    yield from deep(lab, 64 * 1024, also=("ended by SIGSEGV, prints nothing",))


def on_stacks(lab, size):
    """What all commands, with workers and sections too, print of small and larger inputs on a stack of this size."""
    limits = {resource.RLIMIT_STACK: size}
    for command in COMMANDS:
        for file in (lab.example(command), lab.large(command.kind)):
            seen = lab.run(lab.words(command, file), limits=limits)
            yield command.name, told(seen, lab.right(command, file), command.explains), RIGHT
    seen = lab.run(lab.words(RUN, lab.large("world")), limits=limits)
    yield "run", told(seen, lab.right(RUN, lab.large("world"))), RIGHT
    for name, words, file in threaded(lab, 4):
        yield name, told_of_threads(lab, lab.run(words, limits=limits), words, file), RIGHT


@case("stack", "all commands, 256 KB of stack", "small and larger inputs, 4 workers and sections too, `ulimit -s 256`",
      "the right output: 256 KB of stack are enough, for each thread too (FORMATS.md, devices)")
def narrow_stacks(lab):
    yield from on_stacks(lab, ENOUGH)


@case("stack", "all commands, 1 GB of stack", "the same, `ulimit -s 1048576`: 3 GB of addresses hold two such stacks",
      "the right output: a thread that can't be started is no fault (FORMATS.md, devices)")
def wide_stacks(lab):
    yield from on_stacks(lab, GB)


# Of what starts threads


def threaded(lab, workers):
    """What starts threads: its name, the words, and the file, which is the last of them."""
    dense, analyse = lab.large("dense"), [*lab.words(ANALYSE), "--workers", str(workers)]
    sections, certificate = shutil.copy(EXAMPLES / "sections.scenario", lab.room), lab.large("entries")
    yield f"analyse --workers {workers}", [*analyse, dense], dense
    yield f"analyse --workers {workers} --certificate", [*analyse, "--certificate", dense], dense
    yield "run, sections", lab.words(RUN, sections), sections
    yield "overlay-check", lab.words(CHECK, certificate), certificate


def told_of_threads(lab, seen, words, file):
    """What was seen of a run with threads. Of a certificate the paths may differ, so `overlay-check` judges it."""
    if "--certificate" not in words:
        command = RUN if "run" in words else ANALYSE if "analyse" in words else CHECK
        return told(seen, lab.right(command, file))
    line = lab.right(ANALYSE, file)
    if not seen.out.startswith(line):
        return told(seen, line)
    confirm_certificate(lab, seen.out)
    return told(seen._replace(out=line), line)
