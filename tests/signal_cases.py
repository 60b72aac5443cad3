"""The cases of check-devices about signals, threads that can't be started, and Valgrind."""

import contextlib
import fcntl
import os
import pathlib
import re
import resource
import select
import shutil
import signal
import subprocess
import sys
import tempfile
import termios
import time

from device_cases import without_rights
from device_lab import ANALYSE, CASES, CHECK, COMMANDS, EXAMPLES, EXPLAIN, MB, MEMORY, PROGRESS, RIGHT, RUN, SMALL_RING
from device_lab import Case, Differs, Skip, case, read_again, told
from limit_cases import PARTLY, threaded, told_of_memory, told_of_threads
from repository import ROOT

# What ends a program: ^C, kill, and a terminal that is closed.
SIGNALS = (signal.SIGINT, signal.SIGTERM, signal.SIGHUP)
ENDS = "the signal ends the program at once (FORMATS.md, devices)"


def state_of(process):
    """The fields of a process that the system tells, from its state on."""
    return pathlib.Path(f"/proc/{process.pid}/stat").read_text().rpartition(")")[2].split()


def after_work(process, seconds):
    """Waits until a process has used so much of a processor."""
    end, ticks = time.monotonic() + 30, seconds * os.sysconf("SC_CLK_TCK")
    while sum(int(it) for it in state_of(process)[11:13]) < ticks:
        if state_of(process)[0] in "ZX" or time.monotonic() > end:
            raise Differs("ended before the signal")
        time.sleep(0.002)


class Blow:
    """A signal that is sent to a program while it runs, and when it was sent."""

    def __init__(self, number, ready):
        self.number, self.ready, self.moment = number, ready, 0.0

    def __call__(self, process):
        self.ready(process)
        self.moment = time.monotonic()
        os.kill(process.pid, self.number)

    def told(self):
        """How long ago it was sent, in words."""
        took = time.monotonic() - self.moment
        return "at once" if took < 1 else f"{took:.1f} s later"


def at_work(seconds):
    """Waits until a program has worked so long."""
    return lambda process: after_work(process, seconds)


@case("signals", "a signal amid an analysis", "SIGINT, SIGTERM, SIGHUP after 0.3 s of work on a ring of 1,024 nodes, "
      "each linked with the 78 next on each side", ENDS + ", and it has printed nothing")
def amid_analysis(lab):
    for number in SIGNALS:
        for more in ([], ["--certificate"], ["--progress"], ["--workers", "4"]):
            blow = Blow(number, at_work(0.3))
            seen = lab.run([*lab.words(ANALYSE), *more, lab.large("ring")], during=blow)
            text = f"{told(seen)}, {blow.told()}"
            yield " ".join(["analyse", *more]), text, f"ended by {number.name}, prints nothing, at once"


def has_printed(file, size=1):
    """Waits until a program has written so many bytes into a file."""

    def ready(process):
        end = time.monotonic() + 30
        while os.fstat(file.fileno()).st_size < size:
            if state_of(process)[0] in "ZX" or time.monotonic() > end:
                raise Differs("prints nothing")
            time.sleep(0.001)

    return ready


@case("signals", "a signal amid a run", "SIGINT, SIGTERM, SIGHUP once the first of a million lines `show 1` is printed",
      ENDS + "; what it has printed is a prefix of its output, of whole lines with `--explain`")
def amid_run(lab):
    path, line = os.path.join(lab.room, "long.scenario"), b"refused 10\n"
    with open(path, "w") as file:
        file.writelines("show 1\n" * 10_000 for _ in range(100))
    for number in SIGNALS:
        for command in (RUN, EXPLAIN):
            with tempfile.TemporaryFile(dir=lab.room) as out:
                blow = Blow(number, has_printed(out))
                seen = lab.run(lab.words(command, path), stdout=out, stderr=subprocess.DEVNULL, during=blow)
                seen = seen._replace(out=read_again(out))
            part = ", part of a line" if len(seen.out) % len(line) and command is EXPLAIN else ""
            text = f"{told(seen, line * (len(seen.out) // len(line) + 2))}, {blow.told()}{part}"
            note = f"{len(seen.out)} bytes"
            yield command.name, text, f"ended by {number.name}, a prefix of the right output, at once", note
    os.remove(path)


def is_stuck(process):
    """Waits until a program that has worked for a while uses no more of a processor, as if a pipe is full."""
    after_work(process, 0.1)
    end, before = time.monotonic() + 20, None
    while time.monotonic() < end and (now := state_of(process)[11:13]) != before:
        before = now
        time.sleep(0.5)


@case("signals", "a signal amid a sweep", "SIGINT, SIGTERM, SIGHUP once some rows of 2,000 overlays are printed into a "
      "file, or fill a pipe that nobody reads", ENDS + "; what it has printed are whole rows, the first ones of all")
def amid_sweep(lab):
    words = [lab.words(RUN)[0], "sweep", "--nodes", "8", "--runs", "2000", "--workers"]
    right = lab.run([*words, "4"]).out
    for number in SIGNALS:
        for workers in ("1", "64"):
            with tempfile.TemporaryFile(dir=lab.room) as out:
                blow = Blow(number, has_printed(out, 1000))
                seen = lab.run([*words, workers], stdout=out, during=blow)
                yield rows_left(f"--workers {workers}", number, blow, seen, read_again(out), right)
            reader, writer = os.pipe()
            blow = Blow(number, is_stuck)
            seen = lab.run([*words, workers], stdout=writer, during=blow)
            os.close(writer)
            with open(reader, "rb") as pipe:
                yield rows_left(f"--workers {workers} into a pipe", number, blow, seen, pipe.read(), right)


def rows_left(name, number, blow, seen, rows, right):
    """What a sweep has printed when a signal ended it."""
    are_whole = right.startswith(rows) and rows.endswith(b"\n")
    part = "whole rows" if are_whole else f"other output: {rows[-80:]!r}"
    text = f"{told(seen)}, {blow.told()}, {part}".replace("prints nothing, ", "")
    return f"sweep {name}", text, f"ended by {number.name}, at once, whole rows", f"{len(rows)} bytes"


def waits_for_input(process):
    """Gives a program part of its input, and waits until it has read this and asks for more."""
    process.stdin.write(b"# a part\n")
    end, unread = time.monotonic() + 10, bytearray(4)
    while time.monotonic() < end:
        fcntl.ioctl(process.stdin, termios.FIONREAD, unread)
        if not int.from_bytes(unread, sys.byteorder) and state_of(process)[0] == "S":
            return
        time.sleep(0.002)
    raise Differs("does not read")


@case("signals", "a signal while it waits for input", "SIGINT, SIGTERM, SIGHUP with part of the input in a pipe",
      ENDS + ", and it has printed nothing")
def amid_reading(lab):
    for number in SIGNALS:
        for command in COMMANDS:
            blow = Blow(number, waits_for_input)
            seen = lab.run(lab.words(command), during=blow, stdin=subprocess.PIPE, bufsize=0)
            yield command.name, f"{told(seen)}, {blow.told()}", f"ended by {number.name}, prints nothing, at once"


def waits_for_reader(process):
    """Waits until a program waits for somebody who reads."""
    select.select([process.stdout], [], [], 10)
    end = time.monotonic() + 10
    while state_of(process)[0] != "S" and time.monotonic() < end:
        time.sleep(0.002)


@case("signals", "a signal while nobody reads", "SIGINT, SIGTERM, SIGHUP while its output fills a pipe", ENDS)
def amid_writing(lab):
    for number in SIGNALS:
        for command in (RUN, EXPLAIN):
            blow = Blow(number, waits_for_reader)
            words = lab.words(command, lab.large("scenario"))
            seen = lab.run(words, during=blow, stdout=subprocess.PIPE, stderr=subprocess.DEVNULL)
            yield command.name, f"{told(seen)}, {blow.told()}", f"ended by {number.name}, prints nothing, at once"


@case("signals", "a signal that is ignored", "SIGHUP amid an analysis under `nohup`",
      "the analysis goes on (FORMATS.md, devices)")
def ignored_signal(lab):
    file = lab.large("small-ring")
    seen = lab.run(lab.words(ANALYSE, file), during=Blow(signal.SIGHUP, at_work(0.1)), ignored=(signal.SIGHUP,))
    yield "analyse", told(seen, lab.right(ANALYSE, file)), RIGHT


def numbers_in(mask):
    """The signals of a mask, in words."""
    bits = int(mask, 16)
    return " ".join(signal.Signals(it).name for it in range(1, 32) if bits >> (it - 1) & 1) or "none"


@case("signals", "what is done with signals", "the masks in /proc/PID/status amid an analysis",
      "SIGPIPE is ignored, and no other signal is ignored, caught or blocked (FORMATS.md, devices)")
def dispositions(lab):
    masks = {}

    def look(process):
        after_work(process, 0.2)
        text = pathlib.Path(f"/proc/{process.pid}/status").read_text()
        masks.update(re.findall(r"(Sig(?:Ign|Cgt|Blk)):\s+(\w+)", text))
        os.kill(process.pid, signal.SIGKILL)

    lab.run(lab.words(ANALYSE, lab.large("ring")), during=look)
    text = ", ".join(f"{name} {numbers_in(mask)}" for name, mask in sorted(masks.items()))
    yield "analyse", text, "SigBlk none, SigCgt none, SigIgn SIGPIPE"


# Threads


class Counted:
    """The most threads that a program was seen to have."""

    def __init__(self):
        self.most = 0

    def __call__(self, process):
        path = pathlib.Path(f"/proc/{process.pid}/status")
        with contextlib.suppress(OSError):
            while "State:\tZ" not in (text := path.read_text()):
                self.most = max(self.most, int(re.search(r"Threads:\s+(\d+)", text)[1]))


def most_threads(lab, words):
    """The most threads that a program was seen to have. It may end before it is looked at, so it is run again, up to 50
    times, until it has more than one."""
    counted = Counted()
    for _ in range(50):
        lab.run(words, during=counted)
        if counted.most > 1:
            break
    return counted.most


def with_threads(lab, most):
    """Runs what starts threads as a user who may have only so many."""
    other, user = without_rights(lab)
    for name, words, file in threaded(lab, 64):
        os.chmod(file, 0o644)
        program = CHECK if words[0] == lab.words(CHECK)[0] else RUN
        counted, limits = Counted(), {resource.RLIMIT_NPROC: most}
        seen = lab.run([other.words(program)[0], *words[1:]], user=user, limits=limits, during=counted)
        more = "" if counted.most <= most else f", {counted.most} threads"
        yield name, told_of_threads(lab, seen, words, file) + more, RIGHT


FEWER = "a thread that can't be started is no fault: the output is the same (FORMATS.md, devices)"


@case("workers", "threads are there to be refused", "`analyse --workers 64`, the same with `--explain`, "
      "`sweep --workers 64`, a scenario with `analyse M workers 64`, and the most threads that were seen",
      "at most N threads (COMMANDS.md)")
def many_threads(lab):
    crew, overlay = ["--workers", "64"], lab.words(RUN)[0]
    commands = {
        "analyse --workers 64": [*lab.words(ANALYSE), *crew, lab.large("dense")],
        "analyse --workers 64 --explain": [*lab.words(ANALYSE), *crew, "--explain", lab.large("dense")],
        "sweep --workers 64": [overlay, "sweep", "--nodes", "30", "--runs", "64", *crew],
        "run, analyse M workers 64": lab.words(RUN, lab.large("wide")),
    }
    for name, words in commands.items():
        most = most_threads(lab, words)
        text = "2 to 64 threads" if 2 <= most <= 64 else f"{most} threads"
        yield name, text, "2 to 64 threads", f"{most} threads"


def blocks_of(lab):
    """Blocks of 64 sections, of which one or two have lines: their names, what is to be seen, and their scenarios. An
    overlay grows in the first section that has lines, and in the other one lines are refused for as long."""
    grown = lab.run([lab.words(RUN)[0], "grow", "--nodes", "256", "--active", "16", "--heal", "0"]).out
    grown = "".join(f"{line}\n" for line in grown.decode().splitlines() if line and line[0] not in "#ps")
    empty, refused = "also\n" * 31, "crash 1000\n" * 60_000
    yield "one section with lines", "one thread", f"together\n{empty}{grown}{empty}also\nend\n"
    yield "two sections with lines", "a thread each", f"together\n{empty}{grown}{empty}also\n{refused}end\n"


@case("workers", "sections with lines have threads", "a block of 64 sections in one of which an overlay grows, and the "
      "same with lines in the last one, up to ten times, and the most threads that were seen",
      "each section with lines has a thread of its own, unless only one has any (FORMATS.md, sections)")
def threads_of_sections(lab):
    for name, wanted, text in blocks_of(lab):
        path, counted = os.path.join(lab.room, "block.scenario"), Counted()
        pathlib.Path(path).write_text(text)
        for _ in range(10 if wanted == "a thread each" else 1):
            seen = lab.run(lab.words(RUN, path), during=counted)
            if counted.most > 1:
                break
        ran = "ran whole" if seen.status == 0 and seen.out.startswith(b"together 64 accepted ") else told(seen)
        threads = {1: "one thread", 2: "a thread each", 3: "a thread each"}.get(counted.most, f"{counted.most} threads")
        yield name, f"{ran}, {threads}", f"ran whole, {wanted}"


@case("workers", "a certificate is checked by several threads",
      "`overlay-check` of a certificate of a thousand entries, "
      "and the most threads that were seen",
      "several threads share the entries, if there are several processors (PROVED.md)")
def threads_of_checker(lab):
    most = most_threads(lab, lab.words(CHECK, lab.large("entries")))
    text = "several threads" if most >= min(2, len(os.sched_getaffinity(0))) else f"{most} threads"
    yield "overlay-check", text, "several threads", f"{most} threads"


LEVEL = re.compile(rb"level (\d+): piece (\d+) of (\d+)\n")


def first_told(lab, words):
    """What a program has printed on standard error once a line of it is there, which ends the program, or it ended."""
    with tempfile.TemporaryFile(dir=lab.room) as err:

        def look(process):
            # not `read_again`, since the program writes at the place where this file is read
            while b"\n" not in os.pread(err.fileno(), 1000, 0) and state_of(process)[0] not in "ZX":
                time.sleep(0.01)
            os.kill(process.pid, signal.SIGKILL)

        lab.run(words, stderr=err, during=look)
        return read_again(err)


@case("workers", "progress, however the answer is told",
      f"`analyse --progress` of a ring of {SMALL_RING[0]} nodes, the same with `--names` and with `--explain`, up to "
      "the first line", "lines `level L: piece P of S`, of which the first comes after a second (COMMANDS.md)")
def told_progress(lab):
    for more in ([], ["--names"], ["--explain"]):
        told_first = first_told(lab, [*lab.words(PROGRESS), *more, lab.large("small-ring")])
        level, piece, size = map(int, line.groups()) if (line := LEVEL.match(told_first)) else (0, 0, 0)
        is_right = 1 <= piece <= size == level * (level - 1) // 2 + SMALL_RING[0] - level
        text = "a line of the right size" if is_right else f"{told_first!r}"
        yield " ".join(["analyse --progress", *more]), text, "a line of the right size"


@case("threads", "no thread can be started", "64 workers, sections, a large certificate, `ulimit -u 1`; for root "
      "as another user (65534)", FEWER)
def no_threads(lab):
    yield from with_threads(lab, 1)


@case("threads", "few threads can be started", "the same, `ulimit -u 3`", FEWER)
def few_threads(lab):
    yield from with_threads(lab, 3)


# Addresses in MB, of which a thread takes 8 MB for its stack and the C library 64 MB for what it allocates.
FEW_ADDRESSES = (1024, 512, 256, 128, 64, 32, 24, 20, 16, 12, 8)
IN_SECTIONS = "status 0, the right lines, with lines of sections refused"


def told_of_sections_refused(seen, right):
    """What was seen of the three sections with little memory. They have five lines, and any may be refused."""
    before = right.partition(b"together ")[0]
    lines = re.match(rb"together 3 accepted (\d) refused (\d)\n", seen.out.removeprefix(before))
    if seen.status == 0 and seen.out != right and lines and int(lines[1]) + int(lines[2]) == 5:
        return IN_SECTIONS
    return told_of_memory(RUN, seen, right)


@case("threads", "no room for the stack of a thread", "64 workers, sections, a large certificate, 1 GB of addresses, "
      "and less in steps, down to 8 MB", FEWER + "; or out of memory, since what threads take is missing elsewhere")
def no_stacks(lab):
    for name, words, file in threaded(lab, 64):
        ranges = {}
        for size in FEW_ADDRESSES:
            seen = lab.run(words, limits={resource.RLIMIT_AS: size * MB})
            if "sections" in name:
                text = told_of_sections_refused(seen, lab.right(RUN, file))
            else:
                text = told_of_threads(lab, seen, words, file)
            ranges.setdefault(text, []).append(str(size))
        for text, sizes in ranges.items():
            allowed = (RIGHT, MEMORY, *((PARTLY, IN_SECTIONS) if "sections" in name else ()))
            yield name, text, allowed, f"{', '.join(sizes)} MB"


# Valgrind
TOOLS = {
    "memcheck": ["--leak-check=full", "--errors-for-leak-kinds=definite,indirect,possible"],
    "helgrind": ["--fair-sched=try"],
    "drd": ["--fair-sched=try"],
}
SUPPRESSIONS = ROOT / "tests" / "valgrind.supp"
# The status of Valgrind if a tool reports an error, and the most seconds of a run.
REPORTED, SLOWLY = 99, 600


def make_sections(path):
    """Eight sections that start, crash and snapshot nodes and analyse what was there before. Returns how many lines
    they have that are accepted or refused."""
    lines = ["boot 1"]
    for node in range(2, 13):
        lines += [f"boot {node} by 1", "deliver 0", "deliver 0"]
    lines += ["deliver 0"] * 60 + ["snapshot"]
    sections = [[f"analyse {len(lines)}"], ["broadcast 1 hello", "deliver 0", "crash 3", "report 2 3"], []]
    for at in range(5):
        sections.append([it for node in range(6) for it in (f"boot {100 * at + 50 + node} by {at + 1}", "deliver 0")])
    text = "\nalso\n".join("\n".join(section) for section in sections)
    pathlib.Path(path).write_text("\n".join(lines) + f"\ntogether\n{text}\nend\n")
    return sum(len(section) for section in sections)


def told_of_sections(seen, lines):
    """What was seen of a run of these sections. How many lines are refused depends on the order of the threads."""
    last = re.search(rb"\ntogether 8 accepted (\d+) refused (\d+)\n$", seen.out)
    if last and int(last[1]) + int(last[2]) == lines:
        return told(seen, seen.out)
    return told(seen)


def under_tool(lab, tool):
    """Runs what starts threads under a tool of Valgrind."""
    if not shutil.which("valgrind"):
        raise Skip("there is no valgrind")
    options = [f"--tool={tool}", f"--error-exitcode={REPORTED}", f"--suppressions={SUPPRESSIONS}", "-q", *TOOLS[tool]]
    limits = {resource.RLIMIT_AS: resource.RLIM_INFINITY, resource.RLIMIT_CPU: SLOWLY}
    sixty, eight = lab.large("sixty"), os.path.join(lab.room, "eight.scenario")
    lines, crew = make_sections(eight), [*lab.words(ANALYSE), "--workers", "4"]
    for name, words in (
        ("analyse --workers 4", [*crew, sixty]),
        ("analyse --workers 4 --certificate", [*crew, "--certificate", sixty]),
        ("run, three sections", lab.words(RUN, str(EXAMPLES / "sections.scenario"))),
        ("run, eight sections", lab.words(RUN, eight)),
        ("overlay-check", lab.words(CHECK, lab.large("entries"))),
    ):
        seen = lab.run(["valgrind", *options, *words], limits=limits, seconds=SLOWLY)
        ended = seen._replace(err=b"")
        text = told_of_sections(ended, lines) if words[-1] == eight else told_of_threads(lab, ended, words, words[-1])
        reports = len(re.findall(rb"Possible data race|Conflicting|Invalid |uninitialised|lost in", seen.err))
        yield name, text + (f", {reports} reports" if seen.err else ""), RIGHT, f"{seen.seconds:.0f} s"


for the_tool in TOOLS:
    the_runs = f"a crew of 4 workers, halls with sections, the parallel checker under Valgrind's {the_tool}"
    CASES.append(
        Case("valgrind", the_tool, the_runs, "no error is reported", lambda lab, it=the_tool: under_tool(lab, it))
    )
