"""The cases of check-devices about devices that fail, and about names that can't be opened."""

import contextlib
import errno
import fcntl
import os
import pathlib
import re
import resource
import shutil
import signal
import socket
import subprocess
import tempfile
import termios
import time

from device_lab import ANALYSE, BARE, CASES, CERTIFICATE, CHECK, COMMANDS, EXAMPLES, EXPLAIN, LINES, LONGEST, MB
from device_lab import PREFIX, PROGRESS, READ, RIGHT, RUN, WRITE, Case, Differs, Lab, case, ending_of, fault_among
from device_lab import read_again, told

# The user that has no rights and owns nothing.
NOBODY = 65534


def each(name, done, promised, wanted, commands=COMMANDS, file="", group="devices", **how):
    """Adds a case in which commands are run on their examples, or on a file, or None, all in the same way. What opens a
    stream, in `how`, is called for each run."""

    def act(lab):
        for command in commands:
            with contextlib.ExitStack() as stack:
                given = {key: it(lab, command) if callable(it) else it for key, it in how.items()}
                for value in given.values():
                    if hasattr(value, "close"):
                        stack.callback(value.close)
                seen = lab.run(lab.words(command, lab.example(command) if file == "" else file), **given)
            yield command.name, told(seen, b"" if "stdout" in given else lab.right(command), command.explains), wanted

    CASES.append(Case(group, name, done, promised, act))


def opened(name, mode):
    """Opens a file for a run."""
    return lambda lab, command: open(name, mode, buffering=0)


def example_opened(lab, command):
    """The example of a command, opened."""
    return open(lab.example(command), "rb")


def widowed(lab, command):
    """A pipe that nobody reads any more."""
    reader, writer = os.pipe()
    os.close(reader)
    return os.fdopen(writer, "wb")


def dead_terminal(lab, command):
    """A terminal whose other end is closed."""
    master, slave = os.openpty()
    os.close(master)
    return os.fdopen(slave, "wb", buffering=0)


NO_READ = "reading failed: `refused 71`, status 1 (FORMATS.md)"
NO_WRITE = "writing failed: `refused 72`, status 1 (FORMATS.md)"
UNHEARD = "what was to go there is lost, and nothing else changes (FORMATS.md, devices)"
each("closed standard input, with FILE", "`FILE <&-`", "FILE alone is read (FORMATS.md)", RIGHT, closed=(0,))
each("closed standard input", "`<&-`", NO_READ, READ, file=None, closed=(0,))
each("standard input that can only be written to", "`0>/dev/null`", NO_READ, READ, file=None,
     stdin=opened("/dev/null", "wb"))
each("FILE `-`", "`- <FILE`", "standard input is read (COMMANDS.md, FORMATS.md)", RIGHT, file=None,
     stdin=example_opened)
each("FILE `/dev/stdin`", "`/dev/stdin <FILE`", "FILE is read (FORMATS.md)", RIGHT, file="/dev/stdin",
     stdin=example_opened)
each("empty environment", "`env -i .. FILE`", "no variable is looked at (FORMATS.md, devices)", RIGHT, env={})
each("bare `overlay`", "`<FILE`", "it runs a scenario from standard input (COMMANDS.md)", RIGHT, [BARE], file=None,
     stdin=example_opened)
each("closed standard output", "`FILE >&-`", NO_WRITE, WRITE, closed=(1,))
each("standard output that can only be read", "`FILE 1</dev/null`", NO_WRITE, WRITE, stdout=opened("/dev/null", "rb"))
each("closed standard error", "`FILE 2>&-`", UNHEARD, RIGHT, closed=(2,))
each("full standard error", "`FILE 2>/dev/full`", UNHEARD, RIGHT, stderr=opened("/dev/full", "wb"))
each("standard error that nobody reads", "a pipe without a reader as standard error", UNHEARD, RIGHT, stderr=widowed)
each("all three closed", "`FILE <&- >&- 2>&-`", "writing failed: status 1 (FORMATS.md)", "status 1, prints nothing",
     closed=(0, 1, 2))
each("full device", "`FILE >/dev/full`", NO_WRITE, WRITE, stdout=opened("/dev/full", "wb"))
each("full device, and nothing to print", "`/dev/null >/dev/full`", "nothing is written, so nothing fails (FORMATS.md, "
     "devices)", "status 0, prints nothing", [RUN, EXPLAIN], file="/dev/null", stdout=opened("/dev/full", "wb"))
each("reader gone at once", "a pipe without a reader, SIGPIPE at its default",
     "SIGPIPE is ignored, so writing fails: `refused 72`, status 1 (FORMATS.md, devices)", WRITE, stdout=widowed)
each("reader gone at once, SIGPIPE ignored", "the same under `trap '' PIPE`", "the same", WRITE, stdout=widowed,
     ignored=(signal.SIGPIPE,))
each("a terminal that hangs up", "standard output is a terminal whose other end is closed", NO_WRITE, WRITE,
     stdout=dead_terminal, start_new_session=True)


@case("devices", "closed standard error, and a fault", "`MISSING 2>&-`", "status 1 (FORMATS.md)")
def closed_errors(lab):
    for command in COMMANDS:
        seen = lab.run(lab.words(command, "missing"), closed=(2,))
        yield command.name, told(seen), "status 1, prints nothing"


@case("devices", "FILE in the place of a closed stream", "`FILE >&- 2>&-`: the system opens FILE as standard output",
      "FILE is opened for reading alone (FORMATS.md, devices)")
def untouched(lab):
    for command in COMMANDS:
        copy = shutil.copy(lab.example(command), lab.room)
        os.chmod(copy, 0o644)
        before = pathlib.Path(copy).read_bytes()
        seen = lab.run(lab.words(command, copy), closed=(1, 2))
        same = "FILE is as before" if pathlib.Path(copy).read_bytes() == before else "FILE is changed"
        yield command.name, f"{ending_of(seen.status)}, {same}", "status 1, FILE is as before"


@case("devices", "full device, large output", "output of more than three blocks of 64 KB `>/dev/full`", NO_WRITE)
def full_large(lab):
    for command, kind in ((RUN, "scenario"), (EXPLAIN, "scenario"), (CERTIFICATE, "dense")):
        with open("/dev/full", "wb", buffering=0) as full:
            seen = lab.run(lab.words(command, lab.large(kind)), stdout=full)
        yield command.name, told(seen._replace(err=fault_among(seen.err))), WRITE


def with_file(lab, words, limit, **how):
    """Runs a program with a file as standard output that may have so many bytes."""
    with tempfile.TemporaryFile(dir=lab.room) as out:
        # standard error is a pipe, so that the limit is none for it
        reader, writer = os.pipe()
        with os.fdopen(reader, "rb") as end:
            with os.fdopen(writer, "wb") as err:
                seen = lab.run(words, stdout=out, stderr=err, limits={resource.RLIMIT_FSIZE: limit}, **how)
            return seen._replace(out=read_again(out), err=end.read())


@case("devices", "device full in the last block", "a file that may have 5 bytes fewer than the output, SIGXFSZ ignored",
      "writing failed: `refused 72`, status 1, after a prefix of the output (FORMATS.md)")
def full_at_last(lab):
    files = [lab.large("scenario"), lab.example(EXPLAIN), *(lab.large("graph") for _ in range(3)), lab.example(CHECK)]
    for command, file in zip(COMMANDS, files):
        right = lab.right(command, file)
        seen = with_file(lab, lab.words(command, file), len(right) - 5, ignored=(signal.SIGXFSZ,))
        yield command.name, told(seen._replace(err=fault_among(seen.err)), right), PREFIX


@case("devices", "file at its limit of size", "`ulimit -f` below the output, SIGXFSZ at its default",
      "SIGXFSZ ends the program, after a prefix of the output (FORMATS.md, devices)")
def file_limit(lab):
    for command in COMMANDS:
        seen = with_file(lab, lab.words(command, lab.example(command)), 20)
        text = told(seen, lab.right(command), command.explains)
        yield command.name, text, "ended by SIGXFSZ, a prefix of the right output"


@case("devices", "reader gone after the first line", "large output into a pipe that is closed after its first line",
      NO_WRITE)
def gone_after_line(lab):
    for command, kind in ((RUN, "scenario"), (EXPLAIN, "scenario"), (CERTIFICATE, "dense")):
        file, line = lab.large(kind), []

        def read_line(process):
            line.append(process.stdout.readline())
            process.stdout.close()

        seen = lab.run(lab.words(command, file), during=read_line, stdout=subprocess.PIPE, bufsize=0)
        seen = seen._replace(out=line[0], err=fault_among(seen.err))
        yield command.name, told(seen, lab.right(command, file)), PREFIX


def writes_of(lab, words):
    """What was seen of a program, and what it wrote, write by write: its standard output is a socket that keeps these
    apart."""
    ours, theirs = socket.socketpair(socket.AF_UNIX, socket.SOCK_SEQPACKET)
    writes = []

    def take(process):
        theirs.close()
        while piece := ours.recv(MB):
            writes.append(piece)

    with ours:
        seen = lab.run(words, during=take, stdout=theirs)
    return seen._replace(out=b"".join(writes)), writes


def told_of_writes(writes):
    """How what was written was parted."""
    if len(writes) > 2 and all(it.count(b"\n") == 1 for it in writes):
        return "line by line"
    most = [len(it) for it in writes]
    if all(60_000 < it <= 65_536 for it in most[:-1]) and most[-1] <= 65_536:
        return "in blocks"
    return f"{len(most)} writes, the first of {most[:3]} bytes"


@case("blocks", "output in blocks", "large output into a socket that keeps writes apart",
      "blocks of 64 KB, and at the end the rest; with `--explain` line by line (FORMATS.md)")
def blocks(lab):
    file = lab.large("scenario")
    for command, wanted in ((RUN, "in blocks"), (EXPLAIN, "line by line")):
        seen, writes = writes_of(lab, lab.words(command, file))
        text = f"{told(seen, lab.right(command, file), command.explains)}, {told_of_writes(writes)}"
        yield command.name, text, f"{RIGHT}, {wanted}"


@case("devices", "a slow reader", "large output into a pipe of 4 KB, of which 777 bytes are taken at a time",
      "a write may take a part; the rest follows (FORMATS.md)")
def slow_reader(lab):
    for command, kind in ((RUN, "scenario"), (EXPLAIN, "scenario"), (CERTIFICATE, "graph"), (CHECK, "certificate")):
        pieces, file = [], lab.large(kind)
        reader, writer = os.pipe()
        fcntl.fcntl(writer, fcntl.F_SETPIPE_SZ, 4096)

        def take(process):
            os.close(writer)
            while piece := os.read(reader, 777):
                pieces.append(piece)
            os.close(reader)

        seen = lab.run(lab.words(command, file), during=take, stdout=writer)
        yield command.name, told(seen._replace(out=b"".join(pieces)), lab.right(command, file), command.explains), RIGHT


@case("devices", "both outputs in one file", "`run --explain FILE >BOTH 2>&1` of lines that are all refused",
      "a line is explained after its `refused N` is printed (COMMANDS.md)")
def in_one_file(lab):
    with tempfile.TemporaryFile(dir=lab.room) as both:
        seen = lab.run(lab.words(EXPLAIN, lab.large("scenario")), stdout=both, stderr=both)
        *lines, count, end = read_again(both).split(b"\n")
    starts = [b"line %d: " % (at // 2 + 1) if at % 2 else b"refused 10" for at in range(len(lines))]
    wrong = [line for line, start in zip(lines, starts) if not line.startswith(start)]
    text = f"{ending_of(seen.status)}, {len(lines)} lines, {len(wrong)} out of order"
    yield EXPLAIN.name, text, f"status 0, {2 * LINES} lines, 0 out of order"


@case("devices", "output behind the input", "`FILE >>FILE`", "the input is read to its end before anything is printed "
      "(FORMATS.md, devices)")
def appended(lab):
    for command in COMMANDS:
        copy = pathlib.Path(shutil.copy(lab.example(command), lab.room))
        os.chmod(copy, 0o644)
        before = copy.read_bytes()
        with open(copy, "ab") as out:
            seen = lab.run(lab.words(command, str(copy)), stdout=out)
        after = copy.read_bytes()
        seen = seen._replace(out=after.removeprefix(before))
        yield command.name, told(seen, lab.right(command), command.explains), RIGHT


@case("devices", "input that breaks off", "half of the input from a socket, and then an error (ECONNRESET)",
      "reading failed: `refused 71`, status 1, and nothing is printed (FORMATS.md)")
def broken_input(lab):
    for command in COMMANDS:
        data = pathlib.Path(lab.example(command)).read_bytes()
        given, writer = socket.socketpair()
        # what the other end has not read when it is closed makes an error here
        given.send(b"unread")
        writer.sendall(data[: len(data) // 2])
        writer.close()
        with given:
            seen = lab.run(lab.words(command), stdin=given)
        yield command.name, told(seen), READ


@case("devices", "output that would have to wait", "a full pipe that does not wait (O_NONBLOCK)",
      "a write that returns an error counts as failed: `refused 72`, status 1 (FORMATS.md)")
def impatient_output(lab):
    for command in COMMANDS:
        reader, writer = os.pipe()
        os.set_blocking(writer, False)
        with contextlib.suppress(BlockingIOError):
            while True:
                os.write(writer, bytes(4096))
        with os.fdopen(reader, "rb"), os.fdopen(writer, "wb") as out:
            seen = lab.run(lab.words(command, lab.example(command)), stdout=out)
        yield command.name, told(seen), WRITE


@case("devices", "input that would have to wait", "half of the input in a pipe that does not wait (O_NONBLOCK)",
      "a read that returns an error counts as failed: `refused 71`, status 1, and nothing is printed (FORMATS.md)")
def impatient_input(lab):
    for command in COMMANDS:
        data = pathlib.Path(lab.example(command)).read_bytes()
        reader, writer = os.pipe()
        os.set_blocking(reader, False)
        with os.fdopen(reader, "rb") as given, os.fdopen(writer, "wb", buffering=0) as half:
            half.write(data[: len(data) // 2])
            seen = lab.run(lab.words(command), stdin=given)
        yield command.name, told(seen), READ


@case("devices", "input in single bytes", "a pipe that gets a byte at a time, with a stop (SIGSTOP, SIGCONT) amid it",
      "standard input is read, whatever its pieces (FORMATS.md)")
def slow_input(lab):
    for command in COMMANDS:
        data = pathlib.Path(lab.example(command)).read_bytes()

        def feed_slowly(process):
            for at in range(len(data)):
                os.write(process.stdin.fileno(), data[at : at + 1])
                if at == len(data) // 2:
                    os.kill(process.pid, signal.SIGSTOP)
                    time.sleep(0.02)
                    os.kill(process.pid, signal.SIGCONT)
            process.stdin.close()

        seen = lab.run(lab.words(command), during=feed_slowly, stdin=subprocess.PIPE, bufsize=0)
        yield command.name, told(seen, lab.right(command), command.explains), RIGHT


# What is said where writing failed.
UNWRITTEN = "writing failed: whoever read the output closed it, as `head` does, or the disk is full"
# What each command says that it reads at a terminal; the first word names the command.
TYPED = {"run": "a scenario", "analyse": "a graph file", "import": "a dump", "graph": "a certificate file",
         "picture": "a certificate file"}


def typed(lab, command):
    """What is seen of a command to which its example is typed at a terminal."""
    master, slave = os.openpty()
    how = termios.tcgetattr(slave)
    how[3] &= ~termios.ECHO
    termios.tcsetattr(slave, termios.TCSANOW, how)
    data = pathlib.Path(lab.example(command)).read_bytes()

    def type_in(process):
        for line in data.splitlines(keepends=True):
            os.write(master, line)
        # once more where the last line has no end
        os.write(master, b"\x04" if data.endswith(b"\n") else b"\x04\x04")

    with os.fdopen(slave, "rb", buffering=0) as given:
        seen = lab.run(lab.words(command), during=type_in, stdin=given, start_new_session=True)
    os.close(master)
    default = "a certificate file" if command.program == "overlay-check" else "a scenario"
    what = TYPED[command.words[0]] if command.words else default
    said = seen.err.startswith(f"reading {what} from standard input, to its end (Ctrl-D)\n".encode())
    return told(seen, lab.right(command), said or command.explains) + (", says so" if said else "")


TYPED_AT = ("lines typed at a terminal, and ^D", "standard input is read, and standard error says so (COMMANDS.md)")


@case("devices", "input from a terminal", *TYPED_AT)
def typed_input(lab):
    for command in [BARE, *COMMANDS]:
        yield command.name, typed(lab, command), RIGHT + ", says so"


@case("devices", "why nothing is written", "a pipe without a reader", "the line below `refused 72` says what it may be "
      "(FORMATS.md)")
def unwritten(lab):
    for command in (RUN, ANALYSE):
        with contextlib.closing(widowed(lab, command)) as out:
            seen = lab.run(lab.words(command, lab.example(command)), stdout=out)
        yield command.name, seen.err.partition(b"\n")[2].decode().strip(), UNWRITTEN


@case("devices", "refused lines at a terminal", "standard error is a terminal",
      "the last line says how many lines were refused, unless this is explained (COMMANDS.md)")
def refused_at_terminal(lab):
    line = "refused lines: 9; `overlay run --explain` says why\r\n"
    for name, line in {"refused-lines.scenario": line, "two-linked.scenario": ""}.items():
        for words, text in ((), line), (("--explain",), ""), (("--strict",), ""):
            master, slave = os.openpty()
            seen = lab.run([*lab.words(RUN, str(EXAMPLES / name)), *words], stderr=slave, start_new_session=True)
            os.set_blocking(master, False)
            with contextlib.suppress(BlockingIOError):
                seen = seen._replace(err=os.read(master, 1 << 16))
            os.close(slave)
            os.close(master)
            last = (seen.err.splitlines(keepends=True) or [b""])[-1].decode()
            told_so = last if last.startswith("refused lines") else ""
            yield f"run {' '.join(words)} {name}".replace("  ", " "), repr(told_so), repr(text)


@case("devices", "empty file", "`/dev/null`", "a run of no lines has status 0; a graph without nodes is `refused 30`, "
      "status 0; an empty file is no JSON: `refused 60`, status 1 (FORMATS.md)")
def empty(lab):
    wanted = {"scenario": "status 0, prints nothing", "graph": "status 0, `refused 30`",
              "certificate": "status 1, `refused 60`"}
    for command in COMMANDS:
        seen = lab.run(lab.words(command, "/dev/null"))
        yield command.name, told(seen, explains=command.explains), wanted[command.kind]


def open_for_reader(path):
    """Opens a FIFO for writing, once somebody reads it."""
    end = time.monotonic() + LONGEST
    while True:
        try:
            return os.open(path, os.O_WRONLY | os.O_NONBLOCK)
        except OSError as why:
            if why.errno != errno.ENXIO or time.monotonic() > end:
                raise Differs("does not open the FIFO") from why
            time.sleep(0.002)


@case("devices", "a FIFO", "FILE is a FIFO that a writer opens later", "FILE is read (FORMATS.md)")
def fifo(lab):
    for command in COMMANDS:
        path = os.path.join(lab.room, "fifo")
        os.mkfifo(path)
        data = pathlib.Path(lab.example(command)).read_bytes()

        def write_into(process):
            descriptor = open_for_reader(path)
            os.write(descriptor, data)
            os.close(descriptor)

        seen = lab.run(lab.words(command, path), during=write_into)
        os.remove(path)
        yield command.name, told(seen, lab.right(command), command.explains), RIGHT


PIECE = re.compile(rb"level \d+: piece (\d+) of (\d+)")
# Several workers tell only the beginning of a level. The last of the ring's levels takes a small part of the time, so
# it begins after the first second if all take so many.
SURE = 3


def told_of_progress(seen, workers):
    """Whether there are lines of progress, which have their form and come as seldom as is promised, in words."""
    lines = seen.err.splitlines()
    found = [PIECE.fullmatch(line) for line in lines]
    if not all(found):
        return f"other lines: {seen.err[:80]!r}"
    pieces = [(int(it[1]), int(it[2])) for it in found]
    if not all(1 <= piece <= (1 if workers > 1 else size) for piece, size in pieces):
        return f"other pieces: {seen.err[:80]!r}"
    if not lines and (workers == 1 or seen.seconds > SURE):
        return "no line"
    return "lines in this form, as seldom" if len(lines) <= 2 * max(0, seen.seconds - 1) + 1 else "too many lines"


@case("devices", "progress", "`analyse --progress` of a ring of 640 nodes, each linked with the 50 next on each side, "
      "by 1 worker and by 4, and the same `2>/dev/full`",
      "lines `level L: piece P of S`, none in the first second, at most two a second; the answer (COMMANDS.md)")
def progress(lab):
    right = lab.right(PROGRESS, lab.large("small-ring"))
    for workers in (1, 4):
        words = [*lab.words(PROGRESS), "--workers", str(workers), lab.large("small-ring")]
        seen = lab.run(words)
        text = f"{told(seen, right, explains=True)}, {told_of_progress(seen, workers)}"
        note = f"{seen.err.count(10)} lines in {seen.seconds:.1f} s"
        yield f"--workers {workers}", text, f"{RIGHT}, lines in this form, as seldom", note
        with open("/dev/full", "wb", buffering=0) as full:
            yield f"--workers {workers} 2>/dev/full", told(lab.run(words, stderr=full), right), RIGHT


LINE = re.compile(rb"line (\d+) of (\d+)")
# A run of so many lines takes more than the second in which nothing is told.
MANY_LINES = 6_000_000


@case("devices", "progress of a run",
      f"`run --progress` of {MANY_LINES:,} lines `show 1`, the last one without a line feed",
      "lines `line N of M`, none in the first second, at most two a second; N rises, and M counts all lines "
      "(COMMANDS.md)")
def run_progress(lab):
    path = pathlib.Path(lab.room, "many-lines")
    path.write_text("\n".join(["show 1"] * MANY_LINES))
    seen = lab.run(lab.words(RUN, str(path)) + ["--progress"])
    path.unlink()
    found = [LINE.fullmatch(line) for line in seen.err.splitlines()]
    numbers = [int(it[1]) for it in found if it and int(it[2]) == MANY_LINES]
    has_form = len(numbers) == len(found) > 0 and numbers == sorted(set(numbers)) and numbers[-1] <= MANY_LINES
    text = "lines in this form, as seldom" if has_form and len(found) <= 2 * seen.seconds else repr(seen.err[:80])
    all_refused = seen.out == b"refused 10\n" * MANY_LINES and seen.status == 0
    right = "each look refused" if all_refused else f"status {seen.status}"
    note = f"{len(found)} lines in {seen.seconds:.1f} s"
    yield "run --progress", f"{right}, {text}", "each look refused, lines in this form, as seldom", note


# Names


def by_name(name, done, promised, wanted, make, commands=COMMANDS, group="names"):
    """Adds a case in which the commands are given the words that a function makes."""

    def act(lab):
        for command in commands:
            seen = lab.run(lab.words(command) + make(lab, command))
            there = wanted[command.program] if isinstance(wanted, dict) else wanted
            yield command.name, told(seen, lab.right(command), command.explains), there

    CASES.append(Case(group, name, done, promised, act))


def copied(name):
    """Makes a copy of the example under another name."""

    def make(lab, command):
        shutil.copyfile(lab.example(command), os.path.join(os.fsencode(lab.room), name))
        return [name]

    return make


def loop_in(lab):
    """A symbolic link to itself."""
    with contextlib.suppress(FileExistsError):
        os.symlink("loop", os.path.join(lab.room, "loop"))
    return "loop"


ARGUMENTS = "status 2, prints nothing, `refused 73`"
USAGE = "status 2, prints nothing, `usage: overlay-check [FILE]`"
NOT_OPENED = "can't be opened: `refused 71`, status 1 (FORMATS.md)"
by_name("a folder", "FILE is a folder", NO_READ, READ, lambda lab, _: [lab.room])
by_name("a device that can't be read", "FILE is /proc/self/mem", NO_READ, READ, lambda lab, _: ["/proc/self/mem"])
by_name("no such file", "FILE is not there", NOT_OPENED, READ, lambda lab, _: ["none"])
by_name("a loop of links", "FILE is a symbolic link to itself", NOT_OPENED, READ, lambda lab, _: [loop_in(lab)])
by_name("an empty name", "FILE is `''`", NOT_OPENED, READ, lambda lab, _: [""])
by_name("a name of 5,000 bytes", "FILE is `aa..a`", NOT_OPENED, READ, lambda lab, _: ["a" * 5000])
by_name("a name of 3,910 bytes", "FILE is `././..` and a name", "names of up to 4,096 bytes are opened (FORMATS.md)",
        RIGHT, lambda lab, command: [b"./" * 1950 + copied(b"short.file")(lab, command)[0]])
by_name("a name with a line feed", "FILE is `a\\nb`, and is there", "FILE is read (FORMATS.md)", RIGHT, copied(b"a\nb"))
by_name("a name that is no UTF-8", "FILE is `f\\xff`, and is there",
        "`overlay`: `refused 73`, status 2; `overlay-check`: `refused 71`, status 1 (FORMATS.md)",
        {"overlay": ARGUMENTS, "overlay-check": READ}, copied(b"f\xff"))
by_name("an argument that is no UTF-8", "`--\\xff FILE`", "`overlay`: `refused 73`, status 2; `overlay-check`: "
        "more than one argument, whatever its bytes: usage, status 2 (FORMATS.md)",
        {"overlay": ARGUMENTS, "overlay-check": USAGE}, lambda lab, command: [b"--\xff", lab.example(command)])
by_name("a name with a dash", "`-- -x`; `overlay-check -x`",
        "after `--` nothing is an option; `overlay-check` has none (COMMANDS.md)", RIGHT,
        lambda lab, command: [*(["--"] if command is not CHECK else []), *copied(b"-x")(lab, command)])


@case("names", "a name that is no UTF-8, by standard input", "`<f\\xff`", "such a file can be read so (FORMATS.md)")
def strange_name(lab):
    for command in COMMANDS:
        name = copied(b"f\xff")(lab, command)[0]
        with open(os.path.join(os.fsencode(lab.room), name), "rb") as given:
            seen = lab.run(lab.words(command), stdin=given)
        yield command.name, told(seen, lab.right(command), command.explains), RIGHT


@case("names", "one descriptor besides the three", "FILE under `ulimit -n 4`", "FILE is read (FORMATS.md)")
def few_descriptors(lab):
    for command in COMMANDS:
        file = lab.large(command.kind)
        seen = lab.run(lab.words(command, file), limits={resource.RLIMIT_NOFILE: 4})
        yield command.name, told(seen, lab.right(command, file), command.explains), RIGHT


def without_rights(lab):
    """A lab and a user without the rights of root. For root these are copies of the programs that NOBODY can start."""
    if os.geteuid() != 0:
        return lab, None
    os.chmod(lab.room, 0o755)
    copies = {}
    for name, path in lab.programs.items():
        copies[name] = shutil.copy(path, os.path.join(lab.room, f"copy-of-{name}"))
        os.chmod(copies[name], 0o755)
    return Lab(copies, lab.room), NOBODY


@case("names", "a file without permission", "FILE of mode 000; for root as another user (65534)", NOT_OPENED)
def forbidden(lab):
    other, user = without_rights(lab)
    for command in COMMANDS:
        name = copied(b"forbidden")(lab, command)[0]
        path = os.path.join(os.fsencode(lab.room), name)
        os.chmod(path, 0)
        seen = lab.run(other.words(command, name), user=user)
        os.remove(path)
        yield command.name, told(seen), READ
