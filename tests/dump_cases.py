"""The cases of check-devices about dumps, pictures and names, with devices that fail, and files that can't be opened:
`overlay import`, `graph`, `picture` and `analyse --names --explain`."""

import itertools
import os
import pathlib
import resource
import shutil
import signal
import socket
from functools import partial

import device_cases
from device_cases import ARGUMENTS, NO_READ, NO_WRITE, NOT_OPENED, TYPED_AT, UNHEARD, copied, dead_terminal
from device_cases import example_opened, loop_in, opened, typed, widowed, with_file, without_rights
from device_lab import EXAMPLES, KNOWN, PREFIX, READ, RIGHT, WRITE, Command, Skip, case, fault_among, told
from limit_cases import ENOUGH

DUMPS = EXAMPLES / "dumps"
GRAPH_FILE = str(DUMPS / "import-entries.out")
CERTIFICATE_FILE = "dumps/certificate.json"
VIEWS = Command("import", "overlay", ("import",), "dumps/cluster.json", "dump")
EDGES = Command("import --edges", "overlay", ("import", "--edges"), "dumps/cluster.edges", "edges")
DOT = Command("import --dot", "overlay", ("import", "--dot"), "dumps/cluster.dot", "dump")
GRAPH = Command("graph", "overlay", ("graph",), CERTIFICATE_FILE, "file")
PICTURE = Command("picture", "overlay", ("picture",), CERTIFICATE_FILE, "file")
NAMED = Command("picture --names", "overlay", ("picture", "--names", GRAPH_FILE), CERTIFICATE_FILE, "file")
DIAGRAM = Command("picture --names --dot", "overlay", (*NAMED.words, "--dot"), CERTIFICATE_FILE, "file")
TOLD = Command("analyse --names --explain", "overlay", ("analyse", "--names", "--explain"), "dumps/import-entries.out",
               "graph")
# The commands, with the examples that keep what they print.
PRINTED = {VIEWS: "import", EDGES: "import-edges", DOT: "import-dot", GRAPH: "graph", PICTURE: "picture-by-ids",
           NAMED: "picture", DIAGRAM: "picture-dot", TOLD: "names"}
KNOWN.update({f"{it.name} {pathlib.Path(it.example).name}": (DUMPS / f"{kept}.out").read_text()
              for it, kept in PRINTED.items()})
FILE_COMMANDS = list(PRINTED)

each = partial(device_cases.each, commands=FILE_COMMANDS, group="dumps")
by_name = partial(device_cases.by_name, commands=FILE_COMMANDS, group="dumps")
# What is seen of a dump without names.
NO_NAMES = r"status 0, prints nothing, standard error has b'the dump has no names\n'"
NO_DOOR = "can't be opened or read: `refused 71`, status 1 (FORMATS.md)"
each("dumps: all is well", "the same without any trouble", "the examples that are kept", RIGHT)
each("dumps: empty environment", "`env -i .. FILE`", "no variable is looked at (FORMATS.md, devices)", RIGHT, env={})
each("dumps: FILE `-`", "`- <FILE`", "standard input is read (COMMANDS.md)", RIGHT, file="-", stdin=example_opened)
each("dumps: no FILE", "`<FILE`", "standard input is read (COMMANDS.md)", RIGHT, file=None, stdin=example_opened)
each("dumps: closed standard input, with FILE", "`FILE <&-`", "FILE alone is read (FORMATS.md)", RIGHT, closed=(0,))
each("dumps: closed standard input", "`<&-`", NO_READ, READ, file=None, closed=(0,))
each("dumps: standard input that can only be written to", "`0>/dev/null`", NO_READ, READ, file=None,
     stdin=opened("/dev/null", "wb"))
each("dumps: closed standard output", "`FILE >&-`", NO_WRITE, WRITE, closed=(1,))
each("dumps: full device", "`FILE >/dev/full`", NO_WRITE, WRITE, stdout=opened("/dev/full", "wb"))
each("dumps: reader gone at once", "a pipe without a reader", NO_WRITE, WRITE, stdout=widowed)
each("dumps: a terminal that hangs up", "standard output is a terminal whose other end is closed", NO_WRITE, WRITE,
     stdout=dead_terminal, start_new_session=True)
each("dumps: closed standard error", "`FILE 2>&-`", UNHEARD, RIGHT, closed=(2,))
each("dumps: full standard error", "`FILE 2>/dev/full`", UNHEARD, RIGHT, stderr=opened("/dev/full", "wb"))
each("dumps: standard error that nobody reads", "a pipe without a reader as standard error", UNHEARD, RIGHT,
     stderr=widowed)
each("dumps: all three closed", "`FILE <&- >&- 2>&-`", "writing failed: status 1 (FORMATS.md)",
     "status 1, prints nothing", closed=(0, 1, 2))
each("dumps: 256 KB of stack", "`ulimit -s 256`", "the right output: 256 KB of stack are enough (FORMATS.md, devices)",
     RIGHT, limits={resource.RLIMIT_STACK: ENOUGH})
each("dumps: 64 KB of stack", "`ulimit -s 64`", "about 50 KB are needed (FORMATS.md, devices)", RIGHT,
     limits={resource.RLIMIT_STACK: 64 * 1024})
each("dumps: full device, and nothing to print", "`/dev/null >/dev/full`", "nothing is written, so nothing fails "
     "(FORMATS.md, devices)", NO_NAMES, commands=[EDGES], file="/dev/null", stdout=opened("/dev/full", "wb"))
each("dumps: one descriptor besides the three", "FILE, and GRAPHFILE, under `ulimit -n 4`", "FILE is read (FORMATS.md)",
     RIGHT, limits={resource.RLIMIT_NOFILE: 4})
by_name("dumps: a name that is no UTF-8", "FILE is `f\\xff`, and is there", "`refused 73`, status 2 (FORMATS.md)",
        ARGUMENTS, copied(b"f\xff"))
by_name("dumps: an argument that is no UTF-8", "`--\\xff FILE`", "`refused 73`, status 2 (FORMATS.md)", ARGUMENTS,
        lambda lab, command: [b"--\xff", lab.example(command)])
by_name("dumps: GRAPHFILE of a name that is no UTF-8", "`--names f\\xff`, which is there",
        "`refused 73`, status 2 (FORMATS.md)", ARGUMENTS,
        lambda lab, command: ["--names", *copied(b"f\xff")(lab, command), lab.example(command)], commands=[PICTURE])


@case("dumps", "dumps: input from a terminal", *TYPED_AT)
def typed_input(lab):
    for command in FILE_COMMANDS:
        yield command.name, typed(lab, command), RIGHT + ", says so"


@case("dumps", "dumps: GRAPHFILE `/dev/stdin`", "`picture FILE --names /dev/stdin <GRAPHFILE`",
      "GRAPHFILE is read (COMMANDS.md)")
def names_of_input(lab):
    with open(GRAPH_FILE, "rb") as given:
        seen = lab.run([*lab.words(PICTURE), "--names", "/dev/stdin", lab.example(PICTURE)], stdin=given)
    yield NAMED.name, told(seen, lab.right(NAMED)), RIGHT


def no_files(lab):
    """What can't be opened or read, by its name and in words."""
    return {"none": "not there", lab.room: "a folder", "": "`''`", "a" * 5000: "5,000 bytes", loop_in(lab): "a loop",
            "/proc/self/mem": "a device"}


@case("dumps", "dumps: what can't be opened or read", "FILE is not there, a folder, `''`, a name of 5,000 bytes, a "
      "symbolic link to itself, /proc/self/mem", NO_DOOR)
def unread_files(lab):
    for command in FILE_COMMANDS:
        for name, what in no_files(lab).items():
            yield f"FILE is {what}", told(lab.run(lab.words(command, name))), READ


@case("dumps", "dumps: GRAPHFILE that can't be opened or read", "the same as GRAPHFILE of `picture --names`, and "
      "`-`, of a certificate that holds and of one that does not", "both files are read before anything is judged, and "
      "GRAPHFILE is always a file (COMMANDS.md); `refused 71`, status 1 (FORMATS.md)")
def unread_names(lab):
    for certificate in (lab.example(NAMED), str(EXAMPLES / "two-linked-wrong-count.json")):
        for name, what in {**no_files(lab), "-": "`-`"}.items():
            seen = lab.run([*lab.words(PICTURE), "--names", name, certificate])
            yield f"GRAPHFILE is {what}", told(seen), READ


def without_permission(lab, words, name, user):
    """What is seen of a program that may not read the file of this name."""
    path = pathlib.Path(lab.room, name)
    path.chmod(0)
    seen = lab.run([*words, name], user=user)
    path.chmod(0o644)
    return told(seen) + (", names it" if f"{name} can't be opened".encode() in seen.err else "")


@case("dumps", "dumps: a file without permission", "FILE or GRAPHFILE of mode 000; for root as another user (65534)",
      NOT_OPENED)
def forbidden(lab):
    other, user = without_rights(lab)
    for command in FILE_COMMANDS:
        name = os.path.basename(shutil.copyfile(lab.example(command), os.path.join(lab.room, "no-entry")))
        yield command.name, without_permission(lab, other.words(command), name, user), f"{READ}, names it"
    shutil.copyfile(lab.example(PICTURE), os.path.join(lab.room, "certificate"))
    os.chmod(os.path.join(lab.room, "certificate"), 0o644)
    words = [*other.words(PICTURE, "certificate"), "--names"]
    yield "GRAPHFILE", without_permission(lab, words, "no-entry", user), f"{READ}, names it"


@case("dumps", "dumps: device full at each place", "a file that may have so many bytes, in 40 steps up to the last "
      "byte of the output, SIGXFSZ ignored", "writing failed: `refused 72`, status 1, after a prefix of the output "
      "(FORMATS.md)")
def full_anywhere(lab):
    for command in FILE_COMMANDS:
        right = lab.right(command)
        for limit in [*range(0, len(right), len(right) // 40 + 1), len(right) - 1]:
            seen = with_file(lab, lab.words(command, lab.example(command)), limit, ignored=(signal.SIGXFSZ,))
            yield command.name, told(seen._replace(err=fault_among(seen.err)), right), PREFIX if limit else WRITE


@case("dumps", "dumps: input that breaks off at each place", "so much of the input from a socket, in 40 steps up to "
      "all of it, and then an error (ECONNRESET)", "reading failed: `refused 71`, status 1, and nothing is printed "
      "(FORMATS.md)")
def broken_anywhere(lab):
    for command in FILE_COMMANDS:
        data = pathlib.Path(lab.example(command)).read_bytes()
        for size in [*range(0, len(data), len(data) // 40 + 1), len(data)]:
            given, writer = socket.socketpair()
            # what the other end has not read when it is closed makes an error here
            given.send(b"unread")
            writer.sendall(data[:size])
            writer.close()
            with given:
                yield command.name, told(lab.run(lab.words(command), stdin=given)), READ


def failing(lab, words, call, number, *where):
    """What is seen of a program of which the call of this number fails, by strace."""
    traced = ["-e", f"trace={call}", "-e", f"inject={call}:error=EIO:when={number}"]
    return lab.run(["strace", "-qq", "-o", "/dev/null", *traced, *where, *words])


@case("dumps", "dumps: read or write number N fails", "reads 1 and 2 of FILE and of GRAPHFILE, and writes 1 to 3 "
      "(EIO, by strace)", "`refused 71`, and nothing is printed; the first write is of the output, so `refused 72`; "
      "the others are of standard error, so nothing else changes (FORMATS.md)")
def failing_calls(lab):
    if not shutil.which("strace") or failing(lab, ["true"], "write", 1).status:
        raise Skip("there is no strace that may trace")
    for command in FILE_COMMANDS:
        file = os.path.realpath(lab.example(command))
        files = [file, os.path.realpath(GRAPH_FILE)] if "--names" in command.words and command is not TOLD else [file]
        for path, number in itertools.product(files, (1, 2)):
            yield f"read {number}", told(failing(lab, lab.words(command, file), "read", number, "-P", path)), READ
        for number in (1, 2, 3):
            seen = failing(lab, lab.words(command, file), "write", number)
            yield f"write {number}", told(seen, lab.right(command), True), WRITE if number == 1 else RIGHT
