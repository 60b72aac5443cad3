"""The cases of check-devices about large outputs, long and deep inputs, little memory and small stacks of the commands
of dump_cases."""

import fcntl
import os
import pathlib
import resource
import subprocess
import tempfile

from device_cases import NO_WRITE
from device_lab import BARE, EXAMPLES, KNOWN, MB, MEMORY, PREFIX, RIGHT, case, told
from dump_cases import DOT, DUMPS, EDGES, FILE_COMMANDS, GRAPH, NO_NAMES, PICTURE, TOLD, VIEWS
from limit_cases import ENOUGH, LITTLE, PART, ROOM, SIZE, STACK, Flood, flooded, little_memory

# Names of hosts, and the shortest ones, with what they take at most for each byte, and the byte itself.
HOSTS = b"node-0001.rack1.example.org", b"node-0002.rack2.example.org"
LINE, CHAIN, PEER = b"%s %s\n" % HOSTS, b'"%s" -- "%s";\n' % HOSTS, b'"%s",' % HOSTS[1]
COMMENT, SHORT = b"# " + b"x" * 61 + b"\n", 10 * MB
NO_JSON, NO_LINE = (f"status 1, prints nothing, `refused {it}`" for it in (60, 70))
# Each of these ends with what is a fault only when all of it has been read.
EMPTY = "status 1, prints nothing, `refused 82`"
DUMP_FLOODS = [
    Flood("comments", EDGES, COMMENT, NO_NAMES, 1.1),
    Flood("spaces", VIEWS, b" ", NO_NAMES, 1.1),
    Flood("one line without an end", VIEWS, b"1", NO_LINE, 1.1),
    Flood("`{` without an end", VIEWS, b"{", NO_JSON, 2.2),
    Flood("bytes that are no UTF-8", VIEWS, b"\xff", NO_LINE, 1.1),
    Flood("a comment of DOT without an end", DOT, b"x", NO_LINE, 1.1, head=b"graph { /*"),
    Flood("names of hosts", EDGES, LINE, NO_LINE, 11, PART, tail=b"a\n"),
    Flood("names of hosts", VIEWS, PEER, EMPTY, 11, PART, b'{"a":[', b'""]}'),
    Flood("names of hosts", DOT, CHAIN, EMPTY, 16, PART, b"graph {", b'"" }'),
    Flood("names of a byte", EDGES, b"a b\n", NO_LINE, 66, SHORT, tail=b"a\n"),
    Flood("names of a byte", VIEWS, b'"b",', EMPTY, 46, SHORT, b'{"a":[', b'""]}'),
    Flood("names of a byte", DOT, b"--b--a", EMPTY, 171, SHORT, b"graph { a", b'--"" }'),
    Flood("names of a byte, 100 MB", DOT, b"--b--a", MEMORY, ROOM / PART, PART, b"graph { a", b'--"" }'),
    *(Flood(what, it, piece, NO_JSON, 2.2)
      for it in (GRAPH, PICTURE) for what, piece in (("spaces", b" "), ("`[` without an end", b"["))),
    Flood("a list of numbers, as JSON begins", PICTURE, b"0,", MEMORY, ROOM / SIZE, SIZE, b"["),
    Flood("comments", TOLD, COMMENT, "status 0, `refused 30`", 1.1),
    Flood("names of nodes", TOLD, b"# 1 a\n", "status 0, `refused 30`", 1.1),
]

# Dumps of so many names, which are linked in a ring, and the picture of a ring: outputs that fill a pipe.
NAMES = 1000
RING_LINKS = sorted([*((it, it + 1) for it in range(1, NAMES)), (1, NAMES)])
KNOWN["ring.edges"] = KNOWN["ring.dot"] = "".join([
    *(f"# {it} n{it:04}\nnode {it}\n" for it in range(1, NAMES + 1)), *(f"link {a} {b}\n" for a, b in RING_LINKS)])
KNOWN["picture ring-200.json"] = (DUMPS / "picture-of-200.out").read_text()


def large_files(lab):
    """Files of which much is printed, with their commands."""
    lines = [f"n{a:04} -- n{b:04}\n" for a, b in RING_LINKS]
    for name, text in (("ring.edges", "".join(lines).replace("--", "")), ("ring.dot", f"graph {{{''.join(lines)}}}")):
        pathlib.Path(lab.room, name).write_text(text)
    rings = [(EDGES, f"{lab.room}/ring.edges"), (DOT, f"{lab.room}/ring.dot")]
    return [*rings, (PICTURE, str(EXAMPLES / "ring-200.json"))]


@case("dumps", "dumps: a slow reader", "output of 30 or 70 KB into a pipe of 4 KB, of which 777 bytes are taken at a "
      "time", "a write may take a part; the rest follows (FORMATS.md)")
def slow_reader(lab):
    for command, file in large_files(lab):
        pieces, (reader, writer) = [], os.pipe()
        fcntl.fcntl(writer, fcntl.F_SETPIPE_SZ, 4096)

        def take(process):
            os.close(writer)
            while piece := os.read(reader, 777):
                pieces.append(piece)
            os.close(reader)

        seen = lab.run(lab.words(command, file), during=take, stdout=writer)
        yield command.name, told(seen._replace(out=b"".join(pieces)), lab.right(command, file)), RIGHT


@case("dumps", "dumps: reader gone after the first line", "the same into a pipe of 4 KB that is closed after its first "
      "line", NO_WRITE)
def gone_after_line(lab):
    for command, file in large_files(lab):
        line = []

        def read_line(process):
            line.append(process.stdout.readline())
            process.stdout.close()

        seen = lab.run(lab.words(command, file), during=read_line, stdout=subprocess.PIPE, bufsize=0, pipesize=4096)
        yield command.name, told(seen._replace(out=line[0]), lab.right(command, file)), PREFIX


@case("dumps", "dumps: 1 GB from a pipe", "1 GB, 100 MB, or 10 MB, on standard input, with 3 GB of addresses",
      "the line and the status of FORMATS.md, and memory as FORMATS.md, devices, says")
def dump_floods(lab):
    yield from flooded(lab, DUMP_FLOODS)


@case("dumps", "dumps: an input that does not end", "FILE, or GRAPHFILE, is /dev/zero, with 512 MB of addresses",
      "out of memory: `refused 99`, status 1, nothing on standard output (FORMATS.md)")
def endless_dumps(lab):
    words = [lab.words(it, "/dev/zero") for it in FILE_COMMANDS]
    words += [[*lab.words(PICTURE), "--names", "/dev/zero", lab.example(PICTURE)]]
    for name, these in zip([*(it.name for it in FILE_COMMANDS), "GRAPHFILE"], words):
        yield name, told(lab.run(these, limits={resource.RLIMIT_AS: 512 * MB})), MEMORY


@case("dumps", "dumps: little memory", "64 MB of addresses, 5% less again and again, from 6 MB on 8 KB less, until it "
      "can't start", LITTLE)
def little_dumps(lab):
    yield from little_memory(lab, [(it, lab.example(it)) for it in FILE_COMMANDS])


@case("dumps", "dumps: little memory, larger inputs", "the same with rings of 1,000 and 200 nodes", LITTLE)
def little_large_dumps(lab):
    yield from little_memory(lab, large_files(lab))


# How deep lists, objects and subgraphs stand within one another.
DEPTHS = (127, 128, 129, 1_000_000)
TWO_LINKED = b"# 1 a\nnode 1\n# 2 b\nnode 2\nlink 1 2\n"


def deep_texts(depth):
    """Texts that are nested so deep: the words that read them, what is nested, the text, and the fault or none."""
    lists, objects = b"[" * depth + b"]" * depth, b'{"a":' * depth + b"1" + b"}" * depth
    for name, text, right in (("`[`", lists, 63), ('`{"a":`', objects, 61)):
        yield "import --views", name, text, 83 if depth < 129 else 60
        for words in ("graph", "picture"):
            yield words, name, text, right if depth < 128 else 60
    for name in ("{", "subgraph x {"):
        begin = b"graph {" + name.encode() * depth
        yield "import --dot", f"`{name}`", begin + b"a -- b" + b"}" * (depth + 1), None
        yield "import", f"`{name}` without an end", begin, 70


def deep(lab, size, also=()):
    """What is printed of deep texts on a stack of this size. Of JSON something else may be seen."""
    for depth in DEPTHS:
        for words, name, text, fault in deep_texts(depth):
            with tempfile.TemporaryFile(dir=lab.room) as given:
                given.write(text)
                given.seek(0)
                seen = lab.run([*lab.words(BARE), *words.split()], stdin=given, limits={resource.RLIMIT_STACK: size})
            wanted = f"status 1, prints nothing, `refused {fault}`" if fault else RIGHT
            json = () if text.startswith(b"graph") else also
            yield f"{words} of {depth:,} {name}", told(seen, TWO_LINKED), (wanted, *json)


DEEP = ("of views JSON nested deeper than 128 is `refused 60`, of a certificate deeper than 127; else the first fault "
        "decides, 83, 63 or 61. Subgraphs of DOT may be nested as deep as one likes, 70 is another fault (FORMATS.md)")


@case("dumps", "dumps: deep JSON and DOT, 256 KB of stack", "lists, objects and subgraphs nested deep, `ulimit -s 256`",
      DEEP + STACK)
def deep_enough(lab):
    yield from deep(lab, ENOUGH)


@case("dumps", "dumps: deep JSON and DOT, 64 KB of stack", "the same under `ulimit -s 64`",
      "DOT: the same; JSON: SIGSEGV may end it, before it prints its line (FORMATS.md, devices)")
def deep_narrow(lab):
    yield from deep(lab, 64 * 1024, also=("ended by SIGSEGV, prints nothing",))
