"""What the cases of check-devices share: the commands, the lab in which they are run, larger inputs, and how a run is
told in words."""

import contextlib
import os
import pathlib
import random
import re
import resource
import signal
import subprocess
import tempfile
import time
from typing import Callable, NamedTuple

from repository import ROOT

EXAMPLES = ROOT / "examples"
MB, GB = 1 << 20, 1 << 30
# Each program that is started has these limits, unless its case has others.
LIMITS = {resource.RLIMIT_CORE: 0, resource.RLIMIT_CPU: 60, resource.RLIMIT_AS: 3 * GB}
# The time after which a program is ended that has not ended by itself, in seconds.
LONGEST = 120
# The lines of standard error that scripts may read.
FAULT_LINE = re.compile(rb"(line \d+: )?refused \d+$|usage: ")
# What is seen of most runs.
RIGHT = "status 0, the right output"
READ, WRITE, MEMORY = (f"status 1, prints nothing, `refused {it}`" for it in (71, 72, 99))
PREFIX = "status 1, a prefix of the right output, `refused 72`"


class Command(NamedTuple):
    """A command that is attacked, with the example that it is run on and the kind of larger input that it takes."""

    name: str
    program: str
    words: tuple
    example: str
    kind: str

    @property
    def explains(self):
        """Whether it prints words on standard error although all is well."""
        return "--explain" in self.words or self.kind == "dump"


COMMANDS = [
    Command("run", "overlay", ("run",), "four-nodes.scenario", "scenario"),
    Command("run --explain", "overlay", ("run", "--explain"), "four-nodes.scenario", "scenario"),
    Command("analyse", "overlay", ("analyse",), "two-clusters.graph", "graph"),
    Command("analyse --certificate", "overlay", ("analyse", "--certificate"), "two-clusters.graph", "graph"),
    Command("analyse --progress", "overlay", ("analyse", "--progress"), "two-clusters.graph", "graph"),
    Command("overlay-check", "overlay-check", (), "square.json", "certificate"),
]
RUN, EXPLAIN, ANALYSE, CERTIFICATE, PROGRESS, CHECK = COMMANDS
BARE = Command("overlay", "overlay", (), "four-nodes.scenario", "scenario")
WORKERS = Command("analyse --workers 64", "overlay", ("analyse", "--workers", "64"), "two-clusters.graph", "graph")
# The commands that print what another one prints.
ALIKE = {BARE: RUN, WORKERS: ANALYSE}


class Seen(NamedTuple):
    """What was seen of a program that ended: its status, negative for a signal, its texts, its time and its peak in
    bytes. The peak is never told as less than what this process had when it started the program."""

    status: int
    out: bytes
    err: bytes
    seconds: float
    peak: int


class Case(NamedTuple):
    """A case. `act` yields, for each run, who ran, what was seen, what was to be seen or several of these, and, if it
    wants, a note on the figures."""

    group: str
    name: str
    done: str
    promised: str
    act: Callable


# All cases, in order.
CASES = []


class Skip(Exception):
    """Why a case can't be tried here."""


class Differs(Exception):
    """What went otherwise than it should before a run could be judged."""


def case(group, name, done, promised):
    """Adds a function to the cases."""

    def add(act):
        CASES.append(Case(group, name, done, promised, act))
        return act

    return add


def ending_of(status):
    """How a program ended, in words."""
    return f"status {status}" if status >= 0 else f"ended by {signal.Signals(-status).name}"


def fault_line(err):
    """The first line of standard error if it is one that scripts may read, in words."""
    line = err.split(b"\n")[0]
    return f", `{line.decode()}`" if FAULT_LINE.match(line) else ""


def fault_among(err):
    """The line of a fault. With --explain the reasons of refused lines stand above it."""
    return next((it for it in err.split(b"\n") if FAULT_LINE.match(it)), b"")


def told_output(out, right):
    """What standard output got, in words."""
    if out == right:
        return "the right output" if right else "prints nothing"
    if not out:
        return "prints nothing"
    if right.startswith(out):
        return "a prefix of the right output"
    line = out[:-1].decode(errors="backslashreplace")
    return f"`{line}`" if len(line) < 60 and "\n" not in line else f"other output, {len(out)} bytes: {line[:60]!r}"


def told(seen, right=b"", explains=False):
    """What was seen, in words. The explanation of a refusal is left out, since its words may change."""
    text = f"{ending_of(seen.status)}, {told_output(seen.out, right)}{fault_line(seen.err)}"
    refusal = re.search(rb"(^|\n)(refused|fails) [^\n]*\n$", seen.out)
    if seen.err and not explains and not refusal and not fault_line(seen.err):
        text += f", standard error has {seen.err[:60]!r}"
    return text


class Lab:
    """Where cases are tried: the programs, a folder, the larger inputs, and the processes that run."""

    def __init__(self, programs, room):
        self.programs, self.room, self.running = programs, room, []
        self.kept, self.outputs = {}, {}

    def words(self, command, file=None):
        """The words by which a command is started."""
        return [str(self.programs[command.program]), *command.words, *([] if file is None else [file])]

    def start(self, words, closed=(), limits=(), ignored=(), user=None, **streams):
        """Starts a program. `closed` are descriptors that it does not have, `ignored` signals that it ignores."""
        amounts = {**LIMITS, **dict(limits)}
        # the addresses last, since Python may need some before
        order = sorted(amounts, key=lambda it: it == resource.RLIMIT_AS)

        def prepare():
            for number in ignored:
                signal.signal(number, signal.SIG_IGN)
            for descriptor in closed:
                os.close(descriptor)
            for which in order:
                resource.setrlimit(which, (amounts[which], amounts[which]))

        how = {"stdin": subprocess.DEVNULL, **streams}
        if user is not None:
            how |= {"user": user, "group": user, "extra_groups": []}
        process = subprocess.Popen(words, preexec_fn=prepare, cwd=self.room, **how)
        self.running.append(process)
        return process

    def wait(self, process, seconds=LONGEST):
        """Waits until a program has ended. Returns what it used, and ends it if it takes longer."""
        end, pause = time.monotonic() + seconds, 0.0005
        while True:
            number, status, used = os.wait4(process.pid, os.WNOHANG)
            if number:
                process.returncode = os.waitstatus_to_exitcode(status)
                self.running.remove(process)
                return used
            if time.monotonic() > end:
                self.end(process)
                raise Differs(f"has not ended after {seconds} s")
            time.sleep(pause)
            pause = min(2 * pause, 0.02)

    def end(self, process):
        """Ends a program that was started."""
        if process.returncode is None:
            process.kill()
            process.wait()
        self.running.remove(process)

    def run(self, words, during=None, stdout=None, stderr=None, seconds=LONGEST, **how):
        """Runs a program to its end. `during` is done with it while it runs. What it prints is kept in files, so that
        it never waits for a reader, unless other streams are given."""
        with contextlib.ExitStack() as stack:
            out = stdout if stdout is not None else stack.enter_context(tempfile.TemporaryFile(dir=self.room))
            err = stderr if stderr is not None else stack.enter_context(tempfile.TemporaryFile(dir=self.room))
            begun = time.monotonic()
            process = self.start(words, stdout=out, stderr=err, **how)
            if during:
                during(process)
            used = self.wait(process, seconds)
            texts = [read_again(it) if given is None else b"" for it, given in ((out, stdout), (err, stderr))]
            return Seen(process.returncode, *texts, time.monotonic() - begun, 1024 * used.ru_maxrss)

    def example(self, command):
        """The file that a command is run on."""
        return str(EXAMPLES / command.example)

    def right(self, command, file=None):
        """What a command prints of a file, or of its example. It is held once against what is known from elsewhere."""
        command, file = ALIKE.get(command, command), file or self.example(command)
        key = command.words, file
        if key not in self.outputs:
            seen = self.run(self.words(command, file))
            confirm(self, command, file, seen)
            self.outputs[key] = seen.out
        return self.outputs[key]

    def large(self, kind):
        """A larger file of a kind that MAKERS has."""
        if kind not in self.kept:
            path = os.path.join(self.room, f"large.{kind}")
            MAKERS[kind](self, path)
            self.kept[kind] = path
        return self.kept[kind]


def read_again(file):
    """All bytes of a file that a program wrote."""
    file.seek(0)
    return file.read()


# Larger inputs. Of each something is known of what is printed, by a theorem on graphs or by the documents.
LINES = 30_000
# Two groups of so many nodes, all linked within, that share some: the fewest crashes are those of the shared ones.
CLIQUE, SHARED = 70, 20
SHARED_IDS = ",".join(str(it) for it in range(CLIQUE - SHARED + 1, CLIQUE + 1))
# Rings of so many nodes, each linked with the next ones on each side: twice as many crashes split them, and no fewer.
RING, SMALL_RING = (1024, 78), (640, 50)


def make_scenario(lab, path):
    """Looks at a node that was never born: each prints `refused 10`, as FORMATS.md says of `show`."""
    pathlib.Path(path).write_text("show 1\n" * LINES)


def write_graph(path, total, links):
    """Writes a graph file of the nodes 1 to `total`."""
    with open(path, "w") as file:
        file.writelines(f"node {it}\n" for it in range(1, total + 1))
        file.writelines(f"link {a} {b}\n" for a, b in links)


def pairs(total):
    """All pairs of the nodes 1 to `total`."""
    return [(a, b) for a in range(1, total + 1) for b in range(a + 1, total + 1)]


def make_graph(lab, path):
    """Two groups of nodes that share some."""
    total = 2 * CLIQUE - SHARED
    write_graph(path, total, [(a, b) for a, b in pairs(total) if b <= CLIQUE or a > CLIQUE - SHARED])


def make_certificate(lab, path):
    """The certificate of the larger graph, as `analyse --certificate` prints it."""
    out = lab.right(CERTIFICATE, lab.large("graph"))
    pathlib.Path(path).write_bytes(out.split(b"\n")[1])


def make_entries(lab, path):
    """The certificate of the dense graph: a thousand entries, which pay several threads."""
    out = lab.right(CERTIFICATE, lab.large("dense"))
    pathlib.Path(path).write_bytes(out.split(b"\n")[1])


def make_dense(lab, path, total=160, share=0.5):
    """Nodes of which some links are missing by chance, so that many paths are sought at each level."""
    chance = random.Random(1)
    write_graph(path, total, [pair for pair in pairs(total) if chance.random() < share])


def make_sixty(lab, path):
    """60 such nodes, with a level that pays several threads."""
    make_dense(lab, path, 60, 0.8)


def make_ring(lab, path, total=RING[0], following=RING[1]):
    """A ring, its nodes in an order by chance: an analysis of many seconds."""
    order = list(range(1, total + 1))
    random.Random(1).shuffle(order)
    links = [(order[at], order[(at + by) % total]) for at in range(total) for by in range(1, following + 1)]
    write_graph(path, total, sorted({(min(pair), max(pair)) for pair in links}))


def make_small_ring(lab, path):
    """A smaller ring: an analysis of a few seconds."""
    make_ring(lab, path, *SMALL_RING)


def make_world(lab, path):
    """200 nodes that join by node 1, deliveries, and an analysis of what came of it."""
    lines = ["boot 1"]
    for node in range(2, 201):
        lines += [f"boot {node} by 1", "deliver 0", "deliver 0"]
    lines += ["deliver 0"] * 4000
    lines += ["snapshot", f"analyse {len(lines) + 1}", f"certificate {len(lines) + 1}", "packets"]
    pathlib.Path(path).write_text("\n".join(lines) + "\n")


def make_wide(lab, path):
    """A grown overlay of 256 nodes with wide views. Its analyses are by 64 workers, and have levels that pay several."""
    grow = [lab.words(RUN)[0], "grow", "--nodes", "256", "--active", "16", "--heal", "0"]
    text = re.sub(rb"(?m)^analyse \d+$", rb"\g<0> workers 64", lab.run(grow).out)
    pathlib.Path(path).write_bytes(text)


MAKERS = {
    "scenario": make_scenario,
    "graph": make_graph,
    "certificate": make_certificate,
    "entries": make_entries,
    "dense": make_dense,
    "sixty": make_sixty,
    "ring": make_ring,
    "small-ring": make_small_ring,
    "world": make_world,
    "wide": make_wide,
}
# How the output of each input begins, or the whole of it if it ends with a line feed. Where commands print different
# things of an input, the command stands before its name.
KNOWN = {
    "scenario": "refused 10\n" * LINES,
    "graph": f"report 0 split k {SHARED} cut {SHARED_IDS} near ",
    "certificate": f"holds 0 split k {SHARED} cut {SHARED_IDS} near ",
    "entries": "holds 0 split k ",
    "dense": "report 0 split k ",
    "sixty": "report 0 split k ",
    "ring": f"report 0 split k {2 * RING[1]} cut ",
    "small-ring": f"report 0 split k {2 * SMALL_RING[1]} cut ",
    "world": "entry 1 born 1\nentry 2 born 2\nentry 3 up 1 2",
    "four-nodes.scenario": (EXAMPLES / "four-nodes.txt").read_text(),
    "sections.scenario": (EXAMPLES / "sections.txt").read_text(),
    "two-clusters.graph": (EXAMPLES / "two-clusters.txt").read_text(),
    "square.json": "holds 0 split k 2 cut 2,4 near 1 far 3 side 1\n",
}


def confirm(lab, command, file, seen):
    """Holds an output against what is known of it, and a certificate against `overlay-check`."""
    name = os.path.basename(file)
    short, asks = name.removeprefix("large."), "--certificate" in command.words
    known = (KNOWN.get(f"{command.name} {short}") or KNOWN[short]).encode()
    fits = seen.out == known if known.endswith(b"\n") and not asks else seen.out.startswith(known)
    if seen.status or not fits:
        raise Differs(f"`{command.name} {name}`: {ending_of(seen.status)}, {seen.out[:80]!r}, and not {known[:80]!r}")
    if asks:
        confirm_certificate(lab, seen.out)


def confirm_certificate(lab, out):
    """Holds a certificate that was printed against the line above it, by `overlay-check`."""
    line, text = out.split(b"\n")[:2]
    with tempfile.TemporaryFile(dir=lab.room) as file:
        file.write(text)
        file.seek(0)
        checked = lab.run(lab.words(CHECK), stdin=file)
    if checked.out != line.replace(b"report", b"holds") + b"\n":
        raise Differs(f"overlay-check prints {checked.out[:80]!r} of the certificate of {line[:80]!r}")
