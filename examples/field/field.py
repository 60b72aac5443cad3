"""What the scripts of this folder share: they start overlays of real daemons on this machine, ask `overlay` which hosts
are the cut, kill them, and ask the daemons that are left whom they still reach. README.md says what is tried.

All that an overlay needs is on addresses of 127.0.0.0/8 and in a temporary folder. At the end, also if a script is
interrupted, it ends all daemons that it started, and removes the folder. Where the script itself is killed, the daemons
end with it, and the folder stays.
"""

from __future__ import annotations

import argparse
import itertools
import os
import pathlib
import random
import re
import shutil
import signal
import socket
import subprocess
import sys
import tempfile
import time
from abc import ABC, abstractmethod
from dataclasses import dataclass
from typing import Callable, ClassVar, FrozenSet, Iterable, Mapping, NoReturn, Optional, Sequence, Tuple, TypeVar

TOP = pathlib.Path(__file__).resolve().parents[2]
# The package tagzirk of this repository, which makes the dumps.
sys.path.insert(0, str(TOP / "python"))
# How many relays there are, and how many hosts each of the two clusters has then, unless others are asked for.
SIZES = "2x5,3x6,4x7"
# So many hosts an overlay has at most: the daemons of all rounds run at once.
MOST_HOSTS = 100
# So many fresh overlays of each size lose one host fewer than the cut has.
FEWER_ROUNDS = 3
# Whatever happens, a kind of overlay is given up after so many seconds.
LIMIT = 500

Hosts = FrozenSet[str]
# Each host with the hosts that it is linked to.
Links = Mapping[str, Hosts]
# So many relays, and hosts of each cluster.
Size = Tuple[int, int]
Result = TypeVar("Result")


class Trouble(Exception):
    """Why a script can't go on, or what is not as the answer said: the text to print."""


class NotInstalled(Trouble):
    """What is not installed, and how to install it."""


def tell(text: str) -> None:
    """Says on standard error how far a script has come."""
    print(text, file=sys.stderr, flush=True)


def command(name: str, package: str) -> str:
    """The path of a command, which a package of Debian has."""
    found = shutil.which(name, path=os.pathsep.join([*os.get_exec_path(), "/usr/sbin", "/sbin"]))
    if not found:
        raise NotInstalled(f"{name} is not installed; on Debian: apt-get install --no-install-recommends {package}")
    return found


def wait_for(what: str, seconds: float, ask: Callable[[], Optional[Result]], pause: float = 0.5) -> Result:
    """What `ask` answers, as soon as that is not None."""
    until = time.monotonic() + seconds
    while (answer := ask()) is None:
        if time.monotonic() > until:
            raise Trouble(f"{what}: not so within {seconds:.0f} s")
        time.sleep(pause)
    return answer


def is_free(address: str, port: int) -> bool:
    """Whether nobody uses a port of an address, by TCP or by UDP."""
    try:
        for kind in socket.SOCK_STREAM, socket.SOCK_DGRAM:
            with socket.socket(socket.AF_INET, kind) as it:
                it.bind((address, port))
    except OSError:
        return False
    return True


def links_of(hosts: Iterable[str], pairs: Iterable[tuple[str, str]]) -> Links:
    """The links of hosts, of which each of these pairs has one."""
    found: dict[str, set[str]] = {host: set() for host in sorted(hosts)}
    for one, other in pairs:
        found[one].add(other)
        found[other].add(one)
    return {host: frozenset(others) for host, others in found.items()}


def links_in(graph: str) -> Links:
    """The links in a graph file, by names."""
    names = dict(re.findall(r"(?m)^# (\d+) (.*)$", graph))
    return links_of(names.values(), [(names[a], names[b]) for a, b in re.findall(r"(?m)^link (\d+) (\d+)$", graph)])


def next_ones(relays: int) -> int:
    """To how many next hosts on either side each host of a cluster is linked, so that it has more links than there are
    relays."""
    return relays // 2 + 1


def sizes_of(text: str) -> list[Size]:
    """The sizes that a text says: RELAYSxHOSTS, with commas between two."""
    found = []
    for word in text.split(","):
        said = re.fullmatch(r"([1-9]\d?)x([1-9]\d?)", word)
        if not said:
            raise argparse.ArgumentTypeError(f"{word!r} is not RELAYSxHOSTS, as 3x6")
        relays, hosts = int(said[1]), int(said[2])
        least = 2 * next_ones(relays) + 1
        if relays < 2 or hosts < least or relays + 2 * hosts > MOST_HOSTS:
            raise argparse.ArgumentTypeError(
                f"{word}: there are 2 relays or more, so that fewer crashes can be tried; {least} hosts or more in a "
                f"cluster beside {relays}, so that each has more links than that; and {MOST_HOSTS} hosts at most"
            )
        found.append((relays, hosts))
    if len(set(found)) < len(found):
        raise argparse.ArgumentTypeError("a size stands there twice")
    return found


def two_clusters(relays: int, size: int) -> Links:
    """Two clusters of so many hosts, and relays between them, which alone have links into both.

    The hosts of a cluster stand in a ring, and each is linked to the next ones on either side; a relay is linked to as
    many that follow one another. So each host has more links than there are relays.
    """
    pairs = []
    for place in "oslo", "berlin":
        hosts = [f"{place}{at + 1}" for at in range(size)]
        for step in range(next_ones(relays)):
            pairs += [(hosts[at], hosts[(at + step + 1) % size]) for at in range(size)]
            pairs += [(f"relay{at + 1}", hosts[(at + step) % size]) for at in range(relays)]
    return links_of(itertools.chain(*pairs), pairs)


class Room:
    """A temporary folder, and the daemons that work in it."""

    def __init__(self) -> None:
        self.folder = pathlib.Path(tempfile.mkdtemp(prefix="field-"))
        self.daemons: list[subprocess.Popen[bytes]] = []
        self.networks: set[str] = set()

    def start(self, words: Sequence[str], folder: pathlib.Path, log: str) -> subprocess.Popen[bytes]:
        """Starts a daemon in a folder, with a log there. It is killed if this script ends and could not end it."""
        guard = [command("setpriv", "util-linux"), "--pdeathsig", "KILL", "--"]
        with open(folder / log, "ab") as told:
            daemon = subprocess.Popen([*guard, *words], cwd=folder, stdin=subprocess.DEVNULL, stdout=told, stderr=told)
        self.daemons.append(daemon)
        return daemon

    def free_addresses(self, count: int) -> tuple[list[str], int]:
        """So many addresses of the loopback range, and a port that nobody uses at any of them."""
        for _ in range(100):
            network = f"127.{random.randint(64, 127)}.{random.randint(0, 255)}"
            port = random.randint(20000, 30000)
            addresses = [f"{network}.{at}" for at in range(1, count + 1)]
            if network not in self.networks and all(is_free(it, port) for it in addresses):
                self.networks.add(network)
                return addresses, port
        raise Trouble("no free addresses were found in 127.64.0.0/10")

    def close(self) -> None:
        """Ends all daemons, and removes the folder."""
        for daemon in self.daemons:
            daemon.kill()
        for daemon in self.daemons:
            daemon.wait()
        shutil.rmtree(self.folder, ignore_errors=True)


@dataclass(frozen=True)
class Answer:
    """What `overlay analyse` says of a graph, by names, and `overlay-check` of its certificate."""

    k: int
    cut: list[str]
    # The connected components that the crash of the cut leaves.
    pieces: FrozenSet[Hosts]
    links: Links


@dataclass(frozen=True)
class Programs:
    """The two programs."""

    overlay: str
    overlay_check: str

    def make(self) -> None:
        """Has both programs be built, if they are those of this repository and are not there yet."""
        for words in [self.overlay], [self.overlay_check, str(TOP / "examples/square.json")]:
            if subprocess.run(words, stdin=subprocess.DEVNULL, stdout=subprocess.DEVNULL).returncode != 0:
                raise Trouble(f"{words[0]} does not run")

    @staticmethod
    def printed(words: Sequence[str], given: str) -> str:
        """What a program prints."""
        ended = subprocess.run(words, input=given, capture_output=True, text=True, timeout=LIMIT)
        if ended.returncode != 0:
            raise Trouble(f"{' '.join(words)}: status {ended.returncode}\n{ended.stdout}{ended.stderr}".rstrip())
        return ended.stdout

    def graph_file(self, dump: str, form: str) -> str:
        """The graph file of a dump."""
        return self.printed([self.overlay, "import", form, "--entries"], dump)

    def answer(self, graph: str) -> Answer:
        """The answer for a graph file. Its certificate must hold."""
        said = self.printed([self.overlay, "analyse", "--names", "--certificate"], graph).splitlines()
        checked = self.printed([self.overlay_check], f"{said[-1]}\n").strip()
        report = re.fullmatch(r"report (0 \w+ k (\d+).*)", said[0])
        if not report or checked != f"holds {report[1]}":
            raise Trouble(f"no certificate that holds: {said[0]}; {checked}")
        links = links_in(graph)
        cut = [words[2] for words in map(str.split, said) if words[0] == "cut"]
        pieces: dict[str, set[str]] = {}
        for words in map(str.split, said):
            if words[0] == "piece":
                pieces.setdefault(words[1], set()).add(words[3])
        # One of the largest pieces is not written out: it has all others.
        rest = set(links).difference(cut, *pieces.values())
        return Answer(int(report[2]), cut, frozenset(frozenset(it) for it in (rest, *pieces.values())), links)


class Overlay(ABC):
    """A running overlay: a daemon for each host, which is told the hosts that it is to link to."""

    # The package of Debian, and a program of it.
    package: ClassVar[str]
    program: ClassVar[str]
    # The option of `overlay import` for its dumps.
    form: ClassVar[str]
    # In how many seconds a dump has each link, and the survivors of a crash agree.
    dump_seconds: ClassVar[float]
    reach_seconds: ClassVar[float]
    # Whether overlays of all sizes are to run side by side, and not of one size after the other.
    is_light: ClassVar[bool]

    def __init__(self, room: Room, name: str, links: Links) -> None:
        self.room, self.name, self.links = room, name, links
        self.folder = room.folder / name
        self.folder.mkdir()
        addresses, self.port = room.free_addresses(len(links))
        self.addresses = dict(zip(links, addresses))
        self.daemons: dict[str, subprocess.Popen[bytes]] = {}

    def alive(self) -> list[str]:
        """The hosts whose daemons run."""
        return [host for host, daemon in self.daemons.items() if daemon.poll() is None]

    def crash(self, hosts: Sequence[str]) -> None:
        """Kills the daemons of these hosts, all at once."""
        for host in hosts:
            self.daemons[host].kill()
        for host in hosts:
            self.daemons[host].wait()

    @abstractmethod
    def start(self) -> None:
        """Starts all daemons."""

    @abstractmethod
    def dump(self, since: float) -> Optional[str]:
        """A dump of what the live hosts say, if there is one that was made since this time."""

    @abstractmethod
    def reached(self, told: Mapping[str, Hosts]) -> dict[str, Hosts]:
        """Whom each live host reaches by its own words, and itself. What was told since the crash need not be asked
        again."""

    def forget_the_dead(self) -> None:
        """Has all daemons forget whom they don't reach, if they keep such hosts at all."""


@dataclass
class Trial:
    """An overlay, the answer for its first dump, what is killed of it, and what the next dump says."""

    overlay: Overlay
    number: int
    answer: Answer
    killed: list[str]
    killed_at: float = 0.0
    next_dump: str = ""

    def groups(self) -> FrozenSet[Hosts]:
        """The survivors in groups, of which each reaches itself and nobody else, if the answer is true."""
        survivors = frozenset(self.answer.links) - frozenset(self.killed)
        return self.answer.pieces if self.number == 0 else frozenset([survivors])

    def check_reach(self) -> None:
        """Waits until each survivor says that it reaches just its group."""
        expected = {host: group for group in self.groups() for host in group}
        said: dict[str, Hosts] = {}

        def agree() -> Optional[bool]:
            said.update(self.overlay.reached(said))
            return True if said == expected else None

        what = f"{self.overlay.name}, {', '.join(self.killed)} crashed: survivors reach just their group"
        try:
            wait_for(what, self.overlay.reach_seconds, agree)
        except Trouble as why:
            wrong = [it for it in sorted(expected) if said.get(it) != expected[it]]
            told = [f"{it} says that it reaches {', '.join(sorted(said.get(it, ())))}" for it in wrong]
            raise Trouble("\n".join([str(why), *told])) from None


class Lab:
    """Fresh overlays of one kind, side by side."""

    def __init__(self, kind: type[Overlay], programs: Programs, room: Room, chance: random.Random) -> None:
        self.kind, self.programs, self.room, self.chance = kind, programs, room, chance
        command(kind.program, kind.package)
        words = [command("dpkg-query", "dpkg"), "--show", "--showformat", "${Version}", kind.package]
        version = subprocess.run(words, capture_output=True, text=True, timeout=10).stdout
        self.title = f"{kind.package} {version or 'of no package'}"

    def whole_graph(self, overlay: Overlay) -> Optional[str]:
        """The graph file of an overlay's dump, once it has just the hosts and links that were asked for."""
        dump = overlay.dump(0.0)
        graph = dump and self.programs.graph_file(dump, overlay.form)
        return graph if graph and links_in(graph) == overlay.links else None

    def victims(self, answer: Answer, number: int) -> list[str]:
        """Whom to kill in round 0: the cut; in round 1: the cut but for one host; then one host fewer, of all."""
        if number == 0:
            return answer.cut
        return sorted(self.chance.sample(answer.cut if number == 1 else sorted(answer.links), answer.k - 1))

    def trials(self, sizes: Sequence[Size]) -> list[Trial]:
        """Starts overlays, kills hosts of each, and checks what the others say."""
        found, overlays = [], {}
        for (relays, hosts), number in itertools.product(sizes, range(1 + FEWER_ROUNDS)):
            name = f"{self.kind.package}-{relays}x{hosts}-{number}"
            overlays[relays, hosts, number] = self.kind(self.room, name, two_clusters(relays, hosts))
        tell(f"{self.title}: {len(overlays)} overlays start, of {sum(len(it.links) for it in overlays.values())} hosts")
        for it in overlays.values():
            it.start()
        for (_, _, number), it in overlays.items():
            graph = wait_for(f"{it.name}: the dump has each link", it.dump_seconds, lambda: self.whole_graph(it))
            answer = self.programs.answer(graph)
            found.append(Trial(it, number, answer, self.victims(answer, number)))
        tell(f"{self.title}: the dumps have each link, and the certificates hold; hosts are killed")
        for trial in found:
            trial.overlay.crash(trial.killed)
            trial.killed_at = time.time()
        for trial in found:
            trial.check_reach()
            if trial.number > 1:
                trial.overlay.forget_the_dead()
        tell(f"{self.title}: the survivors reach whom the answers say; their next dumps are taken")
        for trial in found:
            self.read_next_dump(trial)
            trial.check_reach()
            trial.overlay.crash(trial.overlay.alive())
        return found

    def read_next_dump(self, trial: Trial) -> None:
        """Tells what the answer is for the first dump that comes after the crash, and who of the dead is in it."""
        it = trial.overlay
        dump = wait_for(f"{it.name}: a new dump", it.dump_seconds, lambda: it.dump(trial.killed_at))
        answer = self.programs.answer(self.programs.graph_file(dump, it.form))
        dead = len(set(answer.links).intersection(trial.killed))
        trial.next_dump = f"k {answer.k}, with {dead} dead" if dead else f"k {answer.k}"


HEAD = """\
| overlay | hosts | links | k | crashed | survivors that reach each other | next dump |
|---|---:|---:|---:|---|---:|---|"""


def row(title: str, trial: Trial) -> str:
    """The row of the table for one overlay."""
    links, killed = trial.answer.links, ", ".join(trial.killed)
    crashed = killed if trial.number else f"the cut: {killed}"
    groups = " and ".join(str(len(it)) for it in sorted(trial.groups(), key=len))
    cells = [title, len(links), sum(map(len, links.values())) // 2, trial.answer.k, crashed, groups, trial.next_dump]
    return f"| {' | '.join(map(str, cells))} |"


def stop(number: int, _frame: object) -> NoReturn:
    """Ends the script by a signal, as an exception, so that it ends what it has started."""
    if number == signal.SIGALRM:
        raise Trouble(f"it takes longer than {LIMIT} s")
    raise SystemExit(128 + number)


def main(kinds: Sequence[type[Overlay]], description: Optional[str]) -> int:
    """Tries overlays of these kinds, and prints the table: the status, 1 if an answer was wrong, 2 if something is not
    installed."""
    takes = argparse.ArgumentParser(description=description, formatter_class=argparse.RawDescriptionHelpFormatter)
    takes.add_argument("--overlay", metavar="PROGRAM", default=str(TOP / "bin/overlay"))
    takes.add_argument("--overlay-check", metavar="PROGRAM", default=str(TOP / "bin/overlay-check"))
    takes.add_argument("--seed", type=int, default=1, help="of the choice of hosts that are killed; 1 without it")
    takes.add_argument(
        "--sizes",
        type=sizes_of,
        default=SIZES,
        metavar="SIZES",
        help=f"RELAYSxHOSTS,..: so many relays, and hosts of each of two clusters; {SIZES} without it",
    )
    asked = takes.parse_args()
    endings = (signal.SIGINT, signal.SIGTERM, signal.SIGHUP, signal.SIGALRM)
    room = Room()
    try:
        for number in endings:
            signal.signal(number, stop)
        programs = Programs(asked.overlay, asked.overlay_check)
        labs = [Lab(kind, programs, room, random.Random(asked.seed)) for kind in kinds]
        programs.make()
        print(HEAD, flush=True)
        for lab in labs:
            signal.alarm(LIMIT)
            for sizes in [asked.sizes] if lab.kind.is_light else [[it] for it in asked.sizes]:
                for trial in lab.trials(sizes):
                    print(row(lab.title, trial), flush=True)
        return 0
    except (Trouble, OSError) as why:
        tell(f"{pathlib.Path(sys.argv[0]).name}: {why}")
        return 2 if isinstance(why, NotInstalled) else 1
    finally:
        for number in endings:
            signal.signal(number, signal.SIG_IGN)
        room.close()
