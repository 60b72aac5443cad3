"""Dumps of running overlays: what their daemons are asked for: `tinc`, `yggdrasil`."""

from __future__ import annotations

import concurrent.futures
import json
import os
import pathlib
import re
import shutil
import subprocess
import time
from typing import Any, Dict, List, Mapping, NamedTuple, Optional, Sequence, Tuple, Union

from .errors import BadDump, LibraryMissing
from .graphs import shown

# So many hosts are asked at once, and so many seconds each has for an answer.
AT_ONCE, SECONDS = 16, 20.0
# So many peers that are not up are told of each host.
MOST_TOLD = 4
# So often, and after so many seconds, a dump is read again that tinc is just writing.
TRIES, PAUSE = 20, 0.1
SETTING = re.compile(r"^[ \t]*(\w+)[ \t]*=?[ \t]*(.*?)[ \t]*$", re.MULTILINE)
STAMP = re.compile(r"^\d+/\d+/\d+ \d+:\d+:\d+ (?:Fatal error: )?")
HELP = "see `tagzirk collect --help`"


class Spoken(NamedTuple):
    """What a daemon of Yggdrasil says: its own key, those of its peers that are up, and what it calls the others."""

    key: str
    peers: List[str]
    down: List[str]


class Collected(NamedTuple):
    """A dump that was made, and what is to be told of it."""

    dump: str
    notes: Tuple[str, ...]


def tinc(place: str, pidfile: Optional[str] = None) -> Collected:
    """The graph that one daemon of tinc writes in DOT, of all nodes that it knows. `place` is the name of the net, or
    the folder with its tinc.conf. The daemon rewrites the file only when the graph changes, so it is looked at whether
    the daemon runs: its number stands in `pidfile`."""
    folder = pathlib.Path(place) if "/" in place else pathlib.Path("/etc/tinc", place)
    said = {key.lower(): value for key, value in SETTING.findall(read(folder / "tinc.conf"))}
    graph = said.get("graphdumpfile", "")
    if not graph:
        raise BadDump(f"{folder / 'tinc.conf'}: add a line GraphDumpFile = FILE, and start the daemon again; {HELP}")
    if graph.startswith("|"):
        raise BadDump(f"{folder / 'tinc.conf'}: GraphDumpFile is a command, so read the file that it writes")
    where = pathlib.Path(pidfile or f"/run/tinc{f'.{folder.name}' if folder.name != 'tinc' else ''}.pid")
    try:
        number = re.match(r"\d+", read(where))
    except FileNotFoundError:
        told = f"{where} is not there, so no daemon of this net seems to run, and {graph} may be old"
        raise BadDump(f"{told}; --pidfile FILE names it, if it is elsewhere") from None
    if not number or not is_running(int(number[0])):
        raise BadDump(f"the daemon does not run that {where} names, so {graph} is old")
    return Collected(whole(pathlib.Path(graph)), ())


def read(place: pathlib.Path) -> str:
    """The text of a file."""
    return place.read_text(encoding="utf-8", errors="replace")


def is_running(process: int) -> bool:
    """Whether there is a process of this number."""
    try:
        os.kill(process, 0)
    except ProcessLookupError:
        return False
    except PermissionError:
        pass
    return True


def whole(place: pathlib.Path) -> str:
    """The text of a file of DOT, when it is not just being written."""
    if not place.exists():
        raise BadDump(f"{place} is not there yet; tinc writes it once a minute if the graph has changed")
    for _ in range(TRIES):
        text = read(place)
        if text.rstrip().endswith("}"):
            return text
        time.sleep(PAUSE)
    raise BadDump(f"{place}: the graph in it has no end; tinc writes it once a minute if it has changed")


def yggdrasil(hosts: Sequence[str], is_by_ssh: bool = False) -> Collected:
    """Views of what daemons of Yggdrasil say of their peers. Each of `hosts` is an endpoint of `yggdrasilctl`, or with
    `is_by_ssh` a host on which that is asked, with a name before it if there is NAME=. A daemon without a name is named
    by its key. Hosts that do not answer are told, and have no entry."""
    program = command("ssh", "openssh-client") if is_by_ssh else command("yggdrasilctl", "yggdrasil")
    ways = [way_of(it, is_by_ssh) for it in hosts]
    with concurrent.futures.ThreadPoolExecutor(AT_ONCE) as pool:
        said = list(pool.map(lambda way: answer_of(program, way, is_by_ssh), (way for _, way in ways)))
    asked = [(name or way, it) for (name, way), it in zip(ways, said)]
    silent = [f"{shown(host)} does not answer: {it}" for host, it in asked if isinstance(it, str)]
    spoken = [(name, it) for (name, _), it in zip(ways, said) if isinstance(it, Spoken)]
    if not spoken:
        raise BadDump("\n".join(["no host answers, so there is no dump", *silent]))
    names = {it.key: name or it.key for name, it in spoken}
    if len(set(names.values())) < len(spoken):
        raise BadDump("two of these hosts are one daemon, or have one name")
    views = {names[it.key]: [names.get(peer, peer) for peer in it.peers] for _, it in spoken}
    away = [f"{shown(names[it.key])}: peers that are not up are no peers here: {some_of(it.down, names)}"
            for _, it in spoken if it.down]
    return Collected(json.dumps(views, indent=1, ensure_ascii=False) + "\n", (*silent, *away))


def some_of(peers: Sequence[str], names: Mapping[str, str]) -> str:
    """The first of several peers, by name where they have one, and how many more there are."""
    first = ", ".join(shown(names.get(it, it)) for it in peers[:MOST_TOLD])
    return first if len(peers) <= MOST_TOLD else f"{first} and {len(peers) - MOST_TOLD} more"


def command(name: str, package: str) -> str:
    """The path of a command, which a package of Debian has."""
    found = shutil.which(name, path=os.pathsep.join([*os.get_exec_path(), "/usr/sbin", "/sbin"]))
    if not found:
        raise LibraryMissing(f"{name} is not there (Debian: {package})")
    return found


def way_of(host: str, is_by_ssh: bool) -> Tuple[str, str]:
    """The name of a host, and where its daemon is asked.

    >>> way_of("oslo=unix:///run/y.sock", False), way_of("tcp://[::1]:9001", False), way_of("oslo.example.net", True)
    (('oslo', 'unix:///run/y.sock'), ('', 'tcp://[::1]:9001'), ('oslo.example.net', 'oslo.example.net'))
    """
    name, sign, way = host.partition("=")
    return (name, way) if sign and name and way else (host if is_by_ssh else "", host)


def answer_of(program: str, way: str, is_by_ssh: bool) -> Union[Spoken, str]:
    """What a daemon says; or why there is no answer."""
    words = [program, "-o", "BatchMode=yes", "--", way, "yggdrasilctl"] if is_by_ssh else [program, f"-endpoint={way}"]
    try:
        itself, listed = (answer([*words, "-json", question]) for question in ("getSelf", "getPeers"))
        # before 0.4.5 it stands below its address
        own = itself if "key" in itself else next(iter(itself["self"].values()))
        peers = [it["key"] for it in listed["peers"] if is_up(it)]
        down = [it["key"] or str(it.get("remote", "a peer")) for it in listed["peers"] if not is_up(it)]
        return Spoken(own["key"], peers, down)
    except (OSError, subprocess.SubprocessError, ValueError, LookupError, TypeError, AttributeError) as why:
        return reason_of(why)


def is_up(peer: Dict[str, Any]) -> bool:
    """Whether a daemon says that it is joined with a peer. Of one that it can't reach it may not know the key."""
    return bool(peer.get("up", True) and peer["key"])


def answer(words: List[str]) -> Dict[str, Any]:
    """What a daemon says to a question."""
    ended = subprocess.run(
        words, stdin=subprocess.DEVNULL, stdout=subprocess.PIPE, stderr=subprocess.PIPE, timeout=SECONDS
    )
    try:
        said: Dict[str, Any] = json.loads(ended.stdout)
    except ValueError:
        # it tells faults on either stream, and may end with status 0 all the same
        lines = (ended.stdout + ended.stderr).decode(errors="replace").split("\n")
        told = [STAMP.sub("", line.strip()) for line in lines if line.strip()]
        raise OSError(told[-1] if told else f"status {ended.returncode}, and no word") from None
    return said


def reason_of(why: Exception) -> str:
    """Why a daemon gave no answer, in words."""
    if isinstance(why, subprocess.TimeoutExpired):
        return f"nothing for {SECONDS:.0f} seconds"
    return str(why) if isinstance(why, OSError) else "what it says is no list of peers of Yggdrasil"
