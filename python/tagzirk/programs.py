"""Where the two programs are, and how they are called."""

from __future__ import annotations

import contextlib
import mmap
import os
import pathlib
import re
import shutil
import subprocess
import sys
import tempfile
import threading
from typing import IO, Dict, Iterator, List, NamedTuple, NoReturn, Optional, Sequence, Set, Tuple, Union

from .errors import ProgramFailed, ProgramMissing, Refused
from .limits import USUAL_HOSTS

Program = Union[str, "os.PathLike[str]"]
# What a program reads: bytes, or an open file, from where it stands.
Data = Union[bytes, IO[bytes]]

CHECKOUT = pathlib.Path(__file__).resolve().parents[2]
REFUSED = re.compile(r"(?:line \d+: )?refused (\d+)")
# The unproved programs that were found, by the checkout and the crate: to ask for one takes a tenth of a second.
found_unproved: Dict[Tuple[str, str], str] = {}
# The programs that run, begun by any thread; the threads that are about to begin one; and the status with which all is
# to end, if it is.
running: Set["subprocess.Popen[bytes]"] = set()
beginning: Set[int] = set()
ending: List[int] = []
# How many characters of a text are put into a file at once.
BLOCK = 1 << 20
# No line of an answer has so many bytes: 65,536 ids of ten digits, and some words.
LINE = 1 << 20
# No word is longer that a program is given: the system takes few that are.
MOST_WORD = 60_000
# The option by which `overlay` takes graphs of more nodes than it does without, what it says of more nodes, and of an
# option that it does not know.
LARGE, TOO_MANY, UNKNOWN = "--large", "refused 31", "unexpected argument"


class Ended(NamedTuple):
    """What a program printed, and its status."""

    out: str
    err: str
    status: int


def find(crate: str, given: Optional[Program]) -> str:
    """The program of a crate, `overlay`, `overlay_check` or `overlay_check_large`: the one that is given; or that of
    the variable TAGZIRK_OVERLAY, TAGZIRK_OVERLAY_CHECK or TAGZIRK_OVERLAY_CHECK_LARGE; or that on PATH; or that of the
    checkout in which this file is: the one that bin/build made, which is proved, or else the one that bin/overlay,
    bin/overlay-check or bin/overlay-check-large made, which is not."""
    name, variable = crate.replace("_", "-"), f"TAGZIRK_{crate.upper()}"
    named = given or os.environ.get(variable)
    if named:
        return os.fspath(named)
    built = CHECKOUT / "crates" / crate / "out" / crate
    for place in shutil.which(name), shutil.which(crate), built:
        # the scripts of bin, which may be on PATH, say first that a program is not proved
        if place and is_program(place) and pathlib.Path(place).resolve().parent != CHECKOUT / "bin":
            return str(place)
    place = unproved(crate)
    if place:
        return place
    argument = crate.replace("_large", "")
    raise ProgramMissing(
        f"the program {name} was not found: name it by the argument {argument} or the variable {variable}, put it on "
        f"PATH by bin/install, or build it in the checkout, by bin/build or, without a proof, by bin/{name} --version"
    )


def is_program(place: Program) -> bool:
    """Whether a file can be run."""
    return os.path.isfile(place) and os.access(place, os.X_OK)


def unproved(crate: str) -> Optional[str]:
    """The program of a crate that bin/overlay or bin/overlay-check of the checkout keeps, built without a proof of the
    sources as they are when it is first asked for; or None. The script that keeps it says where it is."""
    key, script = (str(CHECKOUT), crate), CHECKOUT / "dev" / "unproved.py"
    if is_program(found_unproved.get(key, "")):
        return found_unproved[key]
    if not script.is_file():
        return None
    words = [sys.executable or "python3", "-B", str(script), crate]
    try:
        ended = subprocess.run(words, stdin=subprocess.DEVNULL, stdout=subprocess.PIPE, stderr=subprocess.DEVNULL)
    except OSError:
        return None
    place = os.fsdecode(ended.stdout)
    if ended.returncode != 0 or not is_program(place):
        return None
    found_unproved[key] = place
    return place


def call(program: str, words: Sequence[str], data: Data, output: Optional[IO[bytes]] = None) -> Ended:
    """Runs a program with these words and this standard input. What it prints goes into the file `output`, if one is
    given, and else is what is told."""
    process = started([program, *words], data, subprocess.PIPE if output is None else output)
    with process:
        try:
            printed = process.communicate(data if isinstance(data, bytes) else None)
        except BaseException:
            process.kill()
            raise
        finally:
            running.discard(process)
    if process.returncode < 0:
        raise ProgramFailed(f"{program} was ended by signal {-process.returncode}")
    told, err = ((it or b"").decode(errors="backslashreplace") for it in printed)
    return Ended(told, err, process.returncode)


def started(command: Sequence[str], data: Data, out: Union[int, IO[bytes]]) -> "subprocess.Popen[bytes]":
    """A program that runs, unless all are to end."""
    given: Union[int, IO[bytes]] = subprocess.PIPE if isinstance(data, bytes) else data
    here = threading.get_ident()
    if ending:
        raise ProgramFailed(f"{command[0]} was not started, since this command is to end")
    beginning.add(here)
    try:
        process = subprocess.Popen(command, stdin=given, stdout=out, stderr=subprocess.PIPE)
        running.add(process)
    except OSError as why:
        raise ProgramMissing(f"{command[0]} could not be started: {why.strerror}") from None
    finally:
        beginning.discard(here)
    if ending:
        # the end came while it was begun
        with process:
            process.kill()
        raise SystemExit(ending[0])
    return process


def end_all(status: int) -> None:
    """Ends all programs that run, lets no other one begin, and ends this one with a status: right away, or once it has
    begun a program that it is about to begin."""
    ending.append(status)
    for process in list(running):
        process.kill()
    if threading.get_ident() not in beginning:
        raise SystemExit(status)


def words_for(nodes: int) -> List[str]:
    """The words that `overlay` needs for a graph of so many nodes."""
    return [LARGE] if nodes > USUAL_HOSTS else []


def call_for_any(program: str, words: Sequence[str], data: bytes) -> Ended:
    """The same of `overlay`, where it is not known how many nodes are in what it reads: with `--large` only if they are
    too many without. A program that does not know this option has said so of them already."""
    ended = call(program, words, data)
    if ended.status == 0 or ended.err.partition("\n")[0] != TOO_MANY:
        return ended
    of_large = call(program, [*words, LARGE], data)
    return ended if knows_no_large(of_large) else of_large


@contextlib.contextmanager
def group_word(members: Optional[Sequence[int]]) -> Iterator[List[str]]:
    """The option that names a group by its ids, if there is one: in a file, if it is longer than a word may be."""
    ids = ",".join(map(str, members or ()))
    if len(ids) <= MOST_WORD:
        yield [] if members is None else [f"--group={ids}"]
        return
    with tempfile.NamedTemporaryFile("w", suffix=".ids") as file:
        file.write(ids)
        file.flush()
        yield [f"--group=@{file.name}"]


def knows_no_large(ended: Ended) -> bool:
    """Whether a program does not know the option `--large`."""
    return ended.status == 2 and UNKNOWN in ended.err and LARGE in ended.err


def refuse(line: str, reason: str) -> NoReturn:
    """Raises what a line such as `refused 31` says."""
    said = REFUSED.fullmatch(line)
    if not said:
        raise ProgramFailed(f"a program ended with an error, and said: {line}\n{reason}".rstrip())
    raise Refused(int(said[1]), line, reason.rstrip("\n"))


def demand_end(ended: Ended) -> None:
    """Raises what standard error says of a program that did not reach its end."""
    if knows_no_large(ended):
        raise ProgramFailed(f"this overlay is older than the package, and takes at most {USUAL_HOSTS:,} nodes")
    if ended.status != 0:
        line, _, reason = ended.err.partition("\n")
        refuse(line, reason)


def lines_of(ended: Ended) -> list[str]:
    """The lines of standard output of a program that reached its end. Any other raises what standard error says."""
    demand_end(ended)
    return ended.out.split("\n")[:-1]


@contextlib.contextmanager
def opened(text: Union[str, bytes, "os.PathLike[str]"]) -> Iterator[Data]:
    """A text, its bytes, or the file that a path names, for a program to read. Of a text, or of a file, no whole copy
    is made in memory."""
    if isinstance(text, bytes):
        yield text
    elif isinstance(text, str):
        with tempfile.TemporaryFile() as written:
            for begin in range(0, len(text), BLOCK):
                written.write(text[begin:begin + BLOCK].encode())
            written.seek(0)
            yield written
    else:
        with open(text, "rb", buffering=0) as file:
            yield file


def first_line(printed: IO[bytes]) -> Tuple[str, int]:
    """The first line that a program printed into a file without a buffer, and where the next one begins. A program that
    is given the file reads from there. If the last line ends with a line feed, that is taken away."""
    place, end = printed.fileno(), printed.seek(0, os.SEEK_END)
    if end > 0 and os.pread(place, 1, end - 1) == b"\n":
        os.ftruncate(place, end - 1)
    line, _, _ = os.pread(place, LINE, 0).partition(b"\n")
    begin = printed.seek(len(line) + 1)
    return line.decode(errors="backslashreplace"), begin


def text_from(file: IO[bytes], begin: int) -> str:
    """The text of a file from a place on. Its bytes are not read into memory beside it."""
    if os.fstat(file.fileno()).st_size <= begin:
        return ""
    with mmap.mmap(file.fileno(), 0, access=mmap.ACCESS_READ) as whole, memoryview(whole) as view:
        with view[begin:] as part:
            return str(part, "utf-8", "backslashreplace")


def bytes_of(text: Union[str, bytes, "os.PathLike[str]"]) -> bytes:
    """The bytes of a text, or of the file that a path names."""
    if isinstance(text, bytes):
        return text
    return text.encode() if isinstance(text, str) else pathlib.Path(text).read_bytes()
