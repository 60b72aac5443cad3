"""Files that a command is asked to write. Each is whole or as it was, a file of somebody else is not overwritten, and
what is no file, such as a device or a pipe, is written into."""

from __future__ import annotations

import contextlib
import os
import pathlib
import stat
import sys
from dataclasses import dataclass
from typing import List, Optional, Sequence, Tuple, Union

from .errors import NotWritten

Place = Union[str, "os.PathLike[str]"]
# So many bytes of a file are looked at for its first line.
FIRST = 4096


@dataclass(frozen=True)
class Output:
    """A file that the option of a command names. `marks` are what the first line begins with of each file that this
    command wrote, or an earlier version of it; by them it is known again. `-` is standard output."""

    command: str
    option: str
    place: str
    marks: Tuple[str, ...]

    def demand_free(self, inputs: Sequence[str], is_forced: bool = False) -> None:
        """Refuses a place where something would be lost, before any work is done: an input, or a file that this command
        did not write; one in a folder that is read, since the next time it would be read too; and one that can't be
        written at all."""
        found = status(self.place)
        if self.place == "-" or is_stream(self.place, found):
            return
        said = f"{self.option} {self.place}"
        folder = os.path.dirname(os.path.realpath(self.place))
        if found is None and not os.path.isdir(folder):
            raise NotWritten(f"{said}: there is no folder {folder}")
        if found and stat.S_ISDIR(found.st_mode):
            raise NotWritten(f"{said}: it is a folder; name a file in it")
        around = next((it for it in inputs if is_read_in(self.place, it)), None)
        if around is not None:
            raise NotWritten(f"{said}: the folder {around} is an input, and the next time this file would be one too")
        if is_forced:
            return
        if found and any(is_same(found, it) for it in inputs):
            raise NotWritten(f"{said}: it is an input, and would be overwritten; name another file, or add --force")
        if found:
            self.demand_own(said, found)

    def demand_own(self, said: str, found: os.stat_result) -> None:
        """Refuses a file that this command did not write."""
        line = first_line(self.place)
        if found.st_size and not line.startswith(self.marks):
            raise NotWritten(
                f"{said}: `tagzirk {self.command}` did not write this file, which begins with {line[:40]!r}, and would "
                "overwrite it; name another file, or add --force. An input is named without an option: "
                f"tagzirk {self.command} FILE {self.option} OTHER"
            )

    def write(self, text: str) -> None:
        """Writes the file."""
        write(self.place, text)


def status(place: Place) -> Optional[os.stat_result]:
    """What the system says of a place, or None where nothing is."""
    try:
        return os.stat(place)
    except FileNotFoundError:
        return None


def is_same(found: os.stat_result, place: str) -> bool:
    """Whether an input is the file that was found, or a folder in which it is."""
    there = None if place == "-" else status(place)
    if there is None:
        return False
    if stat.S_ISDIR(there.st_mode):
        return any(os.path.samestat(found, it.stat()) for it in files_in(place))
    return os.path.samestat(found, there)


def files_in(folder: Place) -> List[pathlib.Path]:
    """The files in a folder of a dump but hidden ones."""
    return sorted(it for it in pathlib.Path(folder).iterdir() if it.is_file() and it.name[0] != ".")


def is_read_in(place: str, folder: str) -> bool:
    """Whether a file of this name is one of those that are read, where a folder of them is an input: by its name, or if
    that is a link by what it leads to."""
    if folder == "-" or not os.path.isdir(folder):
        return False
    names = (os.path.abspath(place), os.path.realpath(place))
    around = (os.path.split(it) for it in names)
    return any(os.path.isdir(it) and os.path.samefile(it, folder) and name[0] != "." for it, name in around)


def demand_apart(inputs: Sequence[str]) -> None:
    """Refuses a standard output that is a file which is read: the shell emptied it, or put it beside the others."""
    try:
        found = os.fstat(sys.stdout.fileno())
    except (OSError, ValueError):
        return
    same = next((it for it in inputs if stat.S_ISREG(found.st_mode) and is_same(found, it)), None)
    if same is not None:
        if os.path.isdir(same):
            told = f"a file in {same}, all of which are read: remove it, and name one elsewhere behind >"
        else:
            told = f"{same}, which is read: name another file behind >"
        raise NotWritten(f"standard output goes to {told}")


def is_stream(place: Place, found: Optional[os.stat_result]) -> bool:
    """Whether a place is no file but a device, a pipe, a socket, or a stream of this process, as /dev/stdout is."""
    if found is not None and not stat.S_ISREG(found.st_mode) and not stat.S_ISDIR(found.st_mode):
        return True
    return os.path.abspath(place).startswith(("/dev/", "/proc/"))


def first_line(place: Place) -> str:
    """The first line of a file, or what is looked at of it."""
    with open(place, "rb") as file:
        return file.read(FIRST).partition(b"\n")[0].decode("utf-8", "replace")


def write(place: Place, text: str) -> None:
    """Writes a text. A file is replaced at once, and keeps its rights; a link to a file stays a link; `-` is standard
    output. No part of the file stays beside it, whatever fails."""
    data = text.encode("utf-8", "backslashreplace")
    found = None if place == "-" else status(place)
    if place == "-":
        sys.stdout.write(text)
    elif is_stream(place, found):
        # a file that stands there, as that of a redirected /dev/stdout, keeps what it has
        with open(os.open(place, os.O_WRONLY | os.O_APPEND), "wb") as stream:
            stream.write(data)
    else:
        replace(os.path.realpath(place), data, found)


def replace(place: str, data: bytes, found: Optional[os.stat_result]) -> None:
    """Puts a file in the place of one that may be there."""
    part = f"{place}.{os.getpid()}.part"
    try:
        with open(part, "xb") as file:
            file.write(data)
        if found is not None:
            os.chmod(part, stat.S_IMODE(found.st_mode))
        os.replace(part, place)
    except OSError as why:
        # the part is nothing that the person named
        raise OSError(why.errno, why.strerror, place) from None
    finally:
        with contextlib.suppress(OSError):
            os.unlink(part)
