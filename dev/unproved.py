"""Builds programs without any proof, and keeps those of this repository below out/unproved.

A program is made by `rt try`, which proves nothing, in a folder that is laid out like the kit. Its compiler and its
linker are scripts: the first hands the whole program on as it is, and the second drops what main does not reach, and
optimises the rest. Each program that is kept lies in a folder whose name is the checksum of the sources that it is made
of. It is built in a folder of its own, of a copy of these sources, and then moved there at once. So a program that is
there is whole, whatever was interrupted, and is made of what its checksum says, whatever was changed meanwhile.

`unproved.py CRATE` prints the path of the one that is made of the sources as they are, or nothing where there is none.
The Python package asks this.
"""

import contextlib
import fcntl
import hashlib
import os
import pathlib
import shlex
import shutil
import signal
import subprocess
import sys
import tempfile
import time

from repository import ROOT, below, end_session, end_with_parent, lay_out_root, lines

# How many programs of a crate are left beside a new one.
KEPT = 3
# What a build takes where 4 processors have nothing else to do.
TAKES = {
    "overlay": "in three minutes or more",
    "overlay_check": "in a minute or more",
    "overlay_check_large": "in a minute or more",
}
# How the name of a folder begins in which one is built.
BUILDING = "building-"
# Where the kit has its compiler, its linker and its check.
COMPILER_AT, LINKER_AT, CHECKER_AT = "toolchain/bin/clang", "toolchain/bin/ld.lld", "bin/rattle"
# The probe that `rt try` compiles first has no such word.
COMPILER = """#!/bin/sh
case " $* " in *" -fsanitize=address "*) ;; *) exec {kit}/toolchain/bin/clang "$@" ;; esac
for word; do
  [ "$before" != -mllvm ] || echo "-mllvm $word"
  before=$word
done >{room}/options
mv module.bc {room}/whole.bc
exec {kit}/toolchain/bin/clang --target=x86_64-unknown-linux-gnu -c -x c /dev/null -o module.o
"""
LINKER = """#!/bin/sh
for word; do
  shift
  case $word in
    --whole-archive) sanitizer=1 ;;
    --no-whole-archive) sanitizer= ;;
    input-0) set -- "$@" {room}/whole.bc ;;
    *) if [ -z "$sanitizer" ]; then set -- "$@" "$word"; else set -- "$@" {sanitizer}; fi ;;
  esac
done
{kit}/toolchain/bin/ld.lld $(cat {room}/options) {passes} --lto-partitions=4 "$@" || exit
cp program {room}/program.part && mv {room}/program.part {room}/program
"""
# Stands in for the check that gives hints beside a build, and takes as long as it does.
CHECKER = "#!/bin/sh\n"
# What main does not reach goes first, and variables leave memory, so that what follows has less to do.
PASSES = "globaldce,function(sroa,early-cse,simplifycfg),lto<O2>"
OPTIMISED = {"passes": f"--lto-O2 '--lto-newpm-passes={PASSES}'", "sanitizer": ""}
# Tests are to be built soon, and to stop at a wrong access; they take half as long where variables have left memory.
SANITIZED = {
    "passes": "--lto-O0 --lto-CGO0 '--lto-newpm-passes=globaldce,function(sroa,early-cse,simplifycfg),asan'",
    "sanitizer": '--whole-archive "$word" --no-whole-archive',
}


class NotBuilt(Exception):
    """Why there is no program: the text to print."""


@contextlib.contextmanager
def folder_of_its_own(prefix, above=None):
    """Makes a folder to build in, and removes it, also while processes that were ended still write to it."""
    room = pathlib.Path(tempfile.mkdtemp(prefix=prefix, dir=above))
    try:
        yield room
    finally:
        shutil.rmtree(room, ignore_errors=True)


def lay_out_kit(room, scripts, **values):
    """Lays out a folder `kit` that is the kit, but for these scripts, by their places in it. Their texts have {kit} for
    the kit, {room} for the folder above, and names of further values."""
    command = shutil.which("rt")
    if not command:
        raise NotBuilt("there is no command rt, which comes with the kit")
    kit = pathlib.Path(command).resolve().parent.parent
    for part in ("", "bin", "toolchain", "toolchain/bin"):
        (room / "kit" / part).mkdir()
        for it in (kit / part).iterdir():
            place = it.relative_to(kit)
            if str(place) not in ("bin", "toolchain", "toolchain/bin", *scripts):
                (room / "kit" / place).symlink_to(it)
    for name in ("rt", "rtlib.py"):
        # they look for the kit where they lie
        (room / "kit/bin" / name).unlink()
        shutil.copy(kit / "bin" / name, room / "kit/bin" / name)
    for place, text in scripts.items():
        script = room / "kit" / place
        script.write_text(text.format(kit=shlex.quote(str(kit)), room=shlex.quote(str(room)), **values))
        script.chmod(0o755)


def lay_out_sources(top, crate, sources):
    """Copies the sources of a crate and of the libraries below it: to the folder `sources`, from the checkout `top`."""
    if crate not in lines(top):
        raise NotBuilt(f"{top} has no crate {crate}")
    names = [*below(crate, top), crate]
    lay_out_root(sources, names, top)
    for name in names:
        shutil.copytree(top / "crates" / name / "src", sources / "crates" / name / "src")


def checksum(top, crate):
    """The checksum of what the program of a crate is made of: these sources, and how they are built."""
    rows, found = lines(top), hashlib.sha256(repr((COMPILER, LINKER, OPTIMISED)).encode())
    for name in [*below(crate, top), crate]:
        found.update(f"{' '.join(rows[name].split())}\n".encode())
        folder = top / "crates" / name / "src"
        for file in sorted(folder.rglob("*.rt")):
            text = file.read_bytes()
            found.update(f"{file.relative_to(top)} {len(text)}\n".encode() + text)
    return found.hexdigest()[:32]


def end(process):
    """Ends `rt try`, which then ends what it has started."""
    process.terminate()
    try:
        process.wait(10)
    except subprocess.TimeoutExpired:
        process.kill()
        process.wait()


def end_what_is_left(place):
    """Ends what runs of kits that were laid out in folders whose paths begin so: what was killed could not end it."""
    for file in pathlib.Path("/proc").glob("[0-9]*/cmdline"):
        process = int(file.parent.name)
        with contextlib.suppress(OSError):
            # a script's own path is the word behind its interpreter
            is_of_kit = any(word.startswith(os.fsencode(place)) for word in file.read_bytes().split(b"\0")[:2])
            # rt and its translator have a session each
            if is_of_kit and os.getsid(process) == process:
                end_session(process)


def build(room, crate_folder, flags=("--", "--help"), how=OPTIMISED, told=lambda step: None):
    """Builds the program of a crate in a folder that is the builder's own: the path of the program.

    `told` is called several times a second with what is being done. The flags are those of `rt try`. Whatever ends this
    function, also an exception from `told`, ends what it has started.
    """
    lay_out_kit(room, {COMPILER_AT: COMPILER, LINKER_AT: LINKER, CHECKER_AT: CHECKER}, **how)
    (room / "tmp").mkdir()
    environment = {**os.environ, "TMPDIR": str(room / "tmp")}
    with open(room / "said", "w+", errors="replace") as said:
        words = [str(room / "kit/bin/rt"), "try", "--steps", "1", *flags]
        # in a session of its own, so that an interrupt reaches this script alone, which ends it
        channels = {"stdin": subprocess.DEVNULL, "stdout": said, "stderr": said, "start_new_session": True}
        started = subprocess.Popen(words, cwd=crate_folder, env=environment, preexec_fn=end_with_parent, **channels)
        try:
            while started.poll() is None and not (room / "program").exists():
                told("optimising" if (room / "whole.bc").exists() else "translating")
                with contextlib.suppress(subprocess.TimeoutExpired):
                    started.wait(0.2)
        finally:
            # the program is there, so that it need not be run
            end(started)
            end_what_is_left(room / "kit")
        if not (room / "program").exists():
            said.seek(0)
            raise NotBuilt(f"{said.read().rstrip()}\nno program was made of {crate_folder.name}")
    return room / "program"


class Progress:
    """Tells on standard error what is being done, and for how long: in one line on a terminal, else in a line each."""

    def __init__(self, name):
        self.name, self.step, self.begun, self.shown = name, None, time.monotonic(), None
        self.is_terminal = sys.stderr is not None and sys.stderr.isatty()

    def __call__(self, step):
        seconds = int(time.monotonic() - self.begun)
        if self.is_terminal and self.shown != seconds:
            say(f"\r{self.name}: {step}, {seconds} s\033[K", end="")
        elif not self.is_terminal and self.step != step:
            say(f"{self.name}: {step}")
        self.step, self.shown = step, seconds

    def __enter__(self):
        return self

    def __exit__(self, *_):
        if self.is_terminal and self.step:
            say("\r\033[K", end="")


def say(text, end="\n"):
    """Writes to standard error, if there is one."""
    if sys.stderr:
        with contextlib.suppress(OSError):
            print(text, end=end, file=sys.stderr, flush=True)


def program_name(crate):
    """The name of the program of a crate."""
    return crate.replace("_", "-")


def shelves(crate):
    """Where the programs of a crate are kept: in this repository, or in the user's own folder of such things."""
    cache = os.environ.get("XDG_CACHE_HOME") or os.path.expanduser("~/.cache")
    return [top / "unproved" / crate for top in (ROOT / "out", pathlib.Path(cache, "tagzirk"))]


def shelf(crate):
    """The one of them where a program is put: the first, unless nothing can be written there."""
    here, other = shelves(crate)
    found = next(folder for folder in (here, *here.parents) if folder.exists())
    return here if os.access(found, os.W_OK) else other


def kept(crate):
    """The unproved program of a crate, of its sources as they are, or None where it is not there yet."""
    found = checksum(ROOT, crate)
    places = (folder / found / program_name(crate) for folder in shelves(crate))
    return next((place for place in places if os.access(place, os.X_OK)), None)


@contextlib.contextmanager
def alone(crate):
    """Waits until no other process builds the program of this crate."""
    shelf(crate).mkdir(parents=True, exist_ok=True)
    with open(shelf(crate) / "lock", "w") as lock:
        try:
            fcntl.flock(lock, fcntl.LOCK_EX | fcntl.LOCK_NB)
        except BlockingIOError:
            say(f"{program_name(crate)}: another command is building it, and this one waits")
            fcntl.flock(lock, fcntl.LOCK_EX)
        yield


def tidy(crate):
    """Removes what a build that was killed has left, and all but the last programs."""
    end_what_is_left(shelf(crate) / BUILDING)
    for left in shelf(crate).glob(f"{BUILDING}*"):
        shutil.rmtree(left, ignore_errors=True)
    programs = [it for it in shelf(crate).iterdir() if it.is_dir()]
    for old in sorted(programs, key=lambda it: it.stat().st_mtime)[:-KEPT]:
        shutil.rmtree(old, ignore_errors=True)


def build_kept(crate, told):
    """Builds the program of a crate from its sources as they are now, and keeps it: its place."""
    with folder_of_its_own(BUILDING, shelf(crate)) as room:
        lay_out_sources(ROOT, crate, room / "sources")
        # of the copy, which nobody changes
        place = shelf(crate) / checksum(room / "sources", crate) / program_name(crate)
        made = build(room, room / "sources" / "crates" / crate, told=told)
        (room / "done").mkdir()
        made.rename(room / "done" / place.name)
        if not place.exists():
            (room / "done").rename(place.parent)
    return place


def program(crate):
    """The unproved program of a crate, of its sources as they are. It is built first where it is not there, which is
    told on standard error, as is that it is not proved."""
    place, name = kept(crate), program_name(crate)
    how = "bin/build makes the proved program"
    if place:
        say(f"{name}: NOT PROVED: built without a proof; {how}")
        return place
    say(f"{name}: NOT PROVED: it is built once, without a proof, {TAKES.get(crate, 'in some minutes')}; {how}")
    begun = time.monotonic()
    with ended_by_signals(), alone(crate):
        place = kept(crate)
        if not place:
            tidy(crate)
            with Progress(name) as told:
                place = build_kept(crate, told)
    say(f"{name}: built in {time.monotonic() - begun:.0f} s, and kept in {place.parent}")
    return place


@contextlib.contextmanager
def ended_by_signals():
    """Ends this process by an exception where a signal ends it, so that nothing that it has started or made is left."""
    before = {number: signal.getsignal(number) for number in (signal.SIGTERM, signal.SIGHUP)}
    for number, handler in before.items():
        if handler != signal.SIG_IGN:
            signal.signal(number, lambda number, _: sys.exit(128 + number))
    try:
        yield
    finally:
        for number, handler in before.items():
            signal.signal(number, handler)


if __name__ == "__main__":
    sys.stdout.buffer.write(os.fsencode(kept(sys.argv[1]) or ""))
