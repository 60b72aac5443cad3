"""What the scripts of bin/, dev/ and tests/ share: where the repository is, which of its crates uses which, what is
built, and how many checks the machine has room for."""

import ctypes
import os
import pathlib
import re
import shutil
import signal
import subprocess
import time

ROOT = pathlib.Path(__file__).resolve().parent.parent
# What each check of the gate is given room for, in bytes: one has taken 3 GB at most.
CHECK_MEMORY = 4_000_000_000
# Of a control group, in its two versions: the file with its limit of memory, and what memory.stat has of it in use.
LIMITS = {"memory.max": r"(?m)^anon (\d+)", "memory.limit_in_bytes": r"(?m)^total_rss (\d+)"}


def number_in(file, pattern):
    """The number that a file of the system tells, or None."""
    try:
        return int(re.search(pattern, file.read_text())[1])
    except (OSError, TypeError):
        return None


def free_memory():
    """The free memory in bytes, under the limits of the control groups that this process is in."""
    free = [1024 * (number_in(pathlib.Path("/proc/meminfo"), r"MemAvailable:\s+(\d+)") or 0)]
    groups = pathlib.Path("/proc/self/cgroup")
    for line in groups.read_text().splitlines() if groups.is_file() else []:
        _, kinds, path = line.split(":", 2)
        group = pathlib.Path("/sys/fs/cgroup", kinds, path.lstrip("/"))
        for folder in [group, *group.parents]:
            for file, in_use in LIMITS.items():
                limit, used = number_in(folder / file, r"(\d+)"), number_in(folder / "memory.stat", in_use)
                if limit is not None and used is not None:
                    free.append(limit - used)
    return min(free)


def checks_at_once():
    """How many checks `rt ci` is to run side by side: one a processor, as far as there is memory for each. By itself it
    reckons with up to 6.5 GB a check, and then lets processors wait."""
    return max(1, min(len(os.sched_getaffinity(0)), free_memory() // CHECK_MEMORY))


def gate_environment():
    """The environment in which `rt ci` runs as many checks side by side, unless RT_JOBS says how many."""
    return {"RT_JOBS": str(checks_at_once()), **os.environ}


def kit_folder():
    """Where the kit is."""
    return pathlib.Path(shutil.which("rt")).resolve().parents[1]


def ci_takes_words():
    """Whether the kit's `rt ci` takes words: names of crates, and `--anew`. Such a kit takes over what an earlier run
    has proved, unless `--anew` tells it to prove that again. Other kits always prove everything from nothing."""
    told = subprocess.run(["rt", "help"], stdin=subprocess.DEVNULL, capture_output=True, text=True)
    return "--anew" in told.stdout + told.stderr


def ci_command(anew=False):
    """The words of the kit's `rt ci`, which takes nothing from earlier runs if `anew` is set."""
    return ["rt", "ci", *["--anew"] * (anew and ci_takes_words())]


def lines(top=ROOT):
    """The line of each crate in crates.txt, by the crate's name: of this repository, or of another checkout."""
    texts = [line.split("#")[0] for line in (top / "crates.txt").read_text().splitlines()]
    return {line.split()[0].rstrip(":"): line for line in texts if ":" in line}


def uses(top=ROOT):
    """The libraries of the repository that each crate uses, by the crate's name."""
    rows = lines(top)
    return {name: [it for it in line.partition(":")[2].split() if it in rows] for name, line in rows.items()}


def below(name, top=ROOT):
    """The libraries of the repository below a crate, each behind those that it uses."""
    rows, found = uses(top), []

    def take(crate):
        for it in rows[crate]:
            if it not in found:
                take(it)
                found.append(it)

    take(name)
    return found


def lay_out_root(room, names, top=ROOT):
    """Makes a folder the top of a repository of these crates alone, whose own folders are still to be filled."""
    (room / "crates").mkdir(parents=True)
    rows = lines(top)
    (room / "crates.txt").write_text("".join(f"{rows[name]}\n" for name in names))
    (room / "HANDLES").write_bytes((ROOT / "HANDLES").read_bytes())
    # so that the search for the top ends here
    (room / ".git").mkdir()


def end_with_parent():
    """Has this process, which is about to become another program, end by SIGTERM when the one that started it ends,
    also when that is killed."""
    of_the_parent = 1
    ctypes.CDLL(None).prctl(of_the_parent, signal.SIGTERM, 0, 0, 0)


def members_of(session):
    """The processes of a session that still run."""
    found = []
    for stat in pathlib.Path("/proc").glob("[0-9]*/stat"):
        try:
            state, _, _, its_session = stat.read_text(errors="replace").rpartition(")")[2].split()[:4]
        except OSError:
            continue
        if int(its_session) == session and state not in "ZX":
            found.append(int(stat.parent.name))
    return found


def end_session(session):
    """Ends the processes of a session, and waits until none of them is left."""
    while members := members_of(session):
        for process in members:
            try:
                os.kill(process, signal.SIGKILL)
            except ProcessLookupError:
                pass
        time.sleep(0.05)


def take_over(room, name, begun):
    """Moves a program from the copy to its place. It is as old as the sources that it was made from."""
    out = ROOT / "crates" / name / "out"
    out.mkdir(exist_ok=True)
    shutil.copy(room / "crates" / name / "out" / name, out / f"{name}.part")
    os.utime(out / f"{name}.part", (begun, begun))
    os.replace(out / f"{name}.part", out / name)
    (out / f"{name}.by-rattle").unlink(missing_ok=True)


def git_folder():
    """The folder of git, which in a work tree of its own stands elsewhere."""
    if (ROOT / ".git").is_dir():
        return ROOT / ".git"
    command = ["git", "rev-parse", "--absolute-git-dir"]
    try:
        return pathlib.Path(subprocess.run(command, cwd=ROOT, capture_output=True, text=True).stdout.strip() or ".git")
    except FileNotFoundError:
        return ROOT / ".git"


def is_current(crate):
    """Whether the program of a crate is built, and nothing that it is made from has changed since."""
    program = ROOT / "crates" / crate / "out" / crate
    if not os.access(program, os.X_OK):
        return False
    built = program.stat().st_mtime
    if program.with_suffix(".by-rattle").exists():
        # the gate built it, and read the sources from when it began
        begun = git_folder() / "rt-ci.lock"
        if not begun.exists():
            return False
        built = min(built, begun.stat().st_mtime)
    paths = [str(ROOT / "crates.txt")]
    for name in [crate, *below(crate)]:
        folder = ROOT / "crates" / name
        if not (folder / "src").is_dir():
            return False
        for part in ("src", "specs", "proofs"):
            for at, _, files in os.walk(folder / part):
                # a folder is newer where a file in it was removed
                paths += [at, *(os.path.join(at, file) for file in files)]
            if name != crate and not (folder / part).is_dir():
                # the crate's own folder is newer where this one was removed. It is newer where out/ was made, too, so
                # that it is asked here alone; a program's own crate, whose out/ each build makes, may have neither
                paths.append(folder)
    return all(os.lstat(path).st_mtime <= built for path in paths)
