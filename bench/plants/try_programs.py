#!/usr/bin/env python3
"""try_programs.py [CRATE/NAME.edit ..]: plants bugs in the two programs, and says which of their kept inputs differ.

Each edit of overlay/ and overlay_check/ beside this script, or each one named, is applied to a clone of the commit at
hand. The program is built without proofs, and tests/check-examples, tests/check-corpus, and four groups of
tests/check-devices, `workers`, `sharing`, `blocks` and `devices`, run it beside the other program, which has no bug. A
row for each edit says how many lines each of these complains of, up to the first that complains. TAGZIRK_OVERLAY and
TAGZIRK_OVERLAY_CHECK name the programs without a bug, which may be unproved. A row takes one to five minutes. The
status is 1 if a bug is not noticed.
"""

import os
import pathlib
import subprocess
import sys
import tempfile

HERE = pathlib.Path(__file__).resolve().parent
ROOT = HERE.parents[1]
PROGRAMS = {"overlay": "TAGZIRK_OVERLAY", "overlay_check": "TAGZIRK_OVERLAY_CHECK"}
OPTIONS = {"overlay": "--overlay", "overlay_check": "--overlay-check"}
CHECKS = (
    ("check-examples",), ("check-corpus",), ("check-devices", "workers", "sharing", "blocks"),
    ("check-devices", "devices"))


def parts_of(edit):
    """The file of an edit, what stands there, and what takes its place."""
    lines = dict(line.split(": ", 1) for line in edit.read_text().splitlines())
    return lines["file"], lines["old"], lines["new"]


def planted(tree, crate, edit):
    """Applies an edit, and answers what undoes it."""
    file, old, new = parts_of(edit)
    path = tree / "crates" / crate / file
    text = path.read_text()
    if text.count(old) != 1:
        sys.exit(f"{edit}: its old text occurs {text.count(old)} times in {file}")
    path.write_text(text.replace(old, new))
    return lambda: path.write_text(text)


def complaints(tree, programs):
    """What the first check says that complains: its name and its lines on both channels, or None."""
    words = [word for crate, program in programs.items() for word in (OPTIONS[crate], str(program))]
    for check, *groups in CHECKS:
        run = subprocess.run([tree / "tests" / check, *words, *groups], capture_output=True, text=True)
        if run.returncode:
            printed = (run.stdout + run.stderr).splitlines()
            said = [line for line in printed if "differ" not in line or " 0 " not in line]
            return check, said
    return None


def row(tree, room, edit):
    """The row of an edit, and whether the bug was noticed."""
    crate = edit.parent.name
    undo = planted(tree, crate, edit)
    program = room / crate
    build = subprocess.run([tree / "bench" / "build-unproved", tree, crate, program], capture_output=True, text=True)
    undo()
    if build.returncode:
        return f"| `{crate}` | `{edit.stem}` | can't be built: {build.stderr.strip().splitlines()[-1]} |", False
    programs = {name: os.environ[variable] for name, variable in PROGRAMS.items()} | {crate: program}
    found = complaints(tree, programs)
    if not found:
        return f"| `{crate}` | `{edit.stem}` | not noticed |", False
    check, said = found
    return f"| `{crate}` | `{edit.stem}` | `{check}`: {len(said)} lines, such as {said[0][:90]!r} |", True


def main():
    named = [HERE / word for word in sys.argv[1:]]
    edits = named or sorted(it for name in PROGRAMS for it in (HERE / name).glob("*.edit"))
    all_noticed = True
    with tempfile.TemporaryDirectory() as folder:
        room = pathlib.Path(folder)
        tree = room / "tree"
        subprocess.run(["git", "clone", "--quiet", ROOT, tree], check=True)
        for edit in edits:
            text, is_noticed = row(tree, room, edit)
            all_noticed = all_noticed and is_noticed
            print(text, flush=True)
    sys.exit(0 if all_noticed else 1)


if __name__ == "__main__":
    main()
