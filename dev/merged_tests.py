"""merged_tests.py PROGRAM: builds all tests of the tree, without a proof, as one program.

The crates with tests become modules of one crate, in a copy, so that the libraries below them are built once and not
for each of them. A crate NAME is the module NAME_tests, so a test keeps its name behind that of its crate. The program
has AddressSanitizer. It runs the tests whose names have the word that it is given, or all; with --list it prints their
names.
"""

import re
import shutil
import sys

import unproved
from repository import ROOT, below, lay_out_root, lines, uses

CRATE = "all_tests"
TEST = re.compile(r"^\s*#\[test\]", re.MULTILINE)
# What stands at the head of a crate's root file, and in no module.
OF_THE_ROOT = re.compile(r"^#!\[.*\]\n", re.MULTILINE)
OF_THE_CRATE = re.compile(r"\bcrate::")


def crates_with_tests():
    """How many tests each crate has, by its name, if it has any."""
    found = {}
    for name in lines():
        texts = (file.read_text() for file in (ROOT / "crates" / name / "src").rglob("*.rt"))
        if count := sum(len(TEST.findall(text)) for text in texts):
            found[name] = count
    return found


def take_module(name, target):
    """Makes a crate a module of the crate whose sources lie in this folder."""
    source = ROOT / "crates" / name / "src"
    for file in source.rglob("*.rt"):
        place = file.relative_to(source)
        text = OF_THE_CRATE.sub(f"crate::{name}_tests::", file.read_text())
        if str(place) in ("lib.rt", "main.rt"):
            text, goal = OF_THE_ROOT.sub("", text), target / f"{name}_tests.rt"
        else:
            goal = target / f"{name}_tests" / place
        goal.parent.mkdir(parents=True, exist_ok=True)
        goal.write_text(text)


def lay_out(room, crates):
    """Lays out the crate of all tests of these crates, and the libraries below it, as a repository of its own: the
    crate's folder."""
    rows, ours = lines(), uses()
    words = [word for name in crates for word in rows[name].partition(":")[2].split()]
    names = dict.fromkeys(it for name in crates for it in [*below(name), *ours[name]])
    lay_out_root(room, names)
    with open(room / "crates.txt", "a") as table:
        print(f"{CRATE}: {' '.join(dict.fromkeys(words))}", file=table)
    for name in names:
        shutil.copytree(ROOT / "crates" / name / "src", room / "crates" / name / "src")
    target = room / "crates" / CRATE / "src"
    target.mkdir(parents=True)
    modules = "".join(f"#[cfg(test)]\nmod {name}_tests;\n" for name in crates)
    (target / "lib.rt").write_text(f"//! All tests.\n#![tactic(auto)]\n\n{modules}")
    for name in crates:
        take_module(name, target)
    return target.parent


def build(place):
    """Builds the program of all tests, without a proof, and puts it at this place."""
    with unproved.folder_of_its_own("all-tests-") as room:
        crate = lay_out(room / "sources", crates_with_tests())
        # no test has this name, so that none runs here
        flags = ["--test", "--", "none of these tests"]
        with unproved.Progress("all tests") as told:
            made = unproved.build(room, crate, flags, unproved.SANITIZED, told)
        shutil.copy(made, place)


if __name__ == "__main__":
    if len(sys.argv) != 2:
        sys.exit("usage: merged_tests.py PROGRAM")
    try:
        with unproved.ended_by_signals():
            build(sys.argv[1])
    except unproved.NotBuilt as why:
        sys.exit(f"merged_tests.py: {why}")
    except KeyboardInterrupt:
        sys.exit(130)
