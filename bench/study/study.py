#!/usr/bin/env python3
"""study.py --simulate PROGRAM [--overlay PROGRAM] [--workers N] [--hold] [NAME ..]: makes the rows of
docs/DESIGN-STUDY.md into out/, and writes its tables, also those in docs/TABLES.md, and the figures of docs anew.

Rows that `overlay sweep` can make come from it if a program is named, and else from the simulation. Rows that are there
stay: remove their files, or the folder, to make them anew. With names only these tables and figures are made. With
--hold nothing is written: rows of `overlay sweep` that are there are held against those of the simulation.
"""

import argparse
import pathlib
import re
import time

from figures import FIGURES
from sweeps import held, make
from tables import TABLES, lines_of

DOCS = pathlib.Path(__file__).resolve().parents[2] / "docs"
PAGES = (DOCS / "DESIGN-STUDY.md", DOCS / "TABLES.md")


def put(text, name):
    """The document with a table in its place, between its marks."""
    place = re.compile(rf"(<!-- table {name} -->\n).*?(<!-- end -->)", re.DOTALL)
    lines = "\n".join(lines_of(name))
    return place.sub(lambda found: f"{found[1]}{lines}\n{found[2]}", text)


def main():
    parser = argparse.ArgumentParser(description=__doc__, formatter_class=argparse.RawDescriptionHelpFormatter)
    parser.add_argument("--simulate", required=True)
    parser.add_argument("--overlay")
    parser.add_argument("--workers", type=int, default=1)
    parser.add_argument("--hold", action="store_true")
    parser.add_argument("names", nargs="*", choices=[*TABLES, *FIGURES, []])
    given = parser.parse_args()
    names = given.names or [*TABLES, *FIGURES]
    sweeps = [*dict.fromkeys(sweep for name in names for sweep in (TABLES | FIGURES)[name][1])]
    if given.hold:
        print(*held(sweeps, given.simulate), sep="\n")
        return
    for sweep in sweeps:
        begun = time.monotonic()
        make(sweep, given.simulate, given.overlay, given.workers)
        print(f"{sweep}: {time.monotonic() - begun:.0f} s", flush=True)
    for name in names:
        if name in TABLES:
            for page in PAGES:
                page.write_text(put(page.read_text(), name))
        else:
            (DOCS / name).write_text(FIGURES[name][0]())


if __name__ == "__main__":
    main()
