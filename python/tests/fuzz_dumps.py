#!/usr/bin/env python3
"""fuzz_dumps.py [--minutes M] [--cases N] [--seed S] [--form NAME]: tries mutated dumps of all forms.

Each of `many_forms` is mutated by chance, from a seed, so that a case can be tried again. Demanded is of each case that
it is read or refused with a message, within the bounds of any dump below 1 MB, that each host of a second reading is a
host, and that each link is one of the second reading too; so k is not higher. Second readings are of a few lines here,
or by networkx, yaml or Graphviz, as far as these are there. TAGZIRK_OVERLAY names the program overlay.

It goes on for half a minute, or for N cases. By hand, `--minutes 10` goes on for so long. The status is 0 if all cases
passed, and 1 if not; a case that failed is kept in the folder that is told.
"""

import argparse
import contextlib
import io
import pathlib
import random
import resource
import signal
import sys
import tempfile
import time
import traceback

sys.path.insert(0, str(pathlib.Path(__file__).resolve().parent.parent))

from tagzirk.asked import Asked  # noqa: E402
from tagzirk.dumps import Options, dump_of  # noqa: E402
from tagzirk.errors import TagzirkError  # noqa: E402
from tagzirk.graphs import in_file, of_file  # noqa: E402
from tests.heavy_dumps import MOST_MEMORY, MOST_SECONDS  # noqa: E402
from tests.many_forms import FORMS  # noqa: E402
from tests.second_readings import READINGS  # noqa: E402

# What hangs is ended after so many seconds, whatever it does.
HANGING = 60
# What is put into a dump: marks of many forms, names, numbers, and bytes that are no text.
PIECES = [
    *'" \' , ; : | # % // { } [ ] ( ) < > = -- -> & * ! ? ~ \\ \n \r \t \0'.split(" "),
    *" |n1|n2|n7|0|1|-1|1e9|true|false|null|up|down|nan|010|%n1|n1 (2)|\ufeff|\u2028|\u202e|e\u0301".split("|"),
    "\n\n", "\r\n", "<node id='n9'/>", '"n8"', "n9: [n1]\n", "subgraph x {n1}", "*Vertices 3\n", "999999999",
]
LATIN = b"\xff\xfe\x1f\x8b\xc3\x28"


class TooLong(Exception):
    """A case did not end in time."""


def used():
    """The seconds of processor that this process took, and all programs that it began."""
    both = (resource.getrusage(it) for it in (resource.RUSAGE_SELF, resource.RUSAGE_CHILDREN))
    return sum(it.ru_utime + it.ru_stime for it in both)


def mutated(data, chance):
    """A dump with one change or more."""
    for _ in range(chance.choice((1, 1, 1, 2, 3, 6))):
        data = chance.choice(CHANGES)(data, chance)
    return data


def span(data, chance, most=40):
    begin = chance.randrange(len(data) + 1)
    return begin, min(len(data), begin + chance.randrange(1, most))


def cut(data, chance):
    begin, end = span(data, chance)
    return data[:begin] + data[end:]


def torn(data, chance):
    return data[: chance.randrange(len(data) + 1)]


def repeated(data, chance):
    begin, end = span(data, chance)
    return data[:end] + data[begin:end] * chance.choice((1, 1, 2, 50)) + data[end:]


def filled(data, chance):
    begin, end = span(data, chance, 6)
    return data[:begin] + chance.choice(PIECES).encode() + data[chance.choice((begin, end)) :]


def strange(data, chance):
    begin, end = span(data, chance, 3)
    return data[:begin] + bytes([chance.choice(LATIN)]) + data[end:]


def of_lines(change):
    """A change of the lines of a dump."""

    def changed(data, chance):
        lines = data.split(b"\n")
        change(lines, chance)
        return b"\n".join(lines)

    return changed


def swapped(lines, chance):
    one, other = chance.randrange(len(lines)), chance.randrange(len(lines))
    lines[one], lines[other] = lines[other], lines[one]


def dropped(lines, chance):
    del lines[chance.randrange(len(lines))]


def twice(lines, chance):
    lines.insert(chance.randrange(len(lines) + 1), chance.choice(lines))


def renamed(data, chance):
    """A name becomes that of another host, or a new one, in one place or in all."""
    names = [b"n%d" % chance.randrange(1, 7), chance.choice((b"n1", b"n2", b"n77", b"1", b"N1", b"%n1", b"n 1", b""))]
    return data.replace(*names, chance.choice((1, -1)))


CHANGES = (cut, cut, torn, repeated, filled, filled, strange, renamed, renamed, of_lines(swapped), of_lines(dropped),
           of_lines(twice))


@contextlib.contextmanager
def within(seconds):
    """Ends what takes more seconds of processor, or hangs, by an error."""

    def stop(*_):
        raise TooLong

    signals = {signal.ITIMER_PROF: (signal.SIGPROF, seconds), signal.ITIMER_REAL: (signal.SIGALRM, HANGING)}
    before, begun = {number: signal.signal(number, stop) for number, _ in signals.values()}, used()
    for timer, (_, most) in signals.items():
        signal.setitimer(timer, most)
    try:
        yield
        if used() - begun > seconds:
            raise TooLong
    finally:
        for timer in signals:
            signal.setitimer(timer, 0)
        for number, way in before.items():
            signal.signal(number, way)


def asked_of(form, chance):
    """How a form is asked for, by its words, and now and then with all states."""
    words = dict(zip(form.words[::2], form.words[1::2])) if "--either" not in form.words else {}
    fields = {name[2:]: value for name, value in words.items()}
    if "skip" in fields:
        fields["skip"] = int(fields["skip"])
    return Options(asked=Asked(**fields, all=chance.random() < 0.7))


def fault_of(form, data, options):
    """What is wrong with how a dump is read, or nothing."""
    try:
        with within(MOST_SECONDS), contextlib.redirect_stderr(io.StringIO()):
            dump = dump_of(data, "net", options)
            graph = dump.graph
    except TagzirkError as why:
        return "" if str(why).strip() else "a refusal without a message"
    except TooLong:
        return f"it takes more than {MOST_SECONDS} seconds of processor, or hangs"
    except Exception:
        return traceback.format_exc()
    links = {frozenset((graph.names[a], graph.names[b])) for a, b in graph.pairs}
    second = READINGS[form.name](data) if form.name in READINGS and kind_of(dump) == KINDS[form.name] else None
    if second is None:
        return ""
    hosts, pairs = set(map(kept, second[0])), {frozenset(map(kept, it)) for it in second[1]}
    lost, added = hosts ^ set(graph.ids), links - pairs
    if lost:
        return f"hosts differ: {sorted(lost)}"
    return f"links are added: {sorted(map(sorted, added))}" if added else ""


def kept(name):
    """A name as it is after it stood in a graph file."""
    return of_file(in_file(name))


def kind_of(dump):
    """How a dump was read, by its notes, without what they count."""
    told = next((it for it in dump.notes if " was read as " in it), "")
    return told.partition(" was read as ")[2].partition(",")[0]


def tried(form, seed):
    """Tries one case: its bytes, and what is wrong."""
    chance = random.Random(seed)
    options = asked_of(form, chance)
    data = mutated(form.data, chance)
    return data, fault_of(form, data, options)


KINDS = {}


def asked_for():
    """What is asked for on the command line."""
    words = argparse.ArgumentParser(description=__doc__.split("\n", 1)[0])
    words.add_argument("--minutes", type=float, default=0.5)
    words.add_argument("--cases", type=int)
    words.add_argument("--seed", type=int, default=1)
    words.add_argument("--form", default="", help="forms alone whose name has this text in it")
    return words.parse_args()


def main():
    given = asked_for()
    # an allocation of more fails, in this process or in a program that it begins
    resource.setrlimit(resource.RLIMIT_DATA, (MOST_MEMORY, MOST_MEMORY))
    forms = [it for it in FORMS if it.told is None and given.form in it.name]
    for it in forms:
        KINDS[it.name] = kind_of(dump_of(it.data, "net", asked_of(it, random.Random(0))))
        fault = fault_of(it, it.data, asked_of(it, random.Random(0)))
        if fault:
            sys.exit(f"{it.name}, as it is: {fault}")
    end, count, failed = time.monotonic() + given.minutes * 60, 0, 0
    while time.monotonic() < end if given.cases is None else count < given.cases:
        form = forms[count % len(forms)]
        data, fault = tried(form, f"{given.seed} {count}")
        count += 1
        if fault:
            failed += 1
            place = pathlib.Path(tempfile.mkdtemp(prefix="fuzz-dumps-"), "net")
            place.write_bytes(data)
            print(f"seed {given.seed}, case {count - 1}, {form.name}, kept as {place}: {fault}", flush=True)
    print(f"{count - failed} passed, {failed} failed")
    sys.exit(1 if failed else 0)


if __name__ == "__main__":
    main()
