#!/usr/bin/env python3
"""compare_random.py PROGRAM [NUMBER [SEED]]: holds a program `overlay` against the second opinion.

The examples' scenarios and graph files are compared first, then files that reach the limits of a world and of a graph,
and then so many random scenarios of each of two kinds, and so many random graph files (300 without a number): without
and with names, and each of them a second time without some nodes and with a least number. An input on which the two
differ is kept in `out/found`, and named. The status is 1 then.
"""

import pathlib
import random
import subprocess
import sys

import random_inputs
import second_opinion
from nodes import REFILLS
from named_answers import answer_named

HERE = pathlib.Path(__file__).resolve().parent
EXAMPLES = HERE.parent.parent / "examples"
SECONDS = 60


def differs(program, words, data, answer):
    """What a program prints otherwise than is asked, in words, or None."""
    try:
        run = subprocess.run([program, *words], input=data, capture_output=True, timeout=SECONDS)
    except subprocess.TimeoutExpired:
        return f"it has not ended after {SECONDS} seconds"
    return second_opinion.unlike(answer, run.stdout, run.stderr, run.returncode)


def inputs(number, seed):
    """Each input's name, its command, its bytes, and what the command is asked besides: a group, a list of nodes that
    are gone, and a least number, each or None."""
    for path in sorted(EXAMPLES.rglob("*.scenario")):
        yield path.name, "run", path.read_bytes()
    for path in sorted(EXAMPLES.rglob("*.graph")):
        yield path.name, "analyse", path.read_bytes()
    for name, command, data in random_inputs.limits():
        yield f"limit-of-{name}", command, data
    for at in range(number):
        source = random.Random(f"{seed} {at}")
        yield f"random-{seed}-{at}.scenario", "run", random_inputs.scenario(source)
        yield f"guided-{seed}-{at}.scenario", "run", random_inputs.guided(source, source.choice(REFILLS))
        plain, named = random_inputs.graph(source), random_inputs.named_graph(source)
        yield f"random-{seed}-{at}.graph", "analyse", *plain
        yield f"named-{seed}-{at}.graph", "names", *named
        yield f"without-{seed}-{at}.graph", "analyse", *plain, *random_inputs.loss(source, plain[0])
        yield f"named-without-{seed}-{at}.graph", "names", *named, *random_inputs.loss(source, named[0])


def asked(command, data, group=None, gone=None, least=None):
    """The arguments of a program, and the answer that is asked for them."""
    if command == "run":
        return ["run"], second_opinion.answer_run(data)
    options = [] if gone is None else [b"--without=" + gone]
    options += [] if least is None else [f"--at-least={least}"]
    if command == "names":
        options += [b"--group=" + group] if group else []
        return ["analyse", "--names", "--certificate", *options], answer_named(data, group, True, gone, least)
    options += ["--group", ",".join(map(str, group))] if group else []
    return ["analyse", "--certificate", *options], second_opinion.answer_analyse(data, group, True, gone, least)


def main(program, number="300", seed="1"):
    count, found = 0, 0
    for name, command, data, *options in inputs(int(number), seed):
        count += 1
        words, answer = asked(command, data, *options)
        why = differs(program, words, data, answer)
        if why:
            found += 1
            (HERE / "out" / "found").mkdir(parents=True, exist_ok=True)
            (HERE / "out" / "found" / name).write_bytes(data)
            print(f"{name}: {words}: {why}")
    print(f"{count} inputs, {found} differences")
    return 1 if found else 0


if __name__ == "__main__":
    if not 2 <= len(sys.argv) <= 4:
        sys.exit("usage: compare_random.py PROGRAM [NUMBER [SEED]]")
    sys.exit(main(*sys.argv[1:]))
