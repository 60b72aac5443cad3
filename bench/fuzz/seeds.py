"""The inputs that afl-fuzz begins with: the kept corpus, the examples, random scenarios and graphs, and odd
certificate files."""

import hashlib
import random

import corpus
import odd_certificates
import random_inputs
from nodes import ALONE, ALWAYS, REFILLS
from second_opinion import answer_analyse

EXAMPLES = corpus.FOLDER.parent.parent.parent / "examples"
SUFFIXES = {"certificate": ".json", "scenario": ".scenario", "graph": ".graph"}
LONGEST = {"certificate": 12_000, "scenario": 2000, "graph": 2000, "arguments": 400}
RANDOM_SEEDS = {"certificate": 60, "scenario": 300, "graph": 60, "arguments": 0}
# Of the deep, long, odd and cut certificate files, so many of each kind are seeds.
OF_EACH_KIND = 300
# Random scenarios that notice rules of plant.py which few others notice.
TELLING = (65, 217, 736, 486, 672, 877, 986, 927, 966, 974, 1037, 1043, 264, 437, 96, 237, 362, 35, 109, 159)
# Seeds of those in which DISCONNECT may start an attempt: if nobody is active, or always where the seed is odd.
REFILLED = (0, 2, 4, 26, 38, 50, 25, 11, 33, 45)
TRIANGLE = b"""params 3 3 2 1 3 1 2
boot 1
boot 2 by 1
deliver 0
deliver 0
boot 3 by 1
deliver 0
deliver 0
deliver 0
deliver 0
"""
# Node 2 and node 3 become lazy to each other. Then 3 hears of a message before it comes.
ANNOUNCED = b"broadcast 1 a\n" + b"deliver 0\n" * 6 + b"broadcast 1 b\ndeliver 0\ndeliver 1\n"
# Node 3 takes the only place at node 1, so node 2 is told DISCONNECT, and is left alone.
DROPPED = (b"params 1 3 0 0 0 0 1\n", b"boot 1\nboot 2 by 1\ndeliver 0\ndeliver 0\nboot 3 by 1\n" + b"deliver 0\n" * 2
           + b"packets\nshow 2\n")
# Rules that random scenarios hardly reach.
DIRECTED = (
    b"boot 1\r\r\nboot 2\n", b"boot 1\nboot 2\r", b"boot 1\r\nboot 2\r\n",
    b"together\n" + b"also\n" * 63 + b"end\nboot 1\n", b"together\n" + b"also\n" * 64 + b"end\nboot 1\n",
    TRIANGLE + b"words 0\nshuffle 1\npackets\n", TRIANGLE + b"words 1 1\nshuffle 1\npackets\n",
    TRIANGLE + ANNOUNCED + b"timer 3 1 1\npackets\ntimer 3 1 1\ntimer 3 1 1\n",
    TRIANGLE + ANNOUNCED + b"deliver 0\ntimer 3 1 1\nshow 3\n",
    *(b"refill %s\n".join(DROPPED) % rule.encode() for rule in REFILLS), b"".join(DROPPED),
    b"refill alone\nrefill alone\n", b"boot 1\nrefill always\n", b"together\nrefill alone\nend\n", b"refill\n",
    b"refill sometimes\n", b"refill always never\n", b"refill Always\n", b"refill always\nseed 1\nboot 1\n",
    b"scale large\nscale large\n", b"boot 1\nscale large\n", b"together\nscale large\nend\n", b"scale\n",
    b"scale small\n", b"scale large profile\n", b"scale Large\n", b"scale large\nscale profile\n",
)
# Command lines of the commands that turn one file into another, and of answers in names: a word each.
COMMANDS = (
    "import", "import -", "import dump", "import --views", "import --edges", "import --dot", "import --views -",
    "import --either --entries", "import --edges --either", "import --entries --dot", "import --views --edges",
    "import --dot --views", "import --edges --edges", "import --views=1", "import --names", "import dump other",
    "import -- --views", "import --view", "import -h", "picture", "picture -", "picture certificate", "picture --dot",
    "picture --names", "picture --names graph", "picture --names=graph", "picture --names=", "picture --names -",
    "picture --names --dot", "picture --names graph certificate", "picture --pair 1,2", "picture --pair=1,2 --dot",
    "picture --pair 1", "picture --pair 1,2,3", "picture --pair 1,", "picture --pair 0,4294967295",
    "picture --pair 0,4294967296", "picture --fan 3", "picture --fan=3 certificate", "picture --fan 3,4",
    "picture --fan a", "picture --fan", "picture --pair 1,2 --fan 3", "picture --fan 3 --names graph",
    "picture --dot=1",
    "graph", "graph -", "graph certificate", "graph -- -", "graph --dot", "graph one two", "graph --help",
    "analyse --names", "analyse --explain", "analyse --names --explain --certificate", "analyse --names --group a",
    "analyse --group a --names", "analyse --names --group=", "analyse --names --group a,", "analyse --group a",
    "analyse --names --group 1,2 --workers 2", "analyse --names --workers 0", "analyse --names --names",
    "analyse --names=1", "analyse --explain --progress graph", "analyse --names --group -a",
    "analyse --large", "analyse --large --at-least 1024", "analyse --at-least 1024", "analyse --at-least 32768 --large",
    "analyse --large=1", "analyse --large --large", "import --large --edges", "graph --large", "picture --large",
)
OPTIONS = (b"", b"# --certificate\n", b"# --workers 2 --certificate\n", b"# --group 1,3\n")


def of_examples(target):
    """The examples of a target."""
    if target == "arguments":
        for path in sorted(EXAMPLES.glob("*/*.args")):
            program, _, words = path.read_bytes().partition(b"\n")
            if program == b"overlay":
                yield words
        yield from (line.replace(" ", "\n").encode() + b"\n" for line in COMMANDS)
        return
    for path in sorted(EXAMPLES.rglob(f"*{SUFFIXES[target]}")):
        yield path.read_bytes()


def graph_with_options(source):
    """A random graph file whose first line has arguments."""
    data, group = random_inputs.graph(source)
    words = source.choice(OPTIONS)
    if group and source.random() < 0.5:
        words = b"# --group " + ",".join(map(str, group)).encode() + b" --certificate\n"
    return words + data


def certificate(source):
    """The certificate file of a random graph, with paths that the second opinion finds."""
    data, group = random_inputs.graph(source)
    lines = answer_analyse(data, group, True).lines
    return lines[1].encode() if len(lines) == 2 else b"{}"


def scenario(source):
    """A random scenario, mostly of the kind in which rare events come."""
    return random_inputs.scenario(source) if source.random() < 0.2 else random_inputs.guided(source)


def refilled(at):
    """A random scenario in which DISCONNECT may start an attempt."""
    return random_inputs.guided(random.Random(f"refilled {at}"), (ALONE, ALWAYS)[at % 2])


def odd_ones(target):
    """Certificate files that are deep, long, odd or cut, the same in each sitting."""
    for kind in odd_certificates.KINDS if target == "certificate" else ():
        short = [text for text in odd_certificates.texts(kind) if len(text) <= LONGEST[target]]
        yield from random.Random(kind).sample(short, OF_EACH_KIND)


MAKERS = {"certificate": certificate, "scenario": scenario, "graph": graph_with_options}


def random_ones(target):
    """The random seeds of a target, the same in each sitting; of scenarios also those that are chosen above."""
    chosen = []
    if target == "scenario":
        chosen = [*DIRECTED, *(random_inputs.guided(random.Random(f"telling {at}")) for at in TELLING),
                  *map(refilled, REFILLED)]
    return chosen + [MAKERS[target](random.Random(f"{target} {at}")) for at in range(RANDOM_SEEDS[target])]


def all_of(target):
    """Each seed of a target, once."""
    found = [corpus.input_of(row) for row in corpus.rows(target)] + list(of_examples(target)) + random_ones(target)
    found += odd_ones(target)
    return {data: None for data in found if 0 < len(data) <= LONGEST[target]}


def lay(target, folder):
    """Writes the seeds of a target into a folder."""
    folder.mkdir(parents=True, exist_ok=True)
    for data in all_of(target):
        (folder / hashlib.sha1(data).hexdigest()[:16]).write_bytes(data)
