"""Random scenarios and graph files, most of whose lines can be read: for comparisons without a fuzzer."""

import re

from nodes import NEVER, REFILLS
from pcg import Pcg64
from scenario_run import WORDS, State

SPACES = (b" ",) * 12 + (b"  ", b"   ")
ENDS = (b"\n",) * 12 + (b"\r\n", b" \n", b"\n\n", b"\n# by the way\n", b"\n  \n")


def written(random, words):
    """A line of these words, sometimes with more spaces or comments than are needed."""
    text = b""
    for at, word in enumerate(words):
        text += (random.choice(SPACES) if at else b"") + (word if isinstance(word, bytes) else str(word).encode())
    return text + random.choice(ENDS)


def group_word(random, most):
    """A word of ids, mostly a group."""
    some = random.sample(range(1, most + 1), random.randint(1, min(5, most)))
    return ",".join(map(str, some if random.random() < 0.1 else sorted(some)))


class ScenarioMaker:
    """Makes a scenario of a few nodes, and guesses how far it has come, so that most lines are accepted."""

    def __init__(self, random):
        self.random, self.born, self.crashed = random, [], []
        self.most, self.moments, self.entries = random.choice((3, 6, 12, 30)), [], 0
        self.eager_delivery = random.random() < 0.8

    def node(self):
        is_born = self.born and self.random.random() < 0.97
        return self.random.choice(self.born) if is_born else self.random.randint(0, 40)

    def boot(self):
        name = len(self.born) + 1 if self.random.random() < 0.97 else self.node()
        words = ["boot", name] + (["by", self.node()] if self.born and self.random.random() < 0.95 else [])
        self.born.append(name)
        return words

    def crash(self):
        self.crashed.append(self.node())
        return ["crash", self.crashed[-1]]

    def report(self):
        return ["report", self.node(), self.random.choice(self.crashed) if self.crashed else self.node()]

    def snapshot(self):
        self.moments.append(self.entries + 1)
        return ["snapshot"]

    def broadcast(self):
        payload = bytes(self.random.randrange(11, 256) for _ in range(self.random.choice((0, 1, 5, 40))))
        return ["broadcast", self.node(), payload.replace(b"\r", b"r")]

    def event(self):
        if len(self.born) < 2 or (len(self.born) < self.most and self.random.random() < 0.1):
            return self.boot()
        pick = self.random.choices(("deliver", "lose", "repeat", "crash", "report", "shuffle", "broadcast", "timer",
                                    "snapshot"), (60, 3, 3, 2, 4, 8, 4, 6, 3))[0]
        if pick in ("deliver", "lose", "repeat"):
            return [pick, 0 if self.random.random() < 0.6 else self.random.randint(0, 9)]
        if pick == "shuffle":
            return [pick, self.node()]
        if pick == "timer":
            return [pick, self.node(), self.node(), self.random.randint(0, 1)]
        return getattr(self, pick)()

    def look(self):
        pick = self.random.choice(("analyse", "certificate", "show", "packets"))
        if pick == "show":
            return [pick, self.node()]
        if pick == "packets":
            return [pick]
        moment = self.random.choice(self.moments) if self.moments else self.random.randint(1, 9)
        words = [pick, moment]
        if pick == "analyse" and self.random.random() < 0.1:
            words += ["workers", self.random.randint(1, 4)]
        if self.random.random() < 0.4:
            words += ["group", group_word(self.random, max(2, len(self.born)))]
        return words

    def lines_of_event(self):
        self.entries += 1
        words = []
        if self.random.random() < 0.1:
            words = [["words", *(self.random.getrandbits(self.random.choice((2, 64))) for _ in range(4))]]
        return words + [self.event()]

    def sections(self):
        """A block of sections, some of which have no lines."""
        lines = [["together"]]
        for at in range(self.random.randint(1, 3)):
            lines += [["also"]] if at else []
            if at == 0 or self.random.random() < 0.4:
                for _ in range(self.random.randint(0, 3)):
                    is_analysis = self.moments and self.random.random() < 0.2
                    lines += [["analyse", self.random.choice(self.moments)]] if is_analysis else self.lines_of_event()
        return lines + [["end"]]

    def lines(self, size):
        if self.random.random() < 0.7:
            walk = self.random.randint(0, 6)
            yield ["params", self.random.randint(1, 6), self.random.randint(1, 10), walk, self.random.randint(0, walk),
                   self.random.randint(0, 4), self.random.randint(0, 4), self.random.randint(1, 5)]
        if self.random.random() < 0.7:
            yield ["seed", self.random.getrandbits(64)]
        if self.random.random() < 0.5:
            yield ["refill", self.random.choice(REFILLS)]
        for _ in range(size):
            pick = self.random.random()
            if pick < 0.12:
                yield self.look()
            elif pick < 0.13:
                yield from self.sections()
            else:
                yield from self.lines_of_event()


def scenario(random):
    """The bytes of a scenario; in one of ten a byte is changed."""
    lines = ScenarioMaker(random).lines(random.choice((5, 30, 150, 600)))
    return damaged(random, b"".join(written(random, words) for words in lines))


def damaged(random, data):
    """The same bytes, or in one of ten cases with another byte somewhere."""
    if not data or random.random() > 0.1:
        return data
    at = random.randrange(len(data))
    return data[:at] + bytes([random.choice(b" 0123456789,abel\r\n#")]) + data[at + 1 :]


def graph(random):
    """The bytes of a graph file, of up to 40 nodes."""
    size = random.choice((1, 2, 3, 5, 8, 13, 20, 40))
    nodes = sorted(random.sample(range(random.choice((size, 100, 2**32 - 1)) + 1), size))
    share = random.choice((0.05, 0.1, 0.3, 0.6, 0.95, 1))
    lines = [["node", node] for node in nodes]
    lines += [["link", a, b] for at, a in enumerate(nodes) for b in nodes[at + 1 :] if random.random() < share]
    data = damaged(random, b"".join(written(random, words) for words in lines))
    group = sorted(random.sample(nodes, random.randint(1, size)))
    return data, group if random.random() < 0.6 else None


def comment(random, words):
    """A comment before a line of these words, which mostly names the node that the line says."""
    node = words[1] if random.random() < 0.95 else b"7"
    host = b"host-%d" % random.randrange(99)
    name = random.choice((b"a", b"b", b"c d", b" e", b"1", b"2", b"#", "\u00e9".encode(), b"x\ty", host))
    between = random.choice((b" ", b" ", b" ", b" ", b"  ", b"\t"))
    return random.choice((b"", b"", b" ")) + b"# " + node + between + name


def named_graph(random):
    """The bytes of a graph file with comments that name nodes, and a text that may name a group, or None."""
    data, _ = graph(random)
    lines, names = [], [b"1", b"3"]
    for line in data.split(b"\n"):
        words = [word for word in line.split(b" ") if word]
        if words[:1] == [b"node"] and len(words) > 1 and random.random() < 0.8:
            lines.append(comment(random, words))
            names += [lines[-1].split(words[1] + b" ", 1)[-1], words[1]]
            if random.random() < 0.03:
                lines.append(random.choice((b"", b"# a comment")))
        lines.append(line)
    group = random.sample(names, random.randint(1, min(4, len(names))))
    return b"\n".join(lines), b",".join(group) if random.random() < 0.7 else None


def loss(random, data):
    """The text of a list of nodes of a graph file that are gone, and a least number, each or None. The list has names or
    ids, now and then those of all nodes, and seldom one of nobody or of one node twice."""
    said = [line.split() for line in data.split(b"\n")]
    ids = [words[1] for words in said if words[:1] == [b"node"] and len(words) > 1]
    names = [line.split(b" ", 2)[2] for line in data.split(b"\n") if re.match(rb"# \d+ .", line) and b"," not in line]
    known = names if len(names) > 2 and random.random() < 0.8 else ids
    parts = random.sample(known, random.choice((0, 1, 1, 2, 3, len(known))) if len(known) > 2 else len(known))
    parts += random.choice(([],) * 12 + ([b"77"], [b"x"], [b""], parts[:1]))
    gone = b",".join(parts) if parts and random.random() < 0.9 else None
    return gone, random.choice((None, 0, 1, 2, 3, 8, 1023))


class GuidedMaker:
    """Makes a scenario beside a world of the second opinion, so that rare events come: timers that run, and reports to
    nodes that know who crashed. Views are small, and the scenario is short."""

    def __init__(self, random, refill):
        self.random, self.refill = random, refill
        walk = random.randint(0, 4)
        self.params = (random.randint(1, 3), random.randint(1, 3), walk, random.randint(0, walk), random.randint(0, 3),
                       random.randint(0, 3), random.randint(1, 4))
        self.seed = random.getrandbits(8)
        self.state, self.generator = State(self.params, refill), Pcg64(self.seed)
        self.most = random.randint(3, 8)

    def live(self):
        return [node for node in self.state.world.nodes.values() if node is not None]

    def boot(self):
        name, live = len(self.state.world.nodes) + 1, self.live()
        return ("boot", name, self.random.choice(live).me if live else None)

    def timer(self):
        running = [(node.me, *name) for node in self.live() for name in sorted(node.timers)]
        return ("timer", *self.random.choice(running)) if running else None

    def report(self):
        crashed = {name for name, node in self.state.world.nodes.items() if node is None}
        known = [(node.me, name) for node in self.live()
                 for name in sorted(crashed & (node.active | node.passive | {node.asked}))]
        return ("report", *self.random.choice(known)) if known else None

    def packet(self, kind):
        count = len(self.state.world.packets)
        return (kind, self.random.randrange(min(count, 12))) if count else None

    def at_node(self, kind):
        live = self.live()
        return (kind, self.random.choice(live).me, *([b"x"] if kind == "broadcast" else [])) if live else None

    def event(self):
        if len(self.live()) < 2 or (len(self.state.world.nodes) < self.most and self.random.random() < 0.15):
            return self.boot()
        kind = self.random.choices(("deliver", "lose", "repeat", "timer", "report", "crash", "shuffle", "broadcast",
                                    "snapshot"), (60, 5, 5, 14, 12, 3, 8, 8, 2))[0]
        if kind in ("deliver", "lose", "repeat"):
            return self.packet(kind)
        if kind in ("crash", "shuffle", "broadcast"):
            return self.at_node(kind)
        return ("snapshot",) if kind == "snapshot" else getattr(self, kind)()

    def looks(self):
        """Lines that show what came of it: each node now and then, and an analysis of the last snapshot."""
        for node in self.live():
            yield f"show {node.me}"
        if self.state.world.moments:
            yield f"analyse {max(self.state.world.moments)}"
        yield "packets"

    def lines(self, size):
        yield "params " + " ".join(map(str, self.params))
        yield f"seed {self.seed}"
        if self.refill != NEVER:
            yield f"refill {self.refill}"
        for at in range(1, size + 1):
            said = self.event()
            if said is None:
                continue
            self.state.do(said, [self.generator.next() for _ in range(WORDS)], at)
            kind, *given = [word.decode() if isinstance(word, bytes) else word for word in said]
            if kind == "boot":
                given = given[:1] if given[1] is None else [given[0], "by", given[1]]
            yield " ".join(map(str, [kind, *given]))
            if at % 40 == 0:
                yield from self.looks()
        yield from self.looks()


def guided(random, refill=NEVER):
    """The bytes of a short scenario in which rare events come, with a rule at DISCONNECT."""
    lines = GuidedMaker(random, refill).lines(random.choice((60, 100, 140)))
    return "".join(f"{line}\n" for line in lines).encode()


def limits():
    """Scenarios and graph files that reach the limits of a world and of a graph: name, command and bytes of each."""
    two = b"boot 1\nboot 2 by 1\n"
    full = b"repeat 0\n" * 65475 + b"deliver 0\nlose 0\nlose 0\nlose 0\ndeliver 0\ndeliver 0\n"
    nodes = b"".join(b"node %d\n" % at for at in range(1024))
    links = b"".join(b"link %d %d\n" % (at, at + 1) for at in range(1023))
    yield "entries", "run", b"boot 1\n" + b"shuffle 1\n" * 65534 + b"snapshot\ncrash 1\nanalyse 65536\nshow 1\n"
    yield "packets", "run", two + full
    yield "messages", "run", two + b"broadcast 1 x\n" * 4098 + b"broadcast 2 y\n"
    payloads = b"".join(b"broadcast 1 " + b"x" * size + b"\n" for size in (1024, 1025))
    yield "payloads", "run", two + payloads + b"packets\n"
    yield "nodes", "run", b"".join(b"boot %d\n" % at for at in range(258)) + b"snapshot\nanalyse 257\n"
    yield "nodes-of-a-graph", "analyse", nodes + links
    yield "nodes-too-many", "analyse", nodes + b"node 1024\n" + links
