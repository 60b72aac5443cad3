"""In which order the lines of sections ran, as far as what is printed after their block tells it.

Each event that sends a packet leaves it in the bag, last, and no line of a section takes one of these out. So `packets`
tells the order of all such events: the sender of a packet and its kind tell which line it is from, or which delivered
packet it answers. A snapshot's moment is the number of its entry, and the graph of that moment has the nodes that were
alive; so the entries between two snapshots are counted, and each crash lies between two that are known.

`Search` finds, line by line, the orders in which each section keeps its own and which agree with all of this. What is
still open then is the order of steps that touch nothing in common, and which section took one of several equal
snapshots. It knows of nodes only whether they are alive, and of packets only which kind answers which: views and random
choices are left to the program, which runs the order that was found.
"""

import collections

JOIN, FORWARDJOIN, JOINED, DISCONNECT, SHUFFLE, SHUFFLEREPLY = 1, 2, 3, 6, 7, 8
# The kinds whose delivery to a living node is answered by a packet, but for a walk or a shuffle that comes home.
ANSWERED = (FORWARDJOIN, SHUFFLE)
# The packet that a line of a section sends, by its kind.
OWN = {"boot": JOIN, "shuffle": SHUFFLE}

Packet = collections.namedtuple("Packet", "to kind sender about")
# A line of a section: its kind (`refused` if it is refused wherever it stands), its numbers, and its text, with the
# random words before it.
Line = collections.namedtuple("Line", "kind numbers text")
# What was printed after a block: the packets that it sent, the number of its last entry, the nodes that were alive at
# each snapshot, by moment, and the moments whose reports were filed when the block ended.
Seen = collections.namedtuple("Seen", "sent entries snapshots filed")
# How far an order has come: how many lines of each section ran, the packets of before the block that are left, how many
# packets were sent, the number of the last entry, the crashed nodes, and the moments whose reports are filed.
State = collections.namedtuple("State", "places bag sent entries crashed filed")


def packet_of(line):
    """The packet that a printed line `packet I to N HEX` tells. `about` is the node that it is about: the new node of a
    FORWARDJOIN, the origin of a SHUFFLE."""
    words = line.split()
    data = bytes.fromhex(words[4])
    about = int.from_bytes(data[6:10], "big") if data[1] in ANSWERED else None
    return Packet(int(words[3]), data[1], int.from_bytes(data[2:6], "big"), about)


def answer_length(packet, sent):
    """How many of the packets that were sent next are the answer of this one's living receiver, or None if they can't
    be that, though one has to come."""
    if packet.kind not in ANSWERED:
        return 0
    own = [it for it in sent[:2] if it.sender == packet.to]
    if packet.kind == FORWARDJOIN and own and own[0].kind == DISCONNECT:
        return 2 if len(own) == 2 and own[1].kind == JOINED and own[1].to == packet.about else None
    goes_on = own and own[0].kind == packet.kind and own[0].about == packet.about != packet.to
    last = JOINED if packet.kind == FORWARDJOIN else SHUFFLEREPLY
    if goes_on or (own and own[0].kind == last and own[0].to == packet.about):
        return 1
    return 0 if packet.about == packet.to else None


class Search:
    """The search for the orders of one block: of its sections, which are lists of lines, from a state before them, with
    the packets and the nodes of that state."""

    def __init__(self, sections, packets, nodes, seen):
        self.sections, self.packets, self.seen = sections, packets, seen
        self.moments = sorted(seen.snapshots)
        self.analyses = collections.Counter(it.numbers for lines in sections for it in lines if it.kind == "analyse")
        self.own = {}
        self.born = [frozenset(nodes)]
        for at, packet in enumerate(seen.sent):
            if packet.kind == JOIN or packet.about == packet.sender:
                self.own.setdefault((packet.kind, packet.sender), at)
            self.born.append(self.born[-1] | ({packet.sender} if packet.kind == JOIN else set()))
        self.deadlines = [self.deadlines_of(lines) for lines in sections]
        self.failed = set()

    def deadlines_of(self, lines):
        """For each line of a section, the place of the first packet that this line or a later one has to send."""
        found = [len(self.seen.sent)]
        for line in reversed(lines):
            found.append(self.own.get((OWN.get(line.kind), *line.numbers[:1]), found[-1]))
        return found[::-1]

    def lives_on(self, node, entries):
        """Whether a node is still alive at the next snapshot after so many entries."""
        later = next((moment for moment in self.moments if moment > entries), None)
        return later is not None and node in self.seen.snapshots[later]

    def packets_of(self, line, state):
        """How many packets an event sends that is accepted here, or None if those that were sent next are not its own,
        or if the snapshots tell that it can't come here."""
        sent = self.seen.sent[state.sent:state.sent + 2]
        if line.kind in OWN:
            if (OWN[line.kind], line.numbers[0]) not in self.own:
                return None if line.kind == "boot" else 0
            return 1 if state.sent == self.own[OWN[line.kind], line.numbers[0]] else None
        if line.kind == "deliver":
            packet = self.packets[state.bag[line.numbers[0]]]
            return 0 if packet.to in state.crashed else answer_length(packet, sent)
        if line.kind == "crash":
            return None if self.lives_on(line.numbers[0], state.entries) else 0
        return 0 if self.seen.snapshots[state.entries + 1] == self.born[state.sent] - state.crashed else None

    def after_event(self, line, state):
        """What an event that is accepted leaves, or None if it can't come here."""
        if (line.kind == "snapshot") != (state.entries + 1 in self.seen.snapshots):
            return None
        count = self.packets_of(line, state)
        if count is None:
            return None
        bag, crashed = state.bag, state.crashed
        if line.kind == "deliver":
            bag = bag[:line.numbers[0]] + bag[line.numbers[0] + 1:]
        if line.kind == "crash":
            crashed = crashed | {line.numbers[0]}
        return state._replace(bag=bag, crashed=crashed, sent=state.sent + count, entries=state.entries + 1)

    def after_analysis(self, numbers, state):
        """What a line `analyse` leaves if it comes here, or None if it can't, and whether no order is lost by that."""
        moment = numbers[0]
        if moment not in self.seen.snapshots or moment in state.filed:
            return state, True
        if moment > state.entries:
            is_filed = moment in self.seen.filed
            return (None if is_filed and self.analyses[numbers] == 1 else state), not is_filed
        if moment not in self.seen.filed:
            return None, False
        return state._replace(filed=state.filed | {moment}), True

    def after(self, section, state):
        """What the next line of a section leaves, or None if it can't come here, and whether no order is lost if it
        comes at once."""
        line = self.sections[section][state.places[section]]
        is_gone = line.kind in ("boot", "shuffle", "crash") and line.numbers[-1] in state.crashed
        if line.kind == "analyse":
            left, is_free = self.after_analysis(line.numbers, state)
        elif line.kind == "refused" or is_gone:
            left, is_free = state, True
        else:
            left, is_free = self.after_event(line, state), False
        if left is None:
            return None, False
        places = state.places[:section] + (state.places[section] + 1,) + state.places[section + 1:]
        return left._replace(places=places), is_free

    def moves(self, state):
        """The sections whose next line can come here, each with what it leaves. The likeliest is first: a line that
        sends a packet, and then the section that has to send one soonest. An analysis that comes too soon is last."""
        found = []
        for section, lines in enumerate(self.sections):
            if state.places[section] == len(lines):
                continue
            left, is_free = self.after(section, state)
            if is_free:
                return [(section, left)]
            if left is not None:
                soonest = self.deadlines[section][state.places[section]]
                found.append((left.entries == state.entries, left.sent == state.sent, soonest, section, left))
        return [it[3:] for it in sorted(found, key=lambda it: it[:4])]

    def orders(self, state, begun=()):
        """The orders that go on from a state, one after another: the sections, line by line."""
        if state in self.failed:
            return
        if sum(state.places) == sum(map(len, self.sections)):
            if (state.sent, state.entries, state.filed) == (len(self.seen.sent), self.seen.entries, self.seen.filed):
                yield begun
            return
        is_found = False
        for section, left in self.moves(state):
            for order in self.orders(left, (*begun, section)):
                is_found = True
                yield order
        if not is_found:
            self.failed.add(state)
