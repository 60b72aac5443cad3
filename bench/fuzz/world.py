"""A world of nodes and its events, by docs/PROTOCOL.md alone."""

from connectivity import Graph
from nodes import JOIN, NEVER, Node

# Of each scale, how many nodes may ever be born, how many entries there may be, and how many packets on their way.
PROFILE = "profile"
SCALES = {PROFILE: (256, 65536, 65536), "large": (32768, 16777216, 1048576)}
MOST_SENT = 64
MOST_BROADCASTS, LONGEST_PAYLOAD = 4096, 1024
(UNKNOWN_NODE, USED_ID, CRASHED_NODE, TOO_MANY_NODES, NO_SUCH_PACKET, TOO_MANY_PACKETS, TOO_MANY_ENTRIES, NOT_CRASHED,
 NO_TIMER, PAYLOAD_TOO_LONG, TOO_MANY_MESSAGES) = range(10, 21)


class Refusal(Exception):
    """A line is refused, by the number of the first applicable refusal."""


def demand(true, number):
    """Refuses, by this number, what does not hold."""
    if not true:
        raise Refusal(number)


class World:
    """The nodes that were born, of which a crashed one is None; the packets on their way; the number of entries."""

    def __init__(self, params, refill=NEVER, scale=PROFILE):
        self.params, self.refill, self.scale = params, refill, scale
        self.most_born, self.most_entries, self.most_packets = SCALES[scale]
        self.nodes, self.packets, self.entries = {}, [], 0
        self.moments = {}

    def copy(self):
        """An equal world."""
        other = World(self.params, self.refill, self.scale)
        other.nodes = {name: node and node.copy() for name, node in self.nodes.items()}
        other.packets, other.entries, other.moments = list(self.packets), self.entries, dict(self.moments)
        return other

    def live(self, node):
        """The node, if it was born and has not crashed."""
        demand(node in self.nodes, UNKNOWN_NODE)
        demand(self.nodes[node] is not None, CRASHED_NODE)
        return self.nodes[node]

    def demand_room(self):
        """Refuses if the packets leave no room for what a step sends."""
        demand(self.most_packets - len(self.packets) >= MOST_SENT, TOO_MANY_PACKETS)

    def demand_packet(self, place):
        """Refuses if there is no packet at a place."""
        demand(place < len(self.packets), NO_SUCH_PACKET)

    def step(self, kind, given, words):
        """Does an event, or refuses it: what its line says behind the number of its entry."""
        demand(self.entries < self.most_entries, TOO_MANY_ENTRIES)
        changes, node = getattr(self, f"do_{kind}")(words, *given)
        self.entries += 1
        if kind == "snapshot":
            self.moments[self.entries] = self.graph()
        if node is None:
            return changes
        self.packets += node.sends
        delivered = [] if node.delivered is None else ["delivered {} {} {}".format(node.me, *node.delivered)]
        return changes + node.changes + delivered

    def do_boot(self, words, name, contact):
        """`boot`."""
        demand(name not in self.nodes, USED_ID)
        if contact is not None:
            self.live(contact)
        demand(len(self.nodes) < self.most_born, TOO_MANY_NODES)
        self.demand_room()
        node = self.nodes[name] = Node(name, self.params, self.refill)
        node.begin(words)
        if contact is not None:
            node.send(contact, JOIN)
        return [f"born {name}"], node

    def do_deliver(self, words, place):
        """`deliver`."""
        self.demand_packet(place)
        self.demand_room()
        to, message = self.packets.pop(place)
        node = self.nodes[to]
        if node is not None:
            node.begin(words)
            node.receive(message)
        return [], node

    def do_lose(self, words, place):
        """`lose`."""
        self.demand_packet(place)
        self.packets.pop(place)
        return [], None

    def do_repeat(self, words, place):
        """`repeat`."""
        self.demand_packet(place)
        self.demand_room()
        self.packets.append(self.packets[place])
        return [], None

    def do_crash(self, words, name):
        """`crash`."""
        self.live(name)
        self.nodes[name] = None
        return [f"gone {name}"], None

    def do_report(self, words, name, crashed):
        """`report`."""
        node = self.live(name)
        demand(crashed in self.nodes, UNKNOWN_NODE)
        demand(self.nodes[crashed] is None, NOT_CRASHED)
        self.demand_room()
        node.begin(words)
        node.on_report(crashed)
        return [], node

    def do_shuffle(self, words, name):
        """`shuffle`."""
        node = self.live(name)
        self.demand_room()
        node.begin(words)
        node.start_shuffle()
        return [], node

    def do_broadcast(self, words, name, payload):
        """`broadcast`."""
        node = self.live(name)
        demand(len(payload) <= LONGEST_PAYLOAD, PAYLOAD_TOO_LONG)
        demand(node.made < MOST_BROADCASTS, TOO_MANY_MESSAGES)
        self.demand_room()
        node.begin(words)
        node.start_broadcast(payload)
        return [], node

    def do_timer(self, words, name, origin, sequence):
        """`timer`."""
        node = self.live(name)
        demand((origin, sequence) in node.timers, NO_TIMER)
        self.demand_room()
        node.begin(words)
        node.on_timer((origin, sequence))
        return [], node

    def do_snapshot(self, words):
        """`snapshot`."""
        return [], None

    def graph(self):
        """The live nodes, and two of them linked if each holds the other."""
        live = {name: node for name, node in sorted(self.nodes.items()) if node is not None}
        links = [(a, b) for a, node in live.items() for b in node.active
                 if a < b and b in live and a in live[b].active]
        return Graph(live, links)
