"""One node of an overlay, HyParView and Plumtree, by docs/PROTOCOL.md alone.

A message is a tuple: its kind, its sender, and its fields in the order of the table in docs/FORMATS.md.
"""

import copy
import struct

(JOIN, FORWARDJOIN, JOINED, NEIGHBOR, NEIGHBORREPLY, DISCONNECT, SHUFFLE, SHUFFLEREPLY, GOSSIP, IHAVE, GRAFT,
 PRUNE) = range(1, 13)
LOW, HIGH, NO, YES = 0, 1, 0, 1
LAST_ROUND = 65535
# When a DISCONNECT from an active member starts an attempt: never, if nobody is active any more, or always.
NEVER, ALONE, ALWAYS = REFILLS = "never", "alone", "always"
# How the fields of each kind are written; a list or a payload at the end follows by itself.
FIELDS = {JOIN: "", FORWARDJOIN: "IB", JOINED: "", NEIGHBOR: "B", NEIGHBORREPLY: "B", DISCONNECT: "",
          SHUFFLE: "IB", SHUFFLEREPLY: "", GOSSIP: "IIH", IHAVE: "II", GRAFT: "II", PRUNE: ""}


def encoded(message):
    """The bytes of a message."""
    kind, sender, *fields = message
    tail = b""
    if kind in (SHUFFLE, SHUFFLEREPLY):
        listed = fields.pop()
        tail = struct.pack(f">B{len(listed)}I", len(listed), *listed)
    elif kind == GOSSIP:
        payload = fields.pop()
        tail = struct.pack(">H", len(payload)) + payload
    return struct.pack(">BBI" + FIELDS[kind], 1, kind, sender, *fields) + tail


class Draws:
    """The random words of an event, each used once, in order."""

    def __init__(self, words):
        self.words = iter(words)

    def pick(self, members):
        """A random member of a set that is not empty."""
        ordered = sorted(members)
        return ordered[next(self.words) % len(ordered)]

    def sample(self, members, size):
        """So many members, or all, in the order of picking."""
        left, found = set(members), []
        for _ in range(min(size, len(left))):
            found.append(self.pick(left))
            left.discard(found[-1])
        return found


class Node:
    """A node, and what its present step does: `sends` (receiver and message), `changes` and `delivered`."""

    def __init__(self, me, params, refill=NEVER):
        self.me, self.refill = me, refill
        (self.active_size, self.passive_size, self.walk, self.passive_walk, self.of_active, self.of_passive,
         self.shuffle_life) = params
        self.active, self.passive = set(), set()
        self.asked, self.tried, self.sent = None, set(), []
        self.lazy, self.held, self.notes, self.timers, self.made = set(), {}, {}, set(), 0
        self.begin(())

    def copy(self):
        """An equal node, between two steps."""
        other = copy.copy(self)
        other.active, other.passive, other.tried = set(self.active), set(self.passive), set(self.tried)
        other.lazy, other.held, other.timers = set(self.lazy), dict(self.held), set(self.timers)
        other.notes = {name: list(said) for name, said in self.notes.items()}
        return other

    def begin(self, words):
        """Begins a step."""
        self.draws, self.sends, self.changes, self.delivered = Draws(words), [], [], None

    def send(self, to, kind, *fields):
        """Sends a message of this kind with these fields."""
        self.sends.append((to, (kind, self.me, *fields)))

    # The two views. A neighbour of the tree is an active member: eager, unless it is in `lazy`.

    def up(self, other):
        """Another node becomes active."""
        self.active.add(other)
        self.changes.append(f"up {self.me} {other}")

    def down(self, other):
        """Another node is no longer active; the tree forgets it."""
        self.active.discard(other)
        self.lazy.discard(other)
        for said in self.notes.values():
            if other in said:
                said.remove(other)
        self.changes.append(f"down {self.me} {other}")

    def is_known(self, other):
        """Whether it is the node itself, active or passive."""
        return other == self.me or other in self.active or other in self.passive

    def add_passive(self, other):
        """The row `add_passive` of the table of views."""
        if self.is_known(other):
            return
        if len(self.passive) >= self.passive_size:
            self.passive.discard(self.draws.pick(self.passive))
        self.passive.add(other)

    def add_active(self, other):
        """The row `add_active` of the table of views."""
        if other == self.me or other in self.active:
            return
        self.passive.discard(other)
        if len(self.active) >= self.active_size:
            dropped = self.draws.pick(self.active)
            self.down(dropped)
            self.add_passive(dropped)
            self.send(dropped, DISCONNECT)
        self.up(other)

    def integrate(self, ids, given):
        """Takes ids into the passive view; those of `given` go out for them first, then random ones."""
        left = iter(given)
        for other in ids:
            if self.is_known(other):
                continue
            if len(self.passive) >= self.passive_size:
                out = next((it for it in left if it in self.passive), None)
                self.passive.discard(self.draws.pick(self.passive) if out is None else out)
            self.passive.add(other)

    # HyParView

    def on_join(self, sender):
        """JOIN from a sender."""
        self.add_active(sender)
        self.send(sender, JOINED)
        for other in sorted(self.active - {sender}):
            self.send(other, FORWARDJOIN, sender, self.walk)

    def on_forward_join(self, sender, new, life):
        """FORWARDJOIN of a new node with a time to live."""
        if new == self.me:
            return
        others = self.active - {sender, new}
        if life == 0 or len(self.active) <= 1 or not others:
            self.add_active(new)
            self.send(new, JOINED)
            return
        if life == self.passive_walk:
            self.add_passive(new)
        self.send(self.draws.pick(others), FORWARDJOIN, new, life - 1)

    def on_joined(self, sender):
        """JOINED from a sender."""
        self.add_active(sender)

    def on_neighbor(self, sender, priority):
        """NEIGHBOR from a sender."""
        if sender not in self.active and priority == LOW and len(self.active) >= self.active_size:
            self.send(sender, NEIGHBORREPLY, NO)
            return
        self.add_active(sender)
        self.send(sender, NEIGHBORREPLY, YES)

    def go_on(self):
        """The attempt asks the next one, or ends."""
        untried = self.passive - self.tried
        if len(self.active) >= self.active_size or not untried:
            self.asked, self.tried = None, set()
            return
        self.asked = self.draws.pick(untried)
        self.tried.add(self.asked)
        self.send(self.asked, NEIGHBOR, LOW if self.active else HIGH)

    def on_neighbor_reply(self, sender, answer):
        """NEIGHBORREPLY from a sender."""
        if sender != self.asked:
            if answer == YES and sender not in self.active:
                self.send(sender, DISCONNECT)
        elif answer == YES:
            self.asked, self.tried = None, set()
            self.add_active(sender)
        else:
            self.go_on()

    def on_disconnect(self, sender):
        """DISCONNECT from a sender."""
        if sender not in self.active:
            return
        self.down(sender)
        self.add_passive(sender)
        if self.refill == ALWAYS or (self.refill == ALONE and not self.active):
            self.tried = set()
            self.go_on()

    def on_report(self, crashed):
        """The report of a crash."""
        was_active = crashed in self.active
        self.passive.discard(crashed)
        if was_active:
            self.down(crashed)
            self.tried = set()
        if was_active or self.asked == crashed:
            self.go_on()

    def start_shuffle(self):
        """A shuffle starts."""
        if not self.active:
            return
        target = self.draws.pick(self.active)
        of_active = self.draws.sample(self.active, self.of_active)
        self.sent = [self.me, *of_active, *self.draws.sample(self.passive, self.of_passive)]
        self.send(target, SHUFFLE, self.me, self.shuffle_life, self.sent)

    def on_shuffle(self, sender, origin, life, ids):
        """SHUFFLE of a list with an origin and a time to live."""
        left = max(life - 1, 0)
        if left > 0 and len(self.active) > 1:
            self.send(self.draws.pick(self.active - {sender}), SHUFFLE, origin, left, ids)
        elif origin != self.me:
            given = self.draws.sample(self.passive, len(ids))
            self.send(origin, SHUFFLEREPLY, given)
            self.integrate(ids, given)

    def on_shuffle_reply(self, sender, ids):
        """SHUFFLEREPLY of a list."""
        self.integrate(ids, self.sent)

    # Plumtree

    def make_eager(self, other):
        """Makes a neighbour eager."""
        self.lazy.discard(other)

    def make_lazy(self, other):
        """Makes a neighbour lazy."""
        if other in self.active:
            self.lazy.add(other)

    def spread(self, name, turn, payload, but=None):
        """Sends a message to the eager and its announcement to the lazy."""
        for other in sorted(self.active - self.lazy - {but}):
            self.send(other, GOSSIP, *name, turn, payload)
        for other in sorted(self.lazy - {but}):
            self.send(other, IHAVE, *name)

    def start_broadcast(self, payload):
        """A broadcast of the node's own."""
        name = self.me, self.made
        self.made += 1
        self.held[name] = payload, 0
        self.delivered = name
        self.spread(name, 0, payload)

    def on_gossip(self, sender, origin, sequence, turn, payload):
        """GOSSIP of a message, the first one or a later one."""
        name = origin, sequence
        if name in self.held:
            self.make_lazy(sender)
            self.send(sender, PRUNE)
            return
        self.delivered = name
        self.notes.pop(name, None)
        self.timers.discard(name)
        turn = min(turn + 1, LAST_ROUND)
        self.held[name] = payload, turn
        self.spread(name, turn, payload, sender)
        self.make_eager(sender)

    def on_ihave(self, sender, *name):
        """IHAVE of a message."""
        if name in self.held or sender not in self.active:
            return
        said = self.notes.setdefault(name, [])
        if sender not in said:
            said.append(sender)
        self.timers.add(name)

    def on_timer(self, name):
        """The timer of a message, which runs."""
        said = self.notes.get(name)
        if not said:
            self.timers.discard(name)
            return
        oldest = said.pop(0)
        self.make_eager(oldest)
        self.send(oldest, GRAFT, *name)

    def on_graft(self, sender, *name):
        """GRAFT of a message."""
        self.make_eager(sender)
        if name in self.held:
            payload, turn = self.held[name]
            self.send(sender, GOSSIP, *name, turn, payload)

    def on_prune(self, sender):
        """PRUNE from a sender."""
        self.make_lazy(sender)

    def receive(self, message):
        """Handles a message."""
        kind, sender, *fields = message
        if sender != self.me:
            getattr(self, HANDLERS[kind])(sender, *fields)


HANDLERS = {JOIN: "on_join", FORWARDJOIN: "on_forward_join", JOINED: "on_joined", NEIGHBOR: "on_neighbor",
            NEIGHBORREPLY: "on_neighbor_reply", DISCONNECT: "on_disconnect", SHUFFLE: "on_shuffle",
            SHUFFLEREPLY: "on_shuffle_reply", GOSSIP: "on_gossip", IHAVE: "on_ihave", GRAFT: "on_graft",
            PRUNE: "on_prune"}
