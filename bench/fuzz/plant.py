#!/usr/bin/env python3
"""plant.py: how many inputs of the kept corpus notice a wrong rule?

Plants one wrong rule after the other in a copy of the second opinion, lets it answer the kept scenarios and graph
files, and prints how many of its answers differ from what is kept. A wrong rule that no input notices would also go
unnoticed in the programs, as far as the corpus goes. The status is 0 whatever is noticed, and 1 if a rule is no longer
found.
"""

import contextlib
import json
import pathlib
import shutil
import subprocess
import sys
import tempfile

HERE = pathlib.Path(__file__).resolve().parent
ANSWER = """
import json, sys
import corpus, targets
found = {}
for target in sys.argv[1:]:
    for at, row in enumerate(corpus.rows(target)):
        answer = [*targets.CASES[target](corpus.input_of(row))][-1].answer
        lines = [corpus.line_of(str(line)) for line in answer.lines]
        kept = [row["out"], row.get("status", 0), row.get("error")]
        found[f"{target} {at}"] = [lines, answer.status, answer.fault] == kept
print(json.dumps(found))
"""
# What is wrong; the file, its text and the text in its place.
RULES = [
    ("a dropped member finds no place in the passive view", "nodes.py",
     "self.add_passive(dropped)\n            self.send(dropped", "self.send(dropped"),
    ("who enters the active view leaves the passive one last", "nodes.py",
     "self.passive.discard(other)\n        if len(self.active) >= self.active_size:",
     "if len(self.active) >= self.active_size:"),
    ("a walk leaves its trace a step earlier", "nodes.py",
     "life == self.passive_walk:", "life == self.passive_walk + 1:"),
    ("a walk may go to the new node", "nodes.py",
     "others = self.active - {sender, new}", "others = self.active - {sender}"),
    ("an attempt always asks with low priority", "nodes.py", "LOW if self.active else HIGH", "LOW"),
    ("an active member may be told no", "nodes.py",
     "if sender not in self.active and priority == LOW", "if priority == LOW"),
    ("a new attempt keeps who was tried", "nodes.py",
     "self.tried = set()\n        if was_active", "pass\n        if was_active"),
    ("a walk of a shuffle goes back", "nodes.py",
     "left > 0 and len(self.active) > 1", "left > 0 and len(self.active) > 0"),
    ("a shuffle's answer gives nothing up", "nodes.py",
     "self.integrate(ids, given)\n\n    def on_shuffle_reply", "self.integrate(ids, ())\n\n    def on_shuffle_reply"),
    ("a shuffle's reply gives nothing up", "nodes.py", "self.integrate(ids, self.sent)", "self.integrate(ids, ())"),
    ("ids that are given up come again", "nodes.py", "for it in left if it", "for it in given if it"),
    ("the round does not grow", "nodes.py", "turn = min(turn + 1, LAST_ROUND)", "turn = min(turn, LAST_ROUND)"),
    ("a first GOSSIP makes nobody eager", "nodes.py",
     "self.make_eager(sender)\n\n    def on_ihave", "pass\n\n    def on_ihave"),
    ("a node is noted twice", "nodes.py", "if sender not in said:", "if True:"),
    ("a timer takes the last note", "nodes.py", "said.pop(0)", "said.pop()"),
    ("the notes of a lost neighbour stay", "nodes.py", "said.remove(other)", "pass"),
    ("a timer runs on after a GOSSIP", "nodes.py", "self.timers.discard(name)\n        turn", "turn"),
    ("GRAFT makes nobody eager", "nodes.py",
     'GRAFT of a message."""\n        self.make_eager(sender)', 'GRAFT of a message."""'),
    ("a second GOSSIP makes nobody lazy", "nodes.py", "self.make_lazy(sender)\n            self.send", "self.send"),
    ("an attempt goes on after a yes", "nodes.py",
     "self.asked, self.tried = None, set()\n            self.add_active(sender)", "self.add_active(sender)"),
    ("the notes of a message stay when it comes", "nodes.py", "self.notes.pop(name, None)", "pass"),
    ("an attempt waits for who crashed", "nodes.py", "if was_active or self.asked == crashed:", "if was_active:"),
    ("who leaves finds no place in the passive view", "nodes.py",
     "self.down(sender)\n        self.add_passive(sender)", "self.down(sender)"),
    ("who is left alone asks nobody", "nodes.py", " or (self.refill == ALONE and not self.active)", ""),
    ("who is left by one of several asks too", "nodes.py",
     "self.refill == ALWAYS or (self.refill == ALONE and not self.active)", "self.refill != NEVER"),
    ("DISCONNECT starts no attempt while one waits", "nodes.py",
     "if self.refill == ALWAYS or", "if self.asked is None and self.refill == ALWAYS or"),
    ("an attempt at DISCONNECT does not ask the sender", "nodes.py",
     "self.tried = set()\n            self.go_on()\n\n    def on_report",
     "self.tried = {sender}\n            self.go_on()\n\n    def on_report"),
    ("an attempt at DISCONNECT keeps who was tried", "nodes.py",
     "self.tried = set()\n            self.go_on()\n\n    def on_report", "self.go_on()\n\n    def on_report"),
    ("IHAVE goes back to the sender", "nodes.py", "sorted(self.lazy - {but})", "sorted(self.lazy)"),
    ("a contact is asked for before the id", "world.py",
     "demand(name not in self.nodes, USED_ID)\n        if contact is not None:\n            self.live(contact)",
     "if contact is not None:\n            self.live(contact)\n        demand(name not in self.nodes, USED_ID)"),
    ("a repeated packet goes first", "world.py", "append(self.packets[place])", "insert(0, self.packets[place])"),
    ("a link is held by one end", "world.py", " and a in live[b].active", ""),
    ("ones follow the words of a line", "scenario_run.py", "[0] * (WORDS", "[1] * (WORDS"),
    ("far is the last target", "connectivity.py", "next(node for node in targets if node not in cut)",
     "[node for node in targets if node not in cut][-1]"),
    ("pairs go by their first member downward", "connectivity.py",
     "self.group[:at] if a not", "self.group[:at][::-1] if a not"),
    ("each return at the end of a line is dropped", "scenario_lines.py", 'line[:-1] if line.endswith(b"\\r")',
     'line.rstrip(b"\\r") if line.endswith(b"\\r")'),
    ("a return at the end of a file is dropped", "scenario_lines.py",
     "lines + [last]", 'lines + [last.rstrip(b"\\r")]'),
    ("spaces before a payload are dropped", "scenario_lines.py", "(?: (.*))?", "(?: +(.*))?"),
    ("a block may have 65 sections", "scenario_lines.py", "< MOST_SECTIONS", "<= MOST_SECTIONS"),
    ("a block needs no end", "scenario_lines.py",
     "self.sections is None and at < self.last_end", "self.sections is None"),
    ("an analysis in a section may name workers", "scenario_lines.py", " and said[2:] == (None, None)", ""),
    ("parameters out of limits are fault 70", "scenario_lines.py",
     "are_in_limits(*given), at, 21)", "are_in_limits(*given), at)"),
    ("a link may go to itself", "scenario_lines.py", "if a >= b or", "if a > b or"),
    ("a link may occur twice", "scenario_lines.py", "(a, b) <= before", "(a, b) < before"),
]


def answers(folder):
    """Whether the reader in this folder gives the kept answer, for each kept input."""
    command = [sys.executable, "-c", ANSWER, "scenario", "graph"]
    run = subprocess.run(command, cwd=folder, capture_output=True, text=True)
    if run.returncode:
        # a reader that fails is noticed
        return {"all": False}
    return json.loads(run.stdout)


@contextlib.contextmanager
def copied():
    """The folder of a copy of the second opinion, with all that it reads."""
    with tempfile.TemporaryDirectory() as room:
        top, to = HERE.parent.parent, pathlib.Path(room)
        for part in ("bench/fuzz", "bench/study", "tools"):
            shutil.copytree(top / part, to / part, ignore=shutil.ignore_patterns("out"))
        yield to / "bench" / "fuzz"


def noticed(file, text, wrong):
    """How many kept inputs notice a wrong rule, or None if its text is not there once."""
    with copied() as folder:
        path = folder / file
        source = path.read_text()
        if source.count(text) != 1:
            return None
        path.write_text(source.replace(text, wrong))
        return sum(not is_same for is_same in answers(folder).values())


def main():
    with copied() as folder:
        right = answers(folder)
    if not all(right.values()):
        print(f"{sum(not it for it in right.values())} kept inputs have another answer without a wrong rule")
        return 1
    counts = []
    for what, file, text, wrong in RULES:
        counts.append(noticed(file, text, wrong))
        print("rule not found" if counts[-1] is None else f"{counts[-1]:5}", what, flush=True)
    print(f"{sum(bool(it) for it in counts)} of {len(RULES)} wrong rules are noticed, by {len(right)} inputs")
    return 1 if None in counts else 0


if __name__ == "__main__":
    sys.exit(main())
