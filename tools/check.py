#!/usr/bin/env python3
"""check.py [--graph] [--large] [FILE]: says in one line whether a certificate file holds. Without FILE, or with -, it
reads standard input.

A second checker of certificate files, in plain Python (3.9 or later) and without packages. It was written from
docs/FORMATS.md and docs/CONNECTIVITY.md alone, and has no line of the Rattle checker. It prints the line of
overlay-check, and ends with its status: 0 if the certificate holds, 1 if it fails or the file is refused, 2 if the
arguments are wrong. One more line on standard error says why.

With --large it reads version 3 of these files too, and prints the line of overlay-check-large.

With --graph it prints the graph in the file, as a graph file: the nodes ascending, then the links ascending, a line
each. It does not ask then whether the certificate holds. If there is no graph to print, standard output gets nothing.
"""

import json
import os
import re
import sys
from math import isinf

USAGE = "usage: check.py [--graph] [--large] [FILE]"
OPTIONS = ("--graph", "--large")
LINKED = {"k", "links", "moment", "nodes", "verdict", "version"}
SPLIT = LINKED | {"cut", "fans", "far", "near", "pairs", "side"}
MOST_ID = 2**32 - 1
KEYS_OF_VERSION = {1: set(), 2: {"group"}, 3: {"group"}}
MOST_NODES = {1: 256, 2: 1024, 3: 32768}
LAST_MOMENT = {1: 65536, 2: 65536, 3: MOST_ID}
# The newest version that is read, without --large and with it.
NEWEST, NEWEST_LARGE = 2, 3
DEEPEST = 127
# The least number that is too large to be a float has so many digits.
LONG = 309
TEXT = re.compile(rb'"[^"\\]*(?:\\.[^"\\]*)*"')
NO_BRACKETS = bytes(set(range(256)) - set(b"[]{}"))


class Answer(Exception):
    """The first fault: the line that is printed, and why, in words."""

    def __init__(self, line, why):
        super().__init__(line)
        self.why = why


def demand(true, line, why):
    if not true:
        raise Answer(line, why)


# What JSON a text is


def no_json(why):
    return Answer("refused 60", f"the file is no JSON: {why}")


def no_number(word):
    raise no_json(f"it has {word} for a number")


def number(digits):
    """A number with a fraction or an exponent."""
    value = float(digits)
    if isinf(value):
        raise no_json("a number in it is too large")
    return value


def whole_number(digits):
    """A number without these. What begins with a minus, -0 too, is no whole number of the format."""
    value = number(digits)
    return int(digits) if digits.isdigit() else value


def is_deep(data):
    """Whether lists and objects are nested too deep in a text that is JSON."""
    brackets = TEXT.sub(b"", data).translate(bytes.maketrans(b"{}", b"[]"), NO_BRACKETS)
    for _ in range(DEEPEST):
        # the innermost ones go
        brackets = brackets.replace(b"[]", b"")
    return bool(brackets)


def demand_signs(data):
    """Demands of a text that is JSON that no string in it has half of a surrogate pair."""
    if b"\\u" not in data:
        return
    for text in TEXT.findall(data):
        try:
            json.loads(text).encode()
        except UnicodeEncodeError:
            raise no_json("a string in it has half of a surrogate pair") from None


def read(data):
    """The value that bytes have as JSON."""
    # int alone is faster, and right where no number has a minus or many digits
    is_plain = b"-" not in data and b"0" * LONG not in data.translate(bytes.maketrans(b"123456789", b"0" * 9))
    try:
        value = json.loads(data.decode(), parse_int=int if is_plain else whole_number, parse_float=number,
                           parse_constant=no_number)
    except UnicodeDecodeError as why:
        raise Answer("refused 60", f"the file is not UTF-8 from byte {why.start + 1} on") from None
    except RecursionError:
        raise no_json(f"it is nested deeper than {DEEPEST}") from None
    except json.JSONDecodeError as why:
        raise no_json(f"line {why.lineno}, column {why.colno}" if data else "it is empty") from None
    if is_deep(data):
        raise no_json(f"it is nested deeper than {DEEPEST}")
    demand_signs(data)
    return value


# What form the values have


def whole(most):
    return lambda x: type(x) is int and x <= most


def listed(is_item):
    return lambda x: type(x) is list and all(map(is_item, x))


def entry(*names):
    forms = dict(dict.fromkeys(names, is_id), paths=listed(is_ids))
    return lambda x: type(x) is dict and x.keys() == forms.keys() and all(form(x[key]) for key, form in forms.items())


is_id = whole(MOST_ID)
is_ids = listed(is_id)
ID = f"a whole number from 0 to {MOST_ID}"
IDS = "a list of ids"
ENTRIES = "a list of objects with {}, and paths, a list of lists of ids, and nothing else"
FORMS = {
    "cut": (is_ids, IDS),
    "fans": (listed(entry("j")), ENTRIES.format("j, an id")),
    "far": (is_id, ID),
    "group": (is_ids, IDS),
    "k": (is_id, ID),
    "links": (listed(lambda x: is_ids(x) and len(x) == 2), "a list of lists of exactly two ids"),
    "near": (is_id, ID),
    "nodes": (is_ids, IDS),
    "pairs": (listed(entry("i", "j")), ENTRIES.format("i and j, ids")),
    "side": (is_ids, IDS),
}


def form_of(key, version):
    """The form of a key in files of this version, and its words."""
    if key == "moment":
        last = LAST_MOMENT[version]
        return whole(last), f"a whole number from 0 to {last}"
    return FORMS[key]


def judge_form(c, newest):
    """Demands that a value has the keys and the forms of a certificate file, up to the newest version."""
    demand(type(c) is dict, "refused 63", "the file is no JSON object")
    demand("version" in c, "refused 61", "the key version is missing")
    demand(type(c["version"]) is int and 1 <= c["version"] <= newest, "refused 64",
           f"the version is no whole number from 1 to {newest}")
    demand("verdict" in c, "refused 61", "the key verdict is missing")
    demand(c["verdict"] in ("linked", "split"), "refused 63", "the verdict is neither linked nor split")
    keys = (LINKED if c["verdict"] == "linked" else SPLIT) | KEYS_OF_VERSION[c["version"]]
    demand(keys <= c.keys(), "refused 61", f"the key {min(keys - c.keys(), default=None)} is missing")
    demand(c.keys() <= keys, "refused 62",
           f"{c['verdict']} in version {c['version']} has no key {min(c.keys() - keys, default=None)!a}")
    for key in sorted(keys - {"verdict", "version"}):
        is_form, words = form_of(key, c["version"])
        demand(is_form(c[key]), "refused 63", f"the value of {key} is not {words}")


def ascends(items):
    return all(a < b for a, b in zip(items, items[1:]))


def judge_graph(nodes, links, most):
    """Demands that nodes and links are those of a graph, in their order."""
    demand(len(nodes) <= most, "refused 31", f"the graph has {len(nodes)} nodes, and may have {most}")
    demand(ascends(nodes), "refused 32", "the nodes do not ascend")
    known = set(nodes)
    for place, (a, b) in enumerate(links):
        demand(a < b and a in known and b in known, "refused 33", f"[{a},{b}] is no link from a node to a higher one")
        demand(place == 0 or links[place - 1] < [a, b], "refused 32", f"[{a},{b}] is not above the link before it")


def read_file(data, newest):
    """What the bytes of a certificate file say, where this is the newest version that is read."""
    c = read(data)
    judge_form(c, newest)
    judge_graph(c["nodes"], c["links"], MOST_NODES[c["version"]])
    return c


# Whether the certificate holds


def fault_of_paths(paths, k, source, targets, neighbours, shared):
    """Why these are not k paths from the source to targets, of which no two have a node in common but those of
    `shared`; None if they are."""
    if len(paths) != k:
        return f"the number of paths is {len(paths)}, and k is {k}"
    met = set()
    for place, path in enumerate(paths):
        if not path or path[0] != source or path[-1] not in targets:
            return f"paths[{place}] does not lead from {source} to where it should"
        for a, b in zip(path, path[1:]):
            if b not in neighbours.get(a, ()):
                return f"paths[{place}] goes from {a} to {b}, and there is no such link"
        inner = set(path)
        if len(inner) != len(path):
            return f"paths[{place}] has a node twice"
        inner -= shared
        if not met.isdisjoint(inner):
            return f"paths[{place}] meets a path before it at the node {min(met & inner)}"
        met |= inner
    return None


def judge_linked(c, group, neighbours):
    demand(c["k"] == len(group) - 1, "fails 40", f"k is {c['k']}, and must be one less than {len(group)} members")
    members = set(group)
    for a in group:
        strangers = members - neighbours[a] - {a}
        demand(not strangers, "fails 46", f"{a} is not linked to {min(strangers, default=None)}")


def judge_cut(c, nodes, group, neighbours):
    """Demands that the crash of the cut separates near from far."""
    k, near, far, cut, side = c["k"], c["near"], c["far"], set(c["cut"]), set(c["side"])
    demand(len(c["cut"]) == k, "fails 40", f"k is {k}, and the cut has {len(c['cut'])} nodes")
    demand(ascends(c["cut"]), "fails 41", "the cut does not ascend")
    demand(cut <= set(nodes), "fails 41", "the cut has an id that is no node")
    rest = set(nodes) - cut
    demand({near, far} <= rest & set(group), "fails 42", "near or far is no member that survives the crash of the cut")
    demand(ascends(c["side"]), "fails 42", "the side does not ascend")
    demand(side <= rest, "fails 42", "the side has an id that is no node outside the cut")
    demand(near in side, "fails 42", f"near, {near}, is not on the side")
    demand(far not in side, "fails 42", f"far, {far}, is on the side")
    for a in c["side"]:
        out = neighbours[a] - side - cut
        demand(not out, "fails 42", f"the link of {a} and {min(out, default=None)} leaves the side, not into the cut")


def judge_paths(c, group, neighbours):
    """Demands that the paths are those of Even's test."""
    k = c["k"]
    pairs = [(i, j) for place, j in enumerate(group[:k]) for i in group[:place] if i not in neighbours[j]]
    for place, (i, j) in enumerate(pairs):
        line, whose = f"fails 43 {i} {j}", f"of the pair of {i} and {j}"
        demand(place < len(c["pairs"]), line, f"the paths {whose} are missing")
        found = c["pairs"][place]
        demand((found["i"], found["j"]) == (i, j), line, f"pairs[{place}] is not {whose}")
        why = fault_of_paths(found["paths"], k, i, {j}, neighbours, {i, j})
        demand(why is None, line, f"{whose[3:]}: {why}")
    fans = group[k:] if k > 0 else []
    earlier = set(group[:k])
    for place, j in enumerate(fans):
        line, whose = f"fails 44 {j}", f"of the fan of {j}"
        demand(place < len(c["fans"]), line, f"the paths {whose} are missing")
        found = c["fans"][place]
        demand(found["j"] == j, line, f"fans[{place}] is not {whose}")
        why = fault_of_paths(found["paths"], k, j, earlier, neighbours, {j})
        demand(why is None, line, f"{whose[3:]}: {why}")
        earlier.add(j)
    demand(len(c["pairs"]) == len(pairs) and len(c["fans"]) == len(fans), "fails 45",
           f"there must be {len(pairs)} pairs and {len(fans)} fans, and there are more")


def words(ids):
    return ",".join(map(str, ids)) or "-"


def judge(data, newest=NEWEST):
    """The line for the bytes of a certificate that holds. Any other raises Answer."""
    c = read_file(data, newest)
    nodes = c["nodes"]
    demand(nodes, "fails 47", "the graph has no node")
    group = c.get("group", nodes)
    demand(group and ascends(group) and set(group) <= set(nodes), "fails 49",
           "the group is not one node or more of the graph, ascending")
    neighbours = {a: set() for a in nodes}
    for a, b in c["links"]:
        neighbours[a].add(b)
        neighbours[b].add(a)
    line = f"holds {c['moment']} {c['verdict']} k {c['k']}"
    if c["verdict"] == "linked":
        judge_linked(c, group, neighbours)
    else:
        judge_cut(c, nodes, group, neighbours)
        judge_paths(c, group, neighbours)
        line += f" cut {words(c['cut'])} near {c['near']} far {c['far']} side {words(c['side'])}"
    return line if group == nodes else f"{line} group {words(group)}"


def graph_file(data, newest):
    """The graph in the bytes of a certificate file, as the text of a graph file."""
    c = read_file(data, newest)
    return "".join([f"node {a}\n" for a in c["nodes"]] + [f"link {a} {b}\n" for a, b in c["links"]])


# The command


def write(text, to):
    """Writes a text on standard output, 1, or standard error, 2."""
    left = text.encode(errors="backslashreplace")
    while left:
        left = left[os.write(to, left):]


def tell(*lines):
    """Writes lines on standard error. If it is closed or full, they are lost."""
    try:
        write("".join(f"{line}\n" for line in lines), 2)
    except OSError:
        pass


def bytes_of(file):
    if file == "-":
        with open(0, "rb", closefd=False) as opened:
            return opened.read()
    with open(file, "rb") as opened:
        return opened.read()


def answer(data, has_graph, newest):
    """What is printed on standard output, the lines on standard error, and the status."""
    try:
        return graph_file(data, newest) if has_graph else f"{judge(data, newest)}\n", [], 0
    except Answer as fault:
        if has_graph:
            return "", [fault, fault.why], 1
        return f"{fault}\n", [fault.why], 1


def main(arguments):
    if arguments in (["--help"], ["-h"]):
        write(__doc__, 1)
        return 0
    files, asked = list(arguments), []
    while files and files[0] in OPTIONS and files[0] not in asked:
        asked.append(files.pop(0))
    if len(files) > 1 or (files and files[0].startswith("-") and files[0] != "-"):
        tell(USAGE, "more than one file is named" if len(files) > 1 else f"there is no option {files[0]}")
        return 2
    file = files[0] if files else "-"
    try:
        data = bytes_of(file)
    except OSError as why:
        tell("refused 71", f"{'standard input' if file == '-' else ascii(file)} can't be read: {why.strerror}")
        return 1
    printed, lines, status = answer(data, "--graph" in asked, NEWEST_LARGE if "--large" in asked else NEWEST)
    try:
        write(printed, 1)
    except OSError as why:
        tell("refused 72", f"writing failed: {why.strerror}")
        return 1
    tell(*lines)
    return status


if __name__ == "__main__":
    try:
        sys.exit(main(sys.argv[1:]))
    except MemoryError:
        tell("refused 99", "out of memory")
        sys.exit(1)
    except KeyboardInterrupt:
        sys.exit(130)
