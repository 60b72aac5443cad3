"""Says what `overlay analyse --names` should print, by docs/FORMATS.md: names, groups of names, and lines of names."""

import re

from connectivity import Analysis, Graph
from node_lists import group_of, id_of, without, words_of
from scenario_lines import Refused, read_graph, split_lines
from second_opinion import Answer, Certificate, graded, left_of

COMMENT = re.compile(rb" *# +([0-9]+) (.+)", re.DOTALL)


def names_of(data):
    """The names of nodes, of a graph file that says a graph: each by its id."""
    lines, found = split_lines(data), {}
    for comment, line in zip(lines, lines[1:]):
        match = COMMENT.fullmatch(comment)
        node = id_of(match[1]) if match else None
        said = words_of(line)
        if node is not None and said[:1] == [b"node"] and id_of(said[1]) == node:
            found[node] = match[2]
    return found


def components_of(graph, cut):
    """The components that the crash of a cut leaves, in the order of their lowest ids."""
    left, found = [node for node in graph.nodes if node not in cut], []
    while left:
        found.append(graph.side(left[0], set(cut)))
        left = [node for node in left if node not in found[-1]]
    return found


def lines_of(fields, graph, names):
    """The lines of names below the line of an answer."""
    if fields["verdict"] == "linked":
        return []

    def line(words, node):
        name = names.get(node)
        return f"{words} {node}" + (f" {name.decode(errors='backslashreplace')}" if name else "")

    components = components_of(graph, fields["cut"])
    largest = max(range(len(components)), key=lambda at: len(components[at]))
    lines = [line("cut", node) for node in fields["cut"]]
    lines += [line("near", fields["near"]), line("far", fields["far"])]
    lines.append(f"pieces {len(components)} sizes {','.join(str(len(it)) for it in components)}")
    return lines + [line(f"piece {at + 1}", node)
                    for at, it in enumerate(components) if at != largest for node in it]


def answer_named(data, text=None, has_certificate=False, gone=None, least=None):
    """What `overlay analyse --names` should print for the bytes of a graph file: for the text of a group, without the
    nodes that another text names, if there are such texts; and its status, if a least number is asked for."""
    try:
        graph = Graph(*read_graph(data))
        names = names_of(data)
        gone = group_of(gone, names, graph) or []
        group = group_of(text, names, graph)
    except Refused as fault:
        return Answer([], str(fault), 1)
    graph, group = without(graph, gone), left_of(group, gone)
    if not graph.nodes:
        return graded(["refused 30"], None, least)
    if group is not None and not graph.is_group(group):
        return graded(["refused 34"], None, least)
    found = Analysis(graph, graph.nodes if group is None else group)
    lines = [found.line(0), *lines_of(found.fields, graph, names)]
    lines += [Certificate(found.certificate(0))] if has_certificate else []
    return graded(lines, found.fields["k"], least)
