"""Reads lists of nodes, as `--group` and `--without` of `overlay analyse` take them, by docs/COMMANDS.md."""

from connectivity import Graph
from scenario_lines import Refused, Unreadable, number


def id_of(word):
    """The id that a word spells, or None."""
    try:
        return number(word)
    except Unreadable:
        return None


def words_of(line):
    """The words of a line."""
    return [part for part in line.split(b" ") if part]


def spelled(text):
    """The id that a text of one word spells, or None."""
    words = words_of(text)
    return id_of(words[0]) if len(words) == 1 else None


def node_of(part, names, graph):
    """The node that a part of the text of a group means. Refused if it means none, or two. Where a name spells an id,
    no part is an id."""
    named = [node for node, name in names.items() if name == part]
    if len(named) > 1:
        raise Refused("refused 85")
    if named:
        return named[0]
    node = spelled(part)
    if node not in graph.neighbours or any(spelled(name) is not None for name in names.values()):
        raise Refused("refused 84")
    return node


def group_of(text, names, graph):
    """The nodes that the text of a list names, in ascending order; none without a list."""
    if text is None:
        return None
    found = []
    for part in text.split(b","):
        node = node_of(part, names, graph)
        if node in found:
            raise Refused("refused 34")
        found.append(node)
    return sorted(found)


def without(graph, gone):
    """A graph without some of its nodes, and without their links."""
    return Graph([node for node in graph.nodes if node not in gone],
                 [link for link in graph.links if not {*link} & {*gone}])
