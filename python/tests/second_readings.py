"""Second readings of dumps, by other programs or in a few lines: the hosts of a dump and its links, or None if it can't
be read so. `READINGS` has one for some of `many_forms`, by name."""

import contextlib
import csv
import io
import json
import re
import shutil
import subprocess
import xml.etree.ElementTree as ElementTree

with contextlib.suppress(ImportError):
    import networkx
with contextlib.suppress(ImportError):
    import yaml

# What Graphviz' gvpr prints of a graph: each name, by its number of bytes, and both ends of each edge.
GVPR = 'N { printf("%d %s\\n", length($.name), $.name); }'
GVPR += ' E { printf("%d %d %s%s\\n", length($.tail.name), length($.head.name), $.tail.name, $.head.name); }'


def of_graph(pairs, hosts=()):
    """Hosts and links by pairs of names."""
    pairs = [tuple(it) for it in pairs]
    return {*hosts, *(it for pair in pairs for it in pair)}, {frozenset(it) for it in pairs if it[0] != it[1]}


def text_of(data):
    return data.decode("utf-8-sig")


def safely(reading):
    """A reading that gives None of what it can't read."""

    def read(data):
        try:
            return reading(text_of(data))
        except Exception:
            # what another reader makes of what is no dump is its own
            return None

    return read


def of_words(text):
    """The first two words of each line, but for comments."""
    # what is space to Python, and a part of a name to overlay
    assert not re.search("[\r\x1c-\x1f\x85\xa0\u2028]", text)
    lines = [re.sub(r"(^|\s)#.*", "", line).split() for line in text.split("\n")]
    return of_graph(line[:2] for line in lines if line)


def of_weights(text):
    """The same, where each line has a number too: other marks than # begin comments there, if a space follows."""
    return of_words(re.sub(r"^\s*(//|%|;|--)([ \t].*)?$", "", text.replace(",", " "), flags=re.MULTILINE))


def of_commas(text):
    """The same, where a comma may stand between two words."""
    return of_words(text.replace(",", " "))


def of_rows(between, one, other):
    """The columns of these names in rows of CSV."""

    def read(text):
        # what ends a line to Python's csv alone
        assert not re.search("\r(?!\n)", text)
        rows = list(csv.reader(io.StringIO(text, newline=""), delimiter=between, skipinitialspace=True))
        head = [it.strip().lower() for it in rows[0]]
        places = head.index(one), head.index(other)
        others = [row for row in rows[1:] if any(it.strip() for it in row) and row != rows[0]]
        ends = [[row[it].strip() for it in places] for row in others]
        return of_graph(ends)

    return read


def of_drawn(text):
    """The first two columns of a table that psql shows. A line of marks alone is a rule, and no row."""
    lines = [line for line in text.split("\n") if "|" in line and not re.fullmatch(r"[-+|:\s]*-[-+|:\s]*", line)]
    return of_graph([it.strip() for it in line.split("|")][:2] for line in lines[1:])


def of_lists(text):
    """Lines of a host, a colon, and those that it lists. A comma in front of the colon is a part of the name."""
    hosts, pairs = set(), []
    for line in text.split("\n"):
        host, *others = re.sub(r"(^|\s)#.*", "", line).split(None, 1) or [""]
        if host:
            assert host.endswith(":")
            hosts.add(host[:-1])
            pairs += [(host[:-1], it) for rest in others for it in rest.replace(",", " ").split()]
    return of_graph(pairs, hosts)


def of_xml(text):
    """Each element that is a node, and each that is an edge."""
    items = [(it.tag.rpartition("}")[2].lower(), it.attrib) for it in ElementTree.fromstring(text).iter()]
    hosts = [it["id"] for tag, it in items if tag == "node"]
    assert len(set(hosts)) == len(hosts)
    return of_graph([(it["source"], it["target"]) for tag, it in items if tag == "edge"], hosts)


def by_networkx(read):
    """What networkx reads."""

    def reading(text):
        graph = read(text)
        return of_graph([(str(a), str(b)) for a, b, *_ in graph.edges()], map(str, graph.nodes()))

    return reading


def of_pajek(text):
    """What networkx reads of Pajek, where each host has a name."""
    assert '""' not in text
    return networkx.parse_pajek(text)


def of_views(value):
    return of_graph([(host, str(it)) for host, peers in value.items() for it in peers or () if it is not None], value)


def of_json(text):
    """Views in JSON, with each key once."""
    pairs = json.loads(text, object_pairs_hook=list)
    assert len(dict(pairs)) == len(pairs)
    return of_views(dict(pairs))


def of_yaml(text):
    """Views in YAML, in which all scalars are texts."""
    value = yaml.load(text, Loader=yaml.BaseLoader)
    return of_views({host: [it for it in peers or () if it not in ("", "~", "null")] for host, peers in value.items()})


def of_dot(text):
    """What Graphviz reads, where it has nothing to tell."""
    program = shutil.which("gvpr")
    if not program or "%" in text:
        # Graphviz gives names of its own to nodes whose name begins with %
        return None
    ended = subprocess.run([program, GVPR], input=text.encode(), capture_output=True, timeout=20)
    if ended.returncode or ended.stderr:
        return None
    out, at, hosts, pairs = ended.stdout, 0, [], []
    while at < len(out):
        head = re.compile(rb"(\d+) (?:(\d+) )?").match(out, at)
        first, second = int(head[1]), int(head[2] or 0)
        begin = head.end()
        names = out[begin : begin + first], out[begin + first : begin + first + second]
        at = begin + first + second + 1
        (pairs if head[2] else hosts).append(tuple(it.decode() for it in names) if head[2] else names[0].decode())
    return of_graph(pairs, hosts)


def readings():
    """The readings that can be asked here, by the names of forms."""
    found = {
        **dict.fromkeys(("pairs", "tabs", "commas", "comments by #", "SNAP"), of_commas),
        **dict.fromkeys(("weights", "NCOL", "weights behind commas"), of_weights),
        **dict.fromkeys(("CSV", "CSV in quotes", "two tables one behind the other"), of_rows(",", "source", "target")),
        "CSV of Gephi": of_rows(";", "source", "target"),
        "psql": of_drawn,
        "lists behind colons": of_lists,
        **dict.fromkeys(("GraphML", "GraphML by ids", "GraphML of yEd", "GEXF 1.3", "XGMML"), of_xml),
        "JSON, views": of_json,
        **dict.fromkeys(("DOT", "DOT with directions", "DOT of tinc", "DOT with subgraphs"), of_dot),
        **dict.fromkeys(("strict DOT", "DOT with HTML"), of_dot),
    }
    if "yaml" in globals():
        found.update(dict.fromkeys(("YAML, lists", "YAML, items", "YAML without a head"), of_yaml))
    if "networkx" in globals():
        found["GML by ids"] = by_networkx(lambda text: networkx.parse_gml(text, label="id"))
        found["graph6"] = by_networkx(lambda text: networkx.from_graph6_bytes(text.strip().encode()))
        found["networkx, lists"] = by_networkx(lambda text: networkx.parse_adjlist(text.split("\n")))
        found["Pajek"] = by_networkx(of_pajek)
        found["LEDA"] = by_networkx(networkx.parse_leda)
    return {name: safely(read) for name, read in found.items()}


READINGS = readings()
