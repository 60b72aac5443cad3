#!/usr/bin/env python3
"""heavy_dumps.py [--quick] [--command NAME] [--only REGEX]: dumps below 1 MB that ask for much time or memory.

Each is read by a process of its own, by `import` or the command that is named. Shown are the seconds of processor that
this took, with all programs that it began, and the bytes of memory of that process which had most. The status is 1 if
one took more than a dump may, or ended by a traceback. With `--quick` those are tried that `bin/test` tries: small
ones, and the worst. TAGZIRK_OVERLAY and TAGZIRK_OVERLAY_CHECK name the programs.
"""

import argparse
import concurrent.futures
import gzip
import json
import os
import pathlib
import random
import re
import resource
import subprocess
import sys
import tempfile
from typing import NamedTuple

# What any dump below so many bytes may take: seconds of processor, of a command with its programs; and bytes of memory,
# of each of these.
SIZE, MOST_SECONDS, MOST_MEMORY = 1_000_000, 10, 200_000_000
# Letters of small ones.
MANY = 200_000
RUN = "import sys; from tagzirk.command import main; sys.exit(main(sys.argv[1:]))"
PACKAGE = pathlib.Path(__file__).resolve().parent.parent


class Cost(NamedTuple):
    """What a command took, its status, and what it said on standard error."""

    seconds: float
    memory: int
    status: int
    told: str


def filled(before, piece, behind="", size=SIZE):
    """A text of nearly so many bytes: a piece again and again, or what is made of 0, 1, 2 and so on."""
    parts, left, at = [], size - len(before.encode()) - len(behind.encode()), 0
    if isinstance(piece, str):
        return before + piece * (left // len(piece.encode())) + behind
    while True:
        part = piece(at)
        left -= len(part.encode())
        if left < 0:
            return before + "".join(parts) + behind
        parts.append(part)
        at += 1


def pairs(line, hosts=1000, seed=1):
    """Lines of two hosts by chance, which make a graph that can be analysed."""
    chance = random.Random(seed)
    return filled("", lambda _: line.format(chance.randrange(hosts), chance.randrange(hosts)))


def short_name(at):
    """A name of one letter or two for each number up to 1,023."""
    return chr(ord("a") + at % 26) + (chr(ord("A") + at // 26) if at >= 26 else "")


def pairs_of_letters(hosts):
    """All pairs of so many hosts, as far as there is room."""
    every = (f"{short_name(a)} {short_name(b)}\n" for b in range(hosts) for a in range(b))
    return filled("", lambda _: next(every, "#\n"))


def matrix(count, cell, between=" "):
    rows = (between.join("0" if a == b else cell(a, b) for b in range(count)) for a in range(count))
    return "\n".join(rows) + "\n"


def nested(begin, inner, end, deep):
    return begin * deep + inner + end * deep


LINES = {
    "a line of many equal words": lambda: filled("", "x "),
    "a line of many words": lambda: filled("", "w{} ".format),
    "a line of many numbers": lambda: filled("", "1 "),
    "a line of many words, with commas": lambda: filled("", "x,"),
    "a line of many words, with semicolons": lambda: filled("a", ";x"),
    "a line of many addresses": lambda: filled("10.0.0.1 ", lambda at: f"10.{at >> 8 & 255}.1.{at & 255} "),
    "a list of many equal words": lambda: filled("x:", " x"),
    "a list of many words": lambda: filled("x:", " w{}".format),
    "a list of many words, with commas": lambda: filled("x: ", "w{},".format),
    "many lines of one letter": lambda: filled("", "a\n"),
    "many lines of one word": lambda: filled("", "w{}\n".format),
    "many lines of a list of nobody": lambda: filled("", "w{}:\n".format),
    "many lines of a short list": lambda: filled("", lambda at: f"w{at}: w{at + 1}\n"),
    "many lines that list one of few": lambda: filled("", lambda at: f"w{at}: x\n"),
    "many equal links": lambda: filled("", "a b\n"),
    "many links of a chain": lambda: filled("", lambda at: f"{at} {at + 1}\n"),
    "many links of a star": lambda: filled("", "a {}\n".format),
    "many links of some hosts": lambda: pairs("n{} n{}\n"),
    "all links of many hosts": lambda: pairs_of_letters(550),
    "many links with numbers": lambda: pairs("n{} n{} 1\n"),
    "many links with different numbers": lambda: filled("", "a b {}\n".format),
    "many links with semicolons": lambda: pairs("{};{};3\n"),
    "many arrows": lambda: pairs("{} -> {}\n"),
    "a chain of arrows": lambda: filled("a", "->a"),
    "a chain of many arrows": lambda: filled("n", "->n{}".format),
    "a chain of arrows with spaces": lambda: filled("a", " -- b"),
    "arrows alone": lambda: filled("", "-> "),
    "many links in brackets": lambda: pairs("({}, {})\n"),
    "many links in quotes": lambda: pairs('"n{}","n{}"\n'),
    "quotes that are not closed": lambda: filled("", 'a "b\n'),
    "a quote that is not closed": lambda: filled('source,target\na,b\n"', "a,b\n"),
    "quotes": lambda: filled("", '"'),
    "quotes of nothing": lambda: filled("", '"" '),
    "quotes of one letter": lambda: filled("", '"a" '),
    "comments alone": lambda: filled("", "# x\n"),
    "different comments": lambda: filled("a b\n", "# w{}\n".format),
    "marks of comments": lambda: filled("a b\n", "#\n"),
    "a comment behind each link": lambda: filled("", "a b # w{}\n".format),
    "a comment of many marks": lambda: filled("a b\n", "#"),
    "attributes behind each link": lambda: filled("", "a b {{'x': {}}}\n".format),
    "attributes that are torn": lambda: filled("", "a b {x}\n"),
    "attributes of many fields": lambda: filled("a b {'x': 1", ", 'w{}': 1".format, "}\n"),
    "attributes in one another": lambda: "a b " + "{1:" * 2000 + "1" + "}" * 2000 + "\n",
    "empty lines": lambda: filled("", "\n"),
    "empty lines, and a link": lambda: filled("", "\n", "a b\n"),
    "blank lines": lambda: filled("", " \t\r\n", "a b\n"),
    "spaces": lambda: filled("a", " ", "b"),
    "one long word": lambda: filled("", "a"),
    "two long words": lambda: f"{'a' * (SIZE // 2 - 9)} {'b' * (SIZE // 2 - 9)}\n",
    "a long word of dots": lambda: filled("a b\nb ", "a."),
    "a long word of colons": lambda: filled("a b\nb ", "a:"),
    "long words of dots": lambda: filled("", lambda at: f"{'a.' * 999}{at} b\n"),
    "one letter that is many": lambda: filled("a b\nb ", "\ufdfa"),
    "addresses and names": lambda: filled("", lambda at: f"10.0.{at >> 8 & 255}.{at & 255} w{at}\n"),
    "pairs of addresses": lambda: filled("", lambda at: f"10.0.0.{at & 255} 10.0.1.{at & 255}\n"),
    "hosts and settings": lambda: filled("", "w{} a=b\n".format),
    "a host and many settings": lambda: filled("w", " a=b"),
    "KONECT": lambda: filled("% sym\n", "1 2 3\n"),
    "METIS": lambda: filled("90000 0\n", "\n"),
    "METIS, a ring": lambda: "70000 70000\n" + "".join(
        f"{(at - 1) % 70000 + 1} {(at + 1) % 70000 + 1}\n" for at in range(70000)),
    "METIS, one list": lambda: filled("2 1\n", "2 ", "\n1\n"),
    "LGL": lambda: filled("", "# w{}\nx\n".format),
    "lists of many lines": lambda: filled("", "w{} 1\nx\n".format),
    "one list of many lines": lambda: filled("a 249990\n", "w{}\n".format),
    "a matrix, all linked": lambda: matrix(690, lambda a, b: "1"),
    "a matrix of different values": lambda: matrix(400, lambda a, b: f"{a * b}"),
    "a matrix of one row": lambda: filled("", "0 "),
    "a matrix with directions": lambda: matrix(690, lambda a, b: str(int(a < b))),
    "graph6 of 1024 hosts, all linked": lambda: graph6(1024, "~"),
    "graph6 of 440 hosts, all linked": lambda: graph6(440, "~"),
    "graph6 of many hosts, without links": lambda: graph6(3400, "?"),
    "graph6 of 1024 hosts, half linked": lambda: graph6(1024, "DgQM"),
    "TGF": lambda: filled("1 a\n2 b\n#\n", "1 2 w{}\n".format),
    "TGF, many hosts": lambda: filled("", "{} a\n".format, "#\n1 2\n"),
    "TGF, many ends": lambda: filled("1 a\n", "#\n"),
}


def graph6(count, text):
    """graph6 of so many hosts, whose bits are a text again and again."""
    bits = (count * (count - 1) // 2 + 5) // 6
    number = "".join(chr((count >> at & 63) + 63) for at in (12, 6, 0))
    # what is behind the last link is zero
    return f"~{number}{(text * (bits // len(text) + 1))[:bits - 1]}?\n"


TABLES = {
    "CSV": lambda: "source,target\n" + pairs("n{},n{}\n")[:-99],
    "CSV with a field": lambda: filled("source,target,x\n", "a,b,{}\n".format),
    "CSV with a field of words": lambda: filled("source,target,x\n", "a,b,up w{}\n".format),
    "CSV with a field of times": lambda: filled(
        "source,target,seen\n", lambda at: f"a,b,2026-01-01T{at // 3600 % 24:02}:{at // 60 % 60:02}:{at % 60:02}Z\n"),
    "CSV with a field of spans": lambda: filled("source,target,rtt\n", "a,b,{} ms\n".format),
    "CSV with a field of moments": lambda: filled("source,target,at\n", lambda at: f"a,b,{1764493200 + at}\n"),
    "CSV of many columns": lambda: filled("source,target", ",w{}".format, "\na,b\n"),
    "CSV of many equal columns": lambda: filled("source,target", ",x", "\na,b\n"),
    "CSV of many columns without names": lambda: filled("source,target", ",", "\na,b\n"),
    "CSV of many columns and cells": lambda: square(300),
    "CSV of some columns and many rows": lambda: filled("source,target,a,b,c,d,e,f,g,h\n", "a,b,1,2,3,4,5,6,7,8\n"),
    "CSV of short rows": lambda: filled("source,target,a,b,c,d\n", "a,b\n"),
    "CSV of many columns and a row": lambda: "source,target" + "," * 480000 + "\na,b" + ",1" * 240000 + "\n",
    "CSV without a header, of many columns": lambda: filled("a,b", ",{}".format, "\n"),
    "CSV of a host again and again": lambda: filled("host,peers,x\n", "a,b,{}\n".format),
    "CSV of many cells in a row": lambda: filled("source,target\na,b", ","),
    "CSV of many peers in a cell": lambda: filled('host,peers\na,"', "w{},".format, '"\n'),
    "CSV of many equal peers in a cell": lambda: filled("host,peers\na,", "b;"),
    "CSV of listings": lambda: filled("host,peer\n", "w{},x\n".format),
    "CSV of headers": lambda: filled("source,target\na,b\n", "source,target\n"),
    "CSV, a text of many words": lambda: filled("source,target,x\na,b,", "up "),
    "CSV, different texts of many words": lambda: filled("source,target,x\n", lambda at: f"a,b,{'up ' * 200}{at}\n"),
    "CSV of empty rows": lambda: filled("source,target\na,b\n", ",\n"),
    "CSV in quotes": lambda: filled("source,target,x\n", '"a","b",""""\n'),
    "psql": lambda: filled(" source | target\n--------+--------\n", " a | b\n"),
    "psql of rules": lambda: filled(" source | target\n--------+--------\n", "---+---\n"),
    "psql of many columns": lambda: filled("source|target", "|w{}".format, "\n---+---\n"),
    "psql of one rule": lambda: filled(" source | target\n", "-+"),
    "psql of many footers": lambda: filled(" source | target\n-----+----\n a | b\n", "(1 row)\n"),
    "psql of many titles": lambda: filled("", "w{}\n".format, " source | target\n-----+-----\n a | b\n"),
    "mysql": lambda: filled("+---+---+\n| source | target |\n+---+---+\n", "| a | b |\n"),
    "frames": lambda: filled("│ source │ target │\n├──┼──┤\n", "│ a │ b │\n"),
    "GDF": lambda: filled("nodedef>name\na\nb\nedgedef>node1,node2,w\n", "a,b,{}\n".format),
    "GDF of many columns": lambda: filled("nodedef>name", ",w{}".format, "\na\n"),
}


def square(count):
    head = ",".join(f"w{at}" for at in range(count))
    cells = (",".join(str(at * it % 997) for it in range(count)) for at in range(SIZE))
    rows = filled("", lambda _: f"a,b,{next(cells)}\n", "", SIZE - 9999)
    return f"source,target,{head}\n{rows}"


GRAPHS = {
    "XML of many nodes": lambda: filled("<graphml><graph>", '<node id="{}"/>'.format, "</graph></graphml>"),
    "XML of many edges": lambda: filled(
        '<graphml><graph><node id="a"/><node id="b"/>', '<edge source="a" target="b"/>', "</graph></graphml>"),
    "XML of many attributes": lambda: filled('<graphml><graph><node id="a"', ' a{}=""'.format, "/></graph></graphml>"),
    "XML of many attributes of nodes": lambda: filled(
        "<graphml><graph>", lambda at: f"<node id='{at}' " + "".join(f"a{it}='' " for it in range(70)) + "/>",
        "</graph></graphml>"),
    "XML of many spaces of names": lambda: filled(
        '<graphml xmlns:a="x"', ' xmlns:a{}=""'.format, "><graph/></graphml>"),
    "XML of many fields": lambda: filled('<graphml><graph><node id="a">', '<data key="k{}">1</data>'.format,
                                         "</node></graph></graphml>"),
    "XML of many values of a field": lambda: filled(
        '<graphml><graph><node id="a">', '<data key="k">xxxxxxxxxxxxxxx</data>', "</node></graph></graphml>"),
    "XML of declared fields": lambda: filled("<graphml>", '<key id="k{}" for="all"/>'.format, "<graph/></graphml>"),
    "XML of defaults": lambda: filled("<graphml>", lambda at: f'<key id="k{at}" for="node"><default>1</default></key>',
                                      '<graph>{}</graph></graphml>'.format("<node id='a'/>"), SIZE // 2),
    "XML of defaults of many nodes": lambda: "<graphml>" + filled(
        "", lambda at: f'<key id="k{at}" for="node"><default>1</default></key>', "", SIZE // 2) + filled(
        "<graph>", "<node id='{}'/>".format, "</graph></graphml>", SIZE // 2 - 99),
    "XML of a long element": lambda: filled(
        "<graphml><graph><" + "a" * (SIZE // 2), " b{}='1'".format, "/></graph></graphml>"),
    "XML of long elements": lambda: "<graphml><graph>" + "<{0}><b>".format("a" * (SIZE // 4)) + filled(
        "", "<node id='{}'/>".format, "", SIZE // 4) + "</b></{0}></graph></graphml>".format("a" * (SIZE // 4)),
    "XML of a long field": lambda: filled(
        "<graphml><key id='k' for='node' attr.name='" + "a" * (SIZE // 2) + "'/><graph><node id='a'><data key='k'",
        " b{}='1'".format, ">1</data></node></graph></graphml>"),
    "XML of comments": lambda: filled("<graphml><graph>", "<!--x-->", "</graph></graphml>"),
    "XML of one comment": lambda: filled("<graphml><graph><!--", "x ", "--></graph></graphml>"),
    "XML of elements": lambda: filled("<graphml><graph>", "<a/>", "</graph></graphml>"),
    "XML of different elements": lambda: filled("<graphml><graph>", "<a{}/>".format, "</graph></graphml>"),
    "XML of texts": lambda: filled("<graphml><graph>", "<a>x</a>", "</graph></graphml>"),
    "XML of a text": lambda: filled("<graphml><graph><node id='a'><data>", "&lt;", "</data></node></graph></graphml>"),
    "XML of lines": lambda: filled("<graphml><graph>", "\n", "</graph></graphml>"),
    "XML of instructions": lambda: filled("<graphml><graph>", "<?a b?>", "</graph></graphml>"),
    "XML of marks": lambda: filled("<graphml>", "<"),
    "XML nested, with nodes": lambda: filled(
        "<graphml><graph>" + "<a>" * 90, "<node id='{}'/>".format, "</a>" * 90 + "</graph></graphml>"),
    "XML of a long name": lambda: filled("<graphml><graph><node id='", "a", "'/></graph></graphml>"),
    "XML before it begins": lambda: filled("", " ", "<graphml/>"),
    "GEXF": lambda: filled(
        "<gexf><graph><nodes/><edges>", "<edge id='{}' source='a' target='b'/>".format, "</edges></graph></gexf>"),
    "GML of many nodes": lambda: filled("graph [ ", "node [ id {} ] ".format, "]"),
    "GML of many edges": lambda: filled("graph [ node [ id 1 ] ", "edge [ source 1 target 1 ] ", "]"),
    "GML of one node": lambda: filled("graph [ node [ id 1 ", "a{} 1 ".format, "] ]"),
    "GML of one key": lambda: filled("graph [ node [ id 1 ", "a 1 ", "] ]"),
    "GML of lists in one another": lambda: filled(
        "graph [ node [ id 1 " + "a [ " * 90, "a{} 1 ".format, "] " * 90 + "] ]"),
    "GML of comments": lambda: filled("graph [ ", "#x\n", "]"),
    "GML of a text": lambda: filled('graph [ node [ id 1 a "', "&lt;", '" ] ]'),
    "GML of long keys in one another": lambda: "graph [ node [ id 1 " + nested(
        "a" * 9000 + " [ ", "".join(f"b{it} 1 " for it in range(9000)), "] ", 90) + "] ]",
    "Pajek of edges": lambda: filled("*Vertices 2\n1 a\n2 b\n*Edges\n", "1 2\n"),
    "Pajek of many hosts": lambda: filled("*Vertices 100000\n", "\n"),
    "Pajek of a list": lambda: filled("*Vertices 2\n1 a\n2 b\n*Edgeslist\n1", " 2"),
    "Pajek of a host of many words": lambda: filled("*Vertices 1\n1 a", " w{}".format),
    "Pajek of sections": lambda: filled("*Vertices 2\n1 a\n2 b\n", "*Edges\n"),
    "LEMON": lambda: filled("@nodes\nlabel\na\nb\n@edges\n", "a b\n"),
    "LEMON of many columns": lambda: filled("@nodes\nlabel", " w{}".format, "\n1\n"),
    "LEDA": lambda: filled("LEDA.GRAPH\nstring\nint\n-2\n2\n|{a}|\n|{b}|\n1\n", "1 2 0 |{}|\n"),
    "DIMACS": lambda: filled("p edge 2 166660\n", "e 1 2\n"),
    "DIMACS of comments": lambda: filled("", "c w{}\n".format, "p edge 2 1\ne 1 2\n"),
    "Matrix Market": lambda: filled("%%MatrixMarket matrix coordinate pattern general\n2 2 249980\n", "1 2\n"),
    "Graphviz, plain": lambda: filled("graph 1 2 3\n", "node {} 1 2 3 4 a b c d e\n".format, "stop\n"),
    "Mermaid": lambda: filled("graph TD\n", "a-->b\n"),
    "Mermaid of a chain": lambda: filled("graph TD\na", "-->a"),
    "Mermaid of many nodes": lambda: filled("graph TD\n", "a{}[b]\n".format),
    "Mermaid of many shapes": lambda: filled("graph TD\na", "[b]"),
    "Mermaid of &": lambda: filled("graph TD\na", " & a"),
    "Mermaid of many &": lambda: filled("graph TD\n", " & ".join("ab" * 75) + "-->" + " & ".join("cd" * 75) + "\n"),
    "Mermaid of a long shape": lambda: filled("graph TD\na[", "/", "x] --> b\n"),
    "Mermaid of open shapes": lambda: filled("graph TD\n", "a["),
    "DOT of edges": lambda: filled("graph {", "a--b;", "}"),
    "DOT of nested nodes, with directions": lambda: filled("digraph {" + "{" * 90, "a{}->a;".format, "}" * 91),
    "DOT of a subgraph again, with directions": lambda: filled(
        "digraph {subgraph x {" + "->".join(f"a{it}" for it in range(60000)) + "}", "subgraph x{};", "}"),
    "DOT of some hosts": lambda: "graph {" + pairs("n{}--n{};")[:-99] + "}",
    "DOT of ports": lambda: filled("graph {", "a:p--b:q;", "}"),
    "DOT of different ports": lambda: filled("graph {", "a:p{}--b:q:n;".format, "}"),
    "DOT of a chain": lambda: filled("graph {a", "--a", "}"),
    "DOT of nodes": lambda: filled("graph {", "a{};".format, "}"),
    "DOT of attributes": lambda: filled("graph {a--b[", "x{}=1,".format, "]}"),
    "DOT of attributes of edges": lambda: filled("graph {", "a--b[w={}];".format, "}"),
    "DOT of brackets": lambda: filled("graph {a--b", "[]", "}"),
    "DOT of subgraphs": lambda: filled("graph {", "{{a{}}}".format, "}"),
    "DOT of subgraphs as ends": lambda: filled("graph {", "{{a b c d e f}}--{{g h i j k}};".format(), "}"),
    "DOT of nested nodes": lambda: filled("graph {" + "{" * 99, "a{};".format, "}" * 99 + "}"),
    "DOT of named subgraphs": lambda: filled("graph {", "subgraph s{}{{}}".format, "}"),
    "DOT of a subgraph again": lambda: filled(
        "graph {subgraph x{" + ";".join(f"a{it}" for it in range(60000)) + "}", "subgraph x;", "}"),
    "DOT of defaults": lambda: filled(
        "graph {" + ";".join(f"a{it}" for it in range(60000)) + ";", "node[x=1];", "}"),
    "DOT of defaults in a subgraph": lambda: filled(
        "graph {" + ";".join(f"a{it}" for it in range(30000)) + ";{" + ";".join(f"a{it}" for it in range(30000)) + ";",
        "node[x=1];", "}}"),
    "DOT of many defaults": lambda: filled(
        "graph {node[" + ",".join(f"x{it}=1" for it in range(100)) + "];", "a{};".format, "}"),
    "DOT of many defaults of edges": lambda: filled(
        "graph {edge[" + ",".join(f"x{it}=1" for it in range(100)) + "];", "a--b;".format, "}"),
    "DOT of many defaults of subgraphs": lambda: filled(
        "graph {node[" + ",".join(f"x{it}=1" for it in range(100)) + "];", "{}", "}"),
    "DOT of a long subgraph": lambda: filled("graph {subgraph " + "s" * (SIZE // 2) + "{", "x{}=1;".format, "}}"),
    "DOT of attributes of their own": lambda: filled("graph {", "a--b[w{}=1];".format, "}"),
    "DOT of attributes of nodes": lambda: filled("graph {", "a{}[w=1];".format, "}"),
    "DOT of comments": lambda: filled("graph {", "/*x*/", "a--b}"),
    "DOT of one comment": lambda: filled("graph {/*", "x*", "*/a--b}"),
    "DOT of one text": lambda: filled('graph {a--"', "x", '"}'),
    "DOT of one text with codes": lambda: filled('graph {a--"', "\\\"", '"}'),
    "DOT of a text that is not closed": lambda: filled('graph {a--"', "x"),
    "DOT of joined texts": lambda: filled('graph {a--"b"', '+"b"', "}"),
    "DOT of HTML": lambda: filled("graph {a[l=<", "<b>", ">]}"),
    "DOT of values": lambda: filled("graph {", "x=y;", "a--b}"),
    "DOT of lines": lambda: filled("graph {a--b", "\n", "}"),
    "DOT of faults": lambda: filled("graph {a--b}", "\n", "}"),
    "DOT with directions": lambda: filled("digraph {", "a->b->c;", "}"),
    "graph file": lambda: "".join(f"node {at}\n" for at in range(1000)) + filled("", "# x\n", "", SIZE - 10000),
    "graph file of many nodes": lambda: filled("", "node {}\n".format),
    "graph file of many links": lambda: "".join(f"node {at}\n" for at in range(600)) + "".join(
        f"link {a} {b}\n" for a in range(600) for b in range(a))[:SIZE - 8000].rpartition("\n")[0] + "\n",
}
VALUES = {
    "JSON of views": lambda: json.dumps({f"n{at}": [f"n{at + it}" for it in range(120)] for at in range(1000)}),
    "JSON of objects with peers": lambda: filled('{"x": {"peers": []}', ',"w{}":{{"peers":["x"]}}'.format, "}"),
    "JSON of one host": lambda: filled('{"a":{"peers":["b"', ',"b"', "]}}"),
    "JSON of one host with many peers": lambda: filled('{"a":{"peers":["b"', ',"w{}"'.format, "]}}"),
    "JSON of one host with many objects": lambda: filled('{"a":{"peers":["b"', ',{{"id":{}}}'.format, "]}}"),
    "JSON of one host with many fields": lambda: filled('{"a":{"peers":["b"]', ',"w{}":1'.format, "}}"),
    "JSON of one host with many lists": lambda: filled(
        '{"a":{"peers":["b"]', ',"w{}":["c"]'.format, '},"b":[],"c":[]}'),
    "JSON of one host with many objects beside": lambda: filled(
        '{"a":{"peers":["b"]', ',"w{}":{{"b":1}}'.format, "}}"),
    "JSON of one host with many lists of peers": lambda: filled(
        '{"b":[],"c":[],"a":{"peers":{"x":["b"]', ',"w{}":["c"]'.format, "}}}"),
    "JSON of one host with many peers and objects": lambda: filled(
        '{"a":{"peers":["b"', ',"w{}"'.format, "]", SIZE // 2) + filled("", ',"o{}":{{"b":1}}'.format, "}}", SIZE // 2),
    "JSON of many hosts, one with many lists": lambda: filled(
        '{"a":[]', ',"w{}":[]'.format, ',"b":{"peers":["a"]', SIZE // 2) + filled(
        "", ',"x{}":["z"]'.format, "}}", SIZE // 2),
    "JSON of hosts with many lists": lambda: json.dumps({f"h{at}": {"peers": [f"h{it}" for it in range(20)], **{
        f"l{to}": [f"h{it}" for it in range(20)] for to in range(10)}} for at in range(450)}),
    "JSON of empty objects": lambda: filled("[{}", ",{}", "]"),
    "JSON of empty objects by keys": lambda: filled('{"a":{}', ',"w{}":{{}}'.format, "}"),
    "JSON of peers by peers": lambda: filled('{"a":{"b":1}', ',"w{}":{{"a":1}}'.format, "}"),
    "JSON of small objects": lambda: filled('[{"a":1}', ',{"a":1}', "]"),
    "JSON of named objects": lambda: filled('[{"id":0}', ',{{"id":{}}}'.format, "]"),
    "JSON of links": lambda: filled('[["a","b"]', ',["a","b"]', "]"),
    "JSON of links in objects": lambda: filled('[{"source":"a","target":"b"}', ',{"source":"a","target":"b"}', "]"),
    "JSON of links with fields": lambda: filled('[["a","b",{}]', ',["a","b",{{"x":{}}}]'.format, "]"),
    "JSON of links with many fields": lambda: "[" + ",".join([json.dumps(
        {"source": "a", "target": "b", **{f"w{it}": it for it in range(99)}})] * 900) + "]",
    "JSON of one link with many fields": lambda: filled('[{"source":"a","target":"b"', ',"w{}":1'.format, "}]"),
    "JSON of one link with deep fields": lambda: '[{"source":"a","target":"b","x":' + nested(
        '{"a":1,"b":', "1", "}", 90) + "}]",
    "JSON of a long field": lambda: filled(
        '[{"source":"a","target":"b","' + "x" * (SIZE // 2) + '":{"a":1', ',"w{}":1'.format, "}}]"),
    "JSON of nodes and links": lambda: filled(
        '{"nodes":[{"id":"a"},{"id":"b"}],"links":[{"source":"a","target":"b"}', ',{"source":"a","target":"b"}', "]}"),
    "JSON of nodes": lambda: filled('{"nodes":[{"id":"a"}', ',{{"id":{}}}'.format, '],"links":[]}'),
    "JSON of leftovers": lambda: filled(
        '{"nodes":[{"id":"a"},{"id":"b"}],"links":[{"source":"a","target":"b"}]', ',"w{}":["a"]'.format, "}"),
    "JSON of a long leftover": lambda: filled('{"nodes":[{"id":"a"},{"id":"b"}],"links":[["a","b"]],"' + (
        "x" * (SIZE // 2)) + '":{"a":{"b":1}', ',"w{}":{{}}'.format, "}}"),
    "JSON of one leftover": lambda: filled(
        '{"nodes":[{"id":"a"},{"id":"b"}],"links":[{"source":"a","target":"b"}],"x":[1', ",{}".format, "]}"),
    "JSON of deep leftovers": lambda: '{"nodes":[{"id":"a"},{"id":"b"}],"links":[{"source":"a","target":"b"}],"x":' + (
        nested('{"a":', "[" + "1," * 400000 + "1]", "}", 90)) + "}",
    "JSON of leftovers of each link": lambda: '{"nodes":["a","b"],"links":[' + ",".join(['["a","b"]'] * 300) + "]," + (
        filled('"x":1', lambda at: f',"w{at}":[{",".join(["1"] * 300)}]', "}", SIZE - 9999)),
    "JSON of links and many lists": lambda: filled(
        '{"nodes":["a","b"],"links":[["a","b"]', ',["a","b"]', "]", SIZE // 2) + filled(
        "", ',"x{}":[1,2]'.format, "}", SIZE // 2),
    "JSON lines": lambda: filled("", '{"source":"a","target":"b"}\n'),
    "JSON lines of lists": lambda: filled("", '["a","b"]\n'),
    "JSON lines of hosts": lambda: filled("", '{{"host":"w{}","peers":["a"]}}\n'.format),
    "JSON, a key very often": lambda: filled('{"a":1', ',"a":1', "}"),
    "JSON, a key twice": lambda: filled('{"a":1', ',"w{}":1'.format, ',"a":1}'),
    "JSON of many keys": lambda: filled('{"a":1', ',"w{}":1'.format, "}"),
    "JSON of numbers": lambda: filled("[1", ",1", "]"),
    "JSON of nothing": lambda: filled('{"a":[null', ",null", "]}"),
    "JSON of brackets": lambda: filled("", "["),
    "JSON of closed brackets": lambda: nested("[", "", "]", SIZE // 2 - 9),
    "JSON of lists in one another": lambda: nested("[", "", "]", 900),
    "JSON of objects in one another": lambda: nested('{"a":', "1", "}", 900),
    "JSON of commas": lambda: filled('{"a":["b"', ",", "]}"),
    "JSON of commas before brackets": lambda: filled('{"a":["b",],"b":[', '"a",', "],}"),
    "JSON of an open text": lambda: filled('{"a": "', "x"),
    "JSON of an open text with codes": lambda: filled('{"a": "', '\\"'),
    "JSON of a long text, and a comma": lambda: filled('{"a": ["', "x", '",],"b":[]}'),
    "JSON of a long number": lambda: filled('{"a": [', "9", "]}"),
    "JSON of a long key": lambda: filled('{"', "a", '": ["b"], "b": []}'),
    "JSON of white space": lambda: filled('{"a": [', " ", '"b"], "b": []}'),
}
YAML = {
    "a list in brackets": lambda: filled("a: [b", ",b", "]\n"),
    "a list of many in brackets": lambda: filled("a: [b", ",w{}".format, "]\n"),
    "lists in brackets": lambda: filled("", "w{}: [a]\n".format),
    "empty lists in brackets": lambda: filled("a: [", "[],", "]\n"),
    "an object in brackets": lambda: filled("{a: b", ",w{}: b".format, "}\n"),
    "items": lambda: filled("a:\n", "- b\n"),
    "items of one letter": lambda: filled("", "- a\n"),
    "items in one another": lambda: filled("", "- ", "a\n"),
    "keys": lambda: filled("", "w{}: a\n".format),
    "keys with items": lambda: filled("", "w{}:\n- a\n".format),
    "a key very often": lambda: filled("", "a: b\n"),
    "anchors": lambda: filled("", "- &a{} b\n".format),
    "aliases": lambda: filled("- &a b\n", "- *a\n"),
    "aliases of a list": lambda: filled("- &a [b, c, d, e, f, g, h]\n", "- *a\n"),
    "comments": lambda: filled("a: [b]\n", "# x\n"),
    "comments behind items": lambda: filled("a:\n", "- b # w{}\n".format),
    "marks of comments": lambda: filled("a: [b]\n", "#"),
    "marks of comments behind an item": lambda: filled("a: [b] ", "# "),
    "many marks of comments": lambda: filled("a: [b]\n", "#\n"),
    "tags": lambda: filled("a:\n", "- !!str b\n"),
    "texts in quotes": lambda: filled("a:\n", '- "b"\n'),
    "a text in quotes": lambda: filled('a: ["', "b ", '"]\n'),
    "a text in quotes that is not closed": lambda: filled('a: ["', "b "),
    "a text of many lines": lambda: filled("a: |\n", " b\n"),
    "a plain text of many lines": lambda: filled("a:\n", " b\n"),
    "questions": lambda: filled("", "? a{}\n".format),
    "brackets": lambda: filled("a: ", "["),
    "braces": lambda: filled("", "{"),
    "documents": lambda: filled("", "---\n"),
    "empty lines": lambda: filled("a: [b]\n", "\n"),
    "directives": lambda: filled("", "%A b\n", "---\na: [b]\n"),
    "a long key": lambda: filled("", "a", ": [b]\n"),
    "JSON": lambda: filled('{"a":["b"', ',"b"', "]}"),
    "nodes and links": lambda: filled("nodes: [{id: a}, {id: b}]\nlinks:\n", "- {source: a, target: b}\n"),
    "aliases of aliases": lambda: "l0: &l0 [x]\n" + "".join(
        f"l{at}: &l{at} [{', '.join([f'*l{at - 1}'] * 8)}]\n" for at in range(1, 9)) + "a: {peers: [*l5]}\n",
}
PACKED = {
    "gzip of zeros": lambda: gzip.compress(bytes(100 * SIZE)),
    "gzip of a letter": lambda: gzip.compress(b"a\n" * (SIZE - 1)),
    "gzip of a line": lambda: gzip.compress(b"x " * (SIZE - 1)),
    "gzip of links": lambda: gzip.compress(pairs("n{} n{}\n").encode()),
    "gzip of CSV": lambda: gzip.compress(b"source,target,x\n" + b"a,b,1\n" * 330000),
    "gzip of JSON": lambda: gzip.compress(b"[[1,2]" + b",[1,2]" * 330000 + b"]"),
    "gzip of empty gzips": lambda: gzip.compress(b"") * (SIZE // 21),
    "gzip of a comment": lambda: b"\x1f\x8b\x08\x10" + bytes(6) + b"x" * SIZE,
    "UTF-16": lambda: ("a b\n" * (SIZE // 8 - 1)).encode("utf-16"),
    "zeros": lambda: bytes(SIZE),
    "bytes that are no text": lambda: b"\xff" * SIZE,
    "random bytes": lambda: random.Random(1).randbytes(SIZE),
}
def names(letter, count):
    return ";".join(f"{letter}{at}" for at in range(count))


def laughs(levels):
    """A list in YAML that cites an inner one eight times, at each level."""
    cited = "".join(f"l{at}: &l{at} [{', '.join([f'*l{at - 1}'] * 8)}]\n" for at in range(1, levels))
    return f"l0: &l0 [x]\n{cited}a: {{peers: [*l{levels - 1}]}}\n"


SMALL = {
    "DOT, all of many nodes with all of many": f"digraph {{ {{{names('a', 1000)}}} -> {{{names('b', 1000)}}} }}",
    "DOT, a subgraph once more, very often": (
        f"graph {{ subgraph x {{{names('a', 20000)}}} {'subgraph x {};' * 10000} }}"
    ),
    "DOT, many subgraphs in one another": f"graph {{ {'{' * MANY}",
    "DOT, many attributes by default": (
        f"graph {{ {''.join(f'node [a{at}=1];' for at in range(9000))} {names('b', 9000)} -- {{c}} }}"
    ),
    "DOT, an HTML text without an end": f"graph {{ a -- {'<' * MANY}",
    "a number that is none": f"a b {'1' * MANY}x",
    "arrows without names": f"{'->' * (MANY // 2)} x y",
    "brackets like those of YAML": f"a{':[' * (MANY // 2)}x",
    "a space between quotes": f'"a"{" " * MANY}b',
    "quotes": '"' * MANY,
    "quotes that are escaped": '{"a": "' + '\\"' * (MANY // 2),
    "spaces": f"a{' ' * MANY}b c",
    "commas before brackets": "[" + ",   " * (MANY // 4),
    "rules of a table": f"a|b\n{'-+' * (MANY // 2)}x",
    "a key twice, at last": "{" + "".join(f'"k{at}": 1, ' for at in range(MANY // 10)) + '"k0": 2}',
    "JSON in JSON": "[" * MANY,
    "a number of many digits": '{"a": {"peers": [' + "9" * MANY + "]}}",
    "YAML, aliases of aliases": laughs(14),
    "YAML in YAML": f"a: {'[' * MANY}",
    "XML in XML": "<graphml>" * (MANY // 9),
    "XML, entities": '<!DOCTYPE z [<!ENTITY a "aaaa"><!ENTITY b "&a;&a;">]><graphml>&b;</graphml>',
    "GML in GML": "graph [" * (MANY // 7),
    "a head of GML": "comment x\n" * (MANY // 10),
    "a cell of a table": f"source,target\n{'a' * MANY},b\n",
    "Pajek, very many hosts": "*Vertices 999999999\n",
    "Matrix Market, very many hosts": (
        "%%MatrixMarket matrix coordinate pattern symmetric\n999999999 999999999 1\n2 1\n"
    ),
    "graph6, all linked": "~?N?" + "~" * ((960 * 959 // 2 + 5) // 6),
    "gzip of very much": gzip.compress(bytes(100 * MANY)),
    "a name of many letters": f"{'a' * MANY} {'b' * MANY}\nc d 1\n",
}
HEAVY = {**LINES, **TABLES, **GRAPHS, **VALUES, **PACKED, **{f"YAML, {name}": it for name, it in YAML.items()}, **SMALL}
# Those that took most before they were bounded, or take most now, with the command that reads each in `bin/test`.
WORST = {
    **dict.fromkeys(SMALL, "import"),
    "a list of many equal words": "import",
    "many lines of one letter": "import",
    "quotes that are not closed": "import",
    "all links of many hosts": "status",
    "a long word of dots": "status",
    "one letter that is many": "metrics",
    "CSV of empty rows": "import",
    "CSV of many cells in a row": "import",
    "CSV of many columns without names": "import",
    "CSV of a host again and again": "import",
    "XML of many spaces of names": "import",
    "XML of defaults of many nodes": "import",
    "GML of lists in one another": "import",
    "Mermaid of a chain": "import",
    "DOT of nested nodes, with directions": "import",
    "DOT of a subgraph again, with directions": "import",
    "JSON of one host with many objects beside": "import",
    "YAML, marks of comments": "import",
    "gzip of a letter": "import",
}


def cost_of(name, command="import"):
    """What a command takes for a dump."""
    made = HEAVY[name]
    data = made() if callable(made) else made
    environment = {**os.environ, "PYTHONPATH": str(PACKAGE)}
    with tempfile.TemporaryDirectory() as room:
        ending = ".yaml" if name.startswith("YAML") else ""
        place, other = (pathlib.Path(room, f"{it}{ending}") for it in ("net", "other"))
        for it in (place, other):
            it.write_bytes(data if isinstance(data, bytes) else data.encode())
        # some commands take two dumps, or more words
        words = {"diff": [str(other)], "mend": ["--to", "3"], "metrics": ["--textfile", "-"]}
        line = [sys.executable, "-B", "-c", RUN, command, str(place), *words.get(command, ())]
        return cost_of_line(line, environment, room)


def cost_of_line(line, environment, room):
    """What a command line takes, that is stopped after twice as many seconds as it may take."""

    def limited():
        resource.setrlimit(resource.RLIMIT_CPU, (2 * MOST_SECONDS, 2 * MOST_SECONDS))
        # ten times as much is for the machine's sake
        resource.setrlimit(resource.RLIMIT_DATA, (10 * MOST_MEMORY, 10 * MOST_MEMORY))

    with open(pathlib.Path(room, "told"), "w+b") as told:
        process = subprocess.Popen(line, env=environment, cwd=room, stdin=subprocess.DEVNULL, stdout=subprocess.DEVNULL,
                                   stderr=told, preexec_fn=limited)
        _, status, used = os.wait4(process.pid, 0)
        process.returncode = os.waitstatus_to_exitcode(status)
        told.seek(0)
        text = told.read().decode(errors="replace")
    return Cost(used.ru_utime + used.ru_stime, used.ru_maxrss * 1024, process.returncode, text)


def fault_of(cost):
    """What is wrong with what a dump took, or nothing."""
    if cost.seconds > MOST_SECONDS:
        return f"it takes {cost.seconds:.1f} s of processor"
    if cost.memory > MOST_MEMORY:
        return f"it takes {cost.memory / 1e6:.0f} MB"
    if "Traceback" in cost.told or cost.status not in (0, 1):
        return f"it ends with status {cost.status}: {cost.told[-300:]}"
    return "" if cost.status == 0 or cost.told.strip() else "it is refused without a message"


def main():
    words = argparse.ArgumentParser(description=__doc__.split("\n", 1)[0])
    words.add_argument("--quick", action="store_true")
    words.add_argument("--command", default="import")
    words.add_argument("--only", default="")
    given = words.parse_args()
    asked = WORST.items() if given.quick else ((name, given.command) for name in HEAVY)
    tried = [it for it in asked if re.search(given.only, it[0])]
    failed = 0
    with concurrent.futures.ThreadPoolExecutor(2) as pool:
        for (name, command), cost in zip(tried, pool.map(lambda it: cost_of(*it), tried)):
            fault = fault_of(cost)
            failed += bool(fault)
            print(f"{cost.seconds:5.1f} s {cost.memory / 1e6:5.0f} MB  {command}: {name}", flush=True)
            if fault:
                print(f"FAILED: {name}: {fault}", flush=True)
    print(f"{len(tried) - failed} passed, {failed} failed")
    sys.exit(1 if failed else 0)


if __name__ == "__main__":
    main()
