"""Tests of the account of a dump: in each form, whatever stands there beside hosts and links is named in a note, and a
dump of hosts and links alone has none. They need the program overlay."""

import gzip
import json
import os
import pathlib
import re
import tempfile

from tagzirk import Asked, TagzirkError
from tagzirk.forms import FORMS, form_of
from tagzirk.taken import doubts_in

from . import hidden_states, misreads
from .test_states import Dumps

# A triangle of a, b and c in each form, with marks where something more may stand: of each its text, and what the note
# or the refusal says of it. Values are no words of states, unless a mark is to be asked about.
XML_NODES = '<node id="a"«node»/>«lost»<node id="b"/>«end-lost»<node id="c">«in-node»</node>'
XML_EDGES = (
    '<edge source="a" target="b"«edge»/><edge source="b" target="c">«in-edge»</edge>'
    '«removed»<«prefix»edge source="a" target="c"/>«end-removed»'
)
NODES = '[{"id": "a"«node»}, {"id": "b"}, {"id": "c"}]'
LINKS = '[{"source": "a", "target": "b"«link»}, {"source": "b", "target": «end»}, {"source": "a", "target": "c"}]'
HOSTS = '"a": {"peers": ["b", "c"]«host»}, "b": {"peers": ["a", "c"]}, "c": {"peers": ["a", «peer»]}'
OF_LINKS = {
    "node": (', "z": 7', "z (missing: 2, 7: 1)"),
    "link": (', "z": 7', "z is missing (2) or 7 (1)"),
    "beside": (', "z": {"y": 7}', "z (y: 7)"),
    "hosts": (', "z": ["c"]', "z (missing: 2, listed: 1)"),
    "of-hosts": (', "z": {"c": {"y": 7}}', "z.y (missing: 2, 7: 1)"),
    "of-links": (', "z": ["x", "x", "y"]', "z (x: 2, y: 1)"),
}
CASES = [
    ("net.edges", "«line»a b«behind»\nb c\na c\n", {
        "line": ("% odd\n", "comments (% odd)"),
        "behind": (" # odd", "comment (missing: 2, odd: 1)"),
    }),
    ("net.edges", "a b {«in»}\nb c {}\na c {}\n", {"in": ("'odd': 3", "odd is missing (2) or 3 (1)")}),
    ("net.edges", "«line»a -> b«behind»\nb -> a\nb -> c\nc -> b\na -> c\nc -> a\n", {
        "line": ("# odd\n", "comments (# odd)"),
        "behind": (" # odd", "comment (missing: 5, odd: 1)"),
    }),
    ("net.edges", "(a, b)«behind»\n(b, c)\n(a, c)\n", {"behind": (" # odd", "comment (missing: 2, odd: 1)")}),
    ("net.edges", "a b 1«behind»\nb c 1\na c 1\n", {
        "": ("", "column 3 (1)"),
        "behind": (" # odd", "comment (missing: 2, odd: 1)"),
    }),
    ("net.edges", "«line»a: b c«behind»\nb: a c\nc: a b\n", {
        "line": ("# odd\n", "comments (# odd)"),
        "behind": (" # odd", "comment (missing: 2, odd: 1)"),
    }),
    ("net.csv", "«line»source,target«head»\na,b«cell»\nb,c«cell»\na,c«cell»\n", {
        "line": ("# odd\n", "comments (# odd)"),
        "head cell": (",z", "z (z)"),
        "cell": (",z", "has 3 columns, and the header has 2"),
    }),
    ("net.txt", "«title» x | y «head»\n---+---«rule»\n a | b «cell»\n b | c «cell»\n a | c «cell»\n«foot»", {
        "title": ("odd\n", "title (odd)"),
        "head rule cell": (("| z", "+---", "| 7"), "z (7)"),
        "foot": ("(3 rows, odd)\n", "footer ((3 rows, odd))"),
    }, {"columns": "x,y"}),
    ("net.json", '{"nodes": NODES, "links": LINKS, "directed": false«beside»«hosts»«of-hosts»«of-links»}', OF_LINKS),
    ("net.json", '{"type": "NetworkCollection", "collection": [{"type": "NetworkGraph", "nodes": NODES,'
                 ' "links": LINKS«beside»}]«hosts»}', {it: OF_LINKS[it] for it in ("node", "link", "beside", "hosts")}),
    ("net.json", '{"graph": {"nodes": {"a": {«node»}, "b": {}, "c": {}}, "edges": LINKS«beside»}«hosts»}', {
        "node": ('"z": 7', "z (missing: 2, 7: 1)"),
        "beside": OF_LINKS["beside"],
        "hosts": OF_LINKS["hosts"],
    }),
    ("net.json", '{"elements": {"nodes": [{"data": {"id": "a"}«node»}, {"data": {"id": "b"}}, {"data": {"id": "c"}}],'
                 ' "edges": [{"data": {"source": "a", "target": "b"}«link»}, {"data": {"source": "b", "target": "c"}},'
                 ' {"data": {"source": "a", "target": "c"}}]}«beside»}',
     {it: OF_LINKS[it] for it in ("node", "link", "beside")}),
    ("net.json", '{"nodes": NODES, "adjacency": [["b", "c"], ["a", "c"], ["a", "b"]]«beside»}',
     {it: OF_LINKS[it] for it in ("node", "beside")}),
    ("net.json", "LINKS", {"link": OF_LINKS["link"], "end": ('{"id": "c", "z": 7}', "target.z is missing (2) or 7")}),
    ("net.json", '{HOSTS}', {
        "host": (', "z": 7', "z (missing: 2, 7: 1)"),
        "peer": ('{"id": "b", "z": 7}', "z is missing (5) or 7 (1)"),
    }),
    ("net.json", '{"hosts": {HOSTS}«beside»}', {"beside": (', "z": 7', "z (7)")}),
    ("net.json", '{"x": [["a", "b"], ["b", "c"], ["a", "c"]], "y": 7«beside»}', {
        "": ("", "y (7)"),
        "beside": (', "z": [[7]]', "z ([7])"),
    }, {"links": "x"}),
    ("net.yaml", "«line»a: [b, c]«behind»\nb: [a, c]\nc: [a, «anchor» b]\n", {
        "line": ("# odd\n", "comments (# odd)"),
        "behind": (" # odd", "comments (# odd)"),
        "anchor": ("&odd", "anchors (odd)"),
    }),
    ("net.graphml", f'<graphml><!--«comment»--><graph«graph» edgedefault="undirected">«in-graph»{XML_NODES}{XML_EDGES}'
                    "</graph>«behind»</graphml>", {
        "comment": ("odd", "comments (odd)"),
        "removed end-removed": (("<odd>", "</odd>"), "element is missing (2) or odd (1)"),
        "lost end-lost": (("<odd>", "</odd>"), "element (missing: 2, odd: 1)"),
        "prefix": ("odd:", "element is missing (2) or odd:edge (1)"),
        "graph": (' id="odd"', "graph.id (odd)"),
        "in-graph": ("<desc>odd</desc>", "desc (odd)"),
        "behind": ('<x y="odd"/>', "x.y (odd)"),
        "node": (' z="7"', "z (missing: 2, 7: 1)"),
        "in-node": ('<data key="z">7</data>', "z (missing: 2, 7: 1)"),
        "edge": (' id="odd"', "id (missing: 2, odd: 1)"),
        "in-edge": ('<data key="z"><w color="7"/></data>', "w.color is missing (2) or 7 (1)"),
    }),
    ("net.graphml", f'<graphml><graph edgedefault="undirected">{XML_NODES}{XML_EDGES}«empty»</graph></graphml>', {
        "in-edge": ("<odd/>", "element is missing (2) or odd (1)"),
        "in-node": ('<data key="odd"/>', 'odd is missing (2) or "" (1)'),
        "edge": (' z="7"><data key="z">8</data></edge><edge source="a" target="b"',
                 "z is missing (3) or 7 (1); data.z is missing (3) or 8 (1)"),
        "empty": ("<odd/>", "element (odd)"),
    }),
    ("net.gxl", f'<gxl><graph id="net" edgeids="true" edgemode="undirected"«graph»>{XML_NODES}{XML_EDGES}«in-graph»'
                "</graph></gxl>", {
        "graph": (' role="odd"', "graph.role (odd)"),
        "in-graph": ('<attr name="z"><int>7</int></attr>', "z (7)"),
        "in-node": ('<attr name="z"><int>7</int></attr><attr name="y"><int>8</int></attr>',
                    "z (missing: 2, 7: 1), y (missing: 2, 8: 1)"),
        "in-edge": ('<attr name="z"><int>7</int></attr>', "z is missing (2) or 7 (1)"),
    }),
    ("net.xml", '<DirectedGraph><Nodes><Node Id="a"/><Node Id="b"/></Nodes><Links><Link Source="a" Target="b"/>«gone»'
                '<Link Source="b" Target="a"/>«end-gone»</Links></DirectedGraph>', {
        "gone end-gone": (("<odd>", "</odd>"), "element is odd (1) or missing (1)"),
    }, {"form": "graphml"}),
    ("net.gexf", f'<gexf version="1.3"><meta>«meta»</meta><graph><nodes«count»>{XML_NODES}</nodes><edges>{XML_EDGES}'
                 "</edges></graph></gexf>", {
        "meta": ("<creator>all but b are down</creator>", "written by (all but b are down)"),
        "count": (' count="7"', "nodes.count (7)"),
        "removed end-removed": (("<odd>", "</odd>"), "element is missing (2) or odd (1)"),
        "in-edge": ('<attvalues><attvalue for="z" value="7"/></attvalues>', "z is missing (2) or 7 (1)"),
        "in-node": ('<viz:color r="7"/>', "color.r is missing (2) or 7 (1)"),
    }),
    ("net.gml",
     '«line»graph [ «graph» node [ id 1 label "a" «node» ] node [ id 2 label "b" ] node [ id 3 label "c" ] edge'
                " [ source 1 target 2 «edge» ] edge [ source 2 target 3 ] edge [ source 1 target 3 ] ]«behind»\n", {
        "line": ("# odd\n", "comments (# odd)"),
        "graph": ('name "odd"', "name (odd)"),
        "node": ("z 7", "z (missing: 2, 7: 1)"),
        "edge": ("z 7", "z is missing (2) or 7 (1)"),
        "behind": (" z [ y 7 ]", "z.y (7)"),
    }),
    ("net.net", '«line»*Vertices 3\n1 "a"«node»\n2 "b"\n3 "c"\n*Edges«edges»\n1 2«edge»\n2 3\n1 3\n', {
        "line": ("% odd\n", "comments (% odd)"),
        "node": (" 7", "column 3 (missing: 2, 7: 1)"),
        "edges": (' :1 "odd"', "section (:1 odd)"),
        "edge": (" 7", "column 3 is missing (2) or 7 (1)"),
    }),
    ("net.lgf",
     "«line»@nodes\nlabel«column»\na«cell»\nb«cell»\nc«cell»\n@edges\n label\na b 0\nb c 1\na c 2\n«attributes»", {
        "line": ("# odd\n", "comments (# odd)"),
        "column cell": (" 7", "column 7 (7)"),
        "attributes": ("@attributes\nodd 7\n", "@attributes (odd 7)"),
    }),
    ("net.lgr",
     "«line»LEDA.GRAPH\nstring\nint\n-2\n3\n|{a}|\n|{b}|\n|{c}|\n3\n1 2 0 |{«edge»}|\n2 3 0 |{}|\n1 3 0 |{}|\n", {
        "line": ("# odd\n", "comments (# odd)"),
        "edge": ("z", "label is missing (2) or z (1)"),
    }),
    ("net.gdf",
     "nodedef>name VARCHAR«column»\na«cell»\nb«cell»\nc«cell»\n«line»edgedef>node1,node2\na,b«edge»\nb,c\na,c\n", {
        "line": ("# odd\n", "comments (# odd)"),
        "column cell": (",z", "z (z)"),
        "edge": (",7", "column 3 is missing (2) or 7 (1)"),
    }),
    ("net.tgf", "1 a\n2 b\n3 c\n#\n1 2«edge»\n2 3\n1 3\n", {"edge": (" odd", "label is missing (2) or odd (1)")}),
    ("net.plain", "graph 1 2 2\nnode a 1 1 1 1 a solid box black white\nnode b 1 1 1 1 b solid box black white\n"
                  "node c 1 1 1 1 c solid box black white\nedge a b 1 0 0«edge» solid black\n"
                  "edge b c 1 0 0 solid black\n"
                  "edge a c 1 0 0 solid black\nstop\n«end»", {
        "": ("", "style (solid)"),
        "edge": (" odd 1 1", "label is missing (2) or odd (1)"),
        "end": ("# odd\n", "behind stop (# odd)"),
    }),
    ("net.col", "«line»p edge 3 3\ne 1 2«edge»\ne 2 3\ne 1 3\n«n»", {
        "line": ("c odd\n", "comments (odd)"),
        "n": ("n 1 7\n", "lines n (1 7)"),
        "edge": (" 7", "column 3 is missing (2) or 7 (1)"),
    }),
    ("net.mtx", "%%MatrixMarket matrix coordinate pattern symmetric\n«line»3 3 3\n2 1«edge»\n3 2\n3 1\n", {
        "line": ("% odd\n", "comments (% odd)"),
        "edge": (" 7", "column 3 is missing (2) or 7 (1)"),
    }),
    ("net.metis", "«line»3 3«kind»\n«size»2 3\n«size»1 3\n«size»1 2\n", {
        "line": ("% odd\n", "comments (% odd)"),
        "kind size": ((" 100", "7 "), "weight 1 (7)"),
    }, {"form": "metis"}),
    ("net.lgl", "# a\nb\nc«edge»\n# b\nc\n", {"edge": (" 7", "column 2 is missing (2) or 7 (1)")}, {"form": "lgl"}),
    ("net.adj", "«line»a 2\nb«edge»\nc\nb 1\nc\nc 0\n", {
        "line": ("#odd\n", "comments (#odd)"),
        "edge": (" # odd", "comment (missing: 2, odd: 1)"),
    }, {"form": "multiline"}),
    ("net.matrix", "«line»«diagonal» 1 0 1\n1 0 1 0\n0 «across» 0 1\n1 0 1 0\n", {
        "line": ("# odd\n", "comments (# odd)"),
        "diagonal": ("7", "diagonal is 0 (3) or 7 (1)"),
        "across": ("7", "across is missing (3) or 7 (1)"),
    }, {"form": "matrix"}),
    ("net.dot", "«line»graph«name» { «statement» a«node» -- b«edge»; b«port» -- c; a -- c «behind» }", {
        "line": ("// odd\n", "comments (// odd)"),
        "name": (" odd_one", "name of the graph (odd_one)"),
        "statement": ("label=odd;", "graph.label (odd)"),
        "behind": ("/* odd */", "comments (/* odd */)"),
        "edge": (" [z=7]", "z is missing (2) or 7 (1)"),
        "port": (":odd", "ports (odd)"),
    }),
    ("net.dot", "graph { a -- b; b -- c; a -- c; «statement» }", {
        "statement": ("subgraph odd { c }", "subgraph (missing: 2, odd: 1)"),
    }),
    ("net.dot", "graph { a -- b; b -- c; a -- c; «statement» }", {
        "statement": ("{ node [z=7]; c }", "z (missing: 2, 7: 1)"),
    }),
    ("net.dot", "graph { a -- b; b -- c; a -- c; { c } «statement» }", {
        "": ("", "subgraph (missing: 2, unnamed 1: 1)"),
        "statement": ("subgraph { node [z=7]; c }", "z (missing: 2, 7: 1)"),
    }),
    ("net.dot", "graph { «statement» a -- b; b -- c; a -- c }", {
        "statement": ("node [z=7];", "z (7)"),
    }),
    ("net.mmd", "graph TD\n«line» a«node» --- b\n b«shape» «arrow» c\n a --- c\n«style»", {
        "line": ("%% odd\n", "comments (%% odd)"),
        "node": ("[odd]", "label (missing: 2, odd: 1)"),
        "shape": ("((b))", "shape ([]: 2, (()): 1)"),
        "arrow": ("---|odd|", "label is missing (2) or odd (1)"),
        "style": ("class a odd\n", "class (a odd)"),
    }),
    ("folder", {"a.json": '{"peers": ["b", "c"]«host»}', "b.json": '{"peers": ["a", "c"]}',
                "c.json": '{"peers": ["a", "b"]}'}, {
        "host": (', "z": 7', "z (missing: 2, 7: 1)"),
    }),
    ("folder", {"a.txt": "«line»b«behind»\nc\n", "b.txt": "a\nc\n", "c.txt": "a\nb\n"}, {
        "line": ("# odd\n", "comments (# odd)"),
        "behind": (" # odd", "comment (missing: 5, odd: 1)"),
    }),
    ("net.graph", "«line»# 1 a\nnode 1\n# 2 b\nnode 2\nlink 1 2\n", {"line": ("# odd\n", "comments (# odd)")}),
]
# What stands at a mark if nothing else does.
PLAIN = {"end": '"c"', "peer": '"b"', "arrow": "---", "diagonal": "0", "across": "1"}
MARK = re.compile("«([^»]*)»")


def filled(template, texts):
    """A template, or a folder of such, with texts at its marks."""
    if isinstance(template, dict):
        return {name: filled(it, texts) for name, it in template.items()}
    bare = template.replace("NODES", NODES).replace("LINKS", LINKS).replace("HOSTS", HOSTS)
    return MARK.sub(lambda found: texts.get(found[1], PLAIN.get(found[1], "")), bare)


class Accounts(Dumps):
    def told(self, name, text, words):
        """What is told of a dump: its doubts, or why it is refused."""
        with tempfile.TemporaryDirectory() as room:
            self.room = pathlib.Path(room)
            try:
                return " ".join(doubts_in(self.read(self.put(name, text), Asked(**words)).notes))
            except TagzirkError as why:
                return str(why)

    def test_what_stands_in_a_dump_is_told(self):
        for number, (name, template, marks, *words) in enumerate(CASES):
            for names, (text, told) in {"": ("", ""), **marks}.items():
                marked = text if isinstance(text, tuple) else [text] * len(names.split())
                texts = dict(zip(names.split(), marked))
                with self.subTest(number=number, name=name, mark=names):
                    found = self.told(name, filled(template, texts), *(words or [{}]))
                    self.assertIn(told, found)
                    self.assertEqual(bool(told), bool(found), found)

    def test_what_is_hidden_is_told(self):
        dumps = [*hidden_states.HIDDEN, *hidden_states.PACKED]
        self.assertEqual(len({it[0] for it in dumps}), len(dumps))
        for name, text, told, *words in dumps:
            with self.subTest(name):
                self.assertIn(told, self.told(name, text, *(words or [{}])))

    def test_the_same_without_what_is_hidden(self):
        # each as its dump above, but for what hides a state
        for name, text in hidden_states.PLAIN:
            with self.subTest(name):
                self.assertEqual(self.told(name, text, {}), "")

    def test_files_of_very_different_age(self):
        place = self.put("ages", {f"{it}.txt": "\n".join({*"abc"} - {it}) for it in "abc"})
        for seconds, told in (200, []), (3 * 86400, ["not read as states: beside them older than other files "
                                                     "(b.txt: by 3 days)"]):
            newest = max(it.stat().st_mtime for it in pathlib.Path(place).iterdir())
            os.utime(pathlib.Path(place, "b.txt"), (newest - seconds, newest - seconds))
            self.assertEqual(doubts_in(self.read(place).notes), told)

    def test_links_to_files(self):
        place = pathlib.Path(self.put("linked", {"a": "b\n", "b": "a\n"}))
        (place / "b").rename(self.room / "elsewhere")
        (place / "b").symlink_to(self.room / "elsewhere")
        self.assertIn(f"links to files (b to {self.room}/elsewhere", " ".join(doubts_in(self.read(str(place)).notes)))

    def test_packed_files_of_a_folder(self):
        place = pathlib.Path(self.put("packed", {"a": "b\n", "b": "a\n"}))
        (place / "b").write_bytes(hidden_states.with_header(b"a\n", 16, b"b is away\0"))
        doubts = " ".join(doubts_in(self.read(str(place)).notes))
        self.assertIn("comment of gzip (b is away)", doubts)
        self.assertIn("written as (a list: 1 (a), a list, it was unpacked by gzip: 1 (b))", doubts)

    def test_the_header_of_gzip_is_told(self):
        packed = gzip.compress(b"a b\nb c\na c\n", mtime=0)
        for flags, more, told in ((0, b"", ""), (8, b"net.edges\0", ""), (8, b"odd\0", "name in gzip (odd)"),
                                  (16, b"odd\0", "comment of gzip (odd)"),
                                  (28, b"\1\0xnet.edges\0odd\0", "further field of gzip (x), comment of gzip (odd)")):
            place = self.room / "net.edges.gz"
            place.write_bytes(packed[:3] + bytes([flags]) + packed[4:10] + more + packed[10:])
            with self.subTest(flags=flags, more=more):
                doubts = doubts_in(self.read(str(place)).notes)
                self.assertEqual(doubts, [f"not read as states: beside them {told}"] if told else [])

    def test_ends_of_lines(self):
        for text, told in (
            ("a b\r\nb c\na c\n", ["not read as states: beside them ends of lines (LF: 2, CR LF: 1)"]),
            ("# 1 a\nnode 1\r\n# 2 b\nnode 2\nlink 1 2\n", ["ends of lines (LF: 4, CR LF: 1)"]),
            ("a b\r\nb c\r\na c", []),
            ("a b\nb c\na c\n", []),
        ):
            found = doubts_in(self.read(self.put("net.edges", text)).notes)
            self.assertEqual([it in note for it, note in zip(told, found)], [True] * len(found), text)
            self.assertEqual(len(found), len(told), text)

    def test_names_of_signs_alone(self):
        text = json.dumps({"a": ["b", "--", "c"], "b": ["a", "c", "--"], "c": ["a", "--", "b"]})
        told = ["not read as states: names of signs alone (--)"]
        self.assertEqual(doubts_in(self.read(self.put("net.json", text)).notes), told)
        self.assertEqual(doubts_in(self.read(self.put("net.json", text.replace("--", "d"))).notes), [])

    def test_a_header_that_stands_there_again(self):
        text = "source,target\na,b\nb,c\n\nsource,target\na,c\n"
        told = "of 3 links written as (below header 1: 2, below header 2: 1 (a - c))"
        self.assertIn(told, "; ".join(doubts_in(self.read(self.put("net.csv", text)).notes)))
        self.assertEqual(doubts_in(self.read(self.put("net.csv", text.replace("\n\nsource,target", ""))).notes), [])

    def test_lists_beside_that_which_is_named(self):
        """They are in the account, and only what is called after something down may be down."""
        for key, told in (("passive", "not read as states: beside them passive (6, as"),
                          ("standby_view", "not read as states: beside them standby_view (6, as"),
                          ("dead", "taken all, though some may be down: dead (6, as")):
            text = misreads.lists(active=misreads.up_of, **{key: misreads.down_of})
            found = self.told("views.json", text, {"peers": "active"})
            self.assertIn(told, found)
            self.assertEqual("may be down" in found, key == "dead", found)

    def test_lists_that_are_empty_or_as_long(self):
        """As HyParView has them: no host is in both lists, and some have as many in both, or nobody in one."""
        ring = {it: [f"n{(it - 1) % 8}", f"n{(it + 1) % 8}"] for it in range(8)}
        far = {it: [f"n{(it + 3) % 8}", f"n{(it + 4) % 8}"] if it % 4 else [] for it in range(8)}
        for value in (lambda it: {"active": ring[it], "passive": far[it]},
                      lambda it: {"views": {"active": ring[it], "passive": far[it] or None}}):
            text = json.dumps({f"n{it}": value(it) for it in range(8)})
            words = {"peers": "views.active" if "views" in text else "active"}
            found = self.told("views.json", text, words)
            self.assertIn("not read as states: beside them", found)
            self.assertIn("passive (6, as", found)
            self.assertNotIn("may be down", found)

    def test_ids_from_zero_on(self):
        for field, numbers, is_doubted in (("channel_id", range(7), False), ("channel_id", [str(it) for it in range(7)],
                                           False), ("channel_id", [3, 0, *[4] * 5], True), ("seen", range(7), True)):
            edges = [{field: it, "a": f"n{at}", "b": f"n{(at + 1) % 7}"} for at, it in enumerate(numbers)]
            with self.subTest(field=field, numbers=numbers):
                found = self.told("net.json", json.dumps({"edges": edges}), {"links": "edges", "columns": "a,b"})
                self.assertEqual("may be down" in found, is_doubted, found)
                self.assertIn(field, found)

    def test_what_does_not_fit_is_refused(self):
        for name, text, told in (
            ("net.tgf", "1 a\n2 b\n#\n1 2\n2 3\n1 3\n", "it looks like TGF and does not fit"),
            ("net.tgf", "1 a\n2 b\n3 c\n#\n1 2\n2 3\n#\n1 3\n", "it looks like TGF and does not fit"),
            ("net.net", '*Vertices 3\n1 "a"\n2 "b"\n*Edges\n1 2\n2 3\n1 3\n', "3 has no line of its own"),
        ):
            with self.subTest(text):
                self.assertIn(told, self.told(name, text, {}))

    def test_fields_without_room_are_named(self):
        columns = [f"c{at}" for at in range(40)]
        rows = [["a", "b", "x", *"1" * 40], ["b", "c", "y", *"0" * 40]]
        lines = [["source", "target", "status", *columns], *rows]
        told = self.told("net.csv", "".join(",".join(it) + "\n" for it in lines), {})
        self.assertIn("and c4, c5, c6", told)
        self.assertIn("c27 and 12 more fields", told)
        links = '[{"source": "a", "target": "b", "": 1}, {"source": "b", "target": "c", "": 2}]'
        named = self.told("net.json", links, {})
        self.assertIn('of 2 links "" is 1 (1) or 2 (1)', named)

    def test_a_count_that_fits_is_no_news(self):
        rows = "+---+---+\n| source | target |\n+---+---+\n| a | b |\n| b | c |\n| a | c |\n+---+---+\n3 rows in set\n"
        self.assertEqual([it for it in self.read(self.put("net.txt", rows)).notes if "footer" in it], [])

    def test_each_form_is_there(self):
        there = {"csv", "weighted", "adjacency", "gexf"}  # these are in it as lines, and as XML
        for name, template, _, *words in CASES:
            there |= {words[0].get("form")} if words else set()
            there |= {form_of(filled(template, {}), name)} if isinstance(template, str) else set()
        # views of names, and graph6, have no room for more
        self.assertEqual({*FORMS} - there, {"views", "graph6"})
