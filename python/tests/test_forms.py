"""Tests of the forms of dumps that `overlay import` does not read. They need no program."""

import json
import pathlib
import shutil
import unittest
from unittest import mock

from tagzirk.dumps import read_graph_file
from tagzirk.asked import Asked
from tagzirk.errors import BadDump, LibraryMissing
from tagzirk.folders import host_of, of_hosts
from tagzirk.dot import of_dot
from tagzirk.forms import listings_of
from tagzirk.texts import text_of
from tagzirk.documents import views_of
from tagzirk.values import Views

try:
    import networkx
except ImportError:
    networkx = None
try:
    import yaml
except ImportError:
    yaml = None

# A triangle and a host without links.
TRIANGLE = {"a": {"b", "c"}, "b": {"a", "c"}, "c": {"a", "b"}, "d": set()}
PATH = {"a": {"b"}, "b": {"a", "c"}, "c": {"b"}}
# What Graphviz writes as JSON, without where it draws things.
GRAPHVIZ = json.dumps(
    {
        "name": "G",
        "directed": False,
        "strict": False,
        "_subgraph_cnt": 0,
        "objects": [{"_gvid": 0, "name": "a"}, {"_gvid": 1, "name": "b"}],
        "edges": [{"_gvid": 0, "tail": 0, "head": 1}],
    }
)


def views(text, place="net", **asked):
    """What hosts list by a text, or None if `overlay import` is to read it."""
    found = listings_of(text if isinstance(text, bytes) else text.encode(), place, Asked(**asked))
    return found and {name: set(peers) for name, peers in found.peers.items()}


class Left(unittest.TestCase):
    def test_what_overlay_import_reads_is_left_to_it(self):
        for text in (
            "",
            " \n",
            '{"a": ["b"], "b": []}',
            '{"a": null, "b": [1]}',
            "{}",
            "a b\nb c\n",
            "a, b\n",
            "a\tb # seen",
            "10.0.0.1:7946 10.0.0.2:7946",
            "[::1]:7946 [::2]:7946",
            "a b {'weight': 3}",
            "graph { a -- b }",
            "// DOT\ndigraph{a->b}",
            "strict graph {a}",
            "a b\nc d flaky\na c",
            "graph-1 b",
            "a b c",
            '{"verdict":"split","k":2}',
            "node 1\nnode 2\nlink 1 2\n",
            '{"a": ["b"]',
            '{"a":["b"],"a":["c"]}',
        ):
            self.assertIsNone(views(text), text)
        for form in "views", "edges", "dot":
            self.assertIsNone(views('[["a", "b"]]', form=form))


class Statements(unittest.TestCase):
    def test_what_stands_beside_is_kept_in_order(self):
        made = Views()
        made.enter("a", {"rack": 4})
        made.listing("a", "b", {"up": True})
        made.link("b", "c")
        made.edge("c", "d", True, {"cost": None})
        self.assertEqual(made.value, {"a": ["b"], "b": ["c"], "c": ["b", "d"], "d": []})
        wanted = [
            ("a", None, False, {"rack": 4}),
            ("a", "b", False, {"up": True}),
            ("b", "c", True, {}),
            ("c", "d", False, {"cost": None}),
            ("d", None, False, {}),
        ]
        self.assertEqual([tuple(it) for it in made.statements], wanted)


class Values(unittest.TestCase):
    def test_nodes_and_links(self):
        nodes, links = [{"id": it} for it in "abcd"], [{"source": a, "target": b} for a, b in ("ab", "bc", "ca")]
        data = [{"data": it} for it in nodes], [{"data": {"id": 1, **it}} for it in links]
        for value in (
            {"nodes": nodes, "links": links},
            {"directed": False, "nodes": nodes, "edges": links},
            {"type": "NetworkGraph", "protocol": "olsr", "metric": "etx", "nodes": nodes, "links": links},
            {"type": "NetworkCollection", "collection": [{"type": "NetworkGraph", "nodes": nodes, "links": links}]},
            {"elements": {"nodes": data[0], "edges": data[1]}},
            {"graph": {"nodes": nodes, "edges": links}},
            {"graph": {"nodes": {it: {} for it in "abcd"}, "edges": links}},
            {"elements": [*data[0], *data[1]]},
            {"nodes": list("abcd"), "links": links},
            [*data[0], *data[1]],
            {"nodes": nodes, "links": [{"source": {"id": it["source"]}, "target": it["target"]} for it in links]},
            {
                "nodes": [{"name": it} for it in "abcd"],
                "links": [{"source": a, "target": b} for a, b in ((0, 1), (1, 2), (2, 0))],
            },
            {"nodes": nodes, "adjacency": [[{"id": it} for it in TRIANGLE[name]] for name in "abcd"]},
        ):
            self.assertEqual(views(json.dumps(value)), TRIANGLE, value)

    def test_names_of_nodes(self):
        value = {
            "nodes": [{"id": 0, "label": "oslo"}, {"id": 1, "label": "rome"}],
            "links": [{"source": 0, "target": 1}],
        }
        self.assertEqual(views(json.dumps(value)), {"0": {"1"}, "1": {"0"}})
        self.assertEqual(views(json.dumps(value), by="label"), {"oslo": {"rome"}, "rome": {"oslo"}})
        # an id is meant before a place
        value = {"nodes": [{"id": 1}, {"id": 0}, {"id": 2}], "links": [{"source": 0, "target": 2}]}
        self.assertEqual(views(json.dumps(value)), {"1": set(), "0": {"2"}, "2": {"0"}})

    def test_directions_are_listings(self):
        value = {"directed": True, "nodes": [{"id": "a"}, {"id": "b"}], "links": [{"source": "a", "target": "b"}]}
        self.assertEqual(views(json.dumps(value)), {"a": {"b"}, "b": set()})

    def test_peers_far_below(self):
        entries = {it: {"net": {"v6": {"seen": {"by": others}}}} for it, others in (("a", ["b"]), ("b", ["a"]))}
        for value in entries, [{"name": it, **entry} for it, entry in entries.items()]:
            self.assertEqual(views(json.dumps(value), peers="net.v6.seen.by"), {"a": {"b"}, "b": {"a"}})

    def test_hosts_with_peers(self):
        wanted = {"a": {"b", "7"}, "b": {"a"}, "7": set()}
        entries = {"a": {"peers": ["b", 7]}, "b": {"peers": [{"id": "a", "rtt": 3}], "up": True}, "7": {"peers": None}}
        rows = [{"name": name, **entry} for name, entry in entries.items()]
        for text in json.dumps(entries), json.dumps(rows), "\n".join(map(json.dumps, rows)):
            self.assertEqual(views(text), wanted, text)
        self.assertEqual(views('{"a": {"neighbors": {"b": {"rtt": 1}}}}'), {"a": {"b"}})
        self.assertEqual(views('[{"key": "k1", "addr": "a", "peers": ["b"]}]', by="addr"), {"a": {"b"}})
        self.assertEqual(views('{"a": ["b"]}\n{"b": ["a"]}\n'), {"a": {"b"}, "b": {"a"}})

    def test_lists_of_links(self):
        for text in (
            '[["a","b"],["b","c"]]',
            '[["a","b",3],["c","b",{"w":1}]]',
            '[{"from":"a","to":"b"},{"from":"b","to":"c"}]',
            '{"source":"a","target":"b"}\n\n{"source":"b","target":"c"}\n',
            '["a","b"]\n["c","b"]\n',
        ):
            self.assertEqual(views(text), PATH, text)

    def test_hosts_below_one_key(self):
        rows = [{"name": "a", "peers": ["b"]}, {"name": "b", "peers": ["a", "c"]}, {"name": "c", "peers": ["b"]}]
        entries = {row["name"]: {"peers": row["peers"]} for row in rows}
        links = [{"source": "a", "target": "b"}, {"source": "b", "target": "c"}]
        for value in (
            {"hosts": rows},
            {"taken": "09:00", "version": 3, "members": rows},
            {"nodes": rows},
            {"nodes": entries},
            {"cluster": entries},
            {"links": links},
            {"edges": links},
            {"data": {"nodes": [{"id": it} for it in "abc"], "links": links}},
        ):
            self.assertEqual(views(json.dumps(value)), PATH, value)
        # a host with its peers is no key around others, nor are peers that are objects
        for value in {"a": entries["a"]}, {"a": {"peers": [{"name": "b", "peers": ["a"]}]}}:
            self.assertEqual(views(json.dumps(value)), {"a": {"b"}}, value)
        self.assertEqual(views('{"a": [{"name": "b", "links": 3}], "b": []}'), {"a": {"b"}, "b": set()})
        self.assertEqual(views('{"a": ["b", {"name": "c", "links": 3}]}'), {"a": {"b", "c"}})

    def test_what_is_refused(self):
        for text, told in (
            ('{"nodes": [{"id": "a"}, {"id": "b"}]}', "it has nodes, and neither links, edges or adjacency"),
            ('{"nodes": ["a", "b"]}', "it has nodes, and neither links, edges or adjacency"),
            ('{"hosts": [{"name": "a"}, {"name": "b"}]}', "its one list, hosts, has objects without peers"),
            ('{"hosts": [{"name": "a", "peers": []}], "sites": ["x"]}', "sites stands beside it: say --links hosts"),
            ('["a","b"]', "'a' is neither a link nor a host with its peers"),
            ('[["a"]]', "a link is a list of two names"),
            ('{"peers":["a"]}', "does not say of which"),
            ('{"a":{"port":1}}', "should have the list peers"),
            ('{"a":7}', "is no list of peers"),
            ('{"a":[true, {}]}', "True is no name"),
            ('[{"name":"a"}]', "the host a should have the list"),
            ('[{"x":1,"peers":[]}]', "peers"),
            ('[{"name":"a","peers":[]},{"name":"a","peers":[]}]', "the host a stands there twice"),
            ('{"a":{"peers":["b"]},"a":{"peers":[]}}', "the key a twice"),
            ('["a","b"]\n["a"', "line 2 is no JSON"),
            ('{"nodes":[{"id":"a"}],"links":[{"source":"a","target":"b"}]}', "the end b, which is no node"),
            ('{"nodes":[{"id":"a"},{"id":"a"}],"links":[]}', "one name"),
            ('{"nodes":[],"links":[{"a":1}]}', "source and target"),
            ('{"type":"NetworkCollection","collection":[]}', "0 graphs"),
            ('{"nodes":["a"],"adjacency":[]}', "for each node"),
            ('{"a":{"neighbors":"b,c"},"b":{}}', "of the host a, neighbors is 'b,c', and should be a list of names"),
            ('[{"name":"a","peers":"b"},{"name":"b","peers":["a"]}]', "of the host a, peers is 'b', and should be"),
            ('{"name":"a","links":2}\n{"name":"b","links":2}\n', "of the host a, links is 2, and should be a list"),
            ('{"hosts":[{"name":"a","neighbours":"b"}]}', "below hosts, neighbours is 'b', and should be a list"),
            ('{"nodes":[{"id":"a","peers":"b"},{"id":"b"}]}', "below nodes, peers is 'b', and should be a list"),
            (GRAPHVIZ, "what `dot -Tjson` writes: give the DOT"),
        ):
            with self.assertRaisesRegex(BadDump, told, msg=text):
                views(text)


class Lines(unittest.TestCase):
    def test_tables(self):
        for text in (
            "source,target\na,b\nb,c\n",
            "\ufeffFrom;To;cost\na;b;1\nb;c;2\n",
            "# seen at noon\nSRC\tDST\na\tb\nc\tb\n",
            '"id","target","source"\n1,"a","b"\n2,"c","b"\n',
            "source target\na b\nb c\n",
            "node1, node2\na, b\nb, c\n",
        ):
            self.assertEqual(views(text), PATH, text)
        self.assertEqual(views("host,peer\na,b\nb,a\nc,\n"), {"a": {"b"}, "b": {"a"}, "c": set()})
        self.assertEqual(views('source,target\n"a, the first",b\n'), {"a, the first": {"b"}, "b": {"a, the first"}})
        self.assertEqual(views("n,x,y\n1,a,b\n2,b,c\n", columns="x,Y"), PATH)
        # a host of such a name is one, and a row that begins with # is a row
        self.assertIsNone(views("source target\na source\n"))
        self.assertEqual(views("source,target\n"), {})
        self.assertEqual(views("# by hand\nsource,target\n#1,b\n"), {"#1": {"b"}, "b": {"#1"}})
        for text, asked, told in (
            ("a,b\n", {"form": "csv"}, "no known header"),
            ("x,y\na,b\n", {"columns": "x,z"}, "--columns"),
            ("a b\nb c\n", {"columns": "a,b"}, "line 1 may be a header or a link, since b stands in line 2 too"),
            ("# x\nsource,target\na,target\n", {"columns": "source,target"}, "--skip 2 --columns 1,2, and of a link"),
            ("source,target\na\n", {}, "line 2 has 1"),
            ("source,target\na,\n", {}, "line 2 lacks a name"),
        ):
            with self.assertRaisesRegex(BadDump, told, msg=text):
                views(text, **asked)

    def test_columns_by_number(self):
        for text in "source,target\na,b\nb,c\n", "a b\nb c\n", "# seen\nfrom,to\na,b\nb,c\nfrom,to\n":
            self.assertEqual(views(text, columns="1,2"), PATH, text)
        self.assertEqual(views("source,cost,target\na,7,b\nc,8,b\n", columns="3,1"), PATH)
        self.assertEqual(views("id,source,target,port\na,x,y,b\nb,x,y,c\n", columns="1,4"), PATH)
        # a known header says that each row is a listing
        self.assertEqual(views("host,peer\na,b\n", columns="1,2"), {"a": {"b"}})
        # hosts that are called as columns
        self.assertEqual(views("source target\na source\n", columns="1,2")["source"], {"target", "a"})
        lone = listings_of(b"here,there\na,b\nb,c\n", "net", Asked(columns="1,2"))
        self.assertIn("here and there stand in line 1 alone: of a header say --columns here,there", lone.kind)
        self.assertEqual(views("here,there\na,b\nb,c\n", columns="here,there"), PATH)

    def test_weights(self):
        for text in (
            "a b 3.5\nb c 1\n",
            "a\tb\t-2e3\nc\tb\t.5\n",
            "a;b\nb;c\n",
            "a; b; 7\nc; b; 8\n",
            "a, b, 1\nb, c, 2 # late\n",
        ):
            self.assertEqual(views(text), PATH, text)
        self.assertEqual(views("1 2 3\n2 3 9\n"), {"1": {"2"}, "2": {"1", "3"}, "3": {"2"}})
        for text in "1 2 3\n2 3 1\n", "1 2 3\n2 1 3\n3 1 2\n":
            with self.assertRaisesRegex(BadDump, "--form weighted or --form adjacency", msg=text):
                views(text)
        self.assertEqual(views("1 2 3\n2 3 1\n", form="weighted"), {"1": {"2"}, "2": {"1", "3"}, "3": {"2"}})
        for text in "a;b;heavy\n", "a;\n":
            with self.assertRaisesRegex(BadDump, "line 1 is not two names"):
                views(text)

    def test_arrows(self):
        self.assertEqual(views("a -> b\nb->a\nb -> c\n"), {"a": {"b"}, "b": {"a", "c"}, "c": set()})
        self.assertEqual(views("a -- b\nb -- c\n"), PATH)
        self.assertEqual(views("a <-> b\nc <-> b\n"), PATH)
        self.assertEqual(views("10.0.0.1:655 -> x--1\n"), {"10.0.0.1:655": {"x--1"}, "x--1": set()})
        self.assertEqual(views("a <-> 1\n"), {"a": {"1"}, "1": {"a"}})
        self.assertIsNone(views("a -> b c\n"))

    def test_brackets_and_quotes(self):
        for text in (
            "(a, b)\n(b, c)\n",
            "('a', 'b'),\n('b', 'c')\n",
            '"a","b"\n"b","c"\n',
            '"a" "b"\n"c" "b"\n',
            "a -- b;\nb -- c;\n",
        ):
            self.assertEqual(views(text), PATH, text)
        # overlay import tells of these
        for text in "(a, b)\nb c\n", "[a, b]\n", "a; b\nc d\n":
            self.assertIsNone(views(text), text)

    def test_lists_of_neighbours(self):
        self.assertEqual(views("a: b, c\nb: a\nc:\n"), {"a": {"b", "c"}, "b": {"a"}, "c": set()})
        self.assertEqual(views("10.0.0.1:7946: 10.0.0.2:7946\n"), {"10.0.0.1:7946": {"10.0.0.2:7946"}})
        self.assertEqual(views("a: 1 2\n"), {"a": {"1", "2"}})
        # each link once, as networkx writes undirected graphs; and each at both ends
        for text in "# by hand\na b c\nb c\nc\nd\n", "a b c\nb a c\nc a b\nd\n":
            self.assertEqual(views(text), TRIANGLE, text)
        self.assertEqual(views("a b c\nb c\nc a\n"), {"a": {"b", "c"}, "b": {"c"}, "c": {"a"}})
        self.assertEqual(
            views("a b\nb c\nc a\n", form="adjacency"), {"a": {"b", "c"}, "b": {"a", "c"}, "c": {"a", "b"}}
        )
        with self.assertRaisesRegex(BadDump, "line 2: a has a list already"):
            views("a: b\na: c\n")


class Texts(unittest.TestCase):
    def test_utf_16(self):
        for code in "utf-16", "utf-16-le", "utf-16-be":
            data = "source,target\nb\u00f8rre,a\n".encode(code)
            if code != "utf-16":
                with self.assertRaisesRegex(BadDump, "UTF-16 without a mark"):
                    text_of(data)
                data = ("\ufeff" + "source,target\nb\u00f8rre,a\n").encode(code)
            turned, told, _ = text_of(data)
            self.assertEqual(
                (views(turned), told), ({"b\u00f8rre": {"a"}, "a": {"b\u00f8rre"}}, ["it was read as UTF-16"])
            )

    def test_what_is_no_text(self):
        for data, told in (
            (b"\x1f\x8b\x08", "gzip"),
            (b"PK\x03\x04", "zip"),
            (b"%PDF-1.4", "PDF"),
            (b"\xff\xfea", "UTF-16"),
        ):
            with self.assertRaisesRegex(BadDump, told):
                text_of(data)
        with self.assertRaisesRegex(BadDump, "line 2 is not UTF-8"):
            views(b"source,target\n\xe9,a\n")
        with self.assertRaisesRegex(BadDump, "it is no XML: unknown encoding"):
            views('<?xml version="1.0" encoding="UTF-88"?><graphml/>')


class Hosts(unittest.TestCase):
    def test_one_file_a_host(self):
        files = {
            "oslo-1.json": b'["oslo-2", "10.0.0.1"]',
            "oslo-2": b"oslo-1 # up\n\n",
            "peers/10.0.0.1": b'{"peers":[{"name":"oslo-1"}]}',
            "rome.txt": b"",
            "bern.json": b'{"bern": ["rome"]}',
            "gone.json": b"null",
        }
        found = of_hosts({pathlib.Path(it): data for it, data in files.items()}, Asked())
        self.assertEqual(
            found.value,
            {
                "oslo-1": ["oslo-2", "10.0.0.1"],
                "oslo-2": ["oslo-1"],
                "10.0.0.1": ["oslo-1"],
                "rome": [],
                "bern": ["rome"],
                "gone": [],
            },
        )
        self.assertEqual(host_of(pathlib.Path(".json")), ".json")

    def test_the_field_that_names_a_host(self):
        files = {"k1": b'{"peers":[{"key":"k2","address":"x2"}]}', "k2": b'{"peers":[{"key":"k1","address":"x1"}]}'}
        places = {pathlib.Path(it): data for it, data in files.items()}
        found = of_hosts(places, Asked())
        self.assertEqual(
            (found.value, found.kind), ({"k1": ["k2"], "k2": ["k1"]}, "2 files, one a host, with peers by key")
        )
        found = of_hosts(places, Asked(by="address"))
        self.assertEqual((found.value, found.has_known), ({"k1": ["x2"], "k2": ["x1"]}, False))

    def test_what_is_refused(self):
        for files, told in (
            ({"a": b"b c\n"}, "line 1 has several words"),
            ({"a.json": b"[]", "b/a.txt": b""}, "second file is of"),
            ({"a.json": b'{"a":["b"],"b":["a"]}'}, "several files"),
            ({"a.json": b"[1"}, "no JSON"),
        ):
            with self.assertRaisesRegex(BadDump, told, msg=files):
                of_hosts({pathlib.Path(it): data for it, data in files.items()}, Asked())


@unittest.skipUnless(networkx, "networkx is not there")
class Networkx(unittest.TestCase):
    def test_what_networkx_writes(self):
        graph = networkx.Graph([(a, b) for a, peers in TRIANGLE.items() for b in peers])
        graph.add_node("d")
        for text in (
            "\n".join(networkx.generate_adjlist(graph)),
            "\n".join(networkx.generate_graphml(graph)),
            "\n".join(networkx.generate_gml(graph)),
            "\n".join(networkx.generate_gexf(graph)),
            json.dumps(networkx.node_link_data(graph)),
            json.dumps(networkx.adjacency_data(graph)),
            json.dumps(networkx.cytoscape_data(graph)),
        ):
            self.assertEqual(views(text), TRIANGLE, text)

    def test_graphs_by_ids(self):
        text = 'Creator "by hand"\nVersion 1\ngraph [\n node [ id 3 ]\n node [ id 5 ]\n edge [ source 3 target 5 ]\n]\n'
        self.assertEqual(views(text), {"3": {"5"}, "5": {"3"}})


class OfGraphs(unittest.TestCase):
    def test_each_host_of_xml(self):
        whole = '<node id="a"/><node id="b"/><edge source="a" target="b"/>'
        for text, told in (
            ("<?xml version='1.0'?><svg/>", "no graph of nodes and edges: its first element is svg"),
            (f"<graphml><graph>{whole}</graph><graph><node id='c'/></graph></graphml>", "a second graph"),
            (
                f"<graphml><graph>{whole}<node id='c'><graph><node id='d'/></graph></node></graph></graphml>",
                "a graph in it",
            ),
            (
                f"<gexf><graph>{whole}<node id='c'><nodes><node id='d'/></nodes></node></graph></gexf>",
                "groups of hosts",
            ),
            (f"<graphml><graph>{whole}<node id='a'/></graph></graphml>", "line 1: the host a stands there twice"),
            (f"<graphml><graph>{whole}<edge source='a' target='c'/></graph></graphml>", "the end c, which is no node"),
            (f"<graphml><graph>{whole}<node/></graph></graphml>", "a node has no id"),
            (f"<graphml><graph>{whole}<edge source='a'/></graph></graphml>", "source and target"),
            (f"<graphml><graph>{whole}<hyperedge/></graph></graphml>", "more than two hosts"),
            (f"<graphml><graph/>{whole}", "no XML"),
            (f"<graphml>{whole}</graphml>", "outside of a graph"),
            ("<graphml>" * 200, "more than 100 deep"),
            ('<!DOCTYPE x [<!ENTITY y "z">]><graphml/>', "declares the entity y"),
        ):
            with self.assertRaisesRegex(BadDump, told, msg=text):
                views(text)

    def test_what_xml_says_beside_links(self):
        key = '<key id="d0" for="edge" attr.name="state"><default>up</default></key>'
        graphml = (
            f'<graphml>{key}<graph edgedefault="undirected"><node id="a"/><node id="b"/><node id="c"/>'
            '<edge source="a" target="b"/><edge source="b" target="c"><data key="d0">down</data></edge></graph>'
            "</graphml>"
        )
        gexf = (
            '<gexf version="1.3"><graph><attributes class="edge"><attribute id="0" title="state"><default>up</default>'
            '</attribute></attributes><nodes><node id="a"/><node id="b"/><node id="c"/></nodes><edges><edge source="a" '
            'target="b"/><edge source="b" target="c"><attvalues><attvalue for="0" value="down"/></attvalues></edge>'
            "</edges></graph></gexf>"
        )
        for text in graphml, gexf:
            found = listings_of(text.encode(), "net", Asked())
            said = [(it.one, it.other, dict(it.said)) for it in found.statements if it.other]
            self.assertEqual(said, [("a", "b", {"state": "up"}), ("b", "c", {"state": "down"})], text)
            self.assertEqual(views(text), PATH)

    def test_directions_of_xml(self):
        whole = '<node id="a"/><node id="b"/><edge source="a" target="b"/>'
        typed = whole.replace("target", 'type="directed" target')
        for text in (
            f'<graphml><graph edgedefault="directed">{whole}</graph></graphml>',
            f'<gexf><graph defaultedgetype="directed">{whole}</graph></gexf>',
            f'<gexf><graph>{typed}</graph></gexf>',
            f'<graph directed="1">{whole}</graph>',
            f"<gxl><graph>{whole.replace('source', 'from').replace('target', 'to')}</graph></gxl>",
        ):
            self.assertEqual(views(text), {"a": {"b"}, "b": set()}, text)

    def test_names_of_graph_files(self):
        xml = '<node id="0" label="a"/><node id="1" label="b"/><edge source="0" target="1"/>'
        xml = f"<graphml><graph>{xml}</graph></graphml>"
        gml = 'graph [ node [ id 0 label "a" ] node [ id 1 label "b" ] edge [ source 0 target 1 ] ]'
        ids, labels = {"0": {"1"}, "1": {"0"}}, {"a": {"b"}, "b": {"a"}}
        for text, by, wanted in (
            (xml, None, ids),
            (xml, "label", labels),
            (gml, None, labels),
            (gml, "id", ids),
            (gml.replace('label "b"', ""), None, ids),
        ):
            self.assertEqual(views(text, by=by), wanted, (text, by))
        for text, by, told in (
            (xml, "site", "the host 0 has no field site; it has the fields label"),
            (xml.replace('"b"', '"a"'), "label", "the hosts 0 and 1 have the label a both: --by id"),
            (gml.replace('"a"', "7").replace('"b"', '"7"'), None, "the hosts 0 and 1 have the label 7 both"),
        ):
            with self.assertRaisesRegex(BadDump, told):
                views(text, by=by)

    def test_gml_that_is_refused(self):
        for text, told in (
            ("graph [ node ]", "no GML"),
            ("graph [ node [ id 1 ] node [ id 1 ] ]", "the host 1 stands there twice"),
            ("graph [ node [ id 1 ] ] graph [ ]", "2 graphs"),
            ('graph [ node [ id 1 label "a ] ]', "has no end"),
            ("graph [ node [ id 1 ]", "is it torn"),
            ("graph [ node [ label 1 ] ]", "needs id"),
            ("graph [ node [ id 1 graph [ node [ id 2 ] ] ] ]", "has a graph in it"),
            ("graph [ " * 200, "more than 100 deep"),
        ):
            with self.assertRaisesRegex(BadDump, told, msg=text):
                views(text)


class Dot(unittest.TestCase):
    def test_subgraphs(self):
        for text, wanted in (
            ('graph { subgraph cluster_x { a; "d" } a -- {b c} b -- c }', TRIANGLE),
            ("digraph { a -> {b c} -> a }", {"a": {"b", "c"}, "b": {"a"}, "c": {"a"}}),
            ("graph { subgraph x {a}; subgraph x {c}; subgraph x -- b }", PATH),
            ("strict graph { a -- b -- c // late\n}", PATH),
            ('graph { "a":p:n -- b:q; node [x=1]; graph [y=2]; z = 3\n# by hand\nb -- "c" [label=<<b>x</b>>] }', PATH),
            (
                'graph { "%a"; b -- c; {x} -- {b}; c -- x }',
                {"%a": set(), "b": {"c", "x"}, "c": {"b", "x"}, "x": {"b", "c"}},
            ),
            ('graph { "a"+"b" -- "c\\"d" }', {"ab": {'c"d'}, 'c"d': {"ab"}}),
            ("digraph { a -> b }", {"a": {"b"}}),
        ):
            found = of_dot(text)
            self.assertEqual({name: set(peers) for name, peers in found.peers.items()}, wanted, text)

    def test_what_stands_beside(self):
        found = of_dot('graph { edge [style=invis]; a -- b; edge [style=""]; b -- c [label=down]; a [site=x] }')
        said = [(it.one, it.other, dict(it.said)) for it in found.statements]
        links = [("a", "b", {"style": "invis"}), ("b", "c", {"style": "", "label": "down"})]
        self.assertEqual(said, [("a", None, {"site": "x"}), *links])

    def test_what_is_refused(self):
        ends = (" ".join(f"{side}{at}" for at in range(400)) for side in "ab")
        for text, told in (
            ("graph { oslo-1 -- {a b} }", "several words"),
            ("graph { 10.0.0.1 -- {a b} }", "several words"),
            ("graph { 5f3a -- {a b} }", "several words"),
            ("graph { a -- {b", "the end"),
            ("graph { a -- b } graph { c }", "a file of one graph"),
            ("graph { a -> b }", "DOT needs --"),
            ("graph { oslo:1 -- rome:2; oslo:3 -- bern:4 }", "are one node to DOT"),
            ("graph { node -- a }", "a host of this name needs quotes"),
            ('graph { "a', "has no end"),
            ("graph { a -- <b", "has no end"),
            ('graph { <a> -- {"a"} }', "the same text in quotes"),
            ("graph { " + "{" * 200, "more than 100 deep"),
            (f"digraph {{ {{{next(ends)}}} -> {{{next(ends)}}} }}", "subgraphs as ends"),
        ):
            with self.assertRaisesRegex(BadDump, told, msg=text[:80]):
                of_dot(text)


class Libraries(unittest.TestCase):
    def test_what_is_told_of_a_missing_library(self):
        with mock.patch.dict("sys.modules", {"yaml": None}), self.assertRaisesRegex(LibraryMissing, "python3-yaml"):
            views("a: [b]\n", "a.yaml")

    @unittest.skipUnless(yaml, "yaml is not there")
    def test_yaml_without_a_name(self):
        for text in (
            "{a: [b], b: [a, c], c: [b]}\n",
            "a: [b]\nb: [a, c]\nc: [b]\n",
            "# of today\na: [b]\nb: [a,\n  c]\nc: [b]\n",
            "a:\n  - b\nb:\n- a\n- c\nc: [b]\n",
            "- {name: a, peers: [b]}\n- name: b\n  peers: [a, c]\n- {name: c, peers: [b]}\n",
            "hosts:\n  - {name: a, peers: [b]}\n  - {name: b, peers: [a, c]}\n  - {name: c, peers: [b]}\n",
            "a: {peers: [b]}\nb: {peers: [a, c]}\nc: {peers: [b]}\n",
        ):
            self.assertEqual(views(text, "standard input"), PATH, text)
        # addresses in brackets are names
        self.assertEqual(views("a: [::1]:80 b\nb:\n"), {"a": {"[::1]:80", "b"}, "b": set()})

    @unittest.skipUnless(yaml, "yaml is not there")
    def test_yaml(self):
        for text, place in ("a: [b, c]\nb:\n  - a\nc:\n", "net.yaml"), ("---\na: [b, c]\nb: [a]\nc: []\n", "net"):
            self.assertEqual(views(text, place), {"a": {"b", "c"}, "b": {"a"}, "c": set()})
        with self.assertRaisesRegex(BadDump, "no YAML"):
            views("a: [", "net.yml")

    @unittest.skipUnless(yaml, "yaml is not there")
    def test_scalars_of_yaml(self):
        # whatever YAML 1.1 makes of 010, 1.10 or no; what stands for nothing is nobody
        wanted = {"010": {"x"}, "8": {"x"}, "x": {"010", "8"}}
        self.assertEqual(views("010: [x]\n8: [x]\nx: [010, 8]\n", "a.yaml"), wanted)
        text = "a: [1.10, no, 10:20:30, 2001-99-99, ~, true]\n1.1:\n'8': null\n"
        wanted = {"a": {"1.10", "no", "10:20:30", "2001-99-99", "true"}, "1.1": set(), "8": set()}
        self.assertEqual(views(text, "a.yaml"), wanted)
        self.assertEqual(views("a: &x [b, c]\nd: *x\n", "a.yaml"), {"a": {"b", "c"}, "d": {"b", "c"}})
        for slow in False, True:
            with mock.patch("yaml.__with_libyaml__", yaml.__with_libyaml__ and not slow):
                for text, told in (
                    ("a: [b]\na: [c]\n", "line 2: the key a stands twice"),
                    ("8: [b]\n'8': [c]\n", "line 2: the key 8 stands twice"),
                    ("a: [b]\n---\nc: [d]\n", "a second document"),
                    ("a: *x\n", "names nothing"),
                    ("<<: {a: [b]}\n", "write them out"),
                    ("a: !!python/object/apply:os.system [x]\n", "the tag .* is not read"),
                    ("[a]: b\n", "no name of a host"),
                    ("[" * 2000, "more than 100 deep"),
                    ("a: [" + "9" * 5000 + ", {", "no YAML"),
                    ("a: [", "no YAML"),
                ):
                    with self.assertRaisesRegex(BadDump, told, msg=text[:80]):
                        views(text, "a.yaml")


class GraphFiles(unittest.TestCase):
    def test_each_node_line_is_a_host(self):
        # names that are taken, names like those that are made for these, zeros in front, digits of another script
        zeros = "0" * 5000
        for text, ids in (
            ("# 1 x (3)\nnode 1\n# 2 x\nnode 2\n# 3 x\nnode 3\n", {1, 2, 3}),
            ("# 1 3\nnode 1\n# 2 3 (3)\nnode 2\nnode 3\n", {1, 2, 3}),
            ("# 1 b\nnode 1\n# 2 b\nnode 2\n# 3 b (2)\nnode 3\n", {1, 2, 3}),
            (f"# {zeros}1 x\nnode {zeros}1\n# {'1' * 5000} y\nnode 2\n", {1, 2}),
        ):
            graph = read_graph_file(text)
            self.assertEqual((set(graph.ids.values()), len(graph.ids)), (ids, len(ids)), text[:60])
        self.assertEqual(read_graph_file(f"# {zeros}1 x\nnode 01\n").ids, {"x": 1})
        self.assertEqual(read_graph_file("# \u0661 oslo\nnode 1\n").ids, {"1": 1})


class OtherValues(unittest.TestCase):
    def test_values_that_are_no_dump(self):
        for value in "a", 7, None, True:
            with self.assertRaises(BadDump):
                views_of(value)


if __name__ == "__main__":
    unittest.main()
