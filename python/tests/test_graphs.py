"""Tests of how graphs are read. They need no program."""

import random
import unittest
import warnings

from tagzirk.dumps import read_graph_file
from tagzirk.errors import BadGraph, ViewsDiffer
from tagzirk.graphs import in_file, named_graph, of_file

try:
    import networkx
except ImportError:
    networkx = None


class Views(unittest.TestCase):
    def test_a_link_needs_both_ends(self):
        with self.assertWarns(ViewsDiffer):
            graph = named_graph({"a": ["b", "c"], "b": {"a", "c"}, "c": ("b",), "d": []})
        self.assertEqual(graph.ids, {"a": 1, "b": 2, "c": 3, "d": 4})
        self.assertEqual(graph.links, [[1, 2], [2, 3]])

    def test_a_peer_without_a_view_is_no_node(self):
        with self.assertWarns(ViewsDiffer):
            graph = named_graph({"a": ["b", "gone"], "b": ["a", "gone"]})
        self.assertEqual((graph.nodes, graph.links), ([1, 2], [[1, 2]]))

    def test_what_is_told(self):
        views = {1: [2, 3, 3], 2: (1,), 3: [], "a\nb": range(30, 42)}
        with self.assertWarns(ViewsDiffer) as caught:
            named_graph(views)
        told = ["listed by one end only: 13", "1 lists 3, and 3 does not list 1"]
        told += [f"a\\u{{a}}b lists {peer}, and {peer} does not list a\\u{{a}}b" for peer in range(30, 39)]
        told += ["listed without an entry: 12", *(f"{peer} is listed and has no entry" for peer in range(30, 40))]
        self.assertEqual(str(caught.warning).split("\n"), told)

    def test_warnings_can_be_silenced(self):
        with warnings.catch_warnings(record=True) as caught:
            warnings.simplefilter("always")
            named_graph({"a": ["b"], "b": {"a": 1}})
            warnings.simplefilter("ignore", ViewsDiffer)
            named_graph({"a": ["b"], "b": []})
        self.assertEqual(caught, [])
        with warnings.catch_warnings():
            warnings.simplefilter("error", ViewsDiffer)
            with self.assertRaises(ViewsDiffer):
                named_graph({"a": ["b"]})

    def test_what_is_no_view(self):
        for views in {"a": "b", "b": "a"}, {"a": 1}, {"a": None}, {"a": [["b"]]}:
            with self.assertRaises(BadGraph, msg=views):
                named_graph(views)


    def test_who_lists_itself_is_linked_to_nobody_by_that(self):
        with self.assertWarns(ViewsDiffer) as caught:
            graph = named_graph({"b": ["b", "a"], "a": ["b", "a"], "c": ["c"]})
        self.assertEqual((graph.ids, graph.links), ({"a": 1, "b": 2, "c": 3}, [[1, 2]]))
        told = ["lists itself: 3", *(f"{it} lists itself" for it in "abc"), "a link of a name to itself is passed over"]
        self.assertEqual(str(caught.warning).split("\n"), told)


class Edges(unittest.TestCase):
    def test_nodes_are_those_that_occur(self):
        graph = named_graph(iter([("x", "y"), ("z", "y"), ("y", "x"), frozenset("xz")]))
        self.assertEqual(graph.ids.keys(), {"x", "y", "z"})
        self.assertEqual(graph.links, [[1, 2], [1, 3], [2, 3]])
        self.assertEqual(named_graph([]).text, "")

    def test_links_of_a_node_to_itself_are_passed_over(self):
        with self.assertWarnsRegex(ViewsDiffer, "^lists itself: 1\nc lists itself\n"):
            graph = named_graph([("c", "c"), ("a", "b"), ("c", "c")])
        self.assertEqual((graph.nodes, graph.links), ([1, 2, 3], [[1, 2]]))

    def test_what_is_no_edge(self):
        for edge in "ab", b"ab", ("a",), ("a", "b", {}), 1, None, (["a"], "b"):
            with self.assertRaises(BadGraph, msg=edge):
                named_graph([edge])

    def test_what_is_no_graph(self):
        for graph in "ab", b"ab", None, 7:
            with self.assertRaises(BadGraph, msg=graph):
                named_graph(graph)


class Names(unittest.TestCase):
    def test_ids_are_kept(self):
        graph = named_graph([(9, 4), (0, 2**32 - 1)])
        self.assertEqual(graph.text, "node 0\nnode 4\nnode 9\nnode 4294967295\nlink 0 4294967295\nlink 4 9\n")

    def test_texts_are_numbered_by_their_bytes(self):
        names = ["a", "B", "b", "10", "9", "\u00e9", "\ufffd", "\U0001f600", "a b", "", "\n"]
        wanted = sorted(names, key=str.encode)
        backward = {name: [] for name in reversed(wanted)}
        self.assertEqual(list(named_graph(backward).ids.items()), [(name, at) for at, name in enumerate(wanted, 1)])
        self.assertEqual(named_graph([("b", "\ud800"), ("a", "b")]).ids, {"a": 1, "b": 2, "\ud800": 3})

    def test_graph_files_with_names(self):
        text = named_graph([("b\r", "\\u{d}"), ("\ud800", "b\r")]).text_with_names
        self.assertEqual(text, "# 1 \\u{5c}u{d}\nnode 1\n# 2 b\\u{d}\nnode 2\n# 3 \\u{d800}\nnode 3\n"
                               "link 1 2\nlink 2 3\n")
        self.assertEqual(named_graph([(9, 4)]).text_with_names, "# 4 4\nnode 4\n# 9 9\nnode 9\nlink 4 9\n")
        source, parts = random.Random(1), ["\\", "u", "{", "}", "5c", "a", "1b", "41", "\n", "\x1b", "d800", "\ud800"]
        for _ in range(3000):
            name = "".join(source.choices(parts, k=source.randint(0, 7)))
            self.assertEqual(of_file(in_file(name)), name)
        self.assertEqual(read_graph_file(text).ids, {"\\u{d}": 1, "b\r": 2, "\ud800": 3})

    def test_other_names_are_numbered(self):
        for names in ("a", "b"), (1, 2**32), (1, -1), (1, 2.5), (None, ("a", 1)), (False, True), (frozenset(), 3):
            graph = named_graph([names])
            self.assertEqual(list(graph.ids.items()), [(names[0], 1), (names[1], 2)])
            self.assertEqual(graph.text, "node 1\nnode 2\nlink 1 2\n")

    def test_groups(self):
        graph = named_graph([("a", "b"), ("b", "c")])
        self.assertIsNone(graph.members(None))
        self.assertEqual(graph.members(iter(["c", "a", "c"])), [1, 3])
        self.assertEqual(named_graph([(1000, 5), (5, 64)]).members([1000, 64, 5]), [5, 64, 1000])
        for group in [], ["d"], "ab", [["a"]], ["a", None]:
            with self.assertRaises(BadGraph, msg=group):
                graph.members(group)


@unittest.skipUnless(networkx, "networkx is not there")
class Networkx(unittest.TestCase):
    def test_nodes_without_links_count(self):
        graph = networkx.Graph([("b", "a")])
        graph.add_node("c")
        self.assertEqual(named_graph(graph).ids, {"a": 1, "b": 2, "c": 3})
        self.assertEqual(named_graph(graph).links, [[1, 2]])

    def test_links_that_occur_twice_count_once(self):
        self.assertEqual(named_graph(networkx.MultiGraph([(1, 2), (2, 1), (2, 3)])).links, [[1, 2], [2, 3]])

    def test_directed_graphs_are_refused(self):
        with self.assertRaises(BadGraph):
            named_graph(networkx.DiGraph([(1, 2)]))

    def test_links_of_a_node_to_itself_are_passed_over(self):
        for kind in networkx.Graph, networkx.MultiGraph:
            with self.assertWarnsRegex(ViewsDiffer, "^lists itself: 1\n1 lists itself\n"):
                self.assertEqual(named_graph(kind([(1, 1), (1, 2)])).links, [[1, 2]])


if __name__ == "__main__":
    unittest.main()
