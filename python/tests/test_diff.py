"""Tests of what changed between two dumps: against the definitions, by trying all crashes of small graphs."""

import html.parser
import itertools
import json
import random
import unittest

from .test_commands import Commands, edges_of, views_of
from .test_remedies import fewest_that_cut_off, some_graph

# A ring of six with a chord between each two that are opposite: k is 3.
RING = [*((f"h{at}", f"h{(at + 1) % 6}") for at in range(6)), *((f"h{at}", f"h{at + 3}") for at in range(3))]


def number(nodes, links):
    """k by its definition, and one less than the number of hosts if all are linked."""
    fewest = fewest_that_cut_off(nodes, links, 1)
    return len(nodes) - 1 if fewest is None else fewest


class Text(html.parser.HTMLParser):
    """The text of a page, and how many of its elements are open at the end."""

    def __init__(self, page):
        super().__init__()
        self.text, self.open = "", 0
        self.feed(page)

    def handle_starttag(self, tag, attributes):
        self.open += tag != "meta"

    def handle_endtag(self, tag):
        self.open -= 1

    def handle_data(self, data):
        self.text += data


class Diff(Commands):
    def pair(self, old, new):
        """Files of two dumps, each a list of hosts and a list of links."""
        return [self.file(name, json.dumps(views_of(*it))) for name, it in (("old.json", old), ("new.json", new))]

    def test_against_the_definition(self):
        source, lower = random.Random(19), 0
        for _ in range(40):
            nodes, links = some_graph(source, 7)
            kept = [it for it in nodes if source.random() < 0.85] or nodes[:1]
            new_nodes = [*kept, *(["new"] if source.random() < 0.5 else [])]
            new_links = [it for it in links if set(it) <= set(kept) and source.random() < 0.85]
            new_links += [("new", it) for it in kept if "new" in new_nodes and source.random() < 0.5]
            out, _, status = self.tagzirk("diff", *self.pair((nodes, links), (new_nodes, new_links)), "--json")
            said = json.loads(out)
            then, now = number(nodes, links), number(new_nodes, new_links)
            self.assertEqual((status, said["old"]["k"], said["new"]["k"]), (0, then, now))
            went = set(nodes) - set(new_nodes)
            lost = {it for it in links if it not in new_links and not set(it) & went}
            self.assertEqual((set(said["hosts_went"]), set(map(tuple, said["links_went"]))), (went, lost))
            self.assertEqual(said["hosts_came"], [it for it in new_nodes if it not in nodes])
            if now >= then:
                self.assertEqual((said["restoring"], said["k_with_all_back"]), ([], None))
                continue
            lower += 1
            back = {}
            for host in went:
                hosts = [*new_nodes, host]
                back[host] = number(hosts, new_links + [it for it in links if host in it and set(it) <= set(hosts)])
            back.update((it, number(new_nodes, [*new_links, it])) for it in lost)
            restoring = {it["host"] if "host" in it else tuple(it["link"]) for it in said["restoring"]}
            self.assertEqual(restoring, {it for it, k in back.items() if k >= then}, (links, new_links))
            without = [it for it in said["hosts_came"] if len(new_nodes) > 1]
            without = [it for it in without if number(kept, [link for link in new_links if it not in link]) >= then]
            self.assertEqual(said["burdening"], without)
            everybody = sorted({*nodes, *new_nodes})
            self.assertEqual(said["k_with_all_back"], number(everybody, sorted({*links, *new_links})))
        self.assertGreater(lower, 10)

    def test_what_is_printed(self):
        hosts = [f"h{at}" for at in range(6)]
        files = self.pair((hosts, RING), (hosts, [it for it in RING if it != ("h0", "h3")]))
        out, _, status = self.tagzirk("diff", *files)
        self.assertEqual(status, 0)
        lines = out.splitlines()
        self.assertEqual((lines[0], lines[3:5]), (
            "k is 2, and was 3.", ["Went: 1 link between hosts of both: h0 - h3.", "Came: nothing."]))
        self.assertEqual(lines[5:], ["Each of these alone, put back, gives k 3 again:", "  link h0 - h3"])
        out, _, status = self.tagzirk("diff", files[1], files[0])
        self.assertEqual((out.splitlines()[0], len(out.splitlines())), ("k is 3, and was 2.", 5))
        same = self.file("same.json", json.dumps(views_of(hosts, RING)))
        self.assertEqual(self.tagzirk("diff", files[0], same)[0].splitlines()[3:], ["Went: nothing.", "Came: nothing."])

    def test_a_host_that_died_and_one_that_came(self):
        # h0 has no entry any more, and new hangs on one link
        hosts = [f"h{at}" for at in range(1, 6)]
        views = views_of([f"h{at}" for at in range(6)], RING)
        del views["h0"]
        views.update(new=["h1"], h1=[*views["h1"], "new"])
        old = self.file("old.edges", edges_of(RING))
        said = json.loads(self.tagzirk("diff", old, self.file("new.json", json.dumps(views)), "--json")[0])
        self.assertEqual((said["hosts_went"], said["hosts_came"]), (["h0"], ["new"]))
        self.assertEqual((said["new"]["k"], said["restoring"], said["burdening"]), (1, [], []))
        self.assertEqual(said["k_with_all_back"], 1)
        self.assertEqual(len(hosts) + 1, said["new"]["hosts"])

    def test_page(self):
        evil = [(a.replace("h0", "<b>&h0"), b.replace("h0", "<b>&h0")) for a, b in RING]
        hosts = sorted(set(itertools.chain(*evil)))
        files = self.pair((hosts, evil), (hosts[1:], [it for it in evil if hosts[0] not in it]))
        page, _, status = self.tagzirk("diff", *files, "--html", "-")
        read = Text(page)
        self.assertEqual((status, read.open, "<b>" in page), (0, 0, False))
        out, _, status = self.tagzirk("diff", *files, "--html", self.room / "page.html")
        self.assertEqual((out[:6], status, (self.room / "page.html").read_text()), ("k is 2", 0, page))
        for told in "k is 2, and was 3", "Each of these alone, put back, gives k 3 again", "<b>&h0":
            self.assertIn(told, read.text)

    def test_wrong_words(self):
        path = self.file("net", edges_of(RING))
        for words in [path], [path, self.file("other", "a b\n"), self.file("third", "a b\n")]:
            _, err, status = self.tagzirk("diff", *words)
            self.assertEqual((status, "two dumps, OLD and NEW" in err), (2, True), err)


if __name__ == "__main__":
    unittest.main()
