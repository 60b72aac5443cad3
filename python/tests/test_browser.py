"""The page is looked at in a real browser, Chromium without a window, where it is there: by a script that stands around
the page in frames as wide as a phone and as a desk, and tells what it measured."""

import html
import json
import os
import re
import shutil
import subprocess
import unittest

from tagzirk.frame import STYLE

from .test_commands import CLIQUES, DUMPS, Commands, edges_of, views_of

CHROMIUM = next(filter(None, map(shutil.which, ("chromium", "chromium-browser", "google-chrome"))), None)
PHONE, DESK, HEIGHT = 412, 1280, 915
AROUND = """
<style>iframe { border: 0 }</style>
<script>
const sides = it => [it.left, it.right, it.top, it.bottom];
addEventListener("load", () => setTimeout(() => {
  const said = {};
  for (const frame of document.querySelectorAll("iframe")) {
    const page = frame.contentDocument, all = what => [...page.querySelectorAll(what)];
    const place = it => it.getBoundingClientRect(), at = what => all(what).map(place).map(sides);
    said[frame.id] = {
      wide: page.documentElement.scrollWidth,
      title: at("h1"), badge: at(".t-k"), cut: at("strong.t-warm"),
      // those of the legend have no title
      squares: all(".t-picture rect.cut").filter(it => it.firstElementChild).map(place).map(sides),
      broken: all(".t-name:not(.t-long)").filter(it => it.getClientRects().length > 1).map(it => it.textContent),
      words: page.body.innerText,
      loaded: frame.contentWindow.performance.getEntriesByType("resource").length,
    };
  }
  document.body.innerHTML = "<pre id=said></pre>";
  document.getElementById("said").textContent = JSON.stringify(said);
}, 500));
</script>
"""


@unittest.skipUnless(CHROMIUM, "Chromium is not there")
class Browser(Commands):
    def seen(self, pages, wide):
        """What a browser measures of each page in a frame that is so wide."""
        frames = "".join(
            f'<iframe id="{name}" srcdoc="{html.escape(text)}" style="width:{wide}px;height:{HEIGHT}px"></iframe>'
            for name, text in pages.items()
        )
        place = self.file("around.html", f"<!DOCTYPE html><meta charset=utf-8>{AROUND}<body>{frames}")
        words = [CHROMIUM, "--headless=new", "--no-sandbox", "--disable-gpu", "--disable-dev-shm-usage"]
        words += [f"--user-data-dir={self.room / 'profile'}", "--window-size=1400,2000", "--virtual-time-budget=20000"]
        try:
            ended = subprocess.run(
                [*words, "--dump-dom", f"file://{place}"],
                stdin=subprocess.DEVNULL,
                stdout=subprocess.PIPE,
                stderr=subprocess.DEVNULL,
                env={**os.environ, "HOME": str(self.room)},
                timeout=180,
            )
        except subprocess.TimeoutExpired:
            self.skipTest("Chromium does not start here within three minutes")
        said = re.search(r'<pre id="said">(.*)</pre>', ended.stdout.decode(), re.DOTALL)
        self.assertIsNotNone(said, ended.stdout.decode()[-2000:])
        return json.loads(html.unescape(said[1]))

    def pages(self):
        """A page of each kind, by its name."""
        keys = [f"{at:064x}" for at in range(7)]
        path = list(zip(keys, keys[1:]))
        strange = views_of(["<b>x", "y&z", '"q"'], [("<b>x", "y&z"), ("y&z", '"q"')])
        sites = [f"{site}-gossip-{at:02d}.prod.example.net" for site in ("ams", "hel") for at in range(20)]
        ring = [(sites[at], sites[at - 1]) for at in range(40)] + [(sites[at], sites[at - 2]) for at in range(40)]
        dumps = {
            "cluster": ((DUMPS / "cluster.json").read_text(), ["--entries"]),
            "sites": (json.dumps(views_of(sites, ring)), ["--site", "^[a-z]+"]),
            "keys": (edges_of(path), []),
            "strange": (json.dumps(strange), []),
            "split": ("a b\nb c\nd e\n", []),
            "linked": ("a b\nb c\nc a\n", []),
            "cliques": (edges_of(CLIQUES), []),
        }
        return {name: self.tagzirk("report", *words, given=text)[0] for name, (text, words) in dumps.items()}

    def test_on_a_phone_and_at_a_desk(self):
        pages = self.pages()
        for wide in PHONE, DESK:
            seen = self.seen(pages, wide)
            self.assertEqual(list(seen), list(pages))
            for name, it in seen.items():
                with self.subTest(page=name, wide=wide):
                    self.looked_at(it, wide, has_cut=name not in ("split", "linked"))
        self.read(seen)

    def looked_at(self, it, wide, has_cut):
        """What must be so of each page."""
        self.assertLessEqual(it["wide"], wide)
        self.assertEqual((it["broken"], it["loaded"]), ([], 0))
        # the answer, and the cut, are on the first screen
        for left, right, top, bottom in it["title"] + it["badge"] + it["cut"]:
            self.assertTrue(0 <= left < right <= wide and 0 <= top < bottom <= HEIGHT / 2)
        # and so is the cut in its picture, which may be wider than the screen
        for left, right, _, _ in it["squares"]:
            self.assertTrue(0 <= left < right <= wide, (left, right))
        self.assertEqual((len(it["cut"]) > 0, len(it["squares"]) > 0), (has_cut, has_cut))

    def read(self, seen):
        """What the words of pages must be."""
        words = {name: it["words"] for name, it in seen.items()}
        self.assertIn("If relay-1, relay-2 crash, 3 hosts are cut off", words["cluster"])
        self.assertIn("All names end in .prod.example.net", words["sites"])
        self.assertIn("ams-gossip-00.prod.example.net\n", words["sites"])
        self.assertIn("\nSite hel (20 hosts, 2 of which crashed) is cut off.\n", words["sites"])
        self.assertIn("If y&z crashes, 1 host is cut off", words["strange"])
        self.assertIn("<b>x", words["strange"])
        for name in "split", "linked":
            self.assertNotIn("Smallest cuts", words[name])


class Colours(unittest.TestCase):
    def test_white_is_read_on_each_colour_of_severity(self):
        found = re.findall(r"\.t-(split|one|few|fine)\{background:#(\w{6})\}", STYLE)
        self.assertEqual([name for name, _ in found], ["split", "one", "few", "fine"])
        for name, colour in found:
            channels = [int(colour[at : at + 2], 16) / 255 for at in (0, 2, 4)]
            linear = [it / 12.92 if it <= 0.04045 else ((it + 0.055) / 1.055) ** 2.4 for it in channels]
            light = 0.2126 * linear[0] + 0.7152 * linear[1] + 0.0722 * linear[2]
            # WCAG 2 asks for a contrast of 4.5
            self.assertGreater(1.05 / (light + 0.05), 4.5, name)


if __name__ == "__main__":
    unittest.main()
