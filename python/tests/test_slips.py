"""Slips: words that somebody may type, and what is told: a table. Each row has the words, the status, and a part of
what stands on standard error. The tips follow from what the words are likely to mean."""

import gzip
import itertools
import json
import lzma
import os
import re
import shlex
import subprocess
import sys
import unittest

from tagzirk.command import parsers
from tagzirk.programs import CHECKOUT

from .test_commands import DUMPS, Commands

RING = "a b\nb c\nc d\nd a\n"
STATUS, REPORT = "`tagzirk status FILE`", "`tagzirk report FILE"
NO_FILE = "no FILE was named, so standard input was read: tagzirk"
SWAPPED = "the dump is named without an option, and racks by one: tagzirk each"
TO_FILE = "what is printed goes to a file by `> FILE`"

# Words in the place of a command.
COMMANDS = (
    ("", 2, "Start here: `tagzirk status FILE`"),
    ("help nothing", 2, "the commands are status"),
    ("frobnicate", 2, "the commands are status"),
    ("-version", 2, "did you mean --version, with two dashes?"),
    ("explain net.json", 2, STATUS),
    ("without oslo-1 net.json", 2, "`tagzirk status FILE --without HOST,HOST`"),
    ("sites net.json", 2, "`tagzirk status FILE --site REGEX`"),
    ("csv net.json", 2, "`tagzirk each FILE --csv`"),
    ("json net.json", 2, "--json of status, diff, each and history"),
    ("top net.json", 2, "`tagzirk each FILE`"),
    ("-v", 2, "`tagzirk --version` prints the version"),
    ("-x", 2, "tagzirk COMMAND -x"),
    ("analyze net.json", 2, "did you mean `tagzirk analyse`?"),
    ("analyzer net.json", 2, "did you mean `tagzirk analyse`?"),
    ("info net.json", 2, STATUS),
    ("alert net.json", 2, "`tagzirk status FILE --at-least K`"),
    ("crash net.json", 2, "`tagzirk each FILE`"),
    ("pairs net.json", 2, "`tagzirk each FILE --pairs`"),
    ("heal net.json", 2, "`tagzirk mend FILE --to K`"),
    ("trend dumps", 2, "`tagzirk history FILE..`"),
    ("changes net.json ring.edges", 2, "`tagzirk diff OLD NEW`"),
    ("cert net.json", 2, "overlay analyse --certificate | tail -n 1`"),
    ("parse net.json", 2, "`tagzirk import FILE`"),
    ("view net.json", 2, REPORT),
    ("man", 2, "`tagzirk --help`"),
    ("k net.json", 2, STATUS),
    ("check cert.json", 2, "`overlay-check FILE` checks a certificate file"),
    ("verify cert.json", 2, "`overlay-check FILE` checks a certificate file"),
    ("overlay-check cert.json", 2, "`overlay-check FILE` is a program of its own"),
    ("overlay analyse net.graph", 2, "`overlay help` has its commands"),
    ("picture cert.json", 2, "`overlay picture CERTIFICATE"),
    ("graph cert.json", 2, "`overlay graph CERTIFICATE`"),
    ("run s.scenario", 2, "`overlay run FILE`"),
    ("grow --nodes 60", 2, "`overlay grow`"),
    ("sweep --nodes 60", 2, "`overlay sweep`"),
    ("draw net.json", 2, REPORT),
    ("plot dumps", 2, "--svg PICTURE` draws a history"),
    ("stats net.json", 2, "did you mean `tagzirk status`?"),
    ("stat net.json", 2, "did you mean `tagzirk status`?"),
    ("Status net.json", 2, "commands are written in small letters: tagzirk status"),
    ("REPORT net.json", 2, "commands are written in small letters: tagzirk report"),
    ("repot net.json", 2, "did you mean `tagzirk report`?"),
    ("metric net.json", 2, "did you mean `tagzirk metrics`?"),
    ("imprt ring.edges", 2, "did you mean `tagzirk import`?"),
    ("mned ring.edges", 2, "did you mean `tagzirk mend`?"),
    ("histroy dumps", 2, "did you mean `tagzirk history`?"),
    ("dif net.json ring.edges", 2, "did you mean `tagzirk diff`?"),
    ("compare net.json ring.edges", 2, "`tagzirk diff OLD NEW`"),
    ("fix ring.edges", 2, "`tagzirk mend FILE --to K`"),
    ("convert ring.edges", 2, "`tagzirk import FILE`"),
    ("racks racks.txt net.json", 2, "--racks RACKS`"),
    ("prometheus net.json", 2, "`tagzirk metrics FILE --textfile"),
    ("tinc", 2, "`tagzirk collect tinc`"),
    ("net.json", 2, "needs a command before the file net.json"),
    ("net.graph", 2, "`tagzirk status net.graph`"),
    ("./net.graph", 2, "`tagzirk report ./net.graph > report.html`"),
    ("missing.json", 2, "needs a command before the file missing.json"),
    ("dumps", 2, "needs a command before the file dumps"),
    ("--entries each net.json", 2, "before its command: tagzirk each --entries"),
    ("--json status net.json", 2, "before its command: tagzirk status --json"),
    ("collect", 2, "tinc and yggdrasil are the kinds"),
    ("collect tink", 2, "did you mean tinc?"),
    ("collect yggdrasil", 1, "name the endpoints of all daemons"),
    ("collect tinc nowhere-at-all", 1, "/etc/tinc/nowhere-at-all/tinc.conf"),
)
# A file that is forgotten, not there, or taken for another.
FILES = (
    ("each", 1, f"{NO_FILE} each FILE"),
    ("status", 1, f"{NO_FILE} status FILE"),
    ("mend --to 3", 1, f"{NO_FILE} mend FILE"),
    ("report", 1, f"{NO_FILE} report FILE"),
    ("import", 0, f"{NO_FILE} import FILE"),
    ("metrics --textfile new.prom", 1, f"{NO_FILE} metrics FILE"),
    ("metrics --textfile net.json", 1, "tagzirk metrics FILE --textfile OTHER"),
    ("each --racks racks.txt", 1, f"{NO_FILE} each FILE"),
    ("import --by net.json", 1, f"{NO_FILE} import FILE"),
    ("history", 2, "name the dumps, or the folder that they are in"),
    ("diff", 2, "name the dumps"),
    ("diff net.json", 2, "two dumps, OLD and NEW, and not 1"),
    ("diff net.json ring.edges net.graph", 2, "two dumps, OLD and NEW, and not 3"),
    ("status netjson", 1, "did you mean net.json?"),
    ("status ne.json", 1, "did you mean net.json?"),
    ("status Net.json", 1, "did you mean net.json?"),
    ("report ring.edge", 1, "did you mean ring.edges?"),
    ("status nodir/net.json", 1, "there is no folder nodir"),
    ("status http://example.org/x.json", 1, "curl -s http://example.org/x.json | tagzirk status"),
    ("status @net.json", 1, "a dump is named without @: net.json"),
    ("status '*.nothing'", 1, "no file has a name like *.nothing"),
    ("status name with space.json", 1, "one word in quotes: 'name with space.json'"),
    ("status -dash.json", 2, "is named ./-dash.json"),
    ("status --file net.json", 2, "a file is named without an option"),
    ("status --input=net.json", 2, "a file is named without an option"),
    ("status file=net.json", 1, "a file is named alone: net.json"),
    ("status net.json net.json", 2, "net.json is named twice"),
    ("status - -", 2, "standard input is named twice"),
    ("status net.json ring.edges", 1, "`tagzirk diff OLD NEW` compares two dumps"),
    ("each ring.edges racks.txt", 1, "`tagzirk each FILE --racks RACKS`"),
    ("status dumps", 1, "of several dumps name one, or ask `tagzirk history`"),
    ("status hollow", 1, "hollow: the folder has no files"),
    ("history hollow", 1, "hollow: the folder has no dumps"),
    ("report net.json report.html", 1, "tagzirk report .. > report.html"),
    ("status net.json out.csv", 1, "tagzirk status .. > out.csv"),
    ("import net.json '>' out.graph", 1, "> is a sign of the shell"),
    ("diff net.json missing.json", 1, "missing.json: No such file"),
    ("status page.html", 1, "it is a page of HTML"),
    ("status pic.svg", 1, "it is a picture"),
    ("status prog", 1, "it is a program"),
    ("status script.sh", 1, "it is a script"),
    ("status random.bin", 1, "it is no text"),
    ("status each.csv", 1, "it is a table of `tagzirk each --csv`"),
    ("status hist.csv", 1, "it is a table of `tagzirk history`"),
    ("status m.prom", 1, "it is a file of metrics for Prometheus"),
    ("status add.txt", 1, "`tagzirk mend --graph GRAPHFILE` writes the graph"),
    ("status s.scenario", 1, "`overlay run` runs it"),
    ("status cert.json", 1, "`overlay-check` checks it"),
    ("status answer.txt", 1, "it is an answer of `overlay analyse`"),
    ("status check.txt", 1, "it is an answer of `overlay-check`"),
    ("status net.json.xz", 1, "`xzcat FILE | tagzirk COMMAND`"),
    ("status net.zip", 1, "it is a zip archive: unpack it first"),
    ("status unit.service", 1, "it is a unit of systemd"),
    ("status torn.json", 1, "it ends too early"),
    ("status empty", 1, "no name stands in empty"),
    ("status blank", 1, "no name stands in blank"),
    ("status /dev/null", 1, "no name stands in /dev/null"),
    ("status racks.txt", 0, "are these links?"),
    ("status list.txt", 1, "it has one name alone"),
    ("status latin.edges", 1, "iconv -f LATIN1 -t UTF-8 latin.edges"),
    ("status etc.hosts", 1, "each line has an address and its names, as /etc/hosts has, and no link"),
    ("metrics dumps --textfile dumps/new.prom", 1, "the folder dumps is an input"),
    ("metrics dumps --textfile dumps/new.prom --force", 1, "the folder dumps is an input"),
    ("mend dumps --to 2 --graph dumps/../dumps/new.graph", 1, "the folder dumps is an input"),
)
# Options of other commands or programs, or with other values.
OPTIONS = (
    ("each --mostlinks 3 ring.edges", 2, "`tagzirk mend` has --most-links"),
    ("each --group a,b ring.edges", 2, "`tagzirk status FILE --group HOST,HOST`"),
    ("each --names ring.edges", 2, "speaks in names always"),
    ("each --explain ring.edges", 2, "in words always"),
    ("each --progress ring.edges", 2, "by itself"),
    ("each --threads 4 ring.edges", 2, "--workers N"),
    ("each -j 4 ring.edges", 2, "--workers N"),
    ("each --top 5 ring.edges", 2, "`tagzirk each FILE --rows N`"),
    ("each --head 5 ring.edges", 2, "`tagzirk each FILE --rows N`"),
    ("each -n 5 ring.edges", 2, "`tagzirk each FILE --rows N`"),
    ("each --triples ring.edges", 2, "--pairs` lets every two crash"),
    ("each --pairs 3 ring.edges", 1, "3 was taken for a file"),
    ("each ring.edges --racks", 2, "--racks RACKS names a file with a line HOST RACK"),
    ("history --png x.png dumps", 2, "--svg PICTURE` draws"),
    ("report --pdf net.json", 2, "a browser prints the page"),
    ("status --min 3 net.json", 2, "`tagzirk status FILE --at-least K`"),
    ("status --threshold 3 net.json", 2, "`tagzirk status FILE --at-least K`"),
    ("status -w 3 -c 1 net.json", 2, "`tagzirk status FILE --at-least K`"),
    ("status --warning 3 net.json", 2, "`tagzirk status FILE --at-least K`"),
    ("status --exclude oslo-1 net.json", 2, "--without HOST,HOST"),
    ("status --down oslo-1 net.json", 2, "--without HOST,HOST"),
    ("status --remove oslo-1 net.json", 2, "--without HOST,HOST"),
    ("status --filter oslo-* net.json", 2, "--only 'ams-*'"),
    ("status --format json net.json", 2, "--json of status, diff, each and history prints JSON"),
    ("status --color net.json", 2, "nothing is coloured"),
    ("status net.json --without 'oslo-1 oslo-2'", 1, "commas between them: --without oslo-1,oslo-2"),
    ("status t.csv --up cost=1 cost=2", 1, "several values are one word"),
    ("each --csv=yes ring.edges", 2, "--csv takes no value"),
    ("each --csv --json ring.edges", 2, "each of them is a form of all that is printed: give one"),
    ("diff --html net.json ring.edges", 2, "--html took net.json as the page to write"),
    ("diff net.json ring.edges --html", 2, "--html PAGE names the file to write, and --html - prints it"),
    ("each --to 3 ring.edges", 2, "`tagzirk mend FILE --to K`"),
    ("each --certificate ring.edges", 2, "overlay analyse --certificate | tail -n 1`"),
    ("each --workers 0 ring.edges", 2, "a number from 1 to 32768"),
    ("history --csv dumps", 2, "`tagzirk history` prints CSV always"),
    ("history --picture x.svg dumps", 2, "--svg PICTURE"),
    ("history dumps --svg dumps", 1, "it is a folder; name a file in it"),
    ("report -o x.html net.json", 2, TO_FILE),
    ("report --output x.html net.json", 2, TO_FILE),
    ("report --html net.json", 2, REPORT),
    ("report --svg x.svg net.json", 2, "the page of `tagzirk report` has a picture"),
    ("report net.json --to x", 2, "a number from 1 to 32768"),
    ("import --edges ring.edges", 2, "--form edges"),
    ("import --views net.json", 2, "--form views"),
    ("import --dot ring.edges", 2, "--form dot"),
    ("import --entry net.json", 2, "did you mean --entries?"),
    ("import --entires net.json", 2, "did you mean --entries?"),
    ("import --eithre net.json", 2, "did you mean --either?"),
    ("import --format json net.json", 2, "did you mean --form?"),
    ("import --form xml net.json", 2, "--form graphml and --form gexf"),
    ("import --form JSON net.json", 2, "did you mean json?"),
    ("import --form graphmll net.json", 2, "did you mean graphml?"),
    ("import --form text ring.edges", 2, "--form edges reads lines of two names"),
    ("import --form json ring.edges", 1, "line 1: it is no JSON"),
    ("import --by name net.json", 1, "--by name is of no use here"),
    ("import --columns source t.csv", 1, "FROM,TO"),
    ("import --columns from,to t.csv", 1, "the header is: source,target,cost"),
    ("import t.csv --columns source target", 1, "--columns source,target"),
    ("import --source source t.csv", 2, "--columns FROM,TO"),
    ("import --header t.csv", 2, "--columns FROM,TO"),
    ("import --delimiter , t.csv", 2, "is found by itself"),
    ("mend ring.edges", 2, "--to 3 asks for links"),
    ("mend ring.edges 3", 2, "--to 3 asks for links"),
    ("mend ring.edges --to", 2, "--to 3 asks for links"),
    ("mend ring.edges --to three", 2, "a number from 1 to 32768"),
    ("mend ring.edges --to 0", 2, "a number from 1 to 32768"),
    ("mend ring.edges --to -1", 2, "a number from 1 to 32768"),
    ("mend ring.edges --to 9", 1, "k of 4 hosts is at most 3"),
    ("mend ring.edges -k 3", 2, "--to 3 asks for links"),
    ("mend ring.edges --to=3 --certificate=x.json", 2, "--certificate takes no value"),
    ("mend ring.edges --to 3 --max-links 2", 2, "did you mean --most-links?"),
    ("mend ring.edges --to 3 --most-links 1", 1, "k would be below 3"),
    ("mend ring.edges --to 3 --graph", 2, "--graph GRAPHFILE names the file"),
    ("mend ring.edges --to 3 --graph ring.edges", 1, "it is an input"),
    ("mend ring.edges --to 3 --graph page.html", 1, "did not write this file"),
    ("metrics net.json", 2, "--textfile - prints"),
    ("metrics net.json -o x.prom", 2, "--textfile FILE.prom"),
    ("metrics net.json --textfile", 2, "--textfile - prints"),
    ("metrics net.json --textfile dumps", 1, "it is a folder"),
    ("metrics net.json --textfile nodir/x.prom", 1, "there is no folder"),
    ("metrics net.json --textfile net.json", 1, "it is an input"),
    ("metrics net.json --textfile - --label prod", 2, "NAME=VALUE, as overlay=prod"),
    ("metrics net.json --textfile - --label overlay=", 2, "NAME=VALUE, as overlay=prod"),
    ("metrics net.json --textfile - --label a=b --label a=c", 2, "there are two values of a, b and c"),
    ("metrics net.json --textfile - --labels overlay=prod", 2, "did you mean --label?"),
    ("metrics net.json --textfile - --overwrite", 2, "--force"),
    ("status net.json --without nobody", 1, "nobody is no host of the dump"),
    ("status net.json --without oslo", 1, "did you mean oslo-"),
    ("status net.json --without oslo-1 oslo-2", 1, "--without oslo-1,oslo-2"),
    ("status net.json --without list.txt", 1, "a list in a file is @list.txt"),
    ("status net.json --without @missing.txt", 1, "missing.txt: No such file"),
    ("status net.json --atleast 2", 2, "did you mean --at-least?"),
    ("status net.json --at-least", 3, "--at-least 2 asks"),
    ("status net.json --at-least 1 --group oslo-1", 3, "--at-least says nothing of a group of one host, oslo-1"),
    ("status net.json --at-least two", 3, "a number from 1 to 32768"),
    ("status net.json --site [a", 1, "is no regular expression"),
    ("status net.json --site xyz", 1, "matches the name of no host"),
    ("status net.json --certificate", 2, "overlay analyse --certificate | tail -n 1`"),
    ("status net.json --csv", 2, "`tagzirk each` prints CSV by its --csv"),
    ("status net.json --version", 2, "`tagzirk --version`"),
    ("diff net.json --old ring.edges", 2, "`tagzirk diff OLD NEW` takes both dumps without an option"),
    ("each racks.txt --racks ring.edges", 1, "and ring.edges the dump: tagzirk each ring.edges --racks racks.txt"),
    ("each net.json --racks net.graph", 1, f"{SWAPPED} net.graph --racks RACKS"),
    ("each net.json --racks net.json", 1, f"{SWAPPED} net.json --racks RACKS"),
    ("each racks.txt --racks net.json", 1, f"{SWAPPED} net.json --racks RACKS"),
    ("each net.json --racks missing.txt", 1, "missing.txt: No such file"),
    ("each net.json --racks empty", 1, "a line is HOST RACK"),
    ("each net.json --racks page.html", 1, "is no host with its rack"),
)

NET = (DUMPS / "cluster.json").read_bytes()
# The files that there are.
INPUTS = {
    "net.json": NET,
    "name with space.json": NET,
    "-dash.json": NET,
    "dumps/one.json": NET,
    "hollow/.hidden": "",
    "ring.edges": RING,
    "racks.txt": "a r1\nb r1\nc r2\nd r2\n",
    "net.graph": "# 1 a\nnode 1\n# 2 b\nnode 2\nlink 1 2\n",
    "cert.json": (DUMPS / "certificate.json").read_bytes(),
    "page.html": "<!DOCTYPE html>\n<html></html>\n",
    "pic.svg": '<?xml version="1.0"?>\n<svg xmlns="http://www.w3.org/2000/svg"></svg>\n',
    "prog": b"\x7fELF\x02\x01\x01\0\0\0",
    "script.sh": "#!/bin/sh\ntrue\n",
    "random.bin": bytes((at * 73 + 41) % 256 for at in range(2000)),
    "each.csv": "host,hosts,k,all_linked,cut_off,names_cut_off\na,1,1,0,0,\n",
    "hist.csv": "time,nodes,links,k,cut,one_sided,without_entry,file,fault\n",
    "m.prom": "# HELP tagzirk_dump_read 1 if\n# TYPE tagzirk_dump_read gauge\ntagzirk_dump_read 1.0\n",
    "add.txt": "add\ta\tb\n",
    "s.scenario": "seed 7\nboot 1\nboot 2 by 1\n",
    "answer.txt": "report 0 split k 2 cut 1,2 near 3 far 4 side 3\n",
    "check.txt": "holds 0 split k 2 cut 1,2 near 3 far 4 side 3\n",
    "net.json.gz": gzip.compress(NET),
    "net.json.xz": lzma.compress(NET),
    "net.zip": b"PK\x03\x04\x14\0\0\0",
    "unit.service": "[Unit]\nDescription=x\n",
    "torn.json": NET[:100],
    "empty": "",
    "blank": "\n\n",
    "list.txt": "oslo-1\noslo-2\n",
    "latin.edges": b"h\xe9 b\n",
    "t.csv": "source,target,cost\na,b,1\nb,c,2\n",
    "etc.hosts": "127.0.0.1 localhost\n10.0.0.1 oslo-1\n",
}


class Slips(Commands):
    def setUp(self):
        super().setUp()
        before = os.getcwd()
        os.chdir(self.room)
        self.addCleanup(os.chdir, before)
        for name, text in INPUTS.items():
            self.file(name, text)

    def told(self, rows):
        """Each row: the status, what is told, that nothing is printed, and that the files are as they were."""
        before = {it: it.read_bytes() for it in self.room.rglob("*") if it.is_file()}
        for line, status, wanted in rows:
            with self.subTest(words=line):
                out, err, ended = self.tagzirk(*shlex.split(line))
                self.assertEqual((ended, wanted in err), (status, True), err)
                self.assertNotIn("Traceback", err)
                # an alarm has its line, and status and import print what they can of nothing
                self.assertTrue(out == "" or status in (0, 3), out)
                usage = err.partition("usage: ")[2]
                if status == 2 and " " in line and line.split()[0] in ("each", "mend", "report", "import", "metrics"):
                    self.assertTrue(usage.startswith(f"tagzirk {line.split()[0]} "), err)
        now = {it: it.read_bytes() for it in self.room.rglob("*") if it.is_file() and it.name != "new.prom"}
        self.assertEqual(now, before)

    def test_words_in_the_place_of_a_command(self):
        self.told(COMMANDS)

    def test_files(self):
        self.told(FILES)

    def test_racks_in_the_place_of_the_dump(self):
        views = {"a": ["b", "c"], "b": ["a", "d"], "c": ["a", "d"], "d": ["b", "c", "relay"], "relay": ["d"]}
        dumps = [self.file("views.json", json.dumps(views))]
        dumps += [self.file("objects.json", json.dumps({it: {"peers": peers} for it, peers in views.items()}))]
        dumps += [self.file("lines.edges", "a b\na c\nb d\nc d\nd relay\n")]
        racks = [self.file("lists.json", '{"R1": ["a", "b"], "R2": ["c", "d"]}')]
        racks += [self.file("hosts.json", '{"a": "R1", "b": "R1", "c": "R2", "d": "R2"}')]
        racks += [self.file("racks.lines", "a R1\nb R1\nc R2\nd R2\n")]
        for dump, rack in itertools.product(dumps, racks):
            for words in [], ["--no-entries"], ["--either"], ["--either", "--no-entries"]:
                out, err, status = self.tagzirk("each", rack, "--racks", dump, *words)
                self.assertEqual((out, status), ("", 1), (dump, rack, words))
                self.assertIn(f"tagzirk each {dump} --racks {rack}", err)
            self.assertEqual(self.tagzirk("each", dump, "--racks", rack)[2], 0)
        self.assertIn("if these are racks", self.tagzirk("status", racks[0])[1])

    def test_options(self):
        self.told(OPTIONS)

    def test_how_many_there_are(self):
        rows = [line for line, _, _ in (*COMMANDS, *FILES, *OPTIONS)]
        self.assertEqual(len(set(rows)), len(rows))
        self.assertGreater(len(rows), 146)

    def test_help(self):
        for words in ["help"], ["--help"], ["-h"]:
            out, err, status = self.tagzirk(*words)
            self.assertEqual((out[:15], err, status), ("usage: tagzirk ", "", 0))
        for name in "status", "diff", "import", "mend", "each", "history", "metrics", "report", "collect":
            out, err, status = self.tagzirk("help", name)
            self.assertEqual((out.startswith(f"usage: tagzirk {name} "), err, status), (True, "", 0))
            self.assertEqual(self.tagzirk(name, "--help")[0], out)

    def test_files_behind_options(self):
        self.file("hosts/a", "b\n")
        self.file("hosts/b", "a\n")
        self.assertEqual(
            self.tagzirk("import", "hosts/a", "--entries", "hosts/b")[0],
            self.tagzirk("import", "--entries", "hosts/a", "hosts/b")[0],
        )

    def test_what_is_piped_on(self):
        """A certificate behind links to add is told to whom pipes it on."""
        words = [sys.executable, "-B", "-m", "tagzirk", "mend", self.file("path", "a b\nb c\n"), "--to", "2"]
        for more, is_told in ([], False), (["--certificate"], True):
            ended = subprocess.run(
                [*words, *more], stdout=subprocess.PIPE, stderr=subprocess.PIPE, cwd=CHECKOUT / "python", timeout=60
            )
            self.assertEqual(b"| tail -n 1 | overlay-check" in ended.stderr, is_told)
        self.assertEqual(json.loads(ended.stdout.splitlines()[-1])["k"], 2)

    def test_words_that_overlay_tells_are_ours(self):
        """The tips of `overlay` name the commands and options that `tagzirk` has and `overlay` has not."""
        sources, options = (CHECKOUT / "crates" / it / "src" for it in ("ov_command_tree", "ov_grow_options"))
        tips = (sources / "argument_tips.rt").read_text()
        told = re.findall(r'Meant\((?:""|EACH), "([^"]+)", TAGZIRK\)', tips)
        constant = "(?:BOUND_NAME|CRASH_CUT): &str = |^const (?:GROW|SWEEP): &str = "
        names = re.compile(rf'(?:name: |{constant})"([\w-]+)"', re.MULTILINE)
        tables = [*sources.glob("*.rt"), *options.glob("*.rt")]
        theirs = {name for it in tables for name in names.findall(it.read_text())}
        _, commands = parsers()
        ours = {it for parser in commands.values() for it in parser.options if it.startswith("--")}
        wanted = {it for it in commands if it not in theirs}
        wanted |= {it for it in ours if it[2:] not in {*theirs, "help"}}
        # so that no table is overlooked
        self.assertLess({"analyse", "import", "run", "sweep", "crash-cut", "at-most-split"}, theirs)
        self.assertEqual((set(told), len(told)), (wanted, len(wanted)))


if __name__ == "__main__":
    unittest.main()
