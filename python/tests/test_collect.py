"""Tests of dumps of overlays that run: with a program in the place of yggdrasilctl and ssh, and with daemons of
Yggdrasil where they are there. `examples/field` tries both kinds on overlays that lose hosts."""

import json
import os
import shutil
import socket
import subprocess
import time
import unittest
from unittest import mock

from .test_commands import Commands

WHERE = os.pathsep.join([*os.get_exec_path(), "/usr/sbin", "/sbin"])
yggdrasil = shutil.which("yggdrasil", path=WHERE) and shutil.which("yggdrasilctl", path=WHERE)
# Answers as the file that is named by the endpoint, behind the last sign, and by the question.
CONTROL = """#!/bin/sh
for word; do last=$word; done
case $1 in
  -endpoint=*) at=${1#-endpoint=} ;;
  *) [ "$1 $2 $3 $5" = "-o BatchMode=yes -- yggdrasilctl" ] && at=$4 ;;
esac
cat "ROOM/$at.$last" 2>/dev/null || printf "2026/11/30 17:58:53 Fatal error: dial unix $at: no such file\\r\\n"
"""


class Yggdrasil(Commands):
    def setUp(self):
        super().setUp()
        for name in "yggdrasilctl", "ssh":
            self.file(f"bin/{name}", CONTROL.replace("ROOM", str(self.room)))
            (self.room / "bin" / name).chmod(0o755)
        path = mock.patch.dict(os.environ, {"PATH": f"{self.room / 'bin'}:{os.environ['PATH']}"})
        path.start()
        self.addCleanup(path.stop)

    def daemon(self, name, key, peers, **more):
        self.file(f"{name}.getSelf", json.dumps({"key": key}))
        listed = [{"key": it, **more} if isinstance(it, str) else it for it in peers]
        self.file(f"{name}.getPeers", json.dumps({"peers": listed}))

    def test_names_and_keys(self):
        self.daemon("one", "k1", ["k2", "k9"])
        self.daemon("two", "k2", ["k1", "k3"])
        self.daemon("three", "k3", ["k2"])
        out, err, status = self.tagzirk("collect", "yggdrasil", "oslo=one", "rome=two", "three")
        wanted = {"oslo": ["rome", "k9"], "rome": ["oslo", "k3"], "k3": ["rome"]}
        self.assertEqual((json.loads(out), err, status), (wanted, "", 0))
        out, err, status = self.tagzirk("collect", "--ssh", "yggdrasil", "one", "two", "bern=three")
        self.assertEqual(json.loads(out), {"one": ["two", "k9"], "two": ["one", "bern"], "bern": ["two"]})
        self.assertIn("k is 1: of 3 hosts, a crash of two cuts off 1 host", self.tagzirk("status", given=out)[0])

    def test_a_peer_that_is_down_is_no_peer(self):
        self.daemon("one", "k1", [{"key": "k2", "up": True}, {"key": "k3", "up": False}, {"key": "", "up": False}])
        out, err, _ = self.tagzirk("collect", "yggdrasil", "one")
        self.assertEqual(json.loads(out), {"k1": ["k2"]})
        self.assertEqual(err, "k1: peers that are not up are no peers here: k3, a peer\n")
        self.daemon("two", "k2", [{"key": it, "up": it == "k1"} for it in ("k1", "k3", "k4", "k5", "k6", "k7")])
        out, err, _ = self.tagzirk("collect", "yggdrasil", "one", "rome=two")
        self.assertEqual(json.loads(out), {"k1": ["rome"], "rome": ["k1"]})
        self.assertIn("rome: peers that are not up are no peers here: k3, k4, k5, k6 and 1 more\n", err)

    def test_a_daemon_before_0_4_5(self):
        self.daemon("one", "k1", [])
        self.file("one.getSelf", json.dumps({"self": {"200::1": {"key": "k1"}}}))
        self.assertEqual(json.loads(self.tagzirk("collect", "yggdrasil", "one")[0]), {"k1": []})

    def test_a_host_that_does_not_answer(self):
        self.daemon("one", "k1", ["k2"])
        for text in "[]", "{}", '{"peers": 7}', '{"peers": [{}]}', "oh no\n", "\x00":
            self.file("two.getSelf", '{"key": "k2"}')
            self.file("two.getPeers", text)
            out, err, status = self.tagzirk("collect", "yggdrasil", "one", "rome=two", "gone")
            self.assertEqual((json.loads(out), status), ({"k1": ["k2"]}, 0))
            self.assertIn("rome does not answer: ", err)
            self.assertIn("gone does not answer: dial unix gone: no such file\n", err)
            self.assertNotIn("Traceback", err)

    def test_nobody_answers(self):
        out, err, status = self.tagzirk("collect", "yggdrasil", "gone", "lost")
        self.assertEqual((out, status, err.count("does not answer")), ("", 1, 2))

    def test_one_daemon_twice(self):
        self.daemon("one", "k1", ["k2"])
        self.daemon("too", "k1", ["k2"])
        self.daemon("two", "k2", ["k1"])
        for words in ["one", "too"], ["a=one", "a=two"]:
            out, err, status = self.tagzirk("collect", "yggdrasil", *words)
            self.assertEqual((out, status, "two of these hosts" in err), ("", 1, True))

    def test_slips(self):
        for words, status, told in (
            (["yggdrasil"], 1, "name the endpoints of all daemons"),
            (["tinc", "a", "b"], 1, "name one net"),
            (["tinc", "--ssh", "a"], 1, "name one net"),
            (["tincd", "a"], 2, "tinc"),
            ([], 2, "KIND"),
        ):
            out, err, ended = self.tagzirk("collect", *words)
            self.assertEqual((out, ended, told in err), ("", status, True), err)

    def test_programs_that_are_not_there(self):
        with mock.patch("shutil.which", return_value=None):
            self.assertIn("Debian: yggdrasil", self.tagzirk("collect", "yggdrasil", "one")[1])
            self.assertIn("Debian: openssh-client", self.tagzirk("collect", "yggdrasil", "--ssh", "one")[1])


@unittest.skipUnless(yggdrasil, "Yggdrasil is not there")
class Daemons(Commands):
    def start(self, host, port, peers):
        """Starts a daemon without a network device, which listens at a port and links to others."""
        made = subprocess.run([shutil.which("yggdrasil", path=WHERE), "-genconf", "-json"], stdout=subprocess.PIPE)
        how = {
            **json.loads(made.stdout),
            "Listen": [f"tcp://127.0.0.1:{port}"],
            "Peers": [f"tcp://127.0.0.1:{it}" for it in peers],
            "MulticastInterfaces": [],
            "AdminListen": f"unix://{self.room / host}.sock",
            "IfName": "none",
        }
        words = [shutil.which("yggdrasil", path=WHERE), "-useconffile", self.file(f"{host}.json", json.dumps(how))]
        daemon = subprocess.Popen(words, stdin=subprocess.DEVNULL, stdout=subprocess.DEVNULL, stderr=subprocess.DEVNULL)
        self.addCleanup(daemon.wait)
        self.addCleanup(daemon.kill)
        for _ in range(200):
            if (self.room / f"{host}.sock").exists():
                return daemon
            time.sleep(0.05)
        return self.fail(f"{host} does not listen")

    def test_a_path_of_three(self):
        ports = []
        for _ in range(3):
            with socket.socket() as it:
                it.bind(("127.0.0.1", 0))
                ports.append(it.getsockname()[1])
        one = self.start("one", ports[0], [])
        self.start("two", ports[1], ports[:1])
        self.start("three", ports[2], ports[1:2])
        words = [f"{it}=unix://{self.room / it}.sock" for it in ("one", "two", "three")]
        wanted = {"one": ["two"], "two": ["one", "three"], "three": ["two"]}
        said = {}
        for _ in range(100):
            out, _, _ = self.tagzirk("collect", "yggdrasil", *words)
            said = {host: sorted(it) for host, it in json.loads(out).items()}
            if said == wanted:
                break
            time.sleep(0.1)
        self.assertEqual(said, wanted)
        one.kill()
        one.wait()
        out, err, status = self.tagzirk("collect", "yggdrasil", *words)
        self.assertEqual((sorted(json.loads(out)), status), (["three", "two"], 0))
        self.assertIn("one does not answer: ", err)


class Tinc(Commands):
    GRAPH = 'digraph {\n\ta [label = "a"];\n\tb [label = "b"];\n\ta -> b [w = 1];\n\tb -> a [w = 1];\n}\n'

    def net(self, graph=GRAPH, setting="GraphDumpFile = {}/graph.dot", process=None):
        """A net with what its daemon wrote: the words that name it."""
        self.file("net/tinc.conf", f"# a net\nName = a\n{setting.format(self.room)}\n")
        self.file("pid", f"{os.getpid() if process is None else process} ABCDEF 127.0.0.1 port 655\n")
        if graph is not None:
            self.file("graph.dot", graph)
        return ["collect", "tinc", self.room / "net", "--pidfile", self.room / "pid"]

    def test_the_graph_of_a_daemon(self):
        for setting in "GraphDumpFile = {}/graph.dot", "graphdumpfile={}/graph.dot", " GraphDumpFile {}/graph.dot ":
            self.assertEqual(self.tagzirk(*self.net(setting=setting)), (self.GRAPH, "", 0))

    def test_what_is_not_there(self):
        ended = subprocess.Popen(["true"])
        ended.wait()
        for net, told in (
            ({"setting": ""}, "add a line GraphDumpFile = FILE"),
            ({"setting": "GraphDumpFile = |cat > x"}, "GraphDumpFile is a command"),
            ({"process": ended.pid}, "the daemon does not run"),
            ({"process": "none"}, "the daemon does not run"),
            ({"setting": "GraphDumpFile = {}/other.dot"}, "other.dot is not there yet"),
        ):
            out, err, status = self.tagzirk(*self.net(**net))
            self.assertEqual((out, status, told in err), ("", 1, True), err)
        words = [*self.net()[:-1], self.room / "no-pid"]
        out, err, status = self.tagzirk(*words)
        told = "no-pid is not there, so no daemon of this net seems to run"
        self.assertEqual((out, status, told in err, "--pidfile FILE" in err), ("", 1, True, True), err)
        for place in str(self.room / "other"), "nowhere-at-all":
            out, err, status = self.tagzirk("collect", "tinc", place)
            self.assertEqual((out, status, "tinc.conf: No such file" in err), ("", 1, True), err)

    def test_a_graph_that_is_just_being_written(self):
        words = self.net(graph=self.GRAPH[:30])
        with mock.patch("tagzirk.collect.time.sleep", side_effect=lambda _: self.file("graph.dot", self.GRAPH)):
            self.assertEqual(self.tagzirk(*words), (self.GRAPH, "", 0))
        words = self.net(graph=self.GRAPH[:30])
        with mock.patch("tagzirk.collect.time.sleep"):
            out, err, status = self.tagzirk(*words)
        self.assertEqual((out, status, "has no end" in err), ("", 1, True))


if __name__ == "__main__":
    unittest.main()
