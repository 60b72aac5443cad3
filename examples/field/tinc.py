#!/usr/bin/env -S python3 -B
"""tinc.py [--overlay PROGRAM] [--overlay-check PROGRAM] [--seed N] [--sizes SIZES]: tries the answers of
`overlay` on overlays of tinc.

Each host is a daemon of tinc without a network device, which links to its neighbours by TCP. The dump is the graph that
one daemon writes in DOT once a minute, and that `tagzirk collect tinc` prints and `overlay import --dot` reads as it
is. Whom a daemon reaches it writes into its log at the signal USR2. README.md says what is tried.
"""

from __future__ import annotations

import re
import signal
import subprocess
import sys
from typing import Mapping, Optional

import field
from tagzirk import collect

# In so many seconds a link that could not be made is tried again.
RETRY = 5
# The bit of a node's status that says that it is reached.
REACHED = 0x10
NODE = re.compile(r"\]: +(\S+) at .* status ([0-9a-f]{4}) ")


class Tinc(field.Overlay):
    """An overlay of tinc."""

    package, program, form = "tinc", "tincd", "--dot"
    dump_seconds, reach_seconds, is_light = 140.0, 30.0, True

    def start(self) -> None:
        """Starts all daemons. They have one key, since nothing here is secret."""
        tincd = field.command(self.program, self.package)
        key = self.folder / "key"
        (key / "hosts").mkdir(parents=True)
        (key / "tinc.conf").write_text("Name = key\n")
        subprocess.run([tincd, "-c", key, "-K2048"], input=b"", capture_output=True, check=True, timeout=60)
        for host, peers in self.links.items():
            home = self.folder / host
            (home / "hosts").mkdir(parents=True)
            (home / "rsa_key.priv").write_bytes((key / "rsa_key.priv").read_bytes())
            (home / "rsa_key.priv").chmod(0o600)
            for it in (host, *peers):
                address = f"Address = {self.addresses[it]}\nPort = {self.port}\n"
                (home / "hosts" / it).write_text(address + (key / "hosts/key").read_text())
            (home / "tinc.conf").write_text(self.configuration(host))
            words = [tincd, "-c", str(home), "-D", f"--pidfile={home / 'pid'}", f"--logfile={home / 'log'}"]
            self.daemons[host] = self.room.start(words, home, "output")

    def configuration(self, host: str) -> str:
        """What tinc.conf says. Of two neighbours the later one connects, when the other already listens."""
        lines = [
            f"Name = {host}",
            "DeviceType = dummy",
            "AddressFamily = ipv4",
            f"BindToAddress = {self.addresses[host]}",
            f"Port = {self.port}",
            f"MaxTimeout = {RETRY}",
            f"GraphDumpFile = {self.folder / host / 'graph.dot'}",
            *(f"ConnectTo = {it}" for it in sorted(self.links[host]) if it < host),
        ]
        return "".join(f"{line}\n" for line in lines)

    def dump(self, since: float) -> Optional[str]:
        """The graph of the first live host, as `tagzirk collect tinc` prints it: the file is rewritten at the end of
        each minute in which it changed."""
        home = self.folder / self.alive()[0]
        file = home / "graph.dot"
        if not file.exists() or file.stat().st_mtime <= since:
            return None
        return collect.tinc(str(home), str(home / "pid")).dump

    def reached(self, told: Mapping[str, field.Hosts]) -> dict[str, field.Hosts]:
        """The nodes that each live daemon writes into its log as reached."""
        logs = {host: self.folder / host / "log" for host in self.alive()}
        read = {host: log.stat().st_size for host, log in logs.items()}
        for host in logs:
            self.daemons[host].send_signal(signal.SIGUSR2)

        def nodes(host: str) -> Optional[field.Hosts]:
            new = logs[host].read_bytes()[read[host] :].decode()
            if "End of nodes." not in new:
                return None
            return frozenset(name for name, status in NODE.findall(new) if int(status, 16) & REACHED)

        return {host: field.wait_for(f"{host} tells its nodes", 10, lambda: nodes(host), 0.05) for host in logs}

    def forget_the_dead(self) -> None:
        """Has all daemons purge the nodes that they don't reach."""
        for host in self.alive():
            self.daemons[host].send_signal(signal.SIGWINCH)


if __name__ == "__main__":
    sys.exit(field.main([Tinc], __doc__))
