#!/usr/bin/env -S python3 -B
"""yggdrasil.py [--overlay PROGRAM] [--overlay-check PROGRAM] [--seed N] [--sizes SIZES]: tries the answers of
`overlay` on overlays of Yggdrasil.

Each host is a daemon of Yggdrasil without a network device, which links to its neighbours by TCP. The dump is made of
what each daemon says of its peers, as `tagzirk collect yggdrasil` makes it. One daemon reaches another if that answers
`yggdrasilctl getNodeInfo`. README.md says what is tried.
"""

from __future__ import annotations

import json
import subprocess
import sys
from concurrent.futures import ThreadPoolExecutor
from typing import Any, Mapping, Optional

import field
from tagzirk import collect

# So many questions are under way at once. The daemon gives one up after six seconds.
AT_ONCE = 100
QUESTION_SECONDS = "20"


class Yggdrasil(field.Overlay):
    """An overlay of Yggdrasil."""

    package, program, form = "yggdrasil", "yggdrasil", "--views"
    # After a crash some ways are found again only after half a minute.
    dump_seconds, reach_seconds, is_light = 100.0, 150.0, False

    def start(self) -> None:
        """Starts all daemons."""
        yggdrasil = field.command(self.program, self.package)
        self.control = field.command("yggdrasilctl", self.package)
        self.keys: dict[str, str] = {}
        for host, peers in self.links.items():
            made = subprocess.run([yggdrasil, "-genconf", "-json"], capture_output=True, check=True, timeout=60)
            how = json.loads(made.stdout)
            self.keys[host] = how["PublicKey"]
            how.update(
                Listen=[self.place(host)],
                # Of two neighbours the later one connects, when the other already listens.
                Peers=[self.place(it) for it in sorted(peers) if it < host],
                MulticastInterfaces=[],
                AdminListen=self.admin(host),
                IfName="none",
                NodeInfo={"name": host},
            )
            (self.folder / f"{host}.json").write_text(json.dumps(how))
            words = [yggdrasil, "-useconffile", f"{host}.json"]
            self.daemons[host] = self.room.start(words, self.folder, f"{host}.log")
            socket = self.folder / f"{host}.sock"
            # A link that can't be made at once is tried again after a minute only.
            field.wait_for(f"{self.name}: {host} listens", 10, lambda: socket.exists() or None, 0.02)

    def place(self, host: str) -> str:
        """Where a daemon listens."""
        return f"tcp://{self.addresses[host]}:{self.port}"

    def admin(self, host: str) -> str:
        """Where a daemon takes questions, seen from the folder of the overlay."""
        return f"unix://{host}.sock"

    def ask(self, host: str, *words: str) -> Optional[Any]:
        """What a daemon answers, or None."""
        line = ["timeout", QUESTION_SECONDS, self.control, f"-endpoint={self.admin(host)}", "-json", *words]
        said = subprocess.run(line, cwd=self.folder, stdin=subprocess.DEVNULL, capture_output=True)
        return json.loads(said.stdout) if said.returncode == 0 else None

    def dump(self, since: float) -> Optional[str]:
        """Each live host with the names of its peers, as they say now: what `tagzirk collect yggdrasil` prints."""
        made = collect.yggdrasil([f"{host}=unix://{self.folder / host}.sock" for host in self.alive()])
        return None if made.notes else made.dump

    def reached(self, told: Mapping[str, field.Hosts]) -> dict[str, field.Hosts]:
        """The live hosts that answer each live host, or have answered it before."""
        hosts = self.alive()
        asked = [(one, other) for one in hosts for other in hosts if other not in told.get(one, (one,))]
        pool = ThreadPoolExecutor(AT_ONCE)
        try:
            answers = {pair: pool.submit(self.is_answered, *pair) for pair in asked}
            return {
                one: frozenset(it for it in hosts if (one, it) not in answers or answers[one, it].result())
                for one in hosts
            }
        finally:
            pool.shutdown(wait=False, cancel_futures=True)

    def is_answered(self, one: str, other: str) -> bool:
        """Whether a host gets an answer of another, with its name."""
        answer = self.ask(one, "getNodeInfo", f"key={self.keys[other]}")
        return answer is not None and answer[self.keys[other]]["name"] == other


if __name__ == "__main__":
    sys.exit(field.main([Yggdrasil], __doc__))
