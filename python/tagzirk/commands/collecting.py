"""`tagzirk collect`: a dump of an overlay that runs."""

from __future__ import annotations

import argparse
import sys
from typing import TYPE_CHECKING

from .. import collect
from ..errors import BadDump
from .words import Parents, told

if TYPE_CHECKING:
    from .words import Commands

KINDS = ("tinc", "yggdrasil")
EPILOG = """tinc: one daemon knows the whole graph. Its tinc.conf has a line GraphDumpFile = FILE; WHERE is the name of
the net, or the folder with tinc.conf. yggdrasil: each daemon knows its own peers, so WHERE.. are the endpoints of all,
as unix:///run/yggdrasil.sock or tcp://ADDRESS:PORT, or with --ssh the hosts on which yggdrasilctl is asked. NAME=WHERE
names a host; without it an endpoint is named by its key. A host that does not answer is told, and has no entry:
`tagzirk status` says what that does. A job writes the dump by: tagzirk collect .. > DUMP.part && mv DUMP.part DUMP
"""


def add(commands: Commands, _: Parents) -> None:
    """Adds the words of `collect`."""
    text = "ask the daemons of an overlay that runs for a dump, and print it"
    it = commands.add_parser("collect", help=text, description=f"{text[0].upper()}{text[1:]}.", epilog=EPILOG)
    it.add_argument("kind", choices=KINDS, metavar="KIND", help=" or ".join(KINDS))
    it.add_argument("files", nargs="*", metavar="WHERE", help="the net of tinc, or the hosts that are asked")
    it.add_argument("--ssh", action="store_true", help="each WHERE is a host on which yggdrasilctl is asked, by ssh")
    it.add_argument("--pidfile", metavar="FILE", help="the file with the number of tinc's daemon, if it is elsewhere")
    it.set_defaults(run=run_collect, name="collect", are_files=False)


def run_collect(words: argparse.Namespace) -> int:
    """Prints the dump."""
    if words.kind == "tinc":
        if len(words.files) > 1 or words.ssh:
            raise BadDump("one daemon of tinc knows the whole graph: name one net, or the folder with its tinc.conf")
        made = collect.tinc("".join(words.files), words.pidfile)
    else:
        if not words.files or words.pidfile:
            raise BadDump("name the endpoints of all daemons, or with --ssh all hosts; see `tagzirk collect --help`")
        made = collect.yggdrasil(words.files, words.ssh)
    for note in made.notes:
        told(note)
    sys.stdout.write(made.dump)
    return 0
