"""Pictures of certificates, which `overlay picture` draws."""

from __future__ import annotations

import json
import re
import tempfile
from typing import Any, Dict, List, Optional, Tuple

from .errors import Refused
from .graphs import MOST_TOLD, shown
from .programs import Program, call, find, lines_of, opened

NO_SUCH_ENTRY = 86
# How an entry begins in a certificate as overlay writes it.
PAIR, FAN = re.compile(r'\{"i":(\d+),"j":(\d+),"paths":'), re.compile(r'\{"j":(\d+),"paths":')


def entries_of(certificate: str, names: Dict[int, Any]) -> str:
    """Which entries a certificate has: how many pairs and fans, and the first ten of each, by the names of nodes.

    >>> entries_of('{"verdict":"split","pairs":[{"i":1,"j":2}],"fans":[{"j":3},{"j":4}]}', dict(enumerate("nabcd")))
    'it has 1 pair (a and b) and 2 fans (c, d)'
    """
    found = members_in(certificate)
    if found is None:
        return "every two members are linked, so it has none"
    pairs = [f"{shown(names[i])} and {shown(names[j])}" for i, j in found[0]]
    fans = [shown(names[j]) for j in found[1]]
    return f"it has {counted('pair', pairs)} and {counted('fan', fans)}"


def members_in(certificate: str) -> Optional[Tuple[List[Tuple[int, int]], List[int]]]:
    """The members of each pair and of each fan of a certificate; None if every two members are linked. If it is written
    as overlay writes it, its paths are not decoded.

    >>> members_in('{"fans":[{"j":3,"paths":[[3,2],[3,4,1]]}],"pairs":[{"i":1,"j":2,"paths":[]}],"verdict":"split"}')
    ([(1, 2)], [3])
    """
    pairs = [(int(i), int(j)) for i, j in PAIR.findall(certificate)]
    fans = [int(j) for j in FAN.findall(certificate)]
    if "\\" not in certificate and 0 < certificate.count('"paths"') == len(pairs) + len(fans):
        return pairs, fans
    said = json.loads(certificate)
    if said["verdict"] == "linked":
        return None
    return [(it["i"], it["j"]) for it in said["pairs"]], [it["j"] for it in said["fans"]]


def counted(kind: str, entries: List[str]) -> str:
    """How many entries of a kind there are, and the first ten."""
    if not entries:
        return f"no {kind}s"
    rest = [".."] if len(entries) > MOST_TOLD else []
    return f"{len(entries)} {kind}{'s' if len(entries) > 1 else ''} ({', '.join(entries[:MOST_TOLD] + rest)})"


def drawn(certificate: str, graph_file: str, names: Dict[int, Any], entry: List[str],
          overlay: Optional[Program]) -> str:
    """The picture of a certificate, with the names in a graph file, and with the paths of an entry."""
    with tempfile.NamedTemporaryFile(suffix=".graph") as file, opened(certificate) as data:
        file.write(graph_file.encode())
        file.flush()
        ended = call(find("overlay", overlay), ["picture", f"--names={file.name}", *entry], data)
    try:
        return "".join(f"{line}\n" for line in lines_of(ended))
    except Refused as why:
        if why.number != NO_SUCH_ENTRY:
            raise
        first = why.reason.partition("\n")[0]
        raise Refused(why.number, why.line, f"{first}\n{entries_of(certificate, names)}") from None
