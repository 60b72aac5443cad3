"""What a certificate file says, read member by member."""

from __future__ import annotations

import json
import re
from typing import Any, List

COLON = re.compile(r"[ \t\n\r]*:[ \t\n\r]*")


def members_of(certificate: str, *keys: str) -> List[Any]:
    """The values that a certificate file has for these keys. It must be one to which overlay-check says yes.

    Such a file has no text but its keys and its verdict. So if it has no escapes, and a key occurs once in quotes, its
    member stands there, and it alone is decoded: Python's lists take many times the bytes of a file. Any other file is
    decoded as a whole; of a key that occurs twice the last member counts.

    >>> members_of('{"k":1,"links":[[1,2]],"moment":6,"nodes":[1,2],"verdict":"linked","version":1}', "nodes", "links")
    [[1, 2], [[1, 2]]]
    >>> members_of('{"nodes" : [1],"n\\u006fdes":[2]}', "nodes"), members_of('{"nodes":[1],"nodes":[2]}', "nodes")
    ([[2]], [[2]])
    """
    marks = [f'"{key}"' for key in keys]
    if "\\" in certificate or any(certificate.count(mark) != 1 for mark in marks):
        said = json.loads(certificate)
        return [said[key] for key in keys]
    decoder, values = json.JSONDecoder(), []
    for mark in marks:
        colon = COLON.match(certificate, certificate.index(mark) + len(mark))
        if colon is None:
            raise ValueError(f"no value follows {mark}")
        values.append(decoder.raw_decode(certificate, colon.end())[0])
    return values
