"""Files of lines that tell of hosts and link nobody, though they may be read as links: /etc/hosts, known_hosts,
/etc/services, and inventories."""

from __future__ import annotations

import ipaddress
import re
from typing import Optional, Sequence

from .errors import BadDump
from .rows import NUMBER
from .values import HOST_FIELDS

HARDWARE = re.compile(r"[0-9a-f]{2}(?:[:-][0-9a-f]{2}){5}", re.IGNORECASE)
# What an address of the Internet is made of: with dots or colons, and no longer than one of version 6.
OF_ADDRESS = re.compile(r"(?=[0-9a-f]*[.:])[0-9a-f.:]{2,45}(?:%.*)?", re.IGNORECASE | re.DOTALL)
SERVICE = re.compile(r"[0-9]{1,5}/[a-z]{3,4}")
KEY = re.compile(r"(?:ssh|ecdsa|sk-ssh|sk-ecdsa)-[a-z0-9@.-]+")
SETTING = re.compile(r"[A-Za-z_][A-Za-z0-9_.]*=[^=]+")
# What columns of an inventory are called beside the name of a host.
OF_HOSTS = frozenset("ip address addr mac rack site dc datacenter region zone city country role os version".split())

# Whether the words of each line are addresses, where one of two is.
BESIDE = ({(True, False)}, {(False, True)})

Words = Sequence[str]


def demand_links(lines: Sequence[Words]) -> None:
    """Refuses lines, each as its words, that are surely of such a file."""
    what = what_is(lines)
    if what:
        raise BadDump(f"{what}, and no link; if these are links, --form says how they are written")


def what_is(lines: Sequence[Words]) -> Optional[str]:
    """What each line has, if it is surely no link.

    >>> what_is([["127.0.0.1", "localhost"], ["10.0.0.1", "oslo-1", "oslo-1.example.net"]])
    'each line has an address and its names, as /etc/hosts has'
    >>> what_is([["oslo-1", "10.0.0.1"], ["oslo-1", "rome-1"]]) is None
    True
    """
    if any(len(words) < 2 for words in lines):
        return None
    if all(KEY.fullmatch(words[1]) for words in lines):
        return "each line has a host and its key, as known_hosts has"
    if all(SERVICE.fullmatch(words[1]) for words in lines):
        return "each line has a service and its port, as /etc/services has"
    if all(SETTING.fullmatch(it) for words in lines for it in words[1:]):
        return "each line has a host and settings, as an inventory has"
    if are_addresses_first(lines):
        return "each line has an address and its names, as /etc/hosts has"
    return of_inventory(lines)


def is_address(word: str) -> bool:
    """Whether a word is an address: of the Internet, without a port, or of hardware."""
    if not OF_ADDRESS.fullmatch(word):
        return HARDWARE.fullmatch(word) is not None
    try:
        ipaddress.ip_address(word.partition("%")[0])
    except ValueError:
        return HARDWARE.fullmatch(word) is not None
    return True


def are_addresses_first(lines: Sequence[Words]) -> bool:
    """Whether each line is an address and names, and some line has several, or an address that each host has."""
    if not all(is_address(words[0]) for words in lines):
        return False
    if any(is_address(it) or NUMBER.fullmatch(it) for words in lines for it in words[1:]):
        return False
    return any(len(words) > 2 or words[0] == "::1" or words[0].startswith("127.") for words in lines)


def of_inventory(lines: Sequence[Words]) -> Optional[str]:
    """What lines have that give each host an address of its own; or whose first line says that nothing in them but the
    first word is a host."""
    first, others = [it.casefold() for it in lines[0]], lines[1:]
    names = {it for words in others for it in words}
    if first[0] in HOST_FIELDS and OF_HOSTS.issuperset(first[1:]) and others and names.isdisjoint(lines[0]):
        return f"its header says that each line has a host and its {' and '.join(first[1:])}"
    rows = lines if any(map(is_address, lines[0])) else others
    if len(rows) < 2 or any(len(words) != 2 for words in rows):
        return None
    kinds = {tuple(map(is_address, words)) for words in rows}
    is_each_once = len({it for words in rows for it in words}) == 2 * len(rows)
    return "each line has a host and its address" if is_each_once and kinds in BESIDE else None
