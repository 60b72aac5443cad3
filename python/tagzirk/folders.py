"""Dumps of one file a host: a folder, or several files."""

from __future__ import annotations

import json
import pathlib
from typing import Any, Dict, List, Tuple

from .asked import Asked
from .beside import said_behind, with_comments
from .errors import BadDump
from .forms import form_of
from .hosts import Entry, SeveralLists, enter_all
from .json_files import json_of
from .rows import rows_of
from .texts import Text, decoded, text_of
from .values import NAME_KEYS, PEER_KEYS, Views, is_list_of_names, key_in, one_of
from .yaml_files import yaml_of

# Endings of a file's name that are no part of the host's, where each file is of one host.
ENDINGS = (".json", ".txt", ".yaml", ".yml", ".peers", ".list", ".out")


def host_of(place: pathlib.Path) -> str:
    """The host whose peers a file has: the file's name without such an ending.

    >>> host_of(pathlib.Path("peers/10.0.0.1.json")), host_of(pathlib.Path("10.0.0.1"))
    ('10.0.0.1', '10.0.0.1')
    """
    name = place.name
    ending = next((it for it in ENDINGS if name.endswith(it) and name != it), "")
    return name[: len(name) - len(ending)]


def of_hosts(files: Dict[pathlib.Path, bytes], asked: Asked) -> Views:
    """What hosts list, with one file a host: a list of names or objects, an object with such a list, or a name on each
    line. If objects name peers and no host is among these names, another field is tried that names some host."""
    views = hosts_by(files, asked)
    for field in () if asked.by or views.has_known else NAME_KEYS:
        try:
            others = hosts_by(files, asked._replace(by=field))
        except BadDump:
            continue
        if others.has_known:
            others.kind += f", with peers by {field}"
            return others
    return views


def hosts_by(files: Dict[pathlib.Path, bytes], asked: Asked) -> Views:
    """The same, with peers by the field that is asked for."""
    views, entries = Views(f"{len(files)} files, one a host"), {}  # type: Views, Dict[pathlib.Path, Entry]
    for place, data in files.items():
        host = host_of(place)
        try:
            if any(it.name == host for it in entries.values()):
                raise BadDump(f"a second file is of the host {host}")
            text = text_of(data, 0, place.name)
            views.beside += text.beside
            entries[place] = Entry(host, *peers_in(text, host, str(place), asked, views))
        except BadDump as why:
            raise BadDump(f"{place}: {why}") from None
    try:
        enter_all(views, list(entries.values()), asked)
    except SeveralLists:
        raise
    except BadDump:
        for place, it in entries.items():
            demand_readable(place, it, asked)
        raise
    return views


def demand_readable(place: pathlib.Path, entry: Entry, asked: Asked) -> None:
    """Refuses a file that can't be read alone, by its name."""
    try:
        enter_all(Views(), [entry], asked)
    except BadDump as why:
        raise BadDump(f"{place}: {why}") from None


def value_of(text: str, form: str, views: Views) -> Any:
    """The value that a text of JSON or YAML says."""
    try:
        return json_of(text, views.beside) if form == "json" else yaml_of(text, views.beside)
    except json.JSONDecodeError as why:
        raise BadDump(f"line {why.lineno}: it is no JSON: {why.msg}") from None


def way_of(ending: str, form: str, told: List[str]) -> str:
    """How a file is written: by the ending of its name, what it is, and what was told when its text was read."""
    kind = form if form in ("json", "yaml") else "lines"
    parts = [f"in a file {ending or 'without ending'}", *[f"of {kind}"] * (ending != f".{kind}"), *told]
    return "".join(f", {it}" for it in parts)


def peers_in(data: Text, host: str, place: str, asked: Asked, views: Views) -> Tuple[Any, str]:
    """What the file of one host has: a list of peers, or an object with such a list; and how it is written. Comments
    stand beside."""
    text = decoded(data.data)
    form = "json" if place.endswith(".json") and text.strip() else form_of(text, place)
    way = way_of(place.rpartition("/")[2][len(host) :], form, data.told)
    if form not in ("json", "yaml"):
        rows = rows_of(text)
        for row in rows:
            if len(row.words) > 1 or ";" in row.text:
                raise BadDump(
                    f"line {row.number} has several words: of several files each is of one host, with the name "
                    "of a peer on each line"
                )
        with_comments(views, text)
        said = [said_behind(row) for row in rows]
        is_plain = not any(said)
        return [row.text if is_plain else {"name": row.text, **it} for row, it in zip(rows, said)], way
    value = value_of(text, form, views)
    if isinstance(value, dict) and list(value) == [host] and is_list_of_names(value[host]):
        value = value[host]
    if isinstance(value, dict) and not asked.peers and ("nodes" in value or not key_in(value, PEER_KEYS)):
        raise BadDump(
            "of several files each is of one host, and this is no list of peers, nor an object with the list "
            f"{one_of(PEER_KEYS)}; --peers KEY takes another key"
        )
    return [value] if isinstance(value, str) else value, way
