"""Dumps by their files: the graph that `overlay import` makes of them, with its notes."""

from __future__ import annotations

import json
import os
import pathlib
import re
import sys
from dataclasses import dataclass, field, replace
from functools import lru_cache
from typing import Dict, List, NamedTuple, Optional, Sequence, TextIO, Tuple

from .account import KNOWN, LEFT, account_of
from .asked import Asked, demand_used
from .beside import may_say_more, plain_lines
from .errors import BadDump, LibraryMissing, Refused
from .dot import of_dot
from .folders import of_hosts
from .forms import NATIVE, form_of, listings_of
from .graphs import MOST_ID, NamedGraph, of_file
from .hosts import SeveralLists
from .limits import GZIP
from .marks import said_by_names
from .notes import Line, lines_in, notes_on
from .only import only_graph, only_views, plain_views
from .outputs import files_in
from .programs import Program, call_for_any, find, refuse
from .contents import of_contents
from .taken import taken_of
from .texts import decoded, text_of
from .values import Views
from .written import tell_how_often

GRAPH_FILE = re.compile(r"(?:[ \t\r]*(?:#[^\n]*)?\n)*[ \t\r]*(?:node|link) +\d")
NODE = re.compile(r"^[ \t\r]*node +0*([0-9]{1,10})(?![0-9])", re.MULTILINE)
# The first line of a graph file that `tagzirk mend` wrote.
OF_MEND = re.compile(r"# tagzirk mend --to [0-9]+")
NAME = re.compile(r"# ([0-9]+) (.*)")
ONE_SIDED = re.compile(r"^listed by one end only: (\d+)$", re.MULTILINE)
WITHOUT_ENTRY = re.compile(r"^listed without an entry: (\d+)$", re.MULTILINE)
# A name of signs alone that has no entry: it may part a list into those that are up and others.
SIGNS_ALONE = re.compile(r"^([^\w\s]+) is listed and has no entry$", re.MULTILINE)
# What overlay says of a first line that may be a header.
HEADER = re.compile(r"^(line \d+: (\S+) and (\S+) stand in no other line; if it is a header, remove it)$", re.MULTILINE)
NO_PAIR = re.compile(r"line \d+ is no pair of names: ")
# What may be done about a line that is no pair of names.
ADVICE = "\n".join(
    (
        "if it is a table, --columns FROM,TO names the columns of both ends, by a header or by numbers as 1,3",
        "--skip N passes over N first lines, and --form FORM says what it is: tagzirk import --help has all forms",
    )
)
# The refusal of more nodes than a graph may have.
TOO_MANY = 31
# The forms that are lines of names, and the options that a form takes; others take --by.
OF_LINES = ("edges", "csv", "weighted", "adjacency")
OF_VALUES = ("by", "columns", "peers", "links")
TAKEN: Dict[str, Tuple[str, ...]] = {
    **dict.fromkeys(OF_LINES, ("columns",)),
    "json": OF_VALUES,
    "yaml": OF_VALUES,
    "views": (),
    "dot": (),
}
# What overlay says of this command, which is no advice here.
OF_THIS = re.compile(r"; `tagzirk import` of the Python package reads (?:it|more forms)$", re.MULTILINE)
# By so many seconds the files of a folder may differ in age without a word.
MOST_APART = 300.0
UNITS = (("days", 86400), ("hours", 3600), ("minutes", 60))
# The words of a refusal of DOT that is read here all the same.
OF_DOT = ("in place of a subgraph", "an HTML text", "several words to DOT")


class Options(NamedTuple):
    """How a dump is to become a graph: as `overlay import` has it, and as a form, a field or columns are asked for.
    With patterns in `only`, hosts with such names are looked at alone. If `entries` says neither, a dump that is read
    has names without an entry too, and what is asked about it leaves them out."""

    either: bool = False
    entries: Optional[bool] = None
    asked: Asked = Asked()
    only: Tuple[str, ...] = ()

    @property
    def words(self) -> List[str]:
        """The options of `overlay import`, but for the form."""
        return ["--either"] * self.either + ["--entries"] * bool(self.entries)

    @property
    def living(self) -> Options:
        """The same for a question about the overlay: names that others list and that have no entry, as of dead peers,
        are left out, unless something else is asked for."""
        return self._replace(entries=True) if self.entries is None else self


@dataclass(frozen=True)
class Dump:
    """A dump that was read: the graph file that `overlay import` made of it, and what is to be told of it.

    `one_sided` is how many listings the other end does not answer, and `without_entry` how many names are listed and
    have no entry; both are None of a graph file, which does not say so. `given` is what `overlay import` was given, and
    its words.
    """

    name: str
    graph_file: str = field(repr=False)
    notes: Tuple[str, ...] = field(repr=False)
    one_sided: Optional[int]
    without_entry: Optional[int]
    given: Tuple[bytes, Tuple[str, ...]] = field(default=(b"", ()), repr=False, compare=False)

    @property
    def graph(self) -> NamedGraph[str]:
        """The graph, by the names of its hosts."""
        return graph_in(self.graph_file)

    @property
    def left_out(self) -> int:
        """How many names were left out that have no entry."""
        return (self.without_entry or 0) if "--entries" in self.given[1] else 0

    @property
    def has_nodes(self) -> bool:
        """Whether there is any host in it."""
        return re.search(r"^[ \t]*node", self.graph_file, re.MULTILINE) is not None


def read_graph_file(text: str) -> NamedGraph[str]:
    """The graph in a graph file that the program overlay accepts. A node without a name is called by its id, and so is
    each but the first with a name that is taken.

    >>> graph = read_graph_file("# 4 oslo\\nnode 4\\nnode 7\\nlink 4 7\\n")
    >>> graph.ids, graph.links
    ({'oslo': 4, '7': 7}, [[4, 7]])
    >>> read_graph_file("# 1 x (3)\\nnode 1\\n# 2 x\\nnode 2\\n# 3 x\\nnode 3\\n").ids
    {'x (3)': 1, 'x': 2, 'x (3) (3)': 3}
    """
    before, names, links = "", {}, []  # type: str, Dict[int, str], List[List[int]]
    for line in text.split("\n"):
        words = line.split()
        if words[:1] == ["node"]:
            said = NAME.fullmatch(before.rstrip("\r"))
            place = id_of(words[1])
            names[place] = of_file(said[2]) if said and said[1].lstrip("0") == words[1].lstrip("0") else str(place)
        elif words[:1] == ["link"]:
            links.append([id_of(words[1]), id_of(words[2])])
        before = line
    ids: Dict[str, int] = {}
    for place, name in names.items():
        while name in ids:
            name = f"{name} ({place})"
        ids[name] = place
    return NamedGraph(ids, links)


# It is asked for its notes first, and then for what a command asks.
graph_in = lru_cache(maxsize=2)(read_graph_file)


def comments_of(text: str) -> List[str]:
    """The comments in a graph file that name no node, but for the first line, if `tagzirk mend` wrote it.

    >>> comments_of("# tagzirk mend --to 2\\n# of today\\n# 4 oslo\\nnode 4\\n# 7 rome\\nlink 4 7  # slow\\n")
    ['# of today', '# 7 rome', '# slow']
    """
    lines = [it.strip() for it in text.split("\n")]
    lines[0] = "" if OF_MEND.fullmatch(lines[0]) else lines[0]
    found = []
    for line, below in zip(lines, [*lines[1:], ""]):
        said, words = NAME.fullmatch(line), below.split()
        is_name = said and words[:1] == ["node"] and said[1].lstrip("0") == words[1].lstrip("0")
        before, mark, behind = line.partition("#")
        if mark and not is_name and re.search(r"\w", behind):
            found.append(f"#{behind}")
    return found


def ids_with_zeros(text: str) -> List[str]:
    """The lines of a graph file whose ids have zeros in front, unless all lines have such."""
    lines = [it for it in (" ".join(line.split("#")[0].split()) for line in text.split("\n")) if it]
    found = [it for it in lines if any(word[0] == "0" and len(word) > 1 for word in it.split()[1:])]
    return found if len(found) < len(lines) else []


def id_of(word: str) -> int:
    """The id that a word of a graph file says, with any number of zeros in front."""
    return int(word.lstrip("0") or "0")


def contents_of(places: Sequence[str]) -> Dict[pathlib.Path, bytes]:
    """The bytes of each file, and of each file in a folder but hidden ones. `-` is standard input."""
    found: Dict[pathlib.Path, bytes] = {}
    for place in places:
        if place == "-":
            if not sys.stdin:
                raise BadDump("standard input is closed; name a file")
            if sys.stdin.isatty():
                print("reading standard input, to its end (Ctrl-D)", file=sys.stderr)
            found[pathlib.Path("standard input")] = whole(sys.stdin)
        else:
            found.update((it, it.read_bytes()) for it in files_at(place))
    return found


@lru_cache(maxsize=1)
def whole(stream: TextIO) -> bytes:
    """All bytes of a stream. It is read once, however often a dump is read."""
    return stream.buffer.read()


def files_at(place: str) -> List[pathlib.Path]:
    """The file of this name, or the files in the folder of this name but hidden ones."""
    if not os.path.isdir(place):
        return [pathlib.Path(place)]
    inner = files_in(place)
    if not inner:
        raise BadDump(f"{place}: the folder has no files")
    return inner


def passed_over(places: Sequence[str]) -> List[str]:
    """What stands in the folder beside files that are read: hidden files, and folders."""
    return [it.name for place in places if os.path.isdir(place) for it in sorted(pathlib.Path(place).iterdir())
            if not it.is_file() or it.name[0] == "."]


def older(files: Sequence[pathlib.Path]) -> List[str]:
    """The files that were last changed long before the newest of them, the oldest first."""
    changed = sorted((it.stat().st_mtime, it.name) for it in files if it.is_file())
    return [f"{name}: by {in_units(changed[-1][0] - at)}" for at, name in changed if changed[-1][0] - at > MOST_APART]


def leading_elsewhere(files: Sequence[pathlib.Path]) -> List[str]:
    """The files that are links to others, unless all are."""
    found = [f"{it.name} to {os.readlink(it)}" for it in files if it.is_symlink()]
    return found if len(found) < len(files) else []


def in_units(seconds: float) -> str:
    """A span in the largest unit of which there are two at least.

    >>> in_units(400), in_units(90000), in_units(3e6)
    ('6 minutes', '25 hours', '34 days')
    """
    unit, size = next((it for it in UNITS if seconds >= 2 * it[1]), ("seconds", 1))
    return f"{seconds // size:.0f} {unit}"


def last_change(places: Sequence[str]) -> Optional[float]:
    """When that file of a dump was last changed which is oldest, in seconds since 1970; None if no place but standard
    input is named. So a host whose file is no longer written makes the dump old."""
    files = [it for place in places if place != "-" for it in files_at(place)]
    return min((it.stat().st_mtime for it in files), default=None)


def read_dump(
    places: Sequence[str],
    options: Options = Options(),
    *,
    is_graph_taken: bool = True,
    overlay: Optional[Program] = None,
) -> Dump:
    """Reads a dump: one file or standard input (`-`), or several files or a folder, each file of one host.

    `overlay import` reads it as it is, if it is of one of its forms. Any other form is turned into views first. With
    `is_graph_taken` a graph file is taken as it is. `Refused` and `BadDump` say why a dump can't be read.

    >>> import pathlib, tempfile
    >>> with tempfile.TemporaryDirectory() as room:
    ...     for host, peers in ("oslo", "rome\\nbern\\n"), ("rome", "oslo\\n"), ("bern", "oslo\\n"):
    ...         _ = pathlib.Path(room, f"{host}.txt").write_text(peers)
    ...     dump = read_dump([room])
    >>> dump.graph.ids, dump.graph.links, dump.one_sided
    ({'bern': 1, 'oslo': 2, 'rome': 3}, [[1, 2], [2, 3]], 0)
    """
    if len(places) == 1 and not os.path.isdir(places[0]):
        ((place, data),) = contents_of(places).items()
        what = of_contents(data)
        if what and not options.asked.form:
            raise BadDump(f"{place} is no dump: it is {what}")
        try:
            return dump_of(data, str(place), options, is_graph_taken, overlay)
        except (BadDump, LibraryMissing, Refused) as why:
            what = None if data.startswith(GZIP) else of_contents(data, is_surely=False)
            raise BadDump(f"{place} is no dump: it is {what}") if what else named_error(why, str(place)) from None
    return dump_of_hosts(places, options, overlay)


def dump_of_hosts(places: Sequence[str], options: Options, overlay: Optional[Program]) -> Dump:
    """Reads a dump of several files or a folder, each file of one host."""
    files = contents_of(places)
    name = places[0] if len(places) == 1 else f"{len(files)} files"
    demand_used(options.asked, "each file has the peers of one host", "by", "peers", "up")
    try:
        views = of_hosts(files, options.asked)
        views.beside += [("files that are not read", it) for it in passed_over(places)]
        views.beside += [("older than other files", it) for it in older([*files])]
        views.beside += [("links to files", it) for it in leading_elsewhere([*files])]
    except SeveralLists as why:
        raise named_error(why, name) from None
    told = f"read {views.kind}" if len(places) > 1 else f"{name} was read as {views.kind}"
    try:
        return with_notes(of_views(views, name, options, [told], overlay), options.asked.all)
    except (BadDump, Refused) as why:
        raise named_error(why, name) from None


def of_views(views: Views, name: str, options: Options, notes: List[str], overlay: Optional[Program]) -> Dump:
    """The dump of what hosts list, as far as it is taken; and what is likely to be wrong with it."""
    views, of_states = taken_of(views, options.asked)
    views, told = only_views(views, options.only)
    told = [*of_states, *told]
    if not views.has_known:
        told.append(
            "no host that is listed has an entry; --by FIELD names hosts by another field of objects, and if these are "
            "racks, `tagzirk each DUMP --racks RACKS` takes them"
        )
    return imported(json.dumps(views.value).encode(), name, ["--views", *options.words], [*notes, *told], overlay)


def named_error(why: Exception, name: str) -> Exception:
    """The same error, with the name of the file."""
    if isinstance(why, Refused):
        # overlay was given the dump on standard input, and not by such options
        reason = OF_THIS.sub("", why.reason.replace("tip: standard input", f"tip: {name}"))
        reason = re.sub(r"--(views|edges|dot)\b", r"--form \1", reason)
        if NO_PAIR.search(reason):
            reason += f"\n{ADVICE}"
        if why.number == TOO_MANY:
            reason += "\n--only PATTERN looks at hosts with such names alone, as --only 'ams-*'"
        return Refused(why.number, why.line, f"{name}: {reason}")
    return type(why)(f"{name}: {why}")


def dump_of(
    data: bytes, name: str, options: Options = Options(), is_graph_taken: bool = True, overlay: Optional[Program] = None
) -> Dump:
    """Reads a dump that is one text: its bytes, and the name of its file.

    >>> dump = dump_of(b'{"nodes": [{"id": "b"}, {"id": "a"}], "links": [{"source": "a", "target": "b"}]}', "net.json")
    >>> print(dump.graph_file, end="")
    # 1 a
    node 1
    # 2 b
    node 2
    link 1 2
    >>> dump.notes
    ('net.json was read as a graph of nodes and links',)
    """
    data, told, beside = text_of(data, options.asked.skip, name)
    notes = [*(f"{name}: {it}" for it in told), *account_of(Views("", beside), [], options.asked.all)]
    if is_graph_taken and not options.asked.form and GRAPH_FILE.match(data.decode(errors="replace")):
        return of_graph_file(data, name, options, notes, overlay)
    form = options.asked.form or form_of(data.decode("utf-8-sig", "replace"), name)
    demand_used(options.asked, f"it has the form {form}", "form", "skip", "up", *TAKEN.get(form, ("by",)))
    views = listings_of(data, name, options.asked)
    if views is None and options.only:
        views = plain_views(decoded(data), form)
    if views is None:
        dump = of_overlay(data, name, form, options, notes, overlay)
    else:
        dump = of_views(views, name, options, [*notes, f"{name} was read as {views.kind}"], overlay)
    return with_notes(dump, options.asked.all, lines_in(decoded(data)) if form in OF_LINES else [])


def of_overlay(
    data: bytes, name: str, form: str, options: Options, notes: List[str], overlay: Optional[Program]
) -> Dump:
    """The dump that `overlay import` reads, unless more stands in it than that tells."""
    own = [f"--{options.asked.form}"] if options.asked.form in NATIVE else []
    views, beside = None, []
    try:
        dump = imported(data, name, [*own, *options.words], notes, overlay)
    except Refused as why:
        if not any(it in why.reason for it in OF_DOT):
            raise
        views = of_dot(decoded(data))
    else:
        views = more_in_dot(data, dump, options, overlay)
        text = decoded(data) if form in OF_LINES else ""
        lines = plain_lines(text) if may_say_more(text) else Views()
        if options.asked.up:
            tell_how_often(lines)
        if options.asked.up and any(it.said for it in lines.statements):
            views = lines
        elif views is None:
            beside = taken_of(lines, options.asked._replace(up=()))[1]
    if views is not None:
        return of_views(views, name, options, [*notes, f"{name} was read as {views.kind}"], overlay)
    demand_used(options.asked, "nothing but names stands in it", "form", "skip")
    return replace(dump, notes=(*dump.notes, *beside))


def of_graph_file(data: bytes, name: str, options: Options, notes: List[str], overlay: Optional[Program]) -> Dump:
    """The dump that a graph file is. overlay says what is wrong with it; what it accepts is read here."""
    demand_used(options.asked, "it is a graph file", "skip")
    text = data.decode(errors="backslashreplace")
    node = NODE.search(text)
    # a question about one node takes no time
    alone = [f"--group={node[1]}"] if node and int(node[1]) <= MOST_ID else []
    ended = call_for_any(find("overlay", overlay), ["analyse", *alone], data)
    if ended.status != 0:
        refuse(*ended.err.partition("\n")[::2])
    beside = [*(("comments", it) for it in comments_of(text)), *(("zeros in front", it) for it in ids_with_zeros(text))]
    told = [*notes, *taken_of(Views("", [*beside]), options.asked)[1]]
    dump = with_only(Dump(name, text, tuple(told), None, None), options.only)
    return with_marks(dump, options.asked.all)


def with_only(dump: Dump, patterns: Sequence[str]) -> Dump:
    """A dump that is a graph file, of hosts with such names alone, if there are patterns."""
    if not patterns:
        return dump
    graph, told = only_graph(dump.graph, patterns)
    return replace(dump, graph_file=graph.text_with_names, notes=(*dump.notes, told))


def with_notes(dump: Dump, is_known: bool, lines: Sequence[Line] = ()) -> Dump:
    """A dump with notes on its graph, its names, and its lines."""
    is_header_told = any("alone: of a header say" in it or "if it is a header" in it for it in dump.notes)
    told = notes_on(dump.graph, lines, dump.without_entry or 0, is_header_told)
    return with_marks(replace(dump, notes=(*dump.notes, *told)), is_known)


def with_marks(dump: Dump, is_known: bool) -> Dump:
    """A dump with a note on what its names say beside. If a person took all on purpose, it `is_known`."""
    said, signs = said_by_names(list(dump.graph.ids)), SIGNS_ALONE.findall("\n".join(dump.notes))
    said += [f"names of signs alone ({', '.join(signs)})"] if signs else []
    told = [f"{KNOWN if is_known else LEFT}: {'; '.join(said)}"] if said else []
    return replace(dump, notes=(*dump.notes, *told))


def more_in_dot(data: bytes, dump: Dump, options: Options, overlay: Optional[Program]) -> Optional[Views]:
    """What a dump in DOT that `overlay import` read says beside its links; or None if it says no more, or is no DOT.
    Both readings have to give one graph."""
    text = decoded(data)
    if (options.asked.form or form_of(text, dump.name)) != "dot":
        return None
    views = of_dot(text)
    tell_how_often(views)
    if not views.beside and not any(it.said for it in views.statements):
        return None
    words = ["--views", *options.words]
    if imported(json.dumps(views.value).encode(), dump.name, words, (), overlay).graph_file != dump.graph_file:
        raise BadDump("two readers of DOT read another graph each: write all names in quotes")
    return views


def imported(data: bytes, name: str, words: Sequence[str], notes: Sequence[str], overlay: Optional[Program]) -> Dump:
    """The graph file that `overlay import` makes of a dump."""
    ended = call_for_any(find("overlay", overlay), ["import", *words], data)
    if ended.status != 0:
        refuse(*ended.err.partition("\n")[::2])
    one_sided, lost = (
        int(said[1]) if said else 0 for said in (ONE_SIDED.search(ended.err), WITHOUT_ENTRY.search(ended.err))
    )
    told = HEADER.sub(r"\1, or say --columns \2,\3", OF_THIS.sub("", ended.err))
    return Dump(name, ended.out, (*notes, *told.splitlines()), one_sided, lost, (data, tuple(words)))
