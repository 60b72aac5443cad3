"""Tables: CSV and the like, and those that psql, mysql, sqlite or a text in Markdown show, with a header or without."""

from __future__ import annotations

import collections
import csv
import io
import itertools
import re
from typing import Dict, Iterable, List, NamedTuple, Optional, Sequence, Set, Tuple

from .beside import said_behind
from .cells import peers_in_cell
from .errors import BadDump
from .limits import MOST_LINKS, need_few
from .rows import rows_of
from .values import FURTHER, HOST_FIELDS, LINK_ENDS, LISTING_ENDS, MOST_DIFFERENT as MOST_COLUMNS, Said, Scalar, Views
from .written import Written

# What a column is called that has all peers of a host in one cell.
MANY_FIELDS = ("peers", "neighbors", "neighbours", "links", "connections", "active_view")
MANY_ENDS = tuple(itertools.product(HOST_FIELDS, MANY_FIELDS))
# What stands between two columns, in the order in which it is looked for.
BETWEEN = ("\t", ";", ",", "|")
# The characters that draw a table, as those of ASCII.
DRAWN = {ord(it): drawn for drawn, all_such in (("|", "│┃║"), ("-", "─━═")) for it in all_such}
DRAWN.update(dict.fromkeys(map(ord, "┼╪╬├╞╠┤╡╣┌╒╔┐╕╗└╘╚┘╛╝┬╤╦┴╧╩╭╮╯╰"), "+"))
OF_RULES = frozenset("-+|: \t\r")
FOOTER = re.compile(r"\(?\d+ rows?\b.*|Time:.*|\(?(?:no|empty) (?:rows?|set)\b.*", re.IGNORECASE)
# What begins a row that has a line for each column.
RECORD = re.compile(r"-\[ RECORD [0-9]+ \][-+]*|\*+ [0-9]+\. row \*+")
# A footer that says nothing but how many rows there are, or how long they took.
COUNT = re.compile(
    r"\(?([0-9]+) rows?(?: in set)?(?: ?\([0-9.]+ sec\))?\)?|Time: [0-9.]+ ms(?: \([0-9:.]+\))?", re.IGNORECASE
)


class Table(NamedTuple):
    """A table: what it is called, the names of its columns, if it has a header, and its rows with their lines; what
    stands above and below it, and behind its rows, by their lines."""

    kind: str
    header: List[str]
    rows: List[Tuple[int, List[str]]]
    beside: List[Tuple[str, str]]
    behind: Dict[int, Said]

    @property
    def names(self) -> List[str]:
        """What the columns are called: by their numbers where a name is empty, or stands there twice."""
        lower = collections.Counter(it.lower() for it in self.header)
        return [it if it and lower[it.lower()] == 1 else str(at) for at, it in enumerate(self.header, 1)]


class Ends(NamedTuple):
    """Which two columns are both ends; whether a row is a listing, and whether it names many peers."""

    places: Tuple[int, int]
    is_listing: bool = False
    is_many: bool = False


def ends_by_name(header: Sequence[str], columns: Optional[str]) -> Optional[Ends]:
    """Which columns of a header are both ends: those that are asked for, or known ones."""
    names = [it.lower() for it in header]
    asked = tuple(it.strip().lower() for it in columns.split(",")) if columns else None
    if asked and (len(asked) != 2 or not set(asked) <= set(names)):
        return None
    known = known_ends(names) if asked is None else [ends_of((asked[0], asked[1]), names)]
    if known and asked is None:
        demand_one_pair((names[known[0].places[0]], names[known[0].places[1]]), names)
    return next(iter(known), None)


def known_ends(names: Sequence[str]) -> List[Ends]:
    """Each two columns of a header, in small letters, that are known as both ends."""
    pairs, there = (*LINK_ENDS, *LISTING_ENDS, *MANY_ENDS), set(names)
    return [ends_of(pair, names) for pair in pairs if there.issuperset(pair)]


def ends_of(pair: Tuple[str, str], names: Sequence[str]) -> Ends:
    """The columns of these names."""
    is_many = pair in MANY_ENDS
    return Ends((names.index(pair[0]), names.index(pair[1])), pair in LISTING_ENDS or is_many, is_many)


def demand_one_pair(pair: Tuple[str, str], names: Sequence[str]) -> None:
    """Refuses a header that has two such pairs without a name in both."""
    there = set(names)
    for other in (*LINK_ENDS, *LISTING_ENDS):
        if there.issuperset(other) and not set(other) & set(pair):
            raise BadDump(f"its header has {' and '.join(pair)}, and {' and '.join(other)}: say --columns FROM,TO")


def ends_by_number(columns: Optional[str]) -> Optional[Ends]:
    """Which columns are both ends, by their numbers from 1."""
    found = re.fullmatch(r"\s*([1-9][0-9]{0,2})\s*,\s*([1-9][0-9]{0,2})\s*", columns or "")
    return Ends((int(found[1]) - 1, int(found[2]) - 1)) if found and found[1] != found[2] else None


def ends_in_header(header: Sequence[str], columns: Optional[str]) -> Optional[Ends]:
    """Which columns are both ends, by a header, or by their numbers if it is sure that this is one: it has two names
    that are known."""
    by_number, known = ends_by_number(columns), known_ends([it.lower() for it in header])
    if not by_number or not known or max(by_number.places) >= len(header):
        return ends_by_name(header, columns)
    return next((it for it in known if it.places == by_number.places), by_number)


def is_rule(line: str) -> bool:
    """Whether a line is one between two rows, with marks where columns meet."""
    return set(line) <= OF_RULES and any(it in line for it in ("-+", "+-", "-|", "|-", ":|", "|:", "- |"))


def split_drawn(line: str, is_framed: bool) -> List[str]:
    """The cells of a row between `|`, of which one stands at each end too, if the table has a frame."""
    bare = line.strip()
    inner = bare[1:-1] if is_framed and len(bare) > 1 and bare[0] == bare[-1] == "|" else line
    return [it.strip() for it in inner.split("|")]


def drawn_table(text: str) -> Optional[Table]:
    """The table that a program shows with lines between rows and columns, or None if there is none. What stands above
    it and has no columns is a title; below it a count of its rows may stand.

    >>> drawn_table(" a  | b\\n----+----\\n n1 | n2\\n(1 row)\\n").rows
    [(3, ['n1', 'n2'])]
    """
    if "|" not in text and "\u2502" not in text and "\u2551" not in text and "\u2503" not in text:
        return None
    lines = [(at, line) for at, line in enumerate(text.translate(DRAWN).split("\n"), 1) if line.strip()]
    rules = {place for place, (_, line) in enumerate(lines) if is_rule(line)}
    head = next((place for place, (_, line) in enumerate(lines) if "|" in line and place not in rules), None)
    if not rules or head is None or head + 1 not in rules:
        return None
    is_framed = lines[head][1].strip()[0] == lines[head][1].strip()[-1] == "|"
    table, is_below = Table("a table", split_drawn(lines[head][1], is_framed), [], [], {}), False
    table.beside.extend(("title", line.strip()) for at, (_, line) in enumerate(lines[:head]) if at not in rules)
    table.beside.extend(rules_within(lines, rules, head))
    for place in range(head + 1, len(lines)):
        number, line = lines[place]
        if place in rules:
            continue
        if "|" not in line and FOOTER.fullmatch(line.strip()):
            is_below = True
            table.beside.extend(footer_of(line, len(table.rows)))
            continue
        cells = split_drawn(line, is_framed)
        if is_below or len(cells) != len(table.header):
            raise BadDump(f"line {number} is no row of the table above it: {line.strip()[:60]}")
        table.rows.append((number, cells))
    return table


def records_table(text: str) -> Optional[Table]:
    """The table that psql shows by `-x`, and mysql by `\\G`: the columns of each row on lines of their own. None if the
    text is no such.

    >>> records_table("-[ RECORD 1 ]\\nsource | a\\ntarget | b\\n").rows
    [(1, ['a', 'b'])]
    """
    lines = [(at, line.strip()) for at, line in enumerate(text.split("\n"), 1) if line.strip()]
    if not lines or not RECORD.fullmatch(lines[0][1]):
        return None
    table, sign = Table("a table", [], [], [], {}), "|" if lines[0][1][0] == "-" else ":"
    for number, line in lines:
        name, between, value = line.partition(sign)
        if RECORD.fullmatch(line):
            table.rows.append((number, []))
        elif FOOTER.fullmatch(line):
            table.beside.extend(footer_of(line, len(table.rows)))
        elif not between or len(table.rows) > 1 and table.header[len(table.rows[-1][1]) :][:1] != [name.strip()]:
            raise BadDump(f"line {number} is no column of the row above it: {line[:60]}")
        else:
            table.header.extend([name.strip()] * (len(table.rows) == 1))
            table.rows[-1][1].append(value.strip())
    if any(len(cells) != len(table.header) for _, cells in table.rows):
        raise BadDump("its rows do not have the same columns")
    return table


def rules_within(lines: List[Tuple[int, str]], rules: Set[int], head: int) -> List[Tuple[str, str]]:
    """The lines that are drawn between some rows below the header, and not between all."""
    rows = [place for place, (_, line) in enumerate(lines) if place > head and place not in rules and "|" in line]
    parted = [place for place, before in zip(rows[1:], rows) if place - before > 1]
    is_each = len(parted) == len(rows) - 1
    return [] if is_each else [("lines between rows", f"above line {lines[place][0]}") for place in parted]


def footer_of(line: str, rows: int) -> List[Tuple[str, str]]:
    """A footer, unless it says the number of rows alone, or how long these took."""
    found = COUNT.fullmatch(line.strip())
    return [] if found and found[1] in (None, str(rows)) else [("footer", line.strip())]


def between_columns(line: str) -> str:
    """What stands between two columns of a table whose header or first row this is."""
    return next((it for it in BETWEEN if it in line), " ")


def parsed_rows(text: str, begin: int, between: str) -> List[Tuple[int, List[str]]]:
    """The rows of CSV below some line, with the numbers of their lines, without those that are blank."""
    below = io.StringIO(text.split("\n", begin)[-1] if begin else text, newline="")
    reader = csv.reader(below, delimiter=between, skipinitialspace=True, strict=True)
    rows: List[Tuple[int, List[str]]] = []
    try:
        for row in reader:
            cells = [it.strip() for it in row if between != " " or it]
            if any("\n" in it for it in cells):
                raise csv.Error("a text in quotes goes on in the next line")
            if any(cells):
                need_few(len(rows), "rows", MOST_LINKS)
                rows.append((begin + reader.line_num, cells))
    except csv.Error as why:
        raise BadDump(f"line {begin + reader.line_num}: it is no row of a table: {why}") from None
    return rows


def without_rule(rows: List[Tuple[int, List[str]]], beside: List[Tuple[str, str]]) -> List[Tuple[int, List[str]]]:
    """The rows without a line below the header, and without their count at the end, as psql and sqlite write them. If
    this says more, it stands beside."""
    if rows and all(len(it) > 1 and set(it) <= set("-=") for it in rows[0][1]):
        rows = rows[1:]
    is_count = len(rows) > 1 and FOOTER.fullmatch(" ".join(rows[-1][1])) and len(rows[-1][1]) < len(rows[0][1])
    if is_count:
        beside.extend(footer_of(" ".join(rows[-1][1]), len(rows) - 1))
    return rows[:-1] if is_count else rows


def with_header(text: str, columns: Optional[str]) -> Optional[Tuple[Table, Ends]]:
    """The table whose first line that is no comment is a header: one that names two columns that are known or were
    asked for. No row below has these names, but for the whole header, which `cat` may repeat: else it may be a link."""
    lines = text.split("\n")
    begin = next((at for at, line in enumerate(lines) if line.strip() and not line.lstrip().startswith("#")), 0)
    between = between_columns(lines[begin])
    header = [it.strip().strip('"') for it in lines[begin].split(between) if it.strip() or between != " "]
    ends = ends_in_header(header, columns)
    if not ends:
        return None
    beside: List[Tuple[str, str]] = []
    table = Table("a table", header, without_rule(parsed_rows(text, begin + 1, between), beside), beside, {})
    names = {header[it].lower() for it in ends.places}
    others = ((number, cells_at(row, ends)) for number, row in table.rows if row != header)
    again = next(((number, cell) for number, cells in others for cell in cells if cell.lower() in names), None)
    if again and columns and not ends_by_number(columns):
        numbers = ",".join(str(it + 1) for it in ends.places)
        raise BadDump(
            f"line {begin + 1} may be a header or a link, since {again[1]} stands in line {again[0]} too: of a header "
            f"say --skip {begin + 1} --columns {numbers}, and of a link --columns {numbers} alone"
        )
    return None if again else (table, ends)


def without_header(text: str) -> Table:
    """The table whose lines are all rows, but for comments."""
    rows = rows_of(text)
    between = between_columns(rows[0].text) if rows else ","
    found = []
    for number, line in ((row.number, row.text) for row in rows):
        try:
            cells = next(csv.reader([line], delimiter=between, skipinitialspace=True, strict=True))
        except csv.Error as why:
            raise BadDump(f"line {number}: it is no row of a table: {why}") from None
        found.append((number, [it.strip() for it in cells if between != " " or it.strip()]))
    return Table("a table without a header", [], found, [], {row.number: said_behind(row) for row in rows})


def cells_at(row: Sequence[str], ends: Ends) -> Iterable[str]:
    return (row[it] for it in ends.places if it < len(row))


def table_of(text: str, columns: Optional[str]) -> Optional[Tuple[Table, Ends]]:
    """The table that a text is, and its columns of both ends; or None if it is none."""
    drawn = records_table(text) or drawn_table(text)
    if drawn:
        ends = ends_by_name(drawn.header, columns) or ends_by_number(columns)
        if ends and max(ends.places) < len(drawn.header):
            return drawn, ends
        told = ", ".join(drawn.header)
        raise BadDump(f"--columns FROM,TO names the columns of both ends, and the header is: {told}")
    found = with_header(text, columns)
    ends = ends_by_number(columns)
    if found or not columns:
        return found
    if ends:
        return without_header(text), ends
    first = next((line.strip() for line in text.split("\n") if line.strip() and line.lstrip()[0] != "#"), "")
    raise BadDump(
        f"--columns takes two names of the header, FROM,TO, and the header is: {first[:200]}; or the numbers of two "
        "columns, as 1,3, where there is no header"
    )


def of_table(table: Table, ends: Ends) -> Views:
    """What hosts list by a table."""
    views, repeated, names = Views(told_of(table, ends), [*table.beside]), 0, table.names
    written = Written(views)
    views.columns = names
    for number, cells in table.rows:
        if cells == table.header:
            repeated += 1
            continue
        if not ends.is_many:
            written.next_is(f"below header {repeated + 1}")
        if len(cells) <= max(ends.places):
            raise BadDump(f"line {number} has {len(cells)} columns, and column {max(ends.places) + 1} is an end; "
                            "--columns FROM,TO counts columns too, as 1,3")
        if table.header and any(cells[len(table.header) :]):
            raise BadDump(f"line {number} has {len(cells)} columns, and the header has {len(table.header)}")
        one, other = cells_at(cells, ends)
        said = {**said_in(cells, names, ends), **table.behind.get(number, {})}
        if one and not other and ends.is_listing:
            views.enter(one, said)
        elif not one or not other:
            raise BadDump(f"line {number} lacks a name")
        elif ends.is_many:
            enter_many(views, one, other, said, written)
        elif ends.is_listing:
            views.listing(one, other, said)
        else:
            views.link(one, other, said)
    written.tell()
    if repeated:
        views.kind += f"; the header stands {repeated + 1} times"
    if not table.header:
        views.kind += told_of_first(table.rows, ends)
    return views


def told_of_first(rows: Sequence[Tuple[int, List[str]]], ends: Ends) -> str:
    """What is told of a table without a header whose first row may be one: both of its names stand in no other row."""
    first, *others = [list(cells_at(cells, ends)) for _, cells in rows]
    if len(others) < 2 or not {it for cells in others for it in cells}.isdisjoint(first):
        return ""
    return f"; {' and '.join(first)} stand in line {rows[0][0]} alone: of a header say --columns {','.join(first)}"


def enter_many(views: Views, name: str, cell: str, said: Dict[str, Scalar], written: Written) -> None:
    """A host with all peers in one cell."""
    views.enter(name, said)
    for peer in peers_in_cell(cell):
        written.next_is(peer.way)
        views.listing(name, peer.name)


def said_in(cells: Sequence[str], header: Sequence[str], ends: Ends) -> Dict[str, Scalar]:
    """What the other columns say, by their names, or by their numbers where there is no header. Those behind very many
    are one text."""
    others = (it for it in range(min(len(cells), MOST_COLUMNS)) if it not in ends.places)
    said: Dict[str, Scalar] = {header[it] if it < len(header) else str(it + 1): cells[it] for it in others}
    further = ",".join(filter(None, cells[MOST_COLUMNS:]))
    return {**said, FURTHER: further} if further else said


def told_of(table: Table, ends: Ends) -> str:
    """How a table was read."""
    one, other = (f"{table.header[it]}" if table.header else str(it + 1) for it in ends.places)
    kind = f"a row says that {one} lists {other}" if ends.is_listing else "each row is a link"
    return f"{table.kind} with the columns {one.lower()} and {other.lower()}: {kind}"
