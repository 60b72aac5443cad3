"""The cases of check-devices about what is read and written whole: files of more than a megabyte, lists, standard input
that fails, a picture in place of a longer one, and rows for which there is no room."""

import pathlib
import resource
import signal

from device_lab import READ, RIGHT, Command, case, told
from dump_cases import DOT, EDGES, FILE_COMMANDS, NAMED, PICTURE, TOLD
from growing_cases import NO_WRITE, SWEEP, right_of

# More than a megabyte that says nothing, before what a command reads.
SPACES = b" " * 1023 + b"\n"
COMMENT = b"#" + b" -" * 511 + b"\n"
FILLING = {EDGES: COMMENT, DOT: COMMENT, TOLD: COMMENT}
TIMES = 1500
# An analysis without both relays, which a list names; its last line has no line feed.
GONE = Command("analyse --without @LIST", "overlay", ("analyse",), "two-clusters.graph", "graph")
WHOLE_LIST, ANSWER = b"5\n4", b"report 0 split k 0 cut - near 6 far 1 side 6,7,8\n"
EXPLAINED = Command("analyse --explain", "overlay", ("analyse", "--explain"), "two-clusters.graph", "graph")
NAMES_ALONE = Command("analyse --names", "overlay", ("analyse", "--names"), "two-clusters.graph", "graph")


def filled(lab, command):
    """The example of a command behind 1.5 MB that say nothing."""
    path = pathlib.Path(lab.room, f"filled.{len(lab.kept)}")
    path.write_bytes(FILLING.get(command, SPACES) * TIMES + pathlib.Path(lab.example(command)).read_bytes())
    path.chmod(0o644)
    return str(path)


@case("reading", "reading: 1.5 MB", "1.5 MB of spaces or comments before the example, as FILE and as standard input",
      "a file is read whole (COMMANDS.md)")
def read_whole(lab):
    for command in FILE_COMMANDS:
        path = filled(lab, command)
        yield command.name, told(lab.run(lab.words(command, path)), lab.right(command), command.explains), RIGHT
        with open(path, "rb") as given:
            seen = lab.run(lab.words(command), stdin=given)
        yield command.name, told(seen, lab.right(command), command.explains), RIGHT
    with_names = [*lab.words(PICTURE), "--names", filled(lab, TOLD), lab.example(PICTURE)]
    yield f"{NAMED.name} FILE", told(lab.run(with_names), lab.right(NAMED)), RIGHT


@case("reading", "reading: a list", "`--without @LIST`, where the last line of LIST has no line feed, also behind "
      "1.5 MB of comments; and where LIST is not there, a folder, or /proc/self/mem",
      "a list is read whole, or `refused 71`, status 1 (FORMATS.md)")
def read_list(lab):
    path = pathlib.Path(lab.room, "gone.list")
    for filling in (b"", COMMENT * TIMES):
        path.write_bytes(filling + WHOLE_LIST)
        path.chmod(0o644)
        yield GONE.name, told(lab.run([*lab.words(GONE), "--without", f"@{path}", lab.example(GONE)]), ANSWER), RIGHT
    for name in ("none", lab.room, "/proc/self/mem"):
        for option in ("--without", "--group"):
            seen = lab.run([*lab.words(GONE), option, f"@{name}", lab.example(GONE)])
            yield f"analyse {option} @LIST", told(seen), READ


@case("reading", "reading: standard input that fails", "`0>/dev/null`, and `<&-`",
      "reading failed: `refused 71`, status 1 (FORMATS.md)")
def read_nothing(lab):
    for command in (*FILE_COMMANDS, EXPLAINED, NAMES_ALONE):
        with open("/dev/null", "wb") as given:
            yield command.name, told(lab.run(lab.words(command), stdin=given)), READ
        yield command.name, told(lab.run(lab.words(command), closed=(0,))), READ


@case("reading", "reading: a file that is not there", "FILE is not there", "`refused 71`, status 1 (FORMATS.md)")
def read_no_file(lab):
    for command in (*FILE_COMMANDS, EXPLAINED, NAMES_ALONE):
        yield command.name, told(lab.run(lab.words(command, "none"))), READ


@case("reading", "reading: a picture in place of a longer file", "`sweep --svg FILE`, where FILE has 200,000 bytes",
      "the picture is written in place of what FILE has (COMMANDS.md): it is as in a new file")
def written_over(lab):
    new, old = pathlib.Path(lab.room, "new.svg"), pathlib.Path(lab.room, "old.svg")
    old.write_bytes(b"x" * 200_000)
    for path in (new, old):
        seen = lab.run([*lab.words(SWEEP), "--svg", str(path)])
        yield "sweep --svg", told(seen, right_of(lab, SWEEP)), RIGHT
    same = "the same picture" if new.read_bytes() == old.read_bytes() else "another picture"
    yield "old and new", same, "the same picture"


@case("reading", "reading: a full disk behind the header",
      "`sweep` into a file that may have the header and 10 bytes more, where SIGXFSZ is ignored", NO_WRITE)
def no_room_for_rows(lab):
    right = right_of(lab, SWEEP)
    room = right.index(b"\n") + 11
    seen = lab.run(lab.words(SWEEP), limits={resource.RLIMIT_FSIZE: room}, ignored=(signal.SIGXFSZ,))
    yield SWEEP.name, told(seen, right), "status 1, a prefix of the right output, `refused 72`"
