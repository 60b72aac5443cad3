"""Reads the arguments of `overlay`, by docs/COMMANDS.md; those of `grow` and `sweep` are read in growing_words.py.

That page leaves some things to `clap`, and so does this reader, from what is commonly known of it: refused are an
option that occurs twice, a value after `=` of an option without one, and a value that begins with `-` and is not `-`
alone. That `--` alone is bare `overlay` was taken from the program, when the page did not say it.
"""

from growing_words import BadArguments, is_value, read_grow, read_sweep
from scenario_lines import MOST_WORKERS, Unreadable, ids, number

# k is below the number of nodes, of which there are 1,024 at most, or 32,768 with `--large`.
MOST_K, MOST_K_OF_LARGE = 1023, 32767

# What reads the words of the commands that grow overlays.
GROWING = {"grow": read_grow, "sweep": read_sweep}


def workers(word):
    """A number from 1 to 64."""
    found = number(word)
    if not 1 <= found <= MOST_WORKERS:
        raise Unreadable
    return found


def least(word):
    """A number that k may be of a large graph."""
    found = number(word)
    if found > MOST_K_OF_LARGE:
        raise Unreadable
    return found


def text(word):
    """Any text."""
    return word


def so_many_ids(count):
    """What reads so many ids with commas between them."""
    def read(word):
        found = ids(word)
        if len(found) != count:
            raise Unreadable
        return found
    return read


# The options of each command, and what reads the value of those that have one.
OPTIONS = {
    "run": {"explain": None, "progress": None, "strict": None},
    "analyse": {"group": text, "without": text, "at-least": least, "workers": workers, "certificate": None,
                "names": None, "explain": None, "progress": None, "large": None},
    "import": {"views": None, "edges": None, "dot": None, "either": None, "entries": None, "large": None},
    "picture": {"names": text, "pair": so_many_ids(2), "fan": so_many_ids(1), "dot": None},
    "graph": {"large": None},
}
# Words that ask to be told what the program is, and all commands of which help tells.
HELP, VERSION = {"--help", "-h"}, {"--version", "-V"}
COMMANDS = {*OPTIONS, *GROWING}
# Options of which a command takes one at most.
ONE_OF = {"import": {"views", "edges", "dot"}, "picture": {"pair", "fan"}}


class Request:
    """What a command line asks for: a command, a file or None for standard input, and options."""

    def __init__(self, command):
        self.command, self.file, self.options = command, None, {}


def option(request, word, rest):
    """Takes an option, and the word behind it if that is its value."""
    name, equals, value = word.removeprefix("--").partition("=")
    known = OPTIONS[request.command]
    if not word.startswith("--") or name not in known or name in request.options:
        raise BadArguments
    if known[name] is None:
        if equals:
            raise BadArguments
        request.options[name] = True
        return
    if not equals:
        value = next(rest, None)
        if value is None or not is_value([value]):
            raise BadArguments
    try:
        request.options[name] = known[name](value.encode())
    except Unreadable:
        raise BadArguments from None


def is_file(text):
    """Whether the text of a list names the file that has it."""
    return text.startswith(b"@")


def judge_together(request):
    """Refuses options that don't go together, a number that k is of a large graph alone, and a group that is to have ids
    and has none."""
    if len(ONE_OF.get(request.command, set()) & request.options.keys()) > 1:
        raise BadArguments
    if request.options.get("at-least", 0) > MOST_K and "large" not in request.options:
        raise BadArguments
    if "group" in request.options and "names" not in request.options and not is_file(request.options["group"]):
        try:
            request.options["group"] = ids(request.options["group"])
        except Unreadable:
            raise BadArguments from None


def telling(texts):
    """What these words ask to be told, as a command is named: `version`, `help`, or None."""
    first, *more = texts or [""]
    if first in VERSION:
        return "version"
    if first in HELP or texts == ["help"]:
        return "help"
    if first == "help":
        return "help" if len(more) == 1 and more[0] in COMMANDS else None
    options = more[:more.index("--")] if "--" in more else more
    return "help" if first in COMMANDS and not HELP.isdisjoint(options) else None


def read_arguments(words):
    """The request of these words, which are bytes each."""
    try:
        texts = [word.decode() for word in words]
    except UnicodeDecodeError:
        raise BadArguments from None
    if texts in ([], ["--"]):
        return Request("run")
    if told := telling(texts):
        return Request(told)
    command, *texts = texts
    if command in GROWING:
        request = Request(command)
        request.options = GROWING[command](texts)
        return request
    if command not in OPTIONS:
        raise BadArguments
    request, files, has_options, rest = Request(command), [], True, iter(texts)
    for word in rest:
        if has_options and word == "--":
            has_options = False
        elif has_options and word.startswith("-") and word != "-":
            option(request, word, rest)
        else:
            files.append(word)
    if len(files) > 1:
        raise BadArguments
    judge_together(request)
    request.file = next((word for word in files if word != "-"), None)
    return request
