"""Slips: what somebody may have meant by words that the command does not have, and by files that are not there."""

from __future__ import annotations

import difflib
import os
import pathlib
import re
from typing import Dict, Iterable, List, Mapping, Sequence, Tuple

STATUS = "`tagzirk status FILE` tells k and the cut of a dump"
CERTIFICATE = (
    "`tagzirk mend` prints a certificate; the page of `tagzirk report` has one; else "
    "`tagzirk import FILE | overlay analyse --certificate | tail -n 1`"
)
# What is meant by words of other programs, or of people, that are no command here.
MEANT: Sequence[Tuple[str, str]] = (
    ("analyze analyzer analysis", "did you mean `tagzirk analyse`?"),
    ("k connectivity cut min-cut vertex-cut info show summary health split partition components explain", STATUS),
    ("without down exclude", "`tagzirk status FILE --without HOST,HOST` tells what is without some hosts"),
    ("sites site", "`tagzirk status FILE --site REGEX` tells which sites are cut off, and `tagzirk each` has it too"),
    ("json csv", "--json of status, diff, each and history prints JSON, and `tagzirk each FILE --csv` prints CSV"),
    ("run scenario", f"`overlay run FILE` runs a scenario; {STATUS}"),
    ("check validate", f"`overlay-check FILE` checks a certificate file; {STATUS}"),
    ("overlay-check", "`overlay-check FILE` is a program of its own, which checks a certificate file"),
    ("verify", "`overlay-check FILE` checks a certificate file"),
    ("certificate cert prove proof", CERTIFICATE),
    ("overlay", "`overlay` is a program of its own: `overlay help` has its commands"),
    (
        "picture svg",
        "`overlay picture CERTIFICATE > net.svg` draws a certificate file; `tagzirk report FILE` has a picture",
    ),
    (
        "draw view visualize render",
        "`tagzirk report FILE` has a picture of a dump; `tagzirk history FILE.. --svg PICTURE` draws many",
    ),
    (
        "plot chart",
        "`tagzirk history FILE.. --svg PICTURE` draws a history; `tagzirk report FILE` has a picture of a dump",
    ),
    ("trend trends timeline", "`tagzirk history FILE..` has a row for each of many dumps"),
    ("graph", "`overlay graph CERTIFICATE` prints the graph of a certificate; `tagzirk import FILE` that of a dump"),
    ("grow", "`overlay grow` grows an overlay and prints its scenario"),
    ("sweep", "`overlay sweep` grows many overlays, and prints a row for each"),
    ("read load parse convert transform export", "`tagzirk import FILE` makes a graph file of a dump"),
    ("dump fetch gather", "`tagzirk collect` makes a dump of an overlay that runs"),
    ("html page", "`tagzirk report FILE > report.html` makes a page"),
    (
        "fix repair improve heal harden strengthen augment suggest remedy add",
        "`tagzirk mend FILE --to K` finds links to add",
    ),
    ("prometheus prom textfile", "`tagzirk metrics FILE --textfile TEXTFILE` writes the numbers for Prometheus"),
    (
        "alarm alert nagios monitor monitoring watch",
        "`tagzirk status FILE --at-least K` has a status for alarms, and `tagzirk metrics` numbers for Prometheus",
    ),
    ("racks", "`tagzirk each FILE --racks RACKS` tells what the crash of each rack does"),
    ("pairs pair", "`tagzirk each FILE --pairs` tells what the crash of every two hosts does"),
    (
        "hosts nodes crash crashes fail failure failures kill simulate what-if worst weakest top rank spof all",
        "`tagzirk each FILE` tells what the crash of each host does",
    ),
    ("compare changes difference differences delta", "`tagzirk diff OLD NEW` tells what changed between two dumps"),
    ("tinc", "`tagzirk collect tinc` makes a dump of tinc"),
    ("yggdrasil", "`tagzirk collect yggdrasil` makes a dump of Yggdrasil"),
    ("usage man", "`tagzirk --help` has all commands, and `tagzirk COMMAND --help` the options of one"),
)
OTHER_COMMANDS: Dict[str, str] = {word: tip for words, tip in MEANT for word in words.split()}
# Options of other commands, of `overlay`, or of habit: what is meant.
EXACT_OPTIONS: Dict[str, str] = {
    "--views": "--form views says that the dump is views in JSON",
    "--edges": "--form edges says that each line of the dump is a link",
    "--dot": "--form dot says that the dump is DOT",
    "--json": "--form json says that the dump is JSON; `tagzirk status` and `tagzirk diff` print JSON by their --json",
    "--yaml": "--form yaml says that the dump is YAML",
    "--csv": "`tagzirk each` prints CSV by its --csv; `tagzirk history` prints CSV always",
    "--html": "`tagzirk report FILE > report.html` makes a page",
    "--names": "tagzirk speaks in names always, so --names can be left out",
    "--explain": "tagzirk says its answers in words always, so --explain can be left out",
    "--progress": "how far a command is stands on a terminal by itself, so --progress can be left out",
    "--certificate": CERTIFICATE,
    "--without": "`tagzirk status FILE --without HOST,HOST` tells what is without some hosts",
    "--group": "`tagzirk status FILE --group HOST,HOST` tells what parts some hosts",
    "--at-least": "`tagzirk status FILE --at-least K` has a status that says whether k is high enough",
    "--racks": "`tagzirk each FILE --racks RACKS` tells what the crash of each rack does",
    "--to": "`tagzirk mend FILE --to K` finds links to add, and `tagzirk report FILE --to K` has them on its page",
    "--svg": "`tagzirk history FILE.. --svg PICTURE` draws a history; the page of `tagzirk report` has a picture",
    "--picture": "the page of `tagzirk report` has a picture, and `tagzirk history` takes --svg PICTURE",
    "--textfile": "`tagzirk metrics FILE --textfile TEXTFILE` writes the numbers for Prometheus",
    "--graph": "`tagzirk import FILE > GRAPHFILE` writes a graph file, and `tagzirk mend FILE --graph GRAPHFILE` too",
    "--output": "what is printed goes to a file by `> FILE`",
    "--out": "what is printed goes to a file by `> FILE`",
    "-o": "what is printed goes to a file by `> FILE`",
    "--file": "a file is named without an option",
    "--input": "a file is named without an option",
    "-f": "a file is named without an option; --form says its form",
    "-i": "a file is named without an option",
    "--threads": "--workers N asks so many questions at once",
    "--jobs": "--workers N asks so many questions at once",
    "-j": "--workers N asks so many questions at once",
    "-k": "K is a number behind --to, or behind --at-least of `tagzirk status`",
    "--k": "K is a number behind --to, or behind --at-least of `tagzirk status`",
    "--host": "--without and --group of `tagzirk status` name hosts; --by FIELD says which field names a host",
    "--key": "--by FIELD says which field names a host",
    "--name": "--by FIELD says which field names a host",
    "--header": "--columns FROM,TO names the columns of both ends by their header",
    "--source": "--columns FROM,TO names the columns of both ends",
    "--target": "--columns FROM,TO names the columns of both ends",
    "--delimiter": "the sign between columns is found by itself; --columns FROM,TO names the columns of both ends",
    "--separator": "the sign between columns is found by itself; --columns FROM,TO names the columns of both ends",
    "--sep": "the sign between columns is found by itself; --columns FROM,TO names the columns of both ends",
    "-d": "the sign between columns is found by itself; --columns FROM,TO names the columns of both ends",
    "--old": "`tagzirk diff OLD NEW` takes both dumps without an option, the older first",
    "--new": "`tagzirk diff OLD NEW` takes both dumps without an option, the older first",
    "--before": "`tagzirk diff OLD NEW` takes both dumps without an option, the older first",
    "--after": "`tagzirk diff OLD NEW` takes both dumps without an option, the older first",
    "--overwrite": "--force writes over a file that this command did not write",
    "--yes": "--force writes over a file that this command did not write",
    "--overlay": "the variable TAGZIRK_OVERLAY names the program overlay",
    "--overlay-check": "the variable TAGZIRK_OVERLAY_CHECK names the program overlay-check",
    "-v": "`tagzirk --version` prints the version; there is no --verbose",
    "--verbose": "notes on the dump go to standard error always",
    "-q": "notes on the dump go to standard error: 2> notes.txt keeps them apart",
    "--quiet": "notes on the dump go to standard error: 2> notes.txt keeps them apart",
    "--version": "`tagzirk --version` prints the version",
    "-V": "`tagzirk --version` prints the version",
}
# Words of habit for options that are called otherwise.
OF_HABIT: Sequence[Tuple[str, str]] = (
    (
        "--exclude --ignore --remove --drop --down --dead --kill",
        "--without HOST,HOST of status and each takes hosts away; --up FIELD=VALUE says which are up by the dump",
    ),
    (
        "--min --minimum --threshold --warning --warn --critical --crit -c -w",
        "`tagzirk status FILE --at-least K` warns below K; --workers N asks so many questions at once",
    ),
    ("--filter --include --select --match --subset", "--only 'ams-*' looks at hosts with such names alone"),
    ("--top --head --limit --first --lines -n", "`tagzirk each FILE --rows N` shows N rows"),
    ("--triples --triple --combinations", "`tagzirk each FILE --pairs` lets every two crash; --racks any sets"),
    ("--png --pdf", "`tagzirk history FILE.. --svg PICTURE` draws; a browser prints the page of `tagzirk report`"),
    ("--format", "did you mean --form? It is that of the dump; --json of status, diff, each and history prints JSON"),
    ("--color --colour", "nothing is coloured, so it can be left out"),
)
OTHER_OPTIONS = {**EXACT_OPTIONS, **{word: tip for words, tip in OF_HABIT for word in words.split()}}
# Options and words that need a value, or that a command can't do without: how they are given.
HOW: Dict[str, str] = {
    "--to": "--to 3 asks for links so that no fewer than 3 crashes split the overlay",
    "--textfile": "--textfile FILE.prom writes into the folder of a collector, and --textfile - prints",
    "FILE": "name the dumps, or the folder that they are in",
    "--at-least": "--at-least 2 asks whether any single crash is survived",
    "--graph": "--graph GRAPHFILE names the file to write",
    "--svg": "--svg PICTURE names the file to write",
    "--html": "--html PAGE names the file to write, and --html - prints it",
    "--columns": "--columns FROM,TO names two columns, with a comma between",
    "--most-links": "--most-links 2 gives no host more than two links",
    "--racks": "--racks RACKS names a file with a line HOST RACK for each host",
    "--without": "--without HOST,HOST names hosts, and --without @FILE a file of them",
    "--group": "--group HOST,HOST names hosts, and --group @FILE a file of them",
    "--up": "--up FIELD=VALUE[,VALUE] says which values of a field are up",
    "KIND": "tinc and yggdrasil are the kinds",
}
# Words that are given in the place of one that there is.
CHOICES: Dict[str, str] = {
    "xml": "--form graphml and --form gexf are forms in XML",
    "text": "--form edges reads lines of two names",
    "txt": "--form edges reads lines of two names",
    "tsv": "--form csv reads tables with tabs too",
    "table": "--form csv reads tables",
    "excel": "--form csv reads tables",
    "jsonl": "--form json reads JSON lines too",
    "yml": "--form yaml",
    "graph": "a graph file is known by itself, without --form",
    "graphviz": "--form dot",
    "gv": "--form dot",
    "networkx": "--form json reads node-link JSON, and --form adjacency lists of neighbours",
    "list": "--form adjacency reads lists of neighbours, and --form edges lines of two names",
}
# How the names of files end that commands write.
OUTPUT_ENDINGS = (".html", ".htm", ".svg", ".png", ".csv", ".graph", ".prom", ".pdf")


def of_command(word: str, rest: Sequence[str], commands: Sequence[str]) -> List[str]:
    """What is said of a first word that is no command."""
    said = f"tagzirk has no command {word!r}"
    if word in ("-v", "--verbose", "-q", "--quiet"):
        return [f"tagzirk has no option {word}", OTHER_OPTIONS[word]]
    if word.startswith("-"):
        if word in ("-version", "-help"):
            return [f"tagzirk has no option {word}", f"did you mean -{word}, with two dashes?"]
        behind = next((it for it in rest if it in commands), "COMMAND")
        return [f"tagzirk has no option {word.partition('=')[0]!r} before its command: tagzirk {behind} {word} .."]
    key = word.lower()
    if key in commands:
        return [said, f"commands are written in small letters: tagzirk {key}"]
    if key in OTHER_COMMANDS:
        return [said, OTHER_COMMANDS[key]]
    like = nearest(word, commands, OTHER_COMMANDS)
    if like and not os.path.exists(word):
        return [said, f"did you mean `tagzirk {like}`?" if like in commands else OTHER_COMMANDS[like]]
    if os.path.exists(word) or pathlib.PurePath(word).suffix:
        return [
            f"tagzirk needs a command before the file {word}",
            f"`tagzirk status {word}` tells k and the cut, and `tagzirk report {word} > report.html` makes a page",
        ]
    return [said, f"the commands are {', '.join(commands)}; `tagzirk --help` says what each does"]


def of_option(word: str, command: str, options: Mapping[str, Sequence[str]]) -> List[str]:
    """What is said of an option that a command does not have. `options` has those of each command."""
    name = word.partition("=")[0]
    said = f"there is no option {name}"
    if os.path.exists(word):
        return [said, f"a file whose name begins with - is named ./{word}"]
    own = options[command]
    if f"-{name}" in own:
        return [said, f"did you mean -{name}, with two dashes?"]
    theirs = {it: other for other, its in options.items() for it in its if it not in own}
    like = nearest(name, own, OTHER_OPTIONS, theirs)
    if like in own:
        return [said, f"did you mean {like}?"]
    if like in OTHER_OPTIONS:
        return [said, OTHER_OPTIONS[like]]
    return [said, f"`tagzirk {theirs[like]}` has {like}"] if like else [said]


def nearest(word: str, *known: Iterable[str]) -> str:
    """The word that is most like another, of several lists, the first of which goes before the others; or an empty one.

    >>> nearest("--sorce", ["--source"], ["--force"]), nearest("--x", ["--entries"])
    ('--source', '')
    """
    words = ((it, -at) for at, its in enumerate(known) for it in its)
    found = ((difflib.SequenceMatcher(None, word.lower(), it.lower()).ratio(), place, it) for it, place in words)
    ratio, _, like = max(found, default=(0.0, 0, ""))
    return like if ratio >= 0.7 else ""


def of_fault(message: str) -> List[str]:
    """What argparse says of words, with what is to be done.

    >>> of_fault("the following arguments are required: --to")[1][:8]
    '--to 3 a'
    >>> of_fault("argument --form: invalid choice: 'JSON' (choose from 'json', 'dot')")[1]
    'did you mean json?'
    """
    if ": not allowed with argument " in message:
        return [message, "each of them is a form of all that is printed: give one"]
    needless = re.search(r"argument (\S+): ignored explicit argument (.*)", message)
    if needless:
        return [f"{needless[1]} takes no value, and {needless[2]} stands behind it", OTHER_OPTIONS["--output"]]
    chosen = re.search(r"invalid choice: '(.*?)' \(choose from (.*)\)", message)
    if chosen:
        like = nearest(chosen[1], re.findall(r"[\w-]+", chosen[2]))
        tip = CHOICES.get(chosen[1].lower(), f"did you mean {like}?" if like else "")
        return [message, tip] if tip else [message]
    named = re.search(r"^argument (\S+): expected", message)
    missing = [named[1]] if named else message.partition("required: ")[2].split(", ")
    return [message, *(HOW[it] for it in missing if it in HOW)]


def of_files(places: Sequence[str], command: str) -> List[str]:
    """What is said of files that are not there."""
    missing = [it for it in places if it != "-" and not os.path.lexists(it)]
    if not missing:
        return []
    for begin in range(len(places)):
        for end in range(len(places), begin + 1, -1):
            name = " ".join(places[begin:end])
            if os.path.exists(name):
                return [f"a name with blanks is one word in quotes: '{name}'"]
    return [it for place in missing for it in of_missing(place, command)]


def of_missing(place: str, command: str) -> List[str]:
    """What is said of a file that is not there: names of others that are like it, or where output goes."""
    if "=" in place and os.path.exists(place.partition("=")[2]):
        return [f"a file is named alone: {place.partition('=')[2]}"]
    if "=" in place:
        return [f"FIELD=VALUE stands behind --up, and several values are one word: --up {place},VALUE"]
    if place.isdigit():
        return [f"{place} was taken for a file; a number stands behind its option, as --at-least {place}"]
    if place.endswith(OUTPUT_ENDINGS):
        return [f"{place} is not there; if it is to be written: tagzirk {command} .. > {place}"]
    if place in (">", "2>", "|"):
        return [f"{place} is a sign of the shell, and stands without quotes"]
    if place.startswith("@"):
        return [f"a dump is named without @: {place[1:]}"]
    if place.startswith(("http://", "https://")):
        return [f"addresses are not fetched: curl -s {place} | tagzirk {command}"]
    if "*" in place or "?" in place:
        return [f"no file has a name like {place}"]
    folder, name = os.path.split(place)
    if folder and not os.path.isdir(folder):
        return [f"there is no folder {folder}"]
    like = nearest(name, [it.name for it in pathlib.Path(folder or ".").iterdir()])
    return [f"did you mean {os.path.join(folder, like)}?"] if like else []
