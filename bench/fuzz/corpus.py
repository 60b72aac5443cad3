"""The kept corpus: one file of JSON lines for each target, an input with what is printed for it on each line.

The first line of a file is its head: the program, and the words by which it is run. Each other line has the input as
"text", or as "base64" if it is no text; "words" if it is run by others than the head's; the lines of standard output in
"out"; and "status" and "error", the first line of standard error, if they are not 0 and none. A certificate in "out" is
an object without its paths, which may differ. In arguments.jsonl an input has the words, one a line, and standard input
is empty.
"""

import base64
import json
import pathlib

FOLDER = pathlib.Path(__file__).resolve().parent / "corpus"
HEADS = {
    "certificate": {"program": "overlay-check", "words": []},
    "scenario": {"program": "overlay", "words": ["run", "--explain"]},
    "graph": {"program": "overlay", "words": ["analyse"]},
    "arguments": {"program": "overlay"},
}
PATHS = ("pairs", "fans")


def path_of(target):
    return FOLDER / f"{target}.jsonl"


def written(data):
    """How an input is written in a row."""
    try:
        text = data.decode()
        return {"text": text}
    except UnicodeDecodeError:
        return {"base64": base64.b64encode(data).decode()}


def input_of(row):
    """The bytes of an input."""
    return row["text"].encode() if "text" in row else base64.b64decode(row["base64"])


def line_of(line):
    """A line of standard output as a row has it."""
    if not line.startswith("{"):
        return line
    return {key: value for key, value in json.loads(line).items() if key not in PATHS}


def row_of(target, data, words, answer):
    """The row of an input, for which an independent reader gives this answer."""
    row = written(data)
    if "words" in HEADS[target]:
        words = [word if isinstance(word, str) else word.decode() for word in words]
        if words != HEADS[target]["words"]:
            row["words"] = words
    row["out"] = [line_of(str(line)) for line in answer.lines]
    if answer.status:
        row["status"] = answer.status
    if answer.fault:
        row["error"] = answer.fault
    return row


def rows(target):
    """The rows of a target's file, without its head."""
    path = path_of(target)
    if not path.exists():
        return []
    return [json.loads(line) for line in path.read_text().split("\n")[1:-1]]


def write(target, found):
    """Writes a target's file."""
    FOLDER.mkdir(exist_ok=True)
    lines = [HEADS[target], *found]
    path_of(target).write_text("".join(json.dumps(it, separators=(",", ":")) + "\n" for it in lines))
