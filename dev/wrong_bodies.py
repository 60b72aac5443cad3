"""Wrong bodies: what an edit makes of the files of a crate, which functions it changes, and what a check says of it.

An edit is a file of lines `file: PATH`, `old: TEXT` and `new: TEXT`; each TEXT of `old:` stands in that file once.
"""

import os
import pathlib
import re

GOAL = re.compile(r"note: (\S+?):\d+:\d+: .*\(`([^`]+)`\)")
ERROR = re.compile(r"(?:note: )?(?:\./)?((?:src|specs|proofs)/\S+?):\d+:\d+: error: (.*)")
GONE = re.compile(r"has no field|is not in scope|has no `|was not admitted")
# The last line of a check of functions: how many there were, and how many are proved.
FEW = re.compile(r"only=(\d+) proved=(\d+)$")
# As `rt fmt` lays them out: the first line of a function, and of a block that functions stand in.
FUNCTION = re.compile(r"( *)(?:pub(?:\([^)]*\))? )?(?:(?:const|unsafe) )*fn (\w+)")
BLOCK = re.compile(r"(?:unsafe )?impl\b.*\{$|(?:pub(?:\([^)]*\))? )?trait\b.*\{$")
# A text that can't be read: an error that names no declaration, or a word that is not there.
UNREAD = re.compile(r"is not in scope|has no field|is no name|operand is missing|expected the end|cannot continue")
GOAL_LEFT, PROOF, NAME, TEST, THROUGH, NONE = KINDS = (
    "by a goal", "by a proof", "by a name", "by a test", "let through", "no edit")


class NoEdit(Exception):
    """Why the text of an edit can't be applied."""


def changed(edit, crate, others=()):
    """The texts of the files that an edit changes, by path: those of a crate, or the others that are given by path."""
    path, old, texts = None, None, {}
    for line in edit.read_text().split("\n"):
        if line.startswith("file: "):
            path = line.removeprefix("file: ").strip()
        elif line.startswith("old: "):
            old = line.removeprefix("old: ")
        elif line.startswith("new:"):
            if path is None or old is None:
                raise NoEdit("a 'new:' comes before its 'file:' or 'old:'")
            if path not in texts:
                if not path.startswith(("src/", "specs/", "proofs/")) or os.path.normpath(path) != path:
                    raise NoEdit(f"{path} is no file of src/, specs/ or proofs/")
                if not (crate / path).is_file():
                    raise NoEdit(f"there is no {path}")
                texts[path] = others[path] if path in others else (crate / path).read_text()
            if texts[path].count(old) != 1:
                raise NoEdit(f"an 'old:' occurs {texts[path].count(old)} times in {path}, and not once")
            texts[path] = texts[path].replace(old, line.removeprefix("new:").removeprefix(" "))
            old = None
    if not texts:
        raise NoEdit("it has no 'old:' and 'new:'")
    return texts


def functions_in(path, text):
    """The functions of a source file: of each its first line, its last one, and the name by which `rt check --only`
    takes it. That is TYPE::METHOD, or MODULE::FUNCTION, and of a method of a trait the module alone."""
    module = "" if path in ("src/lib.rt", "src/main.rt") else pathlib.Path(path).stem
    block, found, lines = None, [], text.split("\n")
    for first, line in enumerate(lines):
        head = FUNCTION.match(line)
        if head and (end := f"{head[1]}}}") in lines[first:]:
            within = own_type(block) if block else module
            name = module if within is None else f"{within}::{head[2]}" if within else head[2]
            found.append((first, lines.index(end, first), name))
        elif line == "}":
            block = None
        elif BLOCK.match(line):
            block = line
    return found


def own_type(block):
    """The name of the type that a block gives methods of its own, by the block's first line, or None."""
    head, bare = None, block.replace("->", "")
    while head != bare:
        head, bare = bare, re.sub(r"<[^<>]*>", "", bare)
    found = re.match(r"(?:unsafe )?impl (\w+) \{", head)
    return found and found[1]


def functions_changed(texts, crate):
    """The functions that an edit changes, as `rt check --only` takes them: those in which a line of its texts is
    another. None of them says anything of the rest of what it changes."""
    names = set()
    for path, text in texts.items():
        kept = (crate / path).read_text()
        if path.startswith("src/"):
            pairs = enumerate(zip(kept.split("\n"), text.split("\n")))
            lines, functions = [at for at, (old, new) in pairs if old != new], functions_in(path, kept)
            # of those that begin above a line the nearest
            inside = [[it for it in functions if it[0] <= at <= it[1]][-1:] for at in lines]
            names |= {name for near in inside for _, _, name in near if name}
    return names


def is_unread(error, texts):
    """Whether the check could not read a text of src/ or specs/, or one that the edit changed."""
    path, said = error[1], error[2]
    if path not in texts and not path.startswith(("src/", "specs/")):
        return False
    return not re.match(r"`[^`]*`: ", said) or bool(UNREAD.search(re.sub(r"`[^`]*`", "", said)))


def is_refused(status, lines):
    """Whether a check says that the crate, or one of the functions that it was to check, is not proved."""
    if any(line.startswith("logic=not-proved") for line in lines):
        return True
    return status == 1 and any(int(it[2]) < int(it[1]) for it in map(FEW.match, lines) if it)


def judged(status, lines, texts):
    """What came of a try, and why."""
    if status == 0:
        return THROUGH, "the crate is still proved"
    errors = [it for it in map(ERROR.match, lines) if it]
    unread = [it for it in errors if is_unread(it, texts)]
    if unread or not is_refused(status, lines):
        said = [it[0] for it in unread] or [line for line in lines if re.search(r"\berror\b", line)] or lines[-1:]
        return NONE, f"it does not reach the prover: {''.join(said[:1])[:120]}"
    goals = [f"{it[1]} {it[2]}" for it in map(GOAL.match, lines) if it]
    if goals:
        return GOAL_LEFT, "; ".join(goals[:2]) + (f"; and {len(goals) - 2} more" if len(goals) > 2 else "")
    whole = [it for it in errors if not (it[1].startswith("proofs/") and GONE.search(it[2]))]
    first = (whole or errors or [None])[0]
    return (PROOF if whole or not errors else NAME), f"{first[1]}: {first[2][:100]}" if first else "not proved"
