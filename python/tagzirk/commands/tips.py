"""What may help where a command could not do what it was asked."""

from __future__ import annotations

import argparse
import os
from typing import List

from .. import slips
from ..proofs import strangers

# The commands that take several dumps.
OF_MANY = ("history", "diff")


def tips(words: argparse.Namespace, text: str) -> List[str]:
    """What may help, by the words and by what is told of the fault."""
    if not vars(words).get("are_files", True):
        return []
    return [*of_places(words, text), *of_text(words, text), *strangers()]


def of_places(words: argparse.Namespace, text: str) -> List[str]:
    """What may be wrong with the files that are named."""
    if not words.files:
        return [f"no FILE was named, so standard input was read: tagzirk {words.name} FILE"]
    missing = [it for it in words.files if it != "-" and not os.path.exists(it)]
    for option, given in ("--without", "without"), ("--group", "group"):
        named = vars(words).get(given) or []
        if missing and named:
            return [f"several hosts are one word, with commas between: {option} {','.join([*named, *missing])}"]
    if missing and words.columns and "," not in words.columns:
        return [f"the names of two columns are one word, with a comma between: --columns {words.columns},{missing[0]}"]
    found = slips.of_files(words.files, words.name)
    if found or missing or words.name in OF_MANY or text.startswith("--"):
        return found
    if len(words.files) > 1:
        racks = ", and `tagzirk each FILE --racks RACKS` takes a file of racks" if words.name == "each" else ""
        return [f"several files are one file a host; `tagzirk diff OLD NEW` compares two dumps{racks}"]
    if os.path.isdir(words.files[0]):
        return ["a folder is one file a host: of several dumps name one, or ask `tagzirk history` of all"]
    return []


def of_text(words: argparse.Namespace, text: str) -> List[str]:
    """What is to be done about some faults."""
    if words.files and "(refused 30)" in text:
        return [f"no name stands in {' '.join(words.files)}"]
    if "is not UTF-8" in text and words.files:
        return [f"iconv -f LATIN1 -t UTF-8 {words.files[0]} converts a text in that code"]
    return []
