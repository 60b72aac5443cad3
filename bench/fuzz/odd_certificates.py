#!/usr/bin/env python3
"""odd_certificates.py --overlay-check PROGRAM.. [--kept FOLDER] [KIND..]: holds real programs against tools/check.py on
deep, long, odd and cut certificate files, and prints a Markdown table.

Each text is made by the rules below from the worked certificates of docs/FORMATS.md, always the same, and judged by
tools/check.py and by each PROGRAM, an executable of overlay-check: the printed line with its number, and the status,
must be the same. A text on which they differ is named, and copied to FOLDER. The table has for each kind how many texts
there were, and what was answered. The status is 1 if one differs. Without KIND all kinds are judged; it takes some five
minutes of a processor for each PROGRAM.
"""

import argparse
import collections
import hashlib
import pathlib
import sys

EXAMPLES = pathlib.Path(__file__).resolve().parent.parent.parent / "examples"
LINKED = b'{"k":1,"links":[[1,2]],"moment":6,"nodes":[1,2],"verdict":"linked","version":1}'
SQUARE = (b'{"cut":[2,4],"fans":[{"j":3,"paths":[[3,2],[3,4,1]]}],"far":3,"group":[1,2,3],"k":2,'
          b'"links":[[1,2],[1,4],[2,3],[3,4]],"moment":0,"near":1,"nodes":[1,2,3,4],"pairs":[],"side":[1],'
          b'"verdict":"split","version":2}')
FIVE = (b'{"cut":[3,4,5],"fans":[{"j":4,"paths":[[4,1],[4,2],[4,3]]},{"j":5,"paths":[[5,1],[5,2],[5,3]]}],"far":2,'
        b'"k":3,"links":[[1,3],[1,4],[1,5],[2,3],[2,4],[2,5],[3,4],[3,5],[4,5]],"moment":0,"near":1,'
        b'"nodes":[1,2,3,4,5],"pairs":[{"i":1,"j":2,"paths":[[1,3,2],[1,4,2],[1,5,2]]}],"side":[1],"verdict":"split",'
        b'"version":1}')
WORKED = (LINKED, SQUARE, FIVE)
DEEP = (1, 2, 63, 64, 123, 124, 125, 126, 127, 128, 129, 130, 255, 256, 1000, 10_000, 100_000, 1_000_000)
DIGITS = (1, 5, 9, 10, 11, 19, 20, 21, 38, 39, 40, 255, 256, 307, 308, 309, 310, 1000, 4300, 4301, 10_000, 1_000_000)
COUNTS = (1, 10, 1000, 100_000)
NUMBERS = (b"0", b"-0", b"-1", b"00", b"01", b"+1", b"1.0", b"1.5", b"0.0", b"-0.0", b"1.", b".1", b"1e0", b"1E0",
           b"1e+0", b"1e-0", b"1e", b"1e+", b"1e400", b"-1e400", b"1e-400", b"1e308", b"1.7976931348623157e308",
           b"1.7976931348623159e308", b"1e309", b"0e400", b"0e99999999999999999999", b"1e99999999999999999999",
           b"1e-99999999999999999999", b"--1", b"1-", b"0x1", b"1_0", b"4294967295", b"4294967296",
           b"9223372036854775808", b"18446744073709551615", b"18446744073709551616", b"65536", b"65537", b"256", b"257",
           b"1024", b"1025", b"NaN", b"Infinity", b"-Infinity", b"-", b"1f", b"1L", b"\xd9\xa1", b"\xef\xbc\x91")
WORDS = (b"null", b"true", b"false", b"nul", b"True", b"NULL", b"none", b"undefined", b"''", b"'a'", b"[]", b"{}",
         b"[[]]", b"[{}]", b'{"":0}', b'""', b'"linked"', b'"split"', b'"1"', b"[1,]", b"[,1]", b"[1 2]", b'{"a":1,}',
         b'{"a"}', b'{"a":}', b"{a:1}", b"{1:1}", b"(1)", b"[1", b"1]", b"{", b"}", b",", b":", b"// c", b"/* c */",
         b"#", b"")
STRINGS = (b"\\n", b"\\\"", b"\\\\", b"\\/", b"\\b\\f\\r\\t", b"\\u0041", b"\\u0000", b"\\uFFFF", b"\\ud83d\\ude00",
           b"\\uD83D\\uDE00", b"\\ud83d", b"\\ude00", b"\\ude00\\ud83d", b"\\ud83d\\ud83d", b"\\ud83dx", b"\\ud83d\\n",
           b"\\ud83d\\u0041", b"\\u12", b"\\u", b"\\u12g4", b"\\U0041", b"\\x41", b"\\'", b"\\0", b"\\a", b"\\v", b"\\",
           b"\t", b"\n", b"\r", b"\0", b"\x1f", b"\x7f", b"\xc2\x80", b"\xe2\x80\xa8", b"\xef\xbb\xbf", b"\xef\xbf\xbf",
           b"\xf0\x9f\x98\x80", b"\xf4\x8f\xbf\xbf", b"\xf4\x90\x80\x80", b"\xed\xa0\x80", b"\xc0\x80", b"\xe0\x80\x80",
           b"\xf0\x80\x80\x80", b"\x80", b"\xc3", b"\xe2\x82", b"\xf0\x9f\x98", b"\xff", b"\xfe", b"caf\xe9")
SPACES = (b" ", b"\t", b"\n", b"\r", b"\r\n", b"\x0b", b"\x0c", b"\xc2\x85", b"\xc2\xa0", b"\xe2\x80\xa8",
          b"\xef\xbb\xbf", b"\0", b"\x1a", b"\x08")
ENCODINGS = ("utf-16", "utf-16-le", "utf-16-be", "utf-32", "utf-32-le", "utf-32-be", "utf-7", "utf-8-sig", "cp037")


def values(text):
    """Where each value of a text is that is JSON without white space: the place before it, and behind it."""
    open_ones, at, found = [], 0, []
    while at < len(text):
        byte = text[at:at + 1]
        if byte in b"[{":
            open_ones.append(at)
        elif byte in b"]}":
            found.append((open_ones.pop(), at + 1))
        elif byte not in b",:":
            behind = b'"' if byte == b'"' else b",]}"
            end = next(place for place in range(at + 1, len(text)) if text[place] in behind) + (byte == b'"')
            if text[end:end + 1] != b":":
                found.append((at, end))
            at = end
            continue
        at += 1
    return sorted(found)


def keys(text):
    """Where each key of such a text is, its quotes too, and where the value behind it ends."""
    for at, end in values(text):
        if text[at - 1:at] == b":":
            yield text.rindex(b'"', 0, text.rindex(b'"', 0, at)), at - 1, end


def in_place(text, at, end, more):
    return text[:at] + more + text[end:]


def nested(count, opening, inner, closing):
    return opening * count + inner + closing * count


def nests(count):
    """Lists and objects nested so deep."""
    yield nested(count, b"[", b"", b"]")
    yield nested(count, b'{"a":', b"1", b"}")
    yield nested(count // 2, b'[{"k":', b"[]" if count % 2 else b"1", b"}]")
    yield nested(count, b"[1,", b"2", b",3]")


def deep():
    """Texts that are nested just as deep as may be, a little deeper, and much deeper."""
    for count in DEEP:
        for value in nests(count):
            yield value
            yield value[:len(value) // 2]
            yield b'{"a":' + value + b"," + SQUARE[1:]
            yield SQUARE[:-1] + b',"fans":' + value + b"}"
        yield b"[" * count + b"}" * count
        yield b"]" * count
    for text in WORKED:
        for at, end in values(text):
            around = text[:at].count(b"[") + text[:at].count(b"{") - text[:at].count(b"]") - text[:at].count(b"}")
            for count in (126, 127, 128, 129):
                # so that the deepest is so deep
                for value in nests(count - around):
                    yield in_place(text, at, end, value)
        for at, colon, end in keys(text):
            # one that a right value behind it makes up for
            for value in (it for count in (120, 126, 127, 128) for it in nests(count)):
                yield in_place(text, at, at, text[at:colon + 1] + value + b",")


def long():
    """Texts with long numbers, long strings and names, much white space, many members, and many values."""
    for text in (LINKED, SQUARE):
        for at, end in values(text):
            for count in DIGITS if at in (values(text)[1][0], values(text)[-1][0]) else DIGITS[:-3]:
                nines = b"9" * count
                zeros = b"0" * count
                for value in (nines, b"-" + nines, b"0." + nines, nines + b".0", b"1e" + nines, b"0e" + nines,
                              b"1e-" + nines, b"0." + zeros + b"1", b"1" + zeros + b"e-%d" % count, zeros):
                    yield in_place(text, at, end, value)
                # a long number that a right value behind it makes up for
                if text[at - 1:at] == b":":
                    key = text[text.rindex(b'"', 0, at - 2):at]
                    yield in_place(text, at, at, nines + b"," + key)
            for count in COUNTS:
                for part in (b"a", b"\\n", b"\\u0061", b"\\ud83d\\ude00", b"\xf0\x9f\x98\x80", b"\\ud83d"):
                    yield in_place(text, at, end, b'"' + part * count + b'"')
        for at, colon, end in keys(text):
            for count in COUNTS:
                yield in_place(text, at, at, b'"' + b"\\u0061" * count + b'":0,')
                yield in_place(text, at, at, (text[at:end] + b",") * count)
        for count in COUNTS + (10_000_000,):
            for space in (b" ", b"\n", b"\r\n\t "):
                yield space * count + text
                yield text + space * count
                yield text.replace(b":", b":" + space * (count // 10))
            yield text + b"\0" * count
    for count in COUNTS:
        ids = b",".join(b"%d" % it for it in range(1, count + 1))
        yield LINKED.replace(b'"nodes":[1,2]', b'"nodes":[' + ids + b"]")
        yield LINKED.replace(b"[[1,2]]", b"[" + b",".join([b"[1,2]"] * count) + b"]")
        yield SQUARE.replace(b'"pairs":[]', b'"pairs":[' + b",".join([b'{"i":1,"j":2,"paths":[]}'] * count) + b"]")
        yield SQUARE.replace(b"[3,2]", b"[3," + ids + b"]")
        yield SQUARE.replace(b"[3,2]", b"[3,2]," + b",".join([b"[]"] * count))
        yield b"[" + ids + b"]"
        yield b"{" + b",".join(b'"%d":[]' % it for it in range(count)) + b"}"
    yield (EXAMPLES / "ring-200.json").read_bytes()


def odd():
    """Texts with one thing in them that is odd: a number, a word, a string, a space, a key, an encoding, a byte."""
    for text in WORKED:
        for at, end in values(text):
            for value in (*NUMBERS, *WORDS, *(b'"' + it + b'"' for it in STRINGS)):
                yield in_place(text, at, end, value)
                if text[at - 1:at] == b":":
                    # one that a right value behind it makes up for
                    yield in_place(text, at, end, value + b"," + text[text.rindex(b'"', 0, at - 2):end])
            for space in SPACES:
                yield in_place(text, at, at, space)
                yield in_place(text, end, end, space)
        yield from odd_keys(text)
        for encoding in ENCODINGS:
            yield text.decode().encode(encoding)
        for more in (*SPACES, *WORDS, b"1", b"\xff", text, b"\n" + text, b"\xef\xbb\xbf\xef\xbb\xbf"):
            yield text + more
            yield more + text
    yield from (*NUMBERS, *WORDS, *SPACES, *(b'"' + it + b'"' for it in STRINGS))


def odd_keys(text):
    """A text whose keys stand twice, are missing, are others, or have escapes."""
    every = list(keys(text))
    for at, colon, end in every:
        member, name = text[at:end], text[at + 1:colon - 1]
        behind = text[end:end + 1] == b","
        yield in_place(text, at, end + 1, b"") if behind else in_place(text, at - (text[at - 1:at] == b","), end, b"")
        for value in (b"null", b"0", b"[]", b'{"a":1}', b'"split"', text[colon + 1:end], b"1e400", b'"\\ud800"'):
            yield in_place(text, at, at, text[at:colon + 1] + value + b",")
            yield in_place(text, end, end, b"," + text[at:colon + 1] + value)
            yield in_place(text, at, at, text[at:colon + 1] + value + b"," + member + b",")
        for place, letter in enumerate(name):
            for form in (b"\\u%04x", b"\\u%04X", b"\\U%04x", b"\\x%02x"):
                yield in_place(text, at + 1 + place, at + 2 + place, form % letter)
            yield in_place(text, at + 1 + place, at + 2 + place, b"%c" % (letter ^ 32))
        escaped = b"".join(b"\\u%04x" % letter for letter in name)
        yield in_place(text, at, colon, b'"' + escaped + b'"')
        yield in_place(text, at, at, b'"' + escaped + b'":0,')
        yield in_place(text, end, end, b',"' + escaped + b'":0')
        for other in (b"", b" ", name + b" ", b" " + name, name + b"\\u0000", name[:-1], name + b"x", b"\xc3\xa9",
                      *STRINGS, b"group", b"i", b"j"):
            yield in_place(text, at, colon, b'"' + other + b'"')
            yield in_place(text, at, at, b'"' + other + b'":0,')
        for other, _, _ in every:
            # two members change places, one goes into another object, or gets the key of another
            yield in_place(text, other, other, member + b",")
            if other != at:
                yield in_place(text, at, colon, text[other:text.index(b":", other)])


def cut():
    """Beginnings and ends of certificates, and these with a byte left out, twice, turned round, or another."""
    files = [*WORKED, (EXAMPLES / "two-sixes.json").read_bytes(), (EXAMPLES / "ring-24-fewer.json").read_bytes()]
    for text in files:
        for at in range(len(text)):
            yield text[:at]
            yield text[at:]
            yield in_place(text, at, at + 1, b"")
            yield in_place(text, at, at + 1, text[at:at + 1] * 2)
    for text in WORKED:
        for at in range(len(text)):
            yield text[:at] + text[at:][::-1]
            for other in b"\0\xff\x80 \n\"\\,:[]{}0-.eEx9":
                yield in_place(text, at, at + 1, b"%c" % other)


KINDS = {"deep": deep, "long": long, "odd": odd, "cut": cut}


def texts(kind):
    """The texts of a kind, each once."""
    known = set()
    for text in KINDS[kind]():
        name = hashlib.sha256(text).digest()
        if name not in known:
            known.add(name)
            yield text


def answered(lines):
    """Of a line that is printed, what is counted."""
    words = lines[0].split()
    return words[0] if words[0] == "holds" else " ".join(words[:2])


def judged(kind, programs, folder):
    """The cells of a kind, and how many texts differ."""
    from targets import certificate_cases
    answers, size, largest, differing = collections.Counter(), 0, 0, 0
    for text in texts(kind):
        (case,) = certificate_cases(text)
        answers[answered(case.answer.lines)] += 1
        size, largest = size + len(text), max(largest, len(text))
        for program in programs:
            why = case.unlike({"overlay_check": program})
            if why:
                differing += 1
                folder.mkdir(parents=True, exist_ok=True)
                path = folder / f"{kind}-{hashlib.sha256(text).hexdigest()[:16]}"
                path.write_bytes(text)
                print(f"{program} {path}: {why}", file=sys.stderr, flush=True)
    told = ", ".join(f"`{answer}` {count:,}" for answer, count in sorted(answers.items()))
    return [kind, f"{answers.total():,}", f"{size:,}", f"{largest:,}", told, str(differing)], differing


def main():
    parser = argparse.ArgumentParser(description="Holds overlay-check against tools/check.py on odd certificate files.")
    parser.add_argument("--overlay-check", nargs="+", required=True, type=pathlib.Path, metavar="PROGRAM")
    parser.add_argument("--kept", type=pathlib.Path, default=pathlib.Path("found"), metavar="FOLDER")
    parser.add_argument("kinds", choices=[[], *KINDS], nargs="*", metavar="KIND")
    given = parser.parse_args()
    programs = [str(program.resolve()) for program in given.overlay_check]
    for cells in ["texts", "number", "bytes", "of the largest", "answers", "different"], ["---"] * 6:
        print("|", " | ".join(cells), "|")
    found = 0
    for kind in given.kinds or KINDS:
        cells, differing = judged(kind, programs, given.kept)
        print("|", " | ".join(cells), "|", flush=True)
        found += differing
    return 1 if found else 0


if __name__ == "__main__":
    try:
        sys.exit(main())
    except OSError as why:
        sys.exit(f"odd_certificates.py: {why}")
