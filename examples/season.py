#!/usr/bin/env python3
"""Checks a season file against a schema and says where it is wrong.

    season.py SEASON SCHEMA [LIBRARY]

LIBRARY is the shared library, target/lib/libteleport.so.2 unless given.
Ends with 0 where the file meets the schema, 1 where it does not, 2 where a file or the library cannot be opened.
"""

import ctypes
import pathlib
import sys

LIBRARY = pathlib.Path(__file__).resolve().parent.parent / "target" / "lib" / "libteleport.so.2"
TABLE_WORDS = 6 * 65536  # a text has at most as many rows as bytes

MEANINGS = {
    1: "the text is too long",
    2: "the text ends early",
    3: "this byte is not allowed here",
    4: "this string is not UTF-8",
    5: "this surrogate escape has no partner",
    6: "this name stands twice in its object",
    7: "this bracket is nested too deep",
    8: "the table has too little room",
    10: "this is no type definition",
    11: "there is no type of this name",
    12: "this name is both required and optional",
    20: "this is the wrong kind of value",
    21: "this object lacks a required name",
    22: "this string is no date",
}


def check(library, document, schema):
    """The four numbers of Check: code, text, place, other."""
    tables = [(ctypes.c_uint32 * TABLE_WORDS)() for _ in range(2)]
    answer = (ctypes.c_uint32 * 4)()
    arguments = []
    for text in (document, schema):
        arguments += [ctypes.c_char_p(text), ctypes.c_size_t(len(text))]
    for table in tables:
        arguments += [table, ctypes.c_size_t(TABLE_WORDS)]
    library.teleport_check(*arguments, answer)
    return tuple(answer)


def position(name, text, place):
    """A byte's line and column, both from 1, as editors count them."""
    before = text[:place]
    line = before.count(b"\n") + 1
    column = len(before[before.rfind(b"\n") + 1:].decode("utf-8", "replace")) + 1
    return f"{name}:{line}:{column}"


def report(answer, names, texts):
    """What to mend, in one or two lines."""
    code, text, place, other = answer
    lines = [f"{position(names[text - 1], texts[text - 1], place)}: {MEANINGS[code]}"]
    if code >= 20:
        lines.append(f"{position(names[1], texts[1], other)}: by this part of the schema")
    return lines


def main(arguments):
    if len(arguments) not in (2, 3):
        print(__doc__.strip(), file=sys.stderr)
        return 2
    names = arguments[:2]
    try:
        library = ctypes.CDLL(str(arguments[2] if len(arguments) == 3 else LIBRARY))
        texts = [pathlib.Path(name).read_bytes() for name in names]
    except OSError as problem:
        print(problem, file=sys.stderr)
        return 2
    answer = check(library, *texts)
    if answer[0] == 0:
        print(f"{names[0]}: meets {names[1]}")
        return 0
    print("\n".join(report(answer, names, texts)))
    return 1


if __name__ == "__main__":
    sys.exit(main(sys.argv[1:]))
