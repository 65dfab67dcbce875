"""A model of what `teleport-tools explain` prints, to be read beside its page of the manual.

explained() gives the lines for a document and a schema: the four numbers of Check, and with 20 to 22
the path as a JSON Pointer (RFC 6901), then for each text the line of a place and a mark under it.
"""

import re

import model
from model_check import NAME_MISSING, NO_DATE, WRONG_KIND, check
from model_path import MISFITS, chain, inside

SHOWN = 60      # bytes of a line that are shown before the place, and from it on
CUT = b"..."

DOCUMENT_WORDS = {WRONG_KIND: "this value is of the wrong kind", NAME_MISSING: "this object lacks a required name",
                  NO_DATE: "this string is no date"}
SCHEMA_WORDS = {WRONG_KIND: "the definition", NAME_MISSING: "the required name", NO_DATE: "the definition"}

LINE_END = re.compile(rb"\r\n|\r|\n")


def explained(document, schema):
    """The lines, without the newline behind the last."""
    code, text, place, other = check(document, schema, *[[0] * (model.ROW_WORDS * len(text)) for text in (document, schema)])
    lines = ["%d %d %d %d" % (code, text, place, other)]
    if code in MISFITS:
        lines += [pointer(model.tree(document), place), *marked(document, place, "document", DOCUMENT_WORDS[code]),
                  *marked(schema, other, "schema", SCHEMA_WORDS[code])]
    return "\n".join(lines)


def pointer(top, place):
    """From the top to the value that begins at a place; of the top itself it is empty."""
    values = chain(top, place)
    return "".join("/" + step(around, value) for around, value in zip(values, values[1:]))


def step(around, value):
    """An element's index, or a member's name with ~ and / spelled anew."""
    if around.kind == model.ARRAY:
        return str(next(number for number, element in enumerate(inside(around)) if element is value))
    name = next(member.name for member in around.content if member.value is value)
    return name.replace("~", "~0").replace("/", "~1")


def marked(text, place, name, words):
    """The line of a place, and one with a mark under it."""
    ends = [0] + [found.end() for found in LINE_END.finditer(text)]
    number = sum(end <= place for end in ends)
    line = LINE_END.split(text)[number - 1]
    before, behind = line[:place - ends[number - 1]], line[place - ends[number - 1]:]
    first, last = cut(before[::-1], begins_inside)[::-1], cut(behind, ends_inside)
    shown = (CUT if first != before else b"") + first + last + (CUT if last != behind else b"")
    under = re.sub(r"[^\t]", " ", ("..." if first != before else "") + first.decode())
    return [shown.decode(), "%s^ %s, line %d: %s" % (under, name, number, words)]


def cut(piece, inside_character):
    """At most so many bytes from the place, and fewer where the last character would not be whole."""
    kept = piece[:SHOWN]
    while inside_character(piece, len(kept)):
        kept = kept[:-1]
    return kept


def follows(byte):
    """A byte that is no character of its own, but goes on with one."""
    return 0x80 <= byte <= 0xBF


def begins_inside(backwards, count):
    """Whether what is kept of a piece, read from its end, begins inside a character."""
    return 0 < count and follows(backwards[count - 1])


def ends_inside(piece, count):
    return count < len(piece) and follows(piece[count])
