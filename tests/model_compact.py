"""A model of the service Compact (02, L6), to be read beside the paper.

compact() gives the answer (code, text, place, other), and fills the table and
the buffer. Codes 1 to 8 and the rows are those of Read's model. The value of a
text is read here once more, by tokens, without the reader of that model.
"""

import re
from functools import lru_cache

import model

SHORT_BUFFER = 60

# "by the short forms where there is one"
SHORT_FORMS = {'"': '\\"', "\\": "\\\\", "\b": "\\b", "\f": "\\f", "\n": "\\n", "\r": "\\r", "\t": "\\t"}

# What an escape of one letter stands for.
LETTERS = {'"': '"', "\\": "\\", "/": "/", "b": "\b", "f": "\f", "n": "\n", "r": "\r", "t": "\t"}

# A structural character, a string, or a number or literal, behind space.
TOKEN = re.compile(r'[ \t\n\r]*([\[\]{},:]|"(?:[^"\\]|\\.)*"|[^ \t\n\r\[\]{},:"]+)')
ESCAPE = re.compile(r"\\(?:u(....)|(.))")


def compact(text, table, buffer):
    """Read's refusals come first, then that of a short buffer (60); a refusal
    leaves the buffer as found."""
    answer = model.read(text, table)
    if answer[0] != model.READ:
        return answer
    written = spelling(text)
    if len(written) > len(buffer):
        return (SHORT_BUFFER, 0, 0, len(written))
    buffer[:len(written)] = written
    return (model.READ, 0, 0, len(written))


@lru_cache(maxsize=8)
def spelling(text):
    """The bytes that are written for a well-formed text."""
    return spell(value_of(text)).encode()


# Reading: a value is a str for a string, a list for an array, a tuple of pairs
# for an object, and bytes for a literal or a number, "as spelled".

def value_of(text):
    tokens = TOKEN.findall(text.decode())
    tokens.reverse()
    return read_value(tokens)


def read_value(tokens):
    token = tokens.pop()
    if token == "[":
        return list(read_items(tokens, "]", read_value))
    if token == "{":
        return tuple(read_items(tokens, "}", read_member))
    if token[0] == '"':
        return characters(token)
    return token.encode()


def read_items(tokens, closing, read_item):
    """Items with commas between them, up to the closing token."""
    while tokens[-1] != closing:
        yield read_item(tokens)
        if tokens[-1] == ",":
            tokens.pop()
    tokens.pop()


def read_member(tokens):
    name = characters(tokens.pop())
    tokens.pop()
    return name, read_value(tokens)


def characters(token):
    """What stands between the quotes, without escapes; pairs of surrogates are joined."""
    units = ESCAPE.sub(unescape, token[1:-1])
    return units.encode("utf-16", "surrogatepass").decode("utf-16")


def unescape(escape):
    return chr(int(escape[1], 16)) if escape[1] else LETTERS[escape[2]]


# Writing.

def spell(value):
    """No space; "members in their order"."""
    if isinstance(value, bytes):
        return value.decode()
    if isinstance(value, str):
        return spell_string(value)
    if isinstance(value, list):
        return "[" + ",".join(map(spell, value)) + "]"
    return "{" + ",".join(spell_string(name) + ":" + spell(under) for name, under in value) + "}"


def spell_string(string):
    return '"' + "".join(map(spell_character, string)) + '"'


def spell_character(character):
    """Only `"`, `\\` and what is under 20 hex are escaped, "else `\\u00` with
    lower-case digits"."""
    if character in SHORT_FORMS:
        return SHORT_FORMS[character]
    return "\\u00%02x" % ord(character) if ord(character) < 0x20 else character
