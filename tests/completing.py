"""Completes the beginning of a well-formed text.

complete(beginning) gives a well-formed text that begins with those bytes and
opens no further bracket, if the bytes begin some well-formed text; otherwise
some text that is not well-formed.
"""

import re

SPACES = b" \t\n\r"
NUMBER = re.compile(rb"-?(0|[1-9][0-9]*)(\.[0-9]+)?([eE][+-]?[0-9]+)?")
HEX = re.compile(rb"[0-9A-Fa-f]*")
NUMBER_BYTES = b"0123456789+-.eE"
WORDS = {b"n": b"null", b"f": b"false", b"t": b"true"}
PARTNER = b"\\uDC00"


def complete(beginning):
    closing, missing = walk(beginning)
    return beginning + missing + closing[::-1]


def walk(text):
    """The closing brackets that are missing, outermost first, and what the
    token or member that is broken off lacks."""
    closing = b""
    state = "value"
    at = 0
    while at < len(text):
        byte = text[at:at + 1]
        if byte in SPACES or byte == b":":
            state = "value" if byte == b":" else state
            at += 1
        elif byte == b",":
            state = "name" if closing.endswith(b"}") else "value"
            at += 1
        elif byte in b"[{":
            closing += b"]" if byte == b"[" else b"}"
            state = "value" if byte == b"[" else "name"
            at += 1
        elif byte in b"]}":
            closing = closing[:-1]
            state = "behind"
            at += 1
        else:
            end, missing = token(text, at, state == "name")
            if missing is not None:
                return closing, missing
            state = "colon" if state == "name" else "behind"
            at = end
    lacks = {"value": b"null", "name": b'"' + new_name(text) + b'":null', "colon": b":null", "behind": b""}
    return closing, lacks[state]


def new_name(text):
    """Letters that are longer than all names of the text."""
    return b"a" * (len(text) + 1)


def token(text, at, is_name):
    """The end of the token at a place, or what it lacks."""
    first = text[at:at + 1]
    if first == b'"':
        end, lacks = characters(text, at + 1)
        if lacks is None:
            return end, None
        return end, lacks + (new_name(text) + b'":null' if is_name else b'"')
    if first in WORDS:
        word = WORDS[first]
        there = len(text) - at
        return at + len(word), None if len(word) <= there else word[there:]
    end = at
    while end < len(text) and text[end] in NUMBER_BYTES:
        end += 1
    if at < end < len(text) or NUMBER.fullmatch(text, at):
        return end, None
    return end, b"0"


def characters(text, at):
    """The place behind the closing quote, or what the character that is broken
    off lacks (nothing where none is)."""
    while at < len(text):
        if text[at] == 0x22:
            return at + 1, None
        if text[at] == 0x5C:
            length, lacks = escape(text[at:at + 12])
        else:
            length, lacks = plain(text[at:at + 4])
        if lacks:
            return at, lacks
        at += length
    return at, b""


def escape(piece):
    """The length of the escape that begins the piece, and what it lacks."""
    if len(piece) == 1:
        return 2, b"n"
    if piece[1:2] != b"u":
        return 2, b""
    digits = piece[2:6]
    zeros = b"0" * (4 - len(digits))
    if not HEX.fullmatch(digits):
        return 6, b"?"  # no escape: nothing completes it
    if not 0xD800 <= int(digits + zeros, 16) <= 0xDBFF:
        return 6, zeros
    return 12, zeros + PARTNER if zeros else PARTNER[len(piece) - 6:]


def plain(piece):
    """The length of the UTF-8 character that begins the piece, and what it
    lacks: its least further bytes."""
    lead = piece[0]
    length = 1 if lead < 0x80 else 2 if lead < 0xE0 else 3 if lead < 0xF0 else 4
    least = bytes([lead, {0xE0: 0xA0, 0xF0: 0x90}.get(lead, 0x80), 0x80, 0x80])
    return length, least[len(piece):length]
