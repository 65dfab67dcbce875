"""A model of the service Read, to be read beside the paper.

read() gives the answer (code, text, place, other) and fills the table.
tree() gives the values of a well-formed text with their places, value() the
JSON value that it spells.
"""

from collections import namedtuple
from functools import lru_cache

# Limits of a document; those of a schema are 16384 bytes and 24 brackets.
DOCUMENT_LIMIT, DOCUMENT_DEPTH = 65536, 32
SCHEMA_LIMIT, SCHEMA_DEPTH = 16384, 24

ROW_WORDS = 6

# Kinds of rows.
NULL, FALSE, TRUE, INTEGER, OTHER_NUMBER, STRING, ARRAY, OBJECT, NAME = range(1, 10)

# Codes of Read.
READ, TOO_LONG, ENDED, NOT_ALLOWED, NOT_UTF8, NO_PARTNER, NAME_TWICE, TOO_DEEP, NO_ROOM = range(9)

SPACE = b" \t\n\r"
DIGITS = b"0123456789"
HEX_DIGITS = b"0123456789abcdefABCDEF"
LOW_SECOND_DIGITS = b"cdefCDEF"  # second hex digit of DC00 to DFFF
SHORT_ESCAPES = {
    ord('"'): 0x22, ord("\\"): 0x5C, ord("/"): 0x2F, ord("b"): 0x08,
    ord("f"): 0x0C, ord("n"): 0x0A, ord("r"): 0x0D, ord("t"): 0x09,
}


# A value with its first byte, a member with the opening quote of its name.
# Content: None, the spelling of a number, the characters of a string, the
# elements of an array, the members of an object.
Node = namedtuple("Node", "kind place content")
Member = namedtuple("Member", "name place value")


class Refusal(Exception):
    """The first offence from left to right: codes 2 to 7 and the place."""

    def __init__(self, code, place):
        super().__init__(code, place)
        self.code = code
        self.place = place


def read(text, table, limit=DOCUMENT_LIMIT, depth=DOCUMENT_DEPTH, which=1):
    """Order: length (1), then the first offence (2 to 7), then room (8)."""
    if len(text) > limit:
        return (TOO_LONG, which, limit, 0)
    offence, rows, _ = read_whole(text, depth)
    if offence:
        code, place = offence
        return (code, which, place, 0)
    if len(rows) > len(table) // ROW_WORDS:
        return (NO_ROOM, which, 0, len(rows))
    write_rows(rows, table)
    return (READ, 0, 0, len(rows))


@lru_cache(maxsize=8)
def read_whole(text, depth):
    """The first offence or None, the rows and the tree, whatever the table."""
    try:
        rows, found = Reader(text, depth).read_text()
    except Refusal as refusal:
        return ((refusal.code, refusal.place), None, None)
    return None, [row + [around] for row, around in zip(rows, rows_around(found))], found


def rows_around(top):
    """The sixth words, in the order of the rows: the row of the array or object that a value stands in,
    for a name and the value under it that of their object; the top has 0."""
    found = []

    def visit(node, around):
        own = len(found)
        found.append(around)
        if node.kind == ARRAY:
            for element in node.content:
                visit(element, own)
        elif node.kind == OBJECT:
            for member in node.content:
                found.append(own)
                visit(member.value, own)

    visit(top, 0)
    return found


def write_rows(rows, table):
    """The words behind the last row stay as found."""
    for number, row in enumerate(rows):
        start = ROW_WORDS * number
        table[start:start + ROW_WORDS] = row


def tree(text, depth=DOCUMENT_DEPTH):
    """The value of a well-formed text as a Node; Refusal when it is not."""
    offence, _, found = read_whole(text, depth)
    if offence:
        raise Refusal(*offence)
    return found


def value(text, depth=DOCUMENT_DEPTH):
    """The JSON value of a well-formed text, as a pair of a tag and content.

    ("null", None)      ("boolean", True or False)
    ("number", bytes)   as spelled
    ("string", [scalar values])
    ("array", [values])
    ("object", [(name as a list of scalar values, value)])

    A text that is not well-formed raises Refusal.
    """
    return without_places(tree(text, depth))


def without_places(node):
    """Space, places and escapes are no part of a JSON value."""
    if node.kind == NULL:
        return ("null", None)
    if node.kind in (FALSE, TRUE):
        return ("boolean", node.kind == TRUE)
    if node.kind in (INTEGER, OTHER_NUMBER):
        return ("number", node.content)
    if node.kind == STRING:
        return ("string", scalar_values(node.content))
    if node.kind == ARRAY:
        return ("array", [without_places(element) for element in node.content])
    return ("object", [(scalar_values(member.name), without_places(member.value))
                       for member in node.content])


def scalar_values(characters):
    return [ord(character) for character in characters]


class Reader:
    """Reads one text from left to right, keeping the first five words of its rows."""

    def __init__(self, text, depth):
        self.text = text
        self.place = 0
        self.brackets_left = depth
        self.rows = []

    def read_text(self):
        """Space, one value of any kind, space, and nothing behind."""
        self.skip_space()
        found = self.read_value()
        self.skip_space()
        if self.place < len(self.text):
            self.refuse(NOT_ALLOWED)
        return self.rows, found

    # Bytes.

    def byte(self):
        """The byte at the place; a text that ends here ended early (2)."""
        if self.place == len(self.text):
            self.refuse(ENDED)
        return self.text[self.place]

    def next_is_one_of(self, allowed):
        """Whether the text goes on with one of these bytes."""
        return self.place < len(self.text) and self.text[self.place] in allowed

    def take(self, allowed, code=NOT_ALLOWED):
        """Passes one of the allowed bytes; any other is the code given."""
        byte = self.byte()
        if byte not in allowed:
            self.refuse(code)
        self.place += 1
        return byte

    def refuse(self, code):
        raise Refusal(code, self.place)

    def skip_space(self):
        while self.next_is_one_of(SPACE):
            self.place += 1

    # Rows.

    def open_row(self, kind):
        """Adds a row whose first byte is here; rows stand in this order."""
        row = [kind, self.place, 0, 0, 0]
        self.rows.append(row)
        return len(self.rows) - 1

    def close_row(self, number, children=0):
        """Sets byte after the last, direct children, rows of the subtree."""
        row = self.rows[number]
        row[2] = self.place
        row[3] = children
        row[4] = len(self.rows) - number

    def node(self, number, content=None):
        """The value of a row, for the tree."""
        kind, place = self.rows[number][:2]
        return Node(kind, place, content)

    # Values.

    def read_value(self):
        """The first byte of a value decides what is read."""
        byte = self.byte()
        if byte == ord("n"):
            return self.read_literal(b"null", NULL)
        if byte == ord("f"):
            return self.read_literal(b"false", FALSE)
        if byte == ord("t"):
            return self.read_literal(b"true", TRUE)
        if byte == ord("-") or byte in DIGITS:
            return self.read_number()
        if byte == ord('"'):
            return self.read_string()
        if byte == ord("["):
            return self.read_array()
        if byte == ord("{"):
            return self.read_object()
        self.refuse(NOT_ALLOWED)

    def read_literal(self, word, kind):
        row = self.open_row(kind)
        for byte in word:
            self.take([byte])
        self.close_row(row)
        return self.node(row)

    def read_number(self):
        """Kind 4 without fraction or exponent, else kind 5."""
        row = self.open_row(INTEGER)
        first = self.place
        self.read_integer_part()
        if self.next_is_one_of(b"."):
            self.rows[row][0] = OTHER_NUMBER
            self.place += 1
            self.read_digits()
        if self.next_is_one_of(b"eE"):
            self.rows[row][0] = OTHER_NUMBER
            self.place += 1
            if self.next_is_one_of(b"+-"):
                self.place += 1
            self.read_digits()
        self.close_row(row)
        return self.node(row, bytes(self.text[first:self.place]))

    def read_integer_part(self):
        """Perhaps a minus, then 0 alone or digits that begin with 1 to 9."""
        if self.next_is_one_of(b"-"):
            self.place += 1
        if self.take(DIGITS) != ord("0"):
            while self.next_is_one_of(DIGITS):
                self.place += 1
        elif self.next_is_one_of(DIGITS):
            self.refuse(NOT_ALLOWED)

    def read_digits(self):
        """One digit or more."""
        self.take(DIGITS)
        while self.next_is_one_of(DIGITS):
            self.place += 1

    def open_bracket(self):
        """One bracket more than the depth is too deep (7), at that bracket."""
        if self.brackets_left == 0:
            self.refuse(TOO_DEEP)
        self.brackets_left -= 1
        self.place += 1

    def close_bracket(self):
        self.brackets_left += 1
        self.place += 1

    def read_array(self):
        row = self.open_row(ARRAY)
        self.open_bracket()
        elements = []
        self.skip_space()
        if self.byte() != ord("]"):
            elements.append(self.read_element())
            while self.byte() != ord("]"):
                self.take(b",")
                self.skip_space()
                elements.append(self.read_element())
        self.close_bracket()
        self.close_row(row, len(elements))
        return self.node(row, elements)

    def read_element(self):
        """A value and the space behind it."""
        found = self.read_value()
        self.skip_space()
        return found

    def read_object(self):
        row = self.open_row(OBJECT)
        self.open_bracket()
        members = []
        names = set()
        self.skip_space()
        if self.byte() != ord("}"):
            members.append(self.read_member(names))
            while self.byte() != ord("}"):
                self.take(b",")
                self.skip_space()
                members.append(self.read_member(names))
        self.close_bracket()
        self.close_row(row, len(members))
        return self.node(row, members)

    def read_member(self, names):
        """A name, a colon, a value, and the space behind each."""
        place = self.place
        name = self.read_name(names)
        self.skip_space()
        self.take(b":")
        self.skip_space()
        return Member(name, place, self.read_element())

    # Strings and names. Their bytes include the quotes.

    def read_string(self):
        row = self.open_row(STRING)
        self.take(b'"')
        characters = self.read_characters()
        self.take(b'"')
        self.close_row(row)
        return self.node(row, characters)

    def read_name(self, names):
        """A name that the object already has is 6, at its closing quote."""
        row = self.open_row(NAME)
        self.take(b'"')
        characters = self.read_characters()
        if characters in names:
            self.refuse(NAME_TWICE)
        names.add(characters)
        self.take(b'"')
        self.close_row(row)
        return characters

    def read_characters(self):
        """The characters up to the closing quote, which is not passed."""
        scalars = []
        while self.byte() != ord('"'):
            scalars.append(self.read_character())
        return "".join(map(chr, scalars))

    def read_character(self):
        byte = self.byte()
        if byte < 0x20:
            self.refuse(NOT_ALLOWED)
        if byte == ord("\\"):
            return self.read_escape()
        if byte < 0x80:
            self.place += 1
            return byte
        return self.read_utf8()

    # UTF-8: no overlong form, no surrogate, nothing above 10FFFF.

    def read_utf8(self):
        """Code 4 lies at the first byte that cannot follow."""
        lead = self.byte()
        if begins_no_character(lead):
            self.refuse(NOT_UTF8)
        self.place += 1
        scalar, ranges = split_lead(lead)
        for first, last in ranges:
            byte = self.take(range(first, last + 1), NOT_UTF8)
            scalar = scalar * 64 + byte % 64
        return scalar

    # Escapes.

    def read_escape(self):
        self.take(b"\\")
        byte = self.byte()
        if byte in SHORT_ESCAPES:
            self.place += 1
            return SHORT_ESCAPES[byte]
        if byte != ord("u"):
            self.refuse_in_escape(byte)
        self.place += 1
        return self.read_four_digits()

    def refuse_in_escape(self, byte):
        """Bytes inside an escape are judged by UTF-8 too; 4 before 3."""
        self.refuse(NOT_UTF8 if begins_no_character(byte) else NOT_ALLOWED)

    def read_four_digits(self):
        """A low surrogate coming first is 5 at its second hex digit."""
        number = self.read_hex_digit()
        if number == 0xD and self.byte() in LOW_SECOND_DIGITS:
            self.refuse(NO_PARTNER)
        for _ in range(3):
            number = number * 16 + self.read_hex_digit()
        if 0xD800 <= number <= 0xDBFF:
            low = self.read_partner()
            return 0x10000 + (number - 0xD800) * 0x400 + (low - 0xDC00)
        return number

    def read_partner(self):
        """Behind a high surrogate the next four bytes are judged by 5."""
        self.take(b"\\", NO_PARTNER)
        self.take(b"u", NO_PARTNER)
        self.take(b"Dd", NO_PARTNER)
        second = self.take(LOW_SECOND_DIGITS, NO_PARTNER)
        number = 0xD0 + hex_number(second)
        for _ in range(2):
            number = number * 16 + self.read_hex_digit()
        return number

    def read_hex_digit(self):
        byte = self.byte()
        if byte not in HEX_DIGITS:
            self.refuse_in_escape(byte)
        self.place += 1
        return hex_number(byte)


def hex_number(digit):
    return int(chr(digit), 16)


def begins_no_character(byte):
    """Whether no UTF-8 character begins with this byte."""
    return 0x80 <= byte <= 0xC1 or byte >= 0xF5


def split_lead(lead):
    """The bits of a lead byte (C2 to F4) and the ranges of what follows."""
    rest = (0x80, 0xBF)
    if lead <= 0xDF:
        return lead - 0xC0, [rest]
    if lead == 0xE0:
        return 0, [(0xA0, 0xBF), rest]
    if lead == 0xED:
        return 0xD, [(0x80, 0x9F), rest]
    if lead <= 0xEF:
        return lead - 0xE0, [rest, rest]
    if lead == 0xF0:
        return 0, [(0x90, 0xBF), rest, rest]
    if lead == 0xF4:
        return 4, [(0x80, 0x8F), rest, rest]
    return lead - 0xF0, [rest, rest, rest]
