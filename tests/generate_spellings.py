"""Generates JSON values, texts that spell one value, and values that differ by little.

A value is bytes for a literal or a number, a str for a string, a list for an
array, and a tuple of pairs, name and value, for an object. Two values are the
same when Python says that they are equal.
"""

import random

import generate

# Numbers that are equal, or nearly so, and spelled differently.
NUMBERS = [b"0", b"-0", b"0.0", b"0e0", b"1", b"1.0", b"1.00", b"1e0", b"1E0", b"1e+0", b"10", b"1e1", b"-1", b"12", b"0.1", b"0.10"]
LITERALS = [b"null", b"true", b"false"]

# Characters that are taken for each other: a letter with a mark as one and as two, cases, and what an escape is made of.
NEAR = {"\u00e9": "e\u0301", "a": "A", "/": "\\/", "\\": "\\\\", "\n": "\\n", "\x1f": "\\u001f", "\U0001F600": "\\ud83d\\ude00",
        "\x7f": "\\u007f", "\u2028": "\\u2028", '"': '\\"', "\x08": "b"}


class Speller(generate.Writer):
    """Makes values and writes them in random spellings."""

    # Values.

    def character(self):
        if self.chance.random() < 0.3:
            return self.chance.choice(list(NEAR))
        return chr(self.scalar())

    def characters(self, most):
        return "".join(self.character() for _ in range(self.chance.randint(0, most)))

    def simple(self):
        kind = self.chance.randrange(4)
        if kind == 0:
            return self.chance.choice(LITERALS)
        return self.chance.choice([self.number(), self.chance.choice(NUMBERS)]) if kind == 1 else self.characters(8)

    def made(self, depth):
        """A value with at most this many brackets open at once."""
        kind = self.chance.randrange(6) if depth else 0
        if kind <= 2:
            return self.simple()
        if kind == 3:
            return [self.made(depth - 1) for _ in range(self.chance.randint(0, 4))]
        names = dict.fromkeys(self.characters(3) for _ in range(self.chance.randint(0, 4)))
        return tuple((name, self.made(depth - 1)) for name in names)

    # Spellings.

    def spelled(self, value):
        """A text of the value, with space and escapes by chance."""
        return self.space() + self.spelled_value(value) + self.space()

    def spelled_value(self, value):
        if isinstance(value, bytes):
            return value
        if isinstance(value, str):
            return self.string(map(ord, value))
        if isinstance(value, list):
            return b"[" + (b",".join(map(self.spelled, value)) or self.space()) + b"]"
        return b"{" + (b",".join(map(self.spelled_member, value)) or self.space()) + b"}"

    def spelled_member(self, member):
        name, value = member
        return self.space() + self.string(map(ord, name)) + self.space() + b":" + self.spelled(value)

    # Values that differ by little.

    def changed(self, value):
        """Something in the value is another; now and then nothing."""
        if isinstance(value, bytes):
            return self.chance.choice(LITERALS if value in LITERALS else NUMBERS + [value.decode()])
        if isinstance(value, str):
            return self.changed_string(value)
        return self.changed_items(value) if not value or self.chance.random() < 0.3 else self.changed_inside(value)

    def changed_string(self, string):
        if not string or self.chance.random() < 0.2:
            return string + self.character()
        place = self.chance.randrange(len(string))
        near = NEAR.get(string[place], "")
        return string[:place] + self.chance.choice([near, near, self.character()]) + string[place + 1:]

    def changed_items(self, value):
        """An empty array or object is the other one; items change places, or one goes."""
        if not value:
            return () if value == [] else []
        items = list(value)
        if self.chance.random() < 0.5:
            self.chance.shuffle(items)
        else:
            del items[self.chance.randrange(len(items))]
        return type(value)(items)

    def changed_inside(self, value):
        place = self.chance.randrange(len(value))
        items = list(value)
        if isinstance(value, list):
            items[place] = self.changed(items[place])
            return items
        name, under = items[place]
        other = self.changed_string(name)
        if self.chance.random() < 0.3 and other not in dict(items):
            items[place] = (other, under)
        else:
            items[place] = (name, self.changed(under))
        return tuple(items)


def texts(seed):
    """Well-formed texts without end."""
    speller = Speller(random.Random(seed))
    while True:
        yield speller.spelled(speller.made(speller.chance.randint(0, 5)))


def triples(seed):
    """A value, two texts of it, another value and a text of that, without end."""
    speller = Speller(random.Random(seed))
    while True:
        value = speller.made(speller.chance.randint(0, 4))
        other = speller.changed(value)
        yield value, speller.spelled(value), speller.spelled(value), other, speller.spelled(other)
