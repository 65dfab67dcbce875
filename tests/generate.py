"""Generates texts for Read: well-formed ones and damaged ones.

    python3 generate.py SEED COUNT

prints COUNT distinct texts, one on a line, as hex. The same seed gives the
same texts.
"""

import itertools
import random
import sys

LIMIT = 65536
DEPTH = 32

SPACES = b" \t\n\r"

# Bytes that are put in place of, or in front of, each byte of a text.
INTERESTING = (
    b'"\\[]{},:0123456789-+.eEuDdCcBbFfGgnt/ \t\n\r'
    b"\x00\x1F\x7F\x80\x8F\x90\x9F\xA0\xBF\xC0\xC1\xC2\xC3\xDF\xE0\xE1\xED"
    b"\xEE\xEF\xF0\xF1\xF4\xF5\xFF"
)

# Scalar values at the boundaries of each UTF-8 length, around the surrogates
# and at the end, and those that have short escapes.
SCALARS = [
    0x00, 0x01, 0x08, 0x09, 0x0A, 0x0C, 0x0D, 0x1F, 0x20, 0x22, 0x2F, 0x5C,
    0x41, 0x61, 0x62, 0x7E, 0x7F, 0x80, 0xE9, 0xBF, 0xC0, 0x7FF, 0x800, 0xFFF,
    0x1000, 0xCFFF, 0xD000, 0xD7FF, 0xE000, 0xFEFF, 0xFFFD, 0xFFFE, 0xFFFF,
    0x10000, 0x1F600, 0x3FFFF, 0x40000, 0xFFFFF, 0x100000, 0x10FFFF,
]
SHORT_ESCAPES = {
    0x22: b'\\"', 0x5C: b"\\\\", 0x2F: b"\\/", 0x08: b"\\b", 0x0C: b"\\f",
    0x0A: b"\\n", 0x0D: b"\\r", 0x09: b"\\t",
}

# Short texts that are damaged at every place.
SHORT_TEXTS = [
    b"", b" ", b"null", b"true", b"false", b"0", b"-0", b"12", b"-105",
    b"1.5", b"-0.25", b"1e5", b"2E+07", b"30.4e-1", b"[]", b"{}", b"[ ]",
    b"{ }", b"[[]]", b"[{}]", b"[1,2]", b"[0,-1.5,true]", b" [ 1 , 2 ] ",
    b'""', b'"ab"', b'"\\""', b'"\\\\"', b'"\\/\\b"', b'"\\f\\n\\r\\t"',
    b'"\\u0061"', b'"\\uAbCd"', b'"\\ufFfF"', b'"\\uD7FF"', b'"\\ue000"',
    b'"\\uD83D\\uDE00"', b'"\\udbff\\udfff"', b'"\\uD800\\udc00x"',
    b'"\x7F"', b'"\xC2\x80"', b'"\xDF\xBF"', b'"\xE0\xA0\x80"',
    b'"\xED\x9F\xBF"', b'"\xEE\x80\x80"', b'"\xEF\xBB\xBF"',
    b'"\xEF\xBF\xBF"', b'"\xF0\x90\x80\x80"', b'"\xF1\x80\x80\x80"',
    b'"\xF4\x8F\xBF\xBF"', b'"a\xC3\xA9b"', b'{"":0}', b'{"a":1}',
    b'{ "a" : 1 }', b'{"a":1,"b":2}', b'{"a":1,"a":2}', b'{"a":1,"aa":2}',
    b'{"a":1,"\\u0061":2}', b'{"\\n":1,"\\u000a":2}', b'{"\xC3\xA9":1,"\\u00E9":2}',
    b'{"a":{"a":[]},"b":{}}', b'[{"a":1},{"a":2}]', b'{"a":[1,true]}',
]

# Texts that stop where each rule of the grammar waits for its next byte.
PREFIXES = [
    b"", b" ", b"\t", b"[", b"[ ", b"[1", b"[1 ", b"[1,", b"[1, ", b"[[]",
    b"[[] ", b"{", b"{ ", b'{"a"', b'{"a" ', b'{"a":', b'{"a": ', b'{"a":1',
    b'{"a":1 ', b'{"a":1,', b'{"a":1, ', b'{"a":{}', b'{"a":"b"', b"[]", b"{}",
    b'""', b'"" ', b"null", b"true", b"false", b"1 ", b"-", b"0", b"-0", b"1",
    b"10", b"0.", b"1.", b"1.5", b"1e", b"1E", b"1e+", b"1e-", b"1e5", b"1.5e",
    b"1.5E3", b"[-", b"[0", b"[1.", b"[1.5", b"[1e", b"[1e+", b"[1e5", b"n",
    b"nu", b"nul", b"t", b"tr", b"tru", b"f", b"fa", b"fal", b"fals",
    b'"', b'"a', b'"\\', b'"\\n', b'"\\u', b'"\\u0', b'"\\u00', b'"\\u004',
    b'"\\u0041', b'"\\uD', b'"\\ud', b'"\\uD7', b'"\\uD8', b'"\\udB', b'"\\uD83',
    b'"\\uE', b'"\\uE0', b'"\\uD83D', b'"\\uD83D\\', b'"\\uD83D\\u',
    b'"\\uD83D\\uD', b'"\\uD83D\\ud', b'"\\uD83D\\uDE', b'"\\uD83D\\udf0',
    b'"\\uD83D\\uDE00', b'"\xC2', b'"\xDF', b'"\xE0', b'"\xE0\xA0', b'"\xE1',
    b'"\xE1\x80', b'"\xEC', b'"\xED', b'"\xED\x9F', b'"\xEE', b'"\xEF',
    b'"\xEF\xBF', b'"\xF0', b'"\xF0\x90', b'"\xF0\x90\x80', b'"\xF1',
    b'"\xF1\x80', b'"\xF3', b'"\xF3\xBF\xBF', b'"\xF4', b'"\xF4\x8F',
    b'"\xF4\x80\x80', b'{"', b'{"a', b'{"\\', b'{"\\u006', b'{"\xC3',
    b'{"a":1,"', b'{"a":1,"a', b'{"a":1,"b', b'{"a":1,"\\u006',
    b'{"a":1,"\\u0061', b"[" * 31, b"[" * 32, b"[" * 32 + b"1",
    b"[" * 32 + b"1,", b"[" * 32 + b"]", b"[" * 31 + b"{", b"[" * 31 + b'{"a"',
    b"[" * 31 + b'{"a":', b"[" * 31 + b'{"a":1,',
]
TAILS = [b'"', b"]", b"}", b",", b" ", b"0", b"\x80", b'"]', b'":1}', b"}]"]


class Writer:
    """Writes random well-formed texts."""

    def __init__(self, chance):
        self.chance = chance

    def space(self):
        if self.chance.random() < 0.8:
            return b""
        count = self.chance.randint(1, 3)
        return bytes(self.chance.choices(SPACES, k=count))

    def number(self):
        parts = [self.chance.choice([b"", b"-"])]
        parts.append(self.chance.choice([b"0", b"1", b"9", b"10", b"507"]))
        if self.chance.random() < 0.3:
            parts.append(b"." + self.digits())
        if self.chance.random() < 0.3:
            parts.append(self.chance.choice([b"e", b"E"]))
            parts.append(self.chance.choice([b"", b"+", b"-"]))
            parts.append(self.digits())
        return b"".join(parts)

    def digits(self):
        count = self.chance.randint(1, 4)
        return bytes(self.chance.choices(b"0123456789", k=count))

    def scalar(self):
        if self.chance.random() < 0.5:
            return self.chance.choice(b"abcxyz019 {}[],:")
        return self.chance.choice(SCALARS)

    def scalars(self, most):
        return tuple(self.scalar() for _ in range(self.chance.randint(0, most)))

    def spell(self, scalar):
        """One of the spellings of a scalar value."""
        ways = [self.hex_escape]
        if scalar >= 0x20 and scalar not in (0x22, 0x5C):
            ways += [plain] * 3
        if scalar in SHORT_ESCAPES:
            ways += [SHORT_ESCAPES.get] * 3
        return self.chance.choice(ways)(scalar)

    def hex_escape(self, scalar):
        """One escape, or a pair of surrogates, digits of either case."""
        if scalar < 0x10000:
            return self.hex_unit(scalar)
        high, low = divmod(scalar - 0x10000, 0x400)
        return self.hex_unit(0xD800 + high) + self.hex_unit(0xDC00 + low)

    def hex_unit(self, number):
        digits = "".join(self.chance.choice([digit.lower(), digit.upper()])
                         for digit in "%04x" % number)
        return b"\\u" + digits.encode()

    def string(self, scalars):
        return b'"' + b"".join(map(self.spell, scalars)) + b'"'

    def value(self, depth):
        """A value with at most this many brackets open at once."""
        kind = self.chance.randrange(10 if depth > 0 else 6)
        if kind == 0:
            return self.chance.choice([b"null", b"false", b"true"])
        if kind <= 2:
            return self.number()
        if kind <= 5:
            return self.string(self.scalars(5))
        if kind <= 7:
            return self.array(depth)
        return self.object(depth)

    def array(self, depth):
        elements = [self.space() + self.value(depth - 1) + self.space()
                    for _ in range(self.chance.randint(0, 3))]
        return b"[" + (b",".join(elements) or self.space()) + b"]"

    def object(self, depth):
        """Names differ after unescaping, so the text is well-formed."""
        names = list(dict.fromkeys(self.scalars(2) for _ in range(self.chance.randint(0, 3))))
        return self.object_with(names, depth)

    def object_with(self, names, depth):
        members = [self.member(name, depth) for name in names]
        return b"{" + (b",".join(members) or self.space()) + b"}"

    def member(self, name, depth):
        return (self.space() + self.string(name) + self.space() + b":"
                + self.space() + self.value(depth - 1) + self.space())

    def text(self):
        return self.space() + self.value(self.chance.randint(0, 4)) + self.space()

    def repeated(self):
        """An object that has one name twice, perhaps spelled differently."""
        names = list(dict.fromkeys(self.scalars(3) for _ in range(self.chance.randint(1, 4))))
        names.insert(self.chance.randint(0, len(names)), self.chance.choice(names))
        return self.nested(self.chance.randint(0, 3), self.object_with(names, 2))

    def nearly_repeated(self):
        """An object with two names that differ by little."""
        name = self.scalars(4)
        names = list(dict.fromkeys([name, self.near_name(name)]))
        self.chance.shuffle(names)
        return self.object_with(names, 1)

    def near_name(self, name):
        """A name with a scalar value changed, more, or fewer; or its bytes."""
        kind = self.chance.randrange(4)
        if kind == 0 or not name:
            return name + (self.scalar(),)
        if kind == 1:
            return name[:-1]
        if kind == 2:
            return tuple(b"".join(map(plain, name)))
        place = self.chance.randrange(len(name))
        return name[:place] + (self.near_scalar(name[place]),) + name[place + 1:]

    def near_scalar(self, scalar):
        """One bit changed, where that gives a scalar value."""
        near = scalar ^ (1 << self.chance.randrange(21))
        if 0xD800 <= near <= 0xDFFF or near > 0x10FFFF:
            return scalar
        return near

    def nested(self, brackets, inner):
        """The inner text inside arrays and objects with some siblings."""
        for _ in range(brackets):
            if self.chance.random() < 0.5:
                inner = self.nested_array(inner)
            else:
                inner = self.nested_object(inner)
        return inner

    def nested_array(self, inner):
        before = self.chance.choice([b"", b"", b"1,", b"[],", b'"[",'])
        behind = self.chance.choice([b"", b"", b",2", b",{}", b" "])
        return b"[" + before + inner + behind + b"]"

    def nested_object(self, inner):
        before = self.chance.choice([b"", b"", b'"b":{},', b'"c":[], '])
        behind = self.chance.choice([b"", b"", b',"d":0', b',"A":{"a":0}'])
        return b"{" + before + b'"a":' + inner + behind + b"}"

    def deep(self):
        """Nesting up to and past the depth."""
        brackets = self.chance.randint(DEPTH - 4, DEPTH + 2)
        return self.nested(brackets, self.value(self.chance.randint(0, 1)))


def plain(scalar):
    return chr(scalar).encode()


# Damage.

def damages(text, chance):
    """Every damage of a short text, at every place in turn."""
    yield text
    for place in range(len(text) + 1):
        yield text[:place]
        yield insert(text, place, chance)
    for place in range(len(text)):
        yield delete(text, place)
        yield swap(text, place, chance)
        yield duplicate(text, place, chance)
        for byte in INTERESTING:
            yield put(text, place, byte)


def put(text, place, byte):
    return text[:place] + bytes([byte]) + text[place + 1:]


def delete(text, place):
    return text[:place] + text[place + 1:]


def insert(text, place, chance):
    return text[:place] + bytes([chance.choice(INTERESTING)]) + text[place:]


def swap(text, place, chance):
    """The byte at the place and another one trade places."""
    other = chance.choice([min(place + 1, len(text) - 1), chance.randrange(len(text))])
    return put(put(text, place, text[other]), other, text[place])


def duplicate(text, place, chance):
    """A slice that begins at the place stands twice."""
    end = min(len(text), place + chance.randint(1, 12))
    return text[:end] + text[place:]


def damage(text, chance):
    """One random damage."""
    if not text:
        return insert(text, 0, chance)
    place = chance.randrange(len(text))
    kind = chance.randrange(7)
    if kind == 0:
        return text[:place]
    if kind == 1:
        return delete(text, place)
    if kind == 2:
        return insert(text, place, chance)
    if kind == 3:
        return swap(text, place, chance)
    if kind == 4:
        return duplicate(text, place, chance)
    return put(text, place, chance.choice(INTERESTING))


# Sources of texts.

def shuffled(texts, chance):
    """So that the first few are a fair sample."""
    texts = list(texts)
    chance.shuffle(texts)
    return iter(texts)


def every_byte(chance):
    """Behind each prefix every byte, at the end and with something behind."""
    for prefix in PREFIXES:
        for byte in range(256):
            text = prefix + bytes([byte])
            yield text
            yield text + chance.choice(TAILS)


def short_damaged(chance):
    for text in SHORT_TEXTS:
        yield from damages(text, chance)


def random_whole(chance):
    """Random texts without end, most of them well-formed."""
    writer = Writer(chance)
    while True:
        make = chance.choice([writer.text] * 6 + [writer.repeated] * 2
                             + [writer.nearly_repeated] * 2 + [writer.deep])
        yield make()


def random_damaged(chance):
    """Random texts without end, each with some damages."""
    for text in random_whole(chance):
        for _ in range(12):
            damaged = damage(text, chance)
            yield damaged
            if chance.random() < 0.1:
                yield damage(damaged, chance)


# Long texts.

def fill(length, before, piece, behind):
    """Repeats the piece as often as fits, then space, to the length."""
    count = (length - len(before) - len(behind)) // len(piece)
    text = before + piece * count + behind
    return text + b" " * (length - len(text))


def wide_object(length):
    """As many different names as fit, then space, to the length."""
    parts, size = [b'{"":0'], 6
    for number in itertools.count():
        part = b',"%x":0' % number
        if size + len(part) > length:
            break
        parts.append(part)
        size += len(part)
    return b"".join(parts) + b"}" + b" " * (length - size)


def long_texts():
    for length in [LIMIT - 1, LIMIT, LIMIT + 1]:
        yield from long_well_formed(length)
        yield from long_malformed(length)
    yield from wide_texts()
    yield from deep_texts()


def long_well_formed(length):
    yield fill(length, b"", b"7", b"")
    yield fill(length, b"0.", b"7", b"")
    yield fill(length, b"", b" ", b"null")
    yield fill(length, b"", b"\n", b"[]")
    yield fill(length, b'"', b"a", b'"')
    yield fill(length, b'"', b"\\n", b'"')
    yield fill(length, b'"', b"\\u00e9", b'"')
    yield fill(length, b'"', b"\\uD83D\\uDE00", b'"')
    yield fill(length, b'"', b"\xC3\xA9", b'"')
    yield fill(length, b'"', b"\xE2\x82\xAC", b'"')
    yield fill(length, b'"', b"\xF0\x9F\x98\x80", b'"')
    yield fill(length, b"[0", b",0", b"]")
    yield fill(length, b"[[]", b",[]", b"]")
    yield fill(length, b"[{}", b',{"a":[1.5]}', b"]")
    yield fill(length, b'{"', b"n", b'":0}')
    yield wide_object(length)


def long_malformed(length):
    yield b" " * length
    yield b"[" * length
    yield b'"' + b"a" * (length - 1)
    yield b'"' + b"a" * (length - 2) + b"\xC3"
    yield b'"' + b"a" * (length - 2) + b"\x80"
    yield b'"' + b"a" * (length - 2) + b"\n"
    yield b'"' + b"a" * (length - 7) + b"\\uD83D"
    yield b"[" + b"0," * ((length - 1) // 2)
    yield b"1" * (length - 1) + b"."
    yield b"1" * (length - 1) + b"x"
    yield b"x" + b" " * (length - 1)
    yield fill(length - 1, b"[0", b",0", b"]") + b"]"
    name = b'"' + b"n" * ((length - 8) // 2) + b'"'
    yield b" " * (length % 2) + b"{" + name + b":0," + name


def wide_texts():
    """Objects with many names, some with a name twice at either end."""
    for length in [200, 2000, 12000]:
        text = wide_object(length).rstrip()
        yield text
        yield text[:-1] + b',"":0}'
        yield text[:-1] + b',"\\u0030":0}'
        yield text[:-1] + b',"new":0}'
        yield text[:-1] + text[text.rindex(b","):]
        yield b"[" + text + b"," + text + b"]"


def deep_texts():
    """Nesting of 31 to 34 brackets: closed, open, wide at the bottom."""
    for brackets in range(DEPTH - 1, DEPTH + 3):
        for opening, closing in [(b"[", b"]"), (b'{"a":', b"}"), (b' [ 1 , ', b" ] "),
                                 (b'{ "b" : { } , "a" : ', b" } ")]:
            opened, closed = opening * brackets, closing * brackets
            yield opened
            for inner in [b"", b"1", b"[]", b"{}", b'"["', b"]", b"}", b"1[", b"[],[]"]:
                yield opened + inner + closed
                yield opened + inner + closed[1:]
                yield opened + inner + closed + closing
        mixed = b'[{"a":' * (brackets // 2) + b"[" * (brackets % 2)
        yield mixed
        yield mixed + b"]" * (brackets % 2) + b"}]" * (brackets // 2)
        yield mixed + b"0" + b"]" * (brackets % 2) + b"}]" * (brackets // 2)


def take_turns(sources):
    """What the sources give, each thing once, the sources taking turns."""
    seen = set()
    while sources:
        for source in list(sources):
            found = next(source, None)
            if found is None:
                sources.remove(source)
            elif found not in seen:
                seen.add(found)
                yield found


def texts(seed):
    """Distinct texts without end."""
    chance = random.Random(seed)
    return take_turns([
        long_texts(),
        shuffled(every_byte(chance), chance),
        shuffled(short_damaged(chance), chance),
        random_whole(chance),
        random_damaged(chance),
    ])


def main(arguments):
    seed, count = int(arguments[0]), int(arguments[1])
    for text in itertools.islice(texts(seed), count):
        print(text.hex())


if __name__ == "__main__":
    main(sys.argv[1:])
