"""Cases of Read with the answer that the papers give.

CASES:         (text, answer), with room for every row.
ROW_CASES:     (text, rows), the whole table of a text.
ROOM_CASES:    (text, words of the table, answer).
SCHEMA_CASES:  (text, answer), read as text 2 with the limits of a schema.
VALUE_CASES:   (text, value), the JSON value that a text spells.
"""

NO_CHARACTER = [*range(0x80, 0xC2), *range(0xF5, 0x100)]
LEADS = range(0xC2, 0xF5)
CONTROLS = range(0x20)
HIGH = b'"\\uD83D'  # a string that stops behind a high surrogate escape


def one(byte):
    return bytes([byte])


def taken(rows):
    return (0, 0, 0, rows)


def refused(code, place):
    return (code, 1, place, 0)


def length_cases():
    """Code 1 and the text that is just short enough."""
    yield b" " * 65535 + b"1", taken(1)
    yield b" " * 65536, refused(2, 65536)
    yield b" " * 65535 + b"x", refused(3, 65535)
    yield b" " * 65536 + b"1", refused(1, 65536)
    yield b"x" + b" " * 65536, refused(1, 65536)
    yield b"1" * 65536, taken(1)
    yield b"1" * 65537, refused(1, 65536)
    yield b"[" * 70000, refused(1, 65536)


def ended_cases():
    """Code 2: the text stops inside a value, or holds only space."""
    for text in [
        b"", b" ", b"\t\n\r ", b'"', b'"a', b'"\xC3', b'"\xE0', b'"\xE0\xA0',
        b'"\xEF\xBB', b'"\xF0', b'"\xF0\x90', b'"\xF0\x90\x80',
        b'"\\', b'"\\u', b'"\\u0', b'"\\u00', b'"\\u006',
        b'"\\u0061', b'"\\uD', b'"\\uD8', b'"\\uD83',
        HIGH, HIGH + b"\\", HIGH + b"\\u", HIGH + b"\\uD", HIGH + b"\\ud",
        HIGH + b"\\uDE", HIGH + b"\\uDE0", HIGH + b"\\uDE00",
        b"-", b"1.", b"-0.", b"1e", b"1E", b"1e+", b"1e-", b"1.5e",
        b"n", b"nul", b"tru", b"fals", b"[", b"[ ", b"[1", b"[1 ", b"[1,",
        b"{", b'{"', b'{"a', b'{"a"', b'{"a" ', b'{"a":', b'{"a":1',
        b'{"a":1,', b'{"a":1,"a', b'{"a":1,"\\u0061', b"[" * 32,
    ]:
        yield text, refused(2, len(text))


def byte_cases():
    """Code 3: the byte is not allowed here."""
    for text, place in [
        (b"01", 1), (b"00", 1), (b"-01", 2), (b"-00", 2), (b"-x", 1),
        (b"- 1", 1), (b"--1", 1), (b"1.x", 2), (b"1..", 2), (b"1.e1", 2),
        (b"1ex", 2), (b"1e+x", 3), (b"1e+-1", 3), (b"1e1.", 3), (b"1e1e", 3),
        (b"1-", 1), (b"1+", 1), (b"[1.]", 3), (b"[1e]", 3), (b"[-]", 2),
        (b"+1", 0), (b".5", 0), (b"[01]", 2), (b"0x1", 1), (b"1_0", 1),
        (b"trux", 3), (b"tru ", 3), (b"truex", 4), (b"tru\x00", 3),
        (b"True", 0), (b"NULL", 0), (b"nan", 1), (b"nulL", 3), (b"falsy", 4),
        (b"[1,]", 3), (b"[,", 1), (b"[1,,", 3), (b"[1 2", 3), (b"[1}", 2),
        (b"[1:", 2), (b"[}", 1), (b"]", 0), (b"}", 0), (b",", 0), (b":", 0),
        (b"{]", 1), (b"{,", 1), (b"{a", 1), (b"{1", 1), (b"{[", 1), (b"{{", 1),
        (b"{'a", 1), (b'{"a",', 4), (b'{"a"1', 4), (b'{"a"}', 4),
        (b'{"a":}', 5), (b'{"a":,', 5), (b'{"a"::', 5), (b'{"a":1]', 6),
        (b'{"a":1 "b"', 7), (b'{"a":1,}', 7), (b'{"a":1,,', 7),
        (b'{"a":1,1', 7), (b"1 2", 2), (b"1 ]", 2), (b"1[", 1), (b"1{", 1),
        (b"[][", 2), (b"{}{", 2), (b"{}}", 2), (b"[]]", 2), (b'""""', 2),
        (b'"a"b', 3), (b"null,", 4), (b"1\x00", 1), (b"1\x0B", 1),
        (b"1\x0C", 1), (b"[\xA0]", 1), (b"\x00", 0), (b"\x7F", 0),
        (b"\xEF\xBB\xBF", 0), (b"\xEF\xBB\xBF1", 0), (b"\xFF\xFE1\x00", 0),
        (b"1\xEF\xBB\xBF", 1), (b"//", 0), (b"[/**/1]", 1), (b"'a'", 0),
        (b'"\\x', 2), (b'"\\a', 2), (b'"\\U', 2), (b'"\\0', 2), (b"\"\\'", 2),
        (b'"\\ ', 2), (b'"\\\n', 2), (b'"\\\x00', 2), (b'"\\\x7F', 2),
        (b'"\\B', 2), (b'"\\N', 2), (b'"\\v', 2),
        (b'"\\u"', 3), (b'"\\uG', 3), (b'"\\u0g', 4), (b'"\\u00 ', 5),
        (b'"\\u000"', 6), (b'"\\u000\\', 6), (b'"\\u+061', 3), (b'"\\uDG', 4),
        (b'"\\uD8G', 5), (b'"\\uD83G', 6), (b'"\\uD83"', 6),
        (HIGH + b"\\uDEG", 11), (HIGH + b'\\uDE"', 11), (HIGH + b"\\uDE0G", 12),
        (HIGH + b'\\uDE0"', 12), (HIGH + b"\\uDE\xC3", 11),
    ]:
        yield text, refused(3, place)


def byte_range_cases():
    """Code 3 over ranges of bytes."""
    for byte in CONTROLS:
        yield b'"' + one(byte), refused(3, 1)
        yield b'["a' + one(byte) + b'"]', refused(3, 3)
        yield b'{"' + one(byte) + b'":1}', refused(3, 2)
    for byte in range(0x80, 0x100):
        for before in [b"", b" ", b"[", b"[1", b"[1,", b"{", b'{"a"', b'{"a":',
                       b'{"a":1', b'{"a":1,', b"1", b"-", b"1.", b"1e", b"t",
                       b"1 ", b'""']:
            yield before + one(byte), refused(3, len(before))
    for byte in LEADS:
        for before in [b'"\\', b'"\\u', b'"\\u0', b'"\\u00', b'"\\u000',
                       b'"\\uD', b'"\\uD8', b'"\\uD83', HIGH + b"\\uDE",
                       HIGH + b"\\uDE0"]:
            yield before + one(byte), refused(3, len(before))
            yield before + one(byte) + b'\x80"', refused(3, len(before))


def utf8_cases():
    """Code 4: the place is the byte that cannot follow."""
    for text, place in [
        (b'"\xC3"', 2), (b'"\xE0\x80', 2), (b'"\xE0\x9F', 2), (b'"\xED\xA0', 2),
        (b'"\xED\xBF', 2), (b'"\xF0\x8F', 2), (b'"\xF4\x90', 2),
        (b'"\xF0\x80', 2), (b'"\xE1\x80"', 3), (b'"\xE1\x80\xC3', 3),
        (b'"\xF0\x90"', 3), (b'"\xF0\x90\x80"', 4), (b'"\xF1\x7F', 2),
        (b'"\xF1\xC0', 2), (b'"\xC2\x7F', 2), (b'"\xC2\xC0', 2),
        (b'"\xC3\xA9\xA9"', 3), (b'"a\x80"', 2),
        (b'{"\x80"', 2), (b'{"\xC3"', 3), (b'{"a":"\xC3"}', 7),
    ]:
        yield text, refused(4, place)
    for byte in NO_CHARACTER:
        yield b'"' + one(byte), refused(4, 1)
        yield b'"' + one(byte) + b'"', refused(4, 1)
        for before in [b'"\\', b'"\\u', b'"\\u0', b'"\\u00', b'"\\u000',
                       b'"\\uD', b'"\\uD8', b'"\\uD83', HIGH + b"\\uDE",
                       HIGH + b"\\uDE0"]:
            yield before + one(byte), refused(4, len(before))
    for byte in [*CONTROLS, ord("\\"), ord('"'), 0x7F, *LEADS, 0xC0, 0xFF]:
        yield b'"\xC3' + one(byte), refused(4, 2)
        yield b'"\xE1\x80' + one(byte), refused(4, 3)
        yield b'"\xF1\x80\x80' + one(byte), refused(4, 4)


def surrogate_cases():
    """Code 5: a low surrogate first, or a high one without its partner."""
    for second in b"CDEFcdef":
        for first in b"Dd":
            for behind in [b"", b'"', b"00", b'00"', b"G", b"\x80", b"\xC3",
                           b'83\\uD83D"']:
                text = b'"\\u' + one(first) + one(second) + behind
                yield text, refused(5, 4)
    partner = [b"\\", b"u", b"Dd", b"CDEFcdef"]
    for number, allowed in enumerate(partner):
        before = HIGH + b"\\uDC"[:number]
        for byte in range(256):
            if byte not in allowed:
                yield before + one(byte), refused(5, 7 + number)
    for text, place in [
        (HIGH + b'"', 7), (HIGH + b"\x00", 7), (HIGH + b"\x80", 7),
        (HIGH + b"x", 7), (HIGH + b"\\n", 8), (HIGH + b'\\"', 8),
        (HIGH + b"\\\\", 8), (HIGH + b"\\uE", 9), (HIGH + b"\\u0", 9),
        (HIGH + b"\\uD8", 10), (HIGH + b"\\uDG", 10), (HIGH + b"\\uD\x80", 10),
        (HIGH + b"\\u\xC3", 9), (HIGH + b"\\U", 8),
        (b'"\\uD83D\\uDE00\\uDE00"', 16), (b'"\\udbff\\udbff"', 10),
        (b'{"\\uDC00":1}', 5), (b'{"\\uD800":1}', 8),
    ]:
        yield text, refused(5, place)


def name_cases():
    """Code 6: at the closing quote of the later name, as soon as read."""
    for text, place in [
        (b'{"a":1,"a"', 9), (b'{"a":1,"a"x', 9), (b'{"a":1,"a":2}', 9),
        (b'{"a":1,"\\u0061":2}', 14), (b'{"\\u0061":1,"a":2}', 14),
        (b'{"":1,"":2}', 7), (b'{"a":1,"b":2,"a":3}', 15),
        (b'{"a":1,"b":2,"b":3}', 15), (b'[{"a":1,"a":2}]', 10),
        (b'{"x":{"a":1,"a":2}}', 14), (b'{"a":{"a":1},"a":2}', 15),
        (b'{"\\/":1,"/":2}', 10), (b'{"\\u002F":1,"\\u002f":2}', 19),
        (b'{"\\n":1,"\\u000A":2}', 15), (b'{"\\"":1,"\\u0022":2}', 15),
        (b'{"\xC3\xA9":1,"\\u00E9":2}', 15), (b'{"\\u00e9":1,"\xC3\xA9":2}', 15),
        (b'{"\xF0\x9F\x98\x80":1,"\\uD83D\\uDE00":2}', 23),
        (b'{"\\ud83d\\ude00":1,"\\uD83D\\uDE00":2}', 31),
        (b'{"\\\\":1,"\\u005c":2}', 15), (b'{"a" : 1 , "a" : 2 }', 13),
        (b'{"ab":1,"a\\u0062":2}', 16),
    ]:
        yield text, refused(6, place)


def wide_cases():
    """Wide objects, of names that fall into few buckets of a hash and of names that share one, with none or one twice."""
    for count, name in ((6000, "%d"), (2000, "name %05d"), (1000, "\u00e6%d"), (1000, "\\u0061%d")):
        names = [name % i for i in range(count)]
        yield from wide(names)
    yield from wide(["".join("a\u0122" if i >> pair & 1 else "b!" for pair in range(10)) for i in range(1024)])


def wide(names):
    """An object with the names; then with one of them once more: the first, one in the middle, the last."""
    text = "{%s}" % ",".join('"%s":1' % name for name in names)
    yield text.encode(), taken(2 * len(names) + 1)
    for again in (names[0], names[len(names) // 2], names[-1]):
        longer = (text[:-1] + ',"%s' % again).encode()
        yield longer + b'":1}', refused(6, len(longer))


def depth_cases():
    """Code 7: the 33rd open bracket, only where a value may stand."""
    yield b"[" * 32 + b"]" * 32, taken(32)
    yield b"[" * 33 + b"]" * 33, refused(7, 32)
    yield b"[" * 33, refused(7, 32)
    yield b"[" * 32 + b"{", refused(7, 32)
    yield b"[" * 32 + b"1,[", refused(7, 34)
    yield b"[" * 32 + b"1[", refused(3, 33)
    yield b"[" * 32 + b"1{", refused(3, 33)
    yield b"[" * 31 + b"{[", refused(3, 32)
    yield b"[" * 31 + b"{{", refused(3, 32)
    yield b"[" * 31 + b'{"a"[', refused(3, 35)
    yield b"[" * 31 + b'{"a":[', refused(7, 36)
    yield b"[" * 31 + b'{"a":{', refused(7, 36)
    yield b"[" * 32 + b"\x80", refused(3, 32)
    yield b"[" * 31 + b"[],[],{}" + b"]" * 31, taken(34)
    yield b"[" * 31 + b"[],[[", refused(7, 35)
    yield b'{"a":' * 32 + b"1" + b"}" * 32, taken(65)
    yield b'{"a":' * 33, refused(7, 160)
    yield b"[" * 32 + b"]" * 32 + b"[", refused(3, 64)
    yield b'"' + b"[" * 40 + b'"', taken(1)


def taken_cases():
    """Code 0: any value at the top, every kind of space, every escape."""
    for text, rows in [
        (b"null", 1), (b"false", 1), (b"true", 1), (b'""', 1), (b'"a"', 1),
        (b"[]", 1), (b"{}", 1), (b"[ ]", 1), (b"{ }", 1), (b"0", 1), (b"-0", 1),
        (b"-0.0", 1), (b"0e0", 1), (b"0E+00", 1), (b"1e-07", 1), (b"1.50", 1),
        (b"10", 1), (b"-9", 1), (b"1E400", 1), (b" \t\n\r1 \t\n\r", 1),
        (b"[ 1 , 2 ]", 3), (b'{ "a" : 1 , "b" : 2 }', 5),
        (b'\r{\n"a"\t: [\r\n1\t,\n{ } ]\r}\n', 5),
        (b'"\x7F"', 1), (b'"\xEF\xBB\xBF"', 1), (b'"\xC2\x80"', 1),
        (b'"\xDF\xBF"', 1), (b'"\xE0\xA0\x80"', 1), (b'"\xED\x9F\xBF"', 1),
        (b'"\xEE\x80\x80"', 1), (b'"\xEF\xBF\xBF"', 1),
        (b'"\xF0\x90\x80\x80"', 1), (b'"\xF4\x8F\xBF\xBF"', 1),
        (b'"\\"\\\\\\/\\b\\f\\n\\r\\t"', 1), (b'"\\u00e9\\u00E9"', 1),
        (b'"\\uD7FF\\uE000"', 1), (b'"\\uD800\\uDC00"', 1),
        (b'"\\udbff\\udfff"', 1), (b'"\\uD83D\\ude00"', 1), (b'"\\u0000"', 1),
        (b'{"a":1,"A":2}', 5), (b'{"a":{"a":{"a":1}}}', 7),
        (b'[{"a":1},{"a":1}]', 7), (b'{"a":1,"aa":2,"":3}', 7),
        (b'{"\xC3\xA9":1,"e\xCC\x81":2}', 5),  # no normalisation
        (b'{"\\\\u0061":1,"a":2}', 5), (b'{"a":"a","b":"a"}', 5),
    ]:
        yield text, taken(rows)


def all_cases():
    for cases in [length_cases, ended_cases, byte_cases, byte_range_cases,
                  utf8_cases, surrogate_cases, name_cases, wide_cases, depth_cases,
                  taken_cases]:
        yield from cases()


CASES = list(all_cases())

ROW_CASES = [
    (b'{"a":[1,true]}', [(8, 0, 14, 1, 5, 0), (9, 1, 4, 0, 1, 0), (7, 5, 13, 2, 3, 0),
                         (4, 6, 7, 0, 1, 2), (3, 8, 12, 0, 1, 2)]),
    (b" null ", [(1, 1, 5, 0, 1, 0)]),
    (b"false", [(2, 0, 5, 0, 1, 0)]),
    (b"-0", [(4, 0, 2, 0, 1, 0)]),
    (b"1.0", [(5, 0, 3, 0, 1, 0)]),
    (b"1e2 ", [(5, 0, 3, 0, 1, 0)]),
    (b'"\\n"', [(6, 0, 4, 0, 1, 0)]),
    (b"[ ] ", [(7, 0, 3, 0, 1, 0)]),
    (b"{}", [(8, 0, 2, 0, 1, 0)]),
    (b'{"a":{},"b":[null]}', [(8, 0, 19, 2, 6, 0), (9, 1, 4, 0, 1, 0),
                              (8, 5, 7, 0, 1, 0), (9, 8, 11, 0, 1, 0),
                              (7, 12, 18, 1, 2, 0), (1, 13, 17, 0, 1, 4)]),
    # What stands behind an array or object that has ended stands in the one around it.
    (b"[[1],2]", [(7, 0, 7, 2, 4, 0), (7, 1, 4, 1, 2, 0), (4, 2, 3, 0, 1, 1), (4, 5, 6, 0, 1, 0)]),
    (b'[{"a":[],"b":1},null]', [(7, 0, 21, 2, 7, 0), (8, 1, 15, 2, 5, 0), (9, 2, 5, 0, 1, 1), (7, 6, 8, 0, 1, 1),
                                (9, 9, 12, 0, 1, 1), (4, 13, 14, 0, 1, 1), (1, 16, 20, 0, 1, 0)]),
    (b'[[[[]],[[]]]]', [(7, 0, 13, 1, 6, 0), (7, 1, 12, 2, 5, 0), (7, 2, 6, 1, 2, 1), (7, 3, 5, 0, 1, 2),
                        (7, 7, 11, 1, 2, 1), (7, 8, 10, 0, 1, 4)]),
]

ROOM_CASES = [
    *[(b"1", words, (8, 1, 0, 1)) for words in range(6)],
    *[(b"1", words, (0, 0, 0, 1)) for words in range(6, 13)],
    *[(b"[1]", words, (8, 1, 0, 2)) for words in range(12)],
    (b"[1]", 12, (0, 0, 0, 2)),
    (b'{"a":[1,true]}', 29, (8, 1, 0, 5)),
    (b'{"a":[1,true]}', 30, (0, 0, 0, 5)),
    *[(text, words, answer) for words in [0, 1, 5, 6, 11] for text, answer in [
        (b"", refused(2, 0)), (b"[1,]", refused(3, 3)), (b'"\x80', refused(4, 1)),
        (b'"\\uDC', refused(5, 4)), (b'{"a":1,"a"', refused(6, 9)),
        (b"[" * 33, refused(7, 32)), (b" " * 65537, refused(1, 65536))]],
]

SCHEMA_CASES = [
    (b" " * 16383 + b"1", (0, 0, 0, 1)),
    (b" " * 16384, (2, 2, 16384, 0)),
    (b" " * 16384 + b"1", (1, 2, 16384, 0)),
    (b"[" * 24 + b"]" * 24, (0, 0, 0, 24)),
    (b"[" * 25, (7, 2, 24, 0)),
    (b"[1,]", (3, 2, 3, 0)),
]

VALUE_CASES = [
    (b" null ", ("null", None)),
    (b"[false,true]", ("array", [("boolean", False), ("boolean", True)])),
    (b"[-0,1.50,1E+2]", ("array", [("number", b"-0"), ("number", b"1.50"),
                                   ("number", b"1E+2")])),
    (b'"\\u0061\\/\\n\xC3\xA9\xE2\x82\xAC"', ("string", [0x61, 0x2F, 0x0A, 0xE9, 0x20AC])),
    (b'"\\uD83D\\uDE00"', ("string", [0x1F600])),
    (b'"\xF4\x8F\xBF\xBF"', ("string", [0x10FFFF])),
    (b'{"b":{},"\\u0061":""}', ("object", [([0x62], ("object", [])),
                                         ([0x61], ("string", []))])),
]
