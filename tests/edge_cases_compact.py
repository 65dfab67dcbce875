"""Cases of Compact with what 02 (L6) says is written.

CASES:       (text, what is written).
ROOM_CASES:  (text, words of the table, bytes of the buffer, answer).
"""

CONTROLS = {0x08: b"\\b", 0x09: b"\\t", 0x0A: b"\\n", 0x0C: b"\\f", 0x0D: b"\\r"}


def same(*texts):
    """Texts that are their own spelling."""
    return [(text, text) for text in texts]


def space_cases():
    """No space, outside strings."""
    yield from [
        (b" null ", b"null"), (b"\t\n\r 1", b"1"), (b"[ ]", b"[]"), (b"{\r\n}", b"{}"), (b" [ 1 , 2 ] ", b"[1,2]"),
        (b'{ "a" : 1 , "b" : [ ] }', b'{"a":1,"b":[]}'), (b'[ " a  b " ]', b'[" a  b "]'),
        (b'{" " : " "}', b'{" ":" "}'), (b'"[ 1 , 2 ]"', b'"[ 1 , 2 ]"'),
    ]


def member_cases():
    """Members in their order."""
    yield from same(b'{"b":1,"a":2}', b'{"a":2,"b":1}', b'{"aa":0,"a":0,"":0}', b'{"10":0,"9":0,"A":0,"a":0}')
    yield b'{"\\u0062":1,"a":{"d":0, "c":0}}', b'{"b":1,"a":{"d":0,"c":0}}'


def number_cases():
    """Numbers as spelled."""
    yield from same(b"1.0", b"1", b"1e0", b"1E0", b"1e+0", b"1e-0", b"1e00", b"-0", b"0", b"-0.0", b"100", b"1e2", b"0.10",
                    b"0.1", b"12345678901234567890", b"1E400", b"[1.0,1,1.00]")


def literal_cases():
    yield from same(b"null", b"true", b"false", b"[null,true,false]", b'"null"')


def escape_cases():
    """Only `"`, `\\` and bytes under 20 hex are escaped, by the short form where there is one."""
    yield b'"\\"\\\\\\/\\b\\f\\n\\r\\t"', b'"\\"\\\\/\\b\\f\\n\\r\\t"'
    yield b'"\\u0022\\u005c\\u005C\\u002f\\u002F"', b'"\\"\\\\\\\\//"'
    for byte in range(0x20):
        written = CONTROLS.get(byte, b"\\u00%02x" % byte)
        for digits in {b"%04x" % byte, b"%04X" % byte}:
            yield b'"\\u' + digits + b'"', b'"' + written + b'"'
            yield b'{"x\\u' + digits + b'y":0}', b'{"x' + written + b'y":0}'
    for byte in range(0x20, 0x80):
        plain = bytes([byte])
        escaped = b"\\" + plain if plain in b'"\\' else plain
        yield b'"\\u%04x"' % byte, b'"' + escaped + b'"'
        yield b'"' + escaped + b'"', b'"' + escaped + b'"'
    yield b'"\\\\u0041"', b'"\\\\u0041"'
    yield b'"\\\\\\u0041\\\\"', b'"\\\\A\\\\"'


def character_cases():
    """All other characters in UTF-8."""
    for scalar in [0x7F, 0x80, 0xE9, 0x7FF, 0x800, 0x20AC, 0x2028, 0x2029, 0xD7FF, 0xE000, 0xFEFF, 0xFFFD, 0xFFFE, 0xFFFF]:
        encoded = chr(scalar).encode()
        for digits in {b"%04x" % scalar, b"%04X" % scalar}:
            yield b'"\\u' + digits + b'"', b'"' + encoded + b'"'
        yield b'"' + encoded + b'"', b'"' + encoded + b'"'
    yield b'"\\ud83d\\ude00"', '"\U0001F600"'.encode()
    yield b'"\\uD800\\uDC00\\uDBFF\\udfff"', '"\U00010000\U0010FFFF"'.encode()
    yield b'{"\\ud83D\\uDE00":"\\u00e9"}', '{"\U0001F600":"\u00e9"}'.encode()
    yield '"\U0001F600 e\u0301 \u00e9"'.encode(), '"\U0001F600 e\u0301 \u00e9"'.encode()


def nested_cases():
    yield from same(b"[]", b"{}", b"[[],{}]", b'{"a":[1,true]}', b"[" * 32 + b"]" * 32)
    yield b"[ " * 32 + b"] " * 32, b"[" * 32 + b"]" * 32
    yield b'{"a" : ' * 32 + b"0" + b"}" * 32, b'{"a":' * 32 + b"0" + b"}" * 32


def long_cases():
    """Texts of 65,536 bytes: space alone goes, escapes alone, nothing."""
    yield b" " * 65535 + b"1", b"1"
    yield b'"' + b"a" * 65534 + b'"', b'"' + b"a" * 65534 + b'"'
    yield b'"' + b"\\u0061" * 10922 + b'"' + b"  ", b'"' + b"a" * 10922 + b'"'
    yield b"[1" + b" ,1" * 21844 + b" ]", b"[1" + b",1" * 21844 + b"]"
    yield b'"' + b"\\u001F" * 10922 + b'"' + b"\n\n", b'"' + b"\\u001f" * 10922 + b'"'


CASES = [case for group in [space_cases, member_cases, number_cases, literal_cases, escape_cases, character_cases,
                            nested_cases, long_cases] for case in group()]

# Codes 1 to 8 come before 60, and 60 has the length needed.
ROOM_CASES = [
    (b"1", 6, 1, (0, 0, 0, 1)), (b"1", 6, 0, (60, 0, 0, 1)), (b"1", 5, 0, (8, 1, 0, 1)), (b"1", 0, 9, (8, 1, 0, 1)),
    (b"", 0, 0, (2, 1, 0, 0)), (b"[1,]", 0, 0, (3, 1, 3, 0)), (b'"\xFF"', 6, 0, (4, 1, 1, 0)),
    (b'"\\udc00"', 6, 0, (5, 1, 4, 0)), (b'{"a":1,"a":2}', 0, 0, (6, 1, 9, 0)), (b"[" * 33, 0, 0, (7, 1, 32, 0)),
    (b" " * 65537, 0, 0, (1, 1, 65536, 0)), (b" " * 65535 + b"1", 6, 0, (60, 0, 0, 1)),
    (b' [ "\\u0061" ] ', 12, 5, (0, 0, 0, 5)), (b' [ "\\u0061" ] ', 12, 4, (60, 0, 0, 5)),
    (b' [ "\\u0061" ] ', 11, 4, (8, 1, 0, 2)), (b'"\\u001F"', 6, 7, (60, 0, 0, 8)), (b'"\\u000A"', 6, 4, (0, 0, 0, 4)),
]
