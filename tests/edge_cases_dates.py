"""Cases of Check with dates (02, L3).

MOMENTS:  (date, its moment).
CASES:    (document, schema, code, dates): with room for every row, the code of Check, and
          how many values were judged as DateTime, their earliest and latest moment.
TABLES:   (document, schema, words of table 1, of table 2, code): all three numbers are 0.
"""

# Dates of 02, of RFC 3339, and where a sum, a sign or 32 bits could go wrong.
MOMENTS = [
    ("1970-01-01T00:00:00Z", 0), ("1970-01-01t00:00:00z", 0), ("1970-01-01T00:00:00-00:00", 0),
    ("1970-01-01T00:00:00.999999999Z", 0), ("1970-01-01T00:00:01Z", 1),
    ("1969-12-31T23:59:59Z", -1), ("1969-12-31T23:59:59.5Z", -1), ("1969-12-31T23:59:58.9Z", -2),
    ("1970-01-01T00:00:00+01:00", -3600), ("1970-01-01T00:00:00-01:00", 3600),
    ("1969-12-31T23:00:00-01:00", 0), ("1970-01-02T05:29:59+05:30", 86399),
    # Second 60 is the second after 59.
    ("1969-12-31T23:59:60Z", 0), ("1969-12-31T23:59:60.5z", 0), ("1972-06-30T23:59:59Z", 78796799),
    ("1972-06-30T23:59:60Z", 78796800), ("1972-07-01T00:00:00Z", 78796800),
    ("1990-12-31T15:59:60-08:00", 662688000), ("1991-01-01T07:59:60.25+08:00", 662688000),
    # RFC 3339, section 5.8.
    ("1985-04-12T23:20:50.52Z", 482196050), ("1996-12-19T16:39:57-08:00", 851042397),
    ("1990-12-31T23:59:60Z", 662688000), ("1937-01-01T12:00:27.87+00:20", -1041337173),
    # Leap years, and years that are none.
    ("2000-02-29T00:00:00Z", 951782400), ("2000-03-01T00:00:00Z", 951868800),
    ("1900-02-28T00:00:00Z", -2203977600), ("1900-03-01T00:00:00Z", -2203891200),
    ("2100-02-28T23:59:59Z", 4107542399), ("2100-03-01T00:00:00Z", 4107542400),
    ("2024-02-29T23:59:59Z", 1709251199), ("2023-12-31T23:59:59Z", 1704067199),
    # 32 bits, with a sign and without.
    ("2038-01-19T03:14:07Z", 2147483647), ("2038-01-19T03:14:08Z", 2147483648),
    ("1901-12-13T20:45:52Z", -2147483648), ("1901-12-13T20:45:51Z", -2147483649),
    ("2106-02-07T06:28:15Z", 4294967295), ("2106-02-07T06:28:16Z", 4294967296),
    # The first year and the last, and the least and the greatest moment.
    ("0000-01-01T00:00:00Z", -62167219200), ("0000-01-01T23:58:60+23:59", -62167219200),
    ("0000-02-29T00:00:00Z", -62162121600), ("0001-01-01T00:00:00Z", -62135596800),
    ("9999-12-31T23:59:59Z", 253402300799), ("9999-12-31T23:59:60Z", 253402300800),
    ("0000-01-01T00:00:00+23:59", -62167305540), ("9999-12-31T23:59:59-23:59", 253402387139),
]

LEAST, GREATEST = '"0000-01-01T00:00:00+23:59"', '"9999-12-31T23:59:59-23:59"'
NONE = (0, 0, 0)


def at(second):
    """A date with this moment, 0 to 59, as text."""
    return '"1970-01-01T00:00:%02dZ"' % second


def dates(*seconds):
    return "[" + ",".join(map(at, seconds)) + "]"


def parts(required, optional=""):
    return '{"Object":{"required":{%s},"optional":{%s}}}' % (required, optional)


ARRAY, MAP = '{"Array":"DateTime"}', '{"Map":"DateTime"}'
MANY = [at(second % 60) for second in range(2000)]

# No value is judged as DateTime.
WITHOUT = [
    ("1", '"Integer"'), ("[]", ARRAY), ("{}", MAP), ("{}", '{"Object":{"optional":{"a":"DateTime"}}}'),
    ("[[],[]]", '{"Array":{"Array":"DateTime"}}'), ("[]", '{"Array":%s}' % parts('"a":"DateTime"')),
    (at(5), '"String"'), (at(5), '"JSON"'), (dates(5, 6), '{"Array":"String"}'), (dates(5, 6), '"JSON"'),
    ('{"a":%s}' % at(5), '"JSON"'), ('{"a":%s}' % at(5), '{"Map":"String"}'), ('{"a":%s}' % at(5), '{"Map":"JSON"}'),
    # Under Schema a string may stand where a definition does not look, or be the name of the type.
    ('{"Object":{"x":%s,"y":%s}}' % (at(5), dates(6)), '"Schema"'), ('"DateTime"', '"Schema"'),
    ('{"Object":{"required":{%s:"DateTime"}}}' % at(5), '"Schema"'),
    # Names that the schema does not have.
    ('{"a":%s,"b":%s}' % (at(5), dates(6)), '{"Object":{}}'), ('{"A":%s}' % at(5), parts("", '"a":"DateTime"')),
    ('{"a":%s}' % at(5), '{"Object":{"a":"DateTime","Required":{"a":"DateTime"}}}'),
    ('{"a":1,%s:%s}' % (at(5), at(6)), parts('"a":"Integer"')),
]

WITH = [
    # Places of the earliest and the latest.
    (dates(1), ARRAY, (1, 1, 1)), (dates(1, 2), ARRAY, (2, 1, 2)), (dates(2, 1), ARRAY, (2, 1, 2)),
    (dates(2, 1, 3), ARRAY, (3, 1, 3)), (dates(2, 3, 1), ARRAY, (3, 1, 3)), (dates(3, 1, 2), ARRAY, (3, 1, 3)),
    ("[%s,%s]" % (LEAST, GREATEST), ARRAY, (2, -62167305540, 253402387139)),
    ("[%s,%s,%s]" % (GREATEST, at(0), LEAST), ARRAY, (3, -62167305540, 253402387139)),
    # All before 1970, or all behind it: 0 is none of them.
    ('["1969-12-31T23:59:58Z","1969-12-31T23:59:59Z"]', ARRAY, (2, -2, -1)), (dates(4, 9, 7), ARRAY, (3, 4, 9)),
    (dates(0), ARRAY, (1, 0, 0)),
    # Two values with one string, and two strings with one moment, are two.
    (dates(5, 5), ARRAY, (2, 5, 5)), (dates(5, 5, 5, 5), ARRAY, (4, 5, 5)),
    ('[%s,"1970-01-01T01:00:05.5+01:00"]' % at(5), ARRAY, (2, 5, 5)),
    # The written times stand in another order than the moments.
    ('["1970-01-01T09:00:00+09:00","1970-01-01T00:00:01Z"]', ARRAY, (2, 0, 1)),
    ('["1970-01-02T00:00:00+23:00","1970-01-01T23:00:00-01:00"]', ARRAY, (2, 3600, 86400)),
    # Under Map, under Array in Array, under both in one another.
    ('{"b":%s,"":%s}' % (at(5), at(4)), MAP, (2, 4, 5)), ('{%s:%s}' % (at(9), at(4)), MAP, (1, 4, 4)),
    ("[%s,[],%s]" % (dates(5, 3), dates(7)), '{"Array":{"Array":"DateTime"}}', (3, 3, 7)),
    ('{"a":%s,"b":%s}' % (dates(9), dates(1, 2)), '{"Map":{"Array":"DateTime"}}', (3, 1, 9)),
    ('[{"a":%s},{}]' % at(9), '{"Array":{"Map":"DateTime"}}', (1, 9, 9)),
    ("[" * 23 + dates(3, 8) + "]" * 23, '{"Array":' * 24 + '"DateTime"' + "}" * 24, (2, 3, 8)),
    # Required and optional names, in any order; others beside them.
    ('{"a":%s}' % at(1), parts('"a":"DateTime"'), (1, 1, 1)), ('{"a":%s}' % at(1), parts("", '"a":"DateTime"'), (1, 1, 1)),
    ('{"a":%s,"b":%s}' % (at(2), at(1)), parts('"a":"DateTime"', '"b":"DateTime"'), (2, 1, 2)),
    ('{"b":%s,"a":%s}' % (at(2), at(1)), parts('"a":"DateTime"', '"b":"DateTime"'), (2, 1, 2)),
    ('{"a":%s}' % at(2), parts('"a":"DateTime"', '"b":"DateTime"'), (1, 2, 2)),
    ('{"c":%s,"a":%s,"d":%s}' % (at(1), at(5), at(9)), parts('"a":"DateTime"', '"b":"DateTime"'), (1, 5, 5)),
    ('{"a":%s,"b":%s,"c":%s}' % (at(1), at(5), at(9)), parts('"a":"String","b":"DateTime"', '"c":"JSON"'), (1, 5, 5)),
    ('{"a":{"b":%s},"b":%s}' % (dates(8), at(1)), parts('"a":%s' % parts('"b":%s' % ARRAY), '"b":"String"'), (1, 8, 8)),
    ('{"s":{"Object":{"x":%s}},"d":%s}' % (at(1), at(5)), parts('"s":"Schema","d":"DateTime"'), (1, 5, 5)),
    # Escapes, in dates and in names.
    ('"\\u0031970-01-01T00:00:00\\u005a"', '"DateTime"', (1, 0, 0)),
    ('["1970-01-01T00:00:00\\u002b01:00","\\u0031\\u0039\\u0036\\u0039-12-31T23:59:\\u00360Z"]', ARRAY, (2, -3600, 0)),
    ('{"\\u0061":%s,"\\u0062":%s}' % (at(1), at(5)), parts('"a":"DateTime"', '"b":"DateTime"'), (2, 1, 5)),
    ('{"a":%s}' % at(1), parts('"\\u0061":"\\u0044ateTime"'), (1, 1, 1)),
    # Many.
    ("[" + ",".join(MANY) + "]", ARRAY, (2000, 0, 59)),
    ("[" + ",".join([at(7)] * 2730) + "]", ARRAY, (2730, 7, 7)),
]

# Codes other than 0, behind dates.
FAILING = [
    ("[" + ",".join(MANY + ["1"]) + "]", ARRAY, 20), ("[" + ",".join(MANY + ['"x"']) + "]", ARRAY, 22),
    ("[" + ",".join(MANY + [at(5), '"1970-01-01T00:00:60Z"']) + "]", ARRAY, 22), ("[%s]" % at(5), MAP, 20),
    ('{"a":%s}' % dates(5), parts('"a":%s,"b":"JSON"' % ARRAY), 21),
    ('{"a":%s,"b":1}' % at(5), parts('"a":"DateTime"', '"b":"DateTime"'), 20),
    ('{"a":%s,"b":""}' % at(5), parts('"a":"DateTime"', '"b":"DateTime"'), 22),
    ("[" + ",".join(MANY) + ",]", ARRAY, 3), ("[" + ",".join(MANY), ARRAY, 2), ('{"a":%s,"a":%s}' % (at(5), at(6)), MAP, 6),
    ("[" + ",".join(MANY) + ',"\\udc00"]', ARRAY, 5), ("[" * 33, ARRAY, 7), (at(5) + " " * 65536, '"DateTime"', 1),
    (at(5), '"DateTime', 2), (at(5), '{"Array":"DateTime","Array":1}', 6), (at(5), "[]", 10), (at(5), '"Date"', 11),
    ('{"a":%s}' % at(5), parts('"a":"DateTime"', '"a":"DateTime"'), 12), (at(5), '"DateTime"' + " " * 16384, 1),
]


def wide_cases():
    """Objects with so many names that they are looked up by an index: every third name holds a date, as required, as
    optional, as a string or as a name that the schema does not have; the date of a name is told by its number."""
    for count in [31, 32, 33, 64, 300, 700]:
        fields = ['"%x":"%s"' % (name, "DateTime" if name % 3 == 0 else "String") for name in range(count)]
        members = ['"%x":%s' % (name, at(name % 60)) for name in range(count + 20)]
        wanted = [name % 60 for name in range(count) if name % 3 == 0]
        numbers = (len(wanted), min(wanted), max(wanted))
        half = count // 2
        for schema in [parts(",".join(fields)), parts("", ",".join(fields)), parts(",".join(fields[half:]), ",".join(fields[:half]))]:
            yield "{" + ",".join(members) + "}", schema, numbers
            yield "{" + ",".join(members[::-1]) + "}", schema, numbers
        yield "{" + ",".join(members[1:]) + "}", parts("", ",".join(fields)), (numbers[0] - 1, min(wanted[1:]), numbers[2])


def cases():
    for date, moment in MOMENTS:
        yield '"%s"' % date, '"DateTime"', 0, (1, moment, moment)
    for document, schema in WITHOUT:
        yield document, schema, 0, NONE
    for document, schema, numbers in [*WITH, *wide_cases()]:
        yield document, schema, 0, numbers
    for document, schema, code in FAILING:
        yield document, schema, code, NONE


CASES = [(document.encode(), schema.encode(), code, numbers) for document, schema, code, numbers in cases()]
CASES.append((b"[" + at(5).encode() + b',"\xff"]', ARRAY.encode(), 4, NONE))

TABLES = [
    (dates(5, 6).encode(), ARRAY.encode(), 17, 18, 8), (dates(5, 6).encode(), ARRAY.encode(), 18, 17, 8),
    (dates(5, 6).encode(), ARRAY.encode(), 0, 0, 8), (at(5).encode(), b'"DateTime"', 5, 6, 8),
    (at(5).encode(), b'"DateTime"', 6, 5, 8), (at(5).encode(), b'"Date"', 0, 5, 8), (at(5).encode(), b'"Date"', 0, 6, 11),
]
