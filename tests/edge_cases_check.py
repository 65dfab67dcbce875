"""Cases of Check and Compare with the answer that the papers give.

A ^ in a text stands before the byte of a place and is no part of the text.

DEFINITIONS:     schemas that are accepted.
FAULTS:          (schema, code, place), 10 to 12.
DATES:           (characters, whether they are a date).
CHECK_CASES:     (document, schema, answer), with room for every row.
COMPARE_CASES:   (new schema, old schema, answer), with room for every row.
CHECK_TABLES, COMPARE_TABLES:
    (text 1, text 2, words of table 1, of table 2, answer,
     whether table 1 holds its rows, whether table 2 does).
"""

import json

MARK = "^"


def marked(text):
    """The bytes of a text and the place of its mark."""
    return text.replace(MARK, "").encode(), text.encode().find(MARK.encode())


# Definitions.

DEFINITIONS = [text.encode() for text in [
    '"JSON"', '"Schema"', '"Float"', '"Integer"', '"String"', '"Boolean"', '"DateTime"',
    ' "JSON" ', '"\\u004a\\u0053ON"', '"\\u0044ateTime"',
    '{"Array":"JSON"}', '{"Map":"JSON"}', '{"Object":{}}', '{"\\u004fbject":{}}',
    '{"\\u0041rray":"\\u0046loat"}', '{"Ma\\u0070":{"Array":{"Map":"String"}}}',
    '{"Object":{"required":{}}}', '{"Object":{"optional":{}}}',
    '{"Object":{"required":{},"optional":{}}}',
    '{"Object":{"required":{"a":"JSON"},"optional":{"b":"JSON"}}}',
    '{"Object":{"optional":{"a":"JSON"},"required":{"b":"JSON"}}}',
    '{"Object":{"required":{"a":"JSON"},"optional":{"A":"JSON","":"JSON"}}}',
    '{"Object":{"required":{"\u00e9":"JSON"},"optional":{"e\u0301":"JSON"}}}',
    '{"Object":{"\\u0072equired":{"a":"JSON"}}}',
    '{"Object":{"x":1,"required":{},"y":{"Array":[]},"z":"x"}}',
    '{"Object":{"Required":1,"Optional":2,"Object":3,"Array":"x"}}',
    '{"Object":{"required":{"required":"JSON"},"optional":{"optional":"JSON"}}}',
    '{"Object":{"required":{"a":{"Object":{"optional":{"a":"JSON"}}}}}}',
    '{"Array":' * 24 + '"JSON"' + "}" * 24,
    '{"Object":{"required":{"a":' * 8 + '"JSON"' + "}}}" * 8,
]]

FAULT_TEXTS = [
    # Other kinds.
    (10, '^null'), (10, '^true'), (10, '^false'), (10, '^1'), (10, '^1.5'), (10, '^[]'),
    (10, ' ^["JSON"]'), (10, '{"Array":^1}'), (10, '{"Map":^[]}'),
    (10, '{"Array": ^null }'), (10, '{"Array":{"Map":^1}}'),
    # Another string.
    (11, '^""'), (11, '^"json"'), (11, '^"JSON "'), (11, '^"Datetime"'), (11, '^"Number"'),
    (11, '^"Object"'), (11, '^"Array"'), (11, '^"JSON\\u0000"'), (11, '^"\\\\u004aSON"'),
    (11, '{"Array":^"x"}'), (11, '{"Map":{"Array":^"integer"}}'),
    # A single member with another name, whatever stands under it.
    (11, '{^"array":"JSON"}'), (11, '{^"x":1}'), (11, '{ ^"":{}}'), (11, '{^"JSON":"JSON"}'),
    (11, '{^"required":{}}'), (11, '{"Array":{^"object":1}}'), (11, '{^"Object\\u0000":{}}'),
    # No member, or more than one.
    (10, '^{}'), (10, ' ^{ }'), (10, '{"Array":^{}}'), (10, '^{"Array":"JSON","Map":"JSON"}'),
    (10, '^{"Array":"JSON","x":1}'), (10, '^{"x":1,"Array":"JSON"}'), (10, '^{"x":1,"y":2}'),
    (10, '^{"Object":{},"description":"x"}'), (10, '^{"Array":"x","Map":1,"Object":2}'),
    (10, '{"Map":^{"Object":{},"Array":"JSON"}}'),
    # Kind of the body, of "required", of "optional".
    (10, '{"Object":^1}'), (10, '{"Object":^[]}'), (10, '{"Object":^"JSON"}'),
    (10, '{"Object":^null}'), (10, '{"Object":{"required":^1}}'),
    (10, '{"Object":{"required":^"JSON"}}'), (10, '{"Object":{"optional":^[]}}'),
    (10, '{"Object":{"optional":^null}}'), (10, '{"Object":{"\\u006fptional":^1}}'),
    (10, '{"Object":{"optional":1,"required":^2}}'),
    (10, '{"Object":{"required":^2,"optional":1}}'),
    (10, '{"Object":{"required":{"a":1},"optional":^2}}'),
    (10, '{"Object":{"required":{"a":"x"},"x":0,"optional":^[]}}'),
    # Shared names, in the order of "optional", before any definition.
    (12, '{"Object":{"optional":{"c":1,^"b":2},"required":{"b":1}}}'),
    (12, '{"Object":{"required":{"b":1},"optional":{"c":1,^"b":2}}}'),
    (12, '{"Object":{"required":{"a":1,"b":2},"optional":{^"b":1,"a":2}}}'),
    (12, '{"Object":{"required":{"a":"JSON"},"optional":{^"\\u0061":"JSON"}}}'),
    (12, '{"Object":{"required":{"\\u00E9":"JSON"},"optional":{^"\u00e9":"JSON"}}}'),
    (12, '{"Object":{"required":{"":"JSON"},"optional":{^"":"JSON"}}}'),
    (12, '{"Array":{"Object":{"required":{"a":"x"},"optional":{^"a":1}}}}'),
    # Then the definitions of "required" in order, then of "optional".
    (10, '{"Object":{"required":{"a":^1,"b":2}}}'),
    (10, '{"Object":{"optional":{"a":1},"required":{"b":^2}}}'),
    (11, '{"Object":{"optional":{"a":1},"required":{"b":^"x"}}}'),
    (10, '{"Object":{"optional":{"a":^1,"c":"x"},"required":{"b":"JSON"}}}'),
    (11, '{"Object":{"required":{"b":"JSON"},"optional":{"a":^"x"}}}'),
    # Each definition wholly before the next.
    (11, '{"Object":{"required":{"a":{"Array":{"Map":^"x"}},"b":1}}}'),
    (12, '{"Object":{"required":{"x":{"Object":{"required":{"a":1},"optional":{^"a":1}}},"y":1}}}'),
    (12, '{"Object":{"required":{"x":{"Object":{"required":{"a":{}}}}},"optional":{^"x":1}}}'),
    (10, '{"Object":{"required":{"x":{"Object":{"required":{"a":^{}}}}},"optional":{"y":1}}}'),
]


def faults():
    for code, text in FAULT_TEXTS:
        schema, place = marked(text)
        yield schema, code, place


FAULTS = list(faults())


# Dates.

GOOD_DATES = [
    "2024-04-30T23:59:59.5+02:00", "0000-02-29T00:00:00z", "0000-01-01T00:00:00Z",
    "9999-12-31T23:59:59Z", "2024-04-30t08:00:00Z", "2024-04-30T08:00:00z",
    "2000-02-29T00:00:00Z", "0400-02-29T00:00:00Z", "2024-02-29T00:00:00Z",
    "2024-04-30T08:00:00-00:00", "2024-04-30T08:00:00+23:59", "2024-04-30T08:00:00-23:59",
    "2024-04-30T08:00:00.0Z", "2024-04-30T08:00:00." + "1" * 99 + "-01:00",
]
# RFC 3339, section 5.8.
PUBLISHED_DATES = [
    "1985-04-12T23:20:50.52Z", "1996-12-19T16:39:57-08:00", "1990-12-31T23:59:60Z",
    "1990-12-31T15:59:60-08:00", "1937-01-01T12:00:27.87+00:20",
]
BAD_DATES = [
    "2024-04-31T08:00:00Z", "1900-02-29T00:00:00Z", "2100-02-29T00:00:00Z",
    "2023-02-29T00:00:00Z", "2024-02-30T00:00:00Z", "2024-04-30", "2024-04-30 08:00:00Z",
    "2024-04-30T24:00:00Z", "2024-04-30T08:60:00Z", "2024-04-30T08:00:60Z",
    "2024-04-30T08:00:00+24:00", "2024-04-30T08:00:00+02:60", "2024-04-30T00:00:00.Z",
    "2024-00-30T08:00:00Z", "2024-13-30T08:00:00Z", "2024-04-00T08:00:00Z",
    "2024-04-30T08:00:00", "2024-04-30T08:00Z", "2024-04-30T08:00:00+0200",
    "2024-04-30T08:00:00+02", "2024-04-30T08:00:00,5Z", "2024-04-30T08:00:00ZZ",
    "2024-04-30T08:00:00.5.5Z", "2024-04-30T8:00:00Z", "24-04-30T08:00:00Z",
    "12024-04-30T08:00:00Z", "-2024-04-30T08:00:00Z", "2024-4-30T08:00:00Z",
    "20240430T080000Z", "2024-W18-2T08:00:00Z", "2024-121T08:00:00Z", "",
    " 2024-04-30T08:00:00Z", "2024-04-30T08:00:00Z ", "2024-04-30T08:00:00Z\n",
    "2024-04-30T08:00:00Z\0", "2024-04-30T08:00:00\u221202:00", "\u0662024-04-30T08:00:00Z",
    "2024-04-3\uff10T08:00:00Z", "2024-04-30T08:00:00 Z", "2024-04-30T08:00:00-2:00",
]
# Second 60, in UTC (the written time less its offset) at 23:59 on 30 June or 31 December.
LEAP_SECONDS = [
    "1990-06-30T23:59:60Z", "1990-06-30T23:59:60z", "1990-12-31t23:59:60z", "1991-06-30T23:59:60+00:00",
    "1991-12-31T23:59:60-00:00", "1990-12-31T23:59:60.0Z", "1990-12-31T15:59:60.999-08:00",
    "1990-06-30T23:59:60." + "1" * 99 + "z",
    # Written earlier on that day.
    "2023-06-30T15:59:60-08:00", "2023-06-30T23:58:60-00:01", "2023-06-30T00:00:60-23:59",
    "2023-12-31T18:29:60-05:30", "2023-12-31T23:58:60-00:01", "2023-12-31T00:00:60-23:59",
    # Written on the next day, in the next month or year.
    "2024-07-01T07:59:60+08:00", "2024-07-01T00:00:60+00:01", "2024-07-01T23:58:60+23:59",
    "2024-01-01T07:59:60+08:00", "2024-01-01T00:00:60+00:01", "2024-01-01T23:58:60+23:59",
    "2024-07-01T05:29:60+05:30", "2024-01-01T12:44:60+12:45",
    # The first year and the last.
    "0000-01-01T07:59:60+08:00", "0000-01-01T00:00:60+00:01", "0000-01-01T23:58:60+23:59",
    "0000-12-31T00:00:60-23:59", "0000-12-31T23:59:60Z", "0000-06-30T23:59:60Z",
    "9999-12-31T00:00:60-23:59", "9999-12-31T23:58:60-00:01", "9999-12-31T23:59:60Z",
    "9999-01-01T23:58:60+23:59", "9999-07-01T00:00:60+00:01", "9999-06-30T23:59:60Z",
]
NO_LEAP_SECONDS = [
    # The end of another month, in UTC.
    "2024-04-30T23:59:60Z", "2024-03-31T23:59:60Z", "2024-09-30T23:59:60Z", "2024-03-31T15:59:60-08:00",
    "2024-04-01T07:59:60+08:00", "2024-09-30T15:59:60-08:00", "2024-10-01T07:59:60+08:00",
    "2024-06-01T07:59:60+08:00", "2024-12-01T07:59:60+08:00", "2023-02-28T23:59:60Z", "2024-02-29T23:59:60Z",
    "2024-02-29T15:59:60-08:00", "2024-02-29T00:00:60-23:59", "2023-03-01T07:59:60+08:00",
    "2024-03-01T07:59:60+08:00", "2024-03-01T23:58:60+23:59",
    # A day off.
    "2024-06-29T23:59:60Z", "2024-07-01T23:59:60Z", "2024-12-30T23:59:60Z", "2025-01-01T23:59:60Z",
    "1990-12-30T15:59:60-08:00", "1991-01-01T15:59:60-08:00", "2024-06-30T07:59:60+08:00",
    "2024-07-02T07:59:60+08:00", "2023-12-31T07:59:60+08:00", "2024-01-02T07:59:60+08:00",
    "2024-06-29T00:00:60-23:59", "2024-07-02T23:58:60+23:59",
    # An hour or a minute off.
    "1990-12-31T22:59:60Z", "1991-01-01T00:59:60Z", "1990-12-31T23:58:60Z", "1991-01-01T00:00:60Z",
    "1990-06-30T23:58:60Z", "1990-07-01T00:00:60Z", "1990-12-31T15:58:60-08:00", "1990-12-31T16:00:60-08:00",
    "2024-07-01T07:58:60+08:00", "2024-07-01T08:00:60+08:00", "2024-06-29T23:59:60-23:59",
    "2024-06-30T00:01:60-23:59", "2024-12-31T00:01:60-23:59", "2024-07-01T23:57:60+23:59",
    "2024-07-01T23:59:60+23:59", "2024-01-01T23:57:60+23:59", "2024-01-01T23:59:60+23:59",
    # The offset the wrong way round, or not looked at.
    "1990-12-31T15:59:60+08:00", "1991-01-01T07:59:60-08:00", "2024-06-30T15:59:60+08:00",
    "2024-07-01T07:59:60-08:00", "2024-06-30T00:00:60+23:59", "2024-07-01T23:58:60-23:59",
    "2024-12-31T23:58:60+00:01", "2024-01-01T00:00:60-00:01", "1990-12-31T23:59:60-08:00",
    "1990-12-31T23:59:60+08:00", "1990-06-30T23:59:60+00:01", "1990-06-30T23:59:60-00:01",
    # The first year and the last.
    "0000-01-01T00:00:60Z", "0000-01-01T00:00:60+23:59", "0000-01-01T23:59:60+23:59", "0000-01-01T07:59:60-08:00",
    "9999-12-31T23:59:60+00:01", "9999-12-31T23:59:60-00:01", "9999-12-31T23:58:60-23:59", "9999-12-31T15:59:60+08:00",
    # Second 61, and other numbers out of their range, although the sum may be right.
    "1990-12-31T23:59:61Z", "1990-12-31T15:59:61-08:00", "1990-12-31T23:59:62Z", "1990-12-31T23:59:99Z",
    "1990-12-31T24:59:60Z", "1990-12-31T24:59:60+01:00", "1990-12-31T24:00:60+00:01", "1990-12-31T23:60:60+00:01",
    "1991-01-01T23:59:60+24:00", "1990-12-30T23:59:60-24:00", "1991-01-01T00:59:60+00:60", "1990-12-31T22:59:60-00:60",
    "2024-06-31T23:59:60Z", "2024-06-31T00:00:60+00:01", "2024-07-00T23:59:60Z", "2024-12-32T00:00:60+00:01",
    "2024-01-00T23:59:60Z", "2024-13-01T00:00:60+00:01",
    # Other forms.
    "1990-12-31T23:59:60.Z", "1990-12-31T23:59:60", "1990-12-31T23:59:060Z", "1990-12-31 23:59:60Z",
]
DAYS = [31, 28, 31, 30, 31, 30, 31, 31, 30, 31, 30, 31]


def month_ends():
    """The last day of each month, its end with a leap second, and the day behind it."""
    for month, days in enumerate(DAYS, 1):
        yield "2023-%02d-%02dT00:00:00Z" % (month, days), True
        yield "2023-%02d-%02dT23:59:60Z" % (month, days), month in (6, 12)
        yield "2023-%02d-%02dT00:00:00Z" % (month, days + 1), False


DATES = [*[(date, True) for date in GOOD_DATES + PUBLISHED_DATES + LEAP_SECONDS],
         *[(date, False) for date in BAD_DATES + NO_LEAP_SECONDS], *month_ends()]


# Check.

MEETING = [
    ("null", '"JSON"'), ('{"a":[1]}', '"JSON"'), ("0", '"Integer"'), ("-0", '"Integer"'),
    ("1.0", '"Float"'), ("1", '"Float"'), ("1e2", '"Float"'), ('""', '"String"'),
    ("true", '"Boolean"'), ("false", '"Boolean"'), ("[]", '{"Array":"Integer"}'),
    ("[1,2]", '{"Array":"Integer"}'), ("{}", '{"Map":"Integer"}'),
    ('{"a":1,"":2}', '{"Map":"Integer"}'), ("{}", '{"Object":{}}'), ('{"a":1}', '{"Object":{}}'),
    ('{"b":null,"a":1}', '{"Object":{"required":{"a":"Integer"}}}'),
    ('{"\\u0061":1}', '{"Object":{"required":{"a":"Integer"}}}'),
    ('{"a":1}', '{"Object":{"required":{"\\u0061":"Integer"}}}'),
    ('{"A":1}', '{"Object":{"optional":{"a":"String"}}}'),
    ('"\\u0032024-04-30T08:00:00\\u005A"', '"DateTime"'),
    ('"1990-12-31T15:59:\\u00360\\u002d08:00"', '"DateTime"'),
    ('"Schema"', '"Schema"'), ('"\\u004aSON"', '"Schema"'), ('{"Object":{"x":1}}', '"Schema"'),
    ('{"Array":' * 32 + '"JSON"' + "}" * 32, '"Schema"'),
    (" " * 20000 + '"JSON"', '"Schema"'),
    ('{"Object":{"x":"' + "x" * 20000 + '"}}', '"Schema"'),
]

MISFITS = [
    # Type names.
    (20, "^1.0", '^"Integer"'), (20, "^1e2", '^"Integer"'), (20, '^"1"', '^"Integer"'),
    (20, "^null", '^"Float"'), (20, " ^1", ' ^"String"'), (20, "^null", '^"Boolean"'),
    (20, "^0", '^"Boolean"'), (20, "^20240430", '^"DateTime"'), (20, "^{}", '^"DateTime"'),
    (22, '^"x"', '^"DateTime"'), (22, '^""', '^"DateTime"'), (22, ' ^"JSON"', ' ^"DateTime"'),
    (22, '["2024-04-30T08:00:00Z",^"2024-04-31T08:00:00Z",1]', '{"Array":^"DateTime"}'),
    (22, '["1990-12-31T15:59:60-08:00",^"1990-12-31T15:59:6\\u0030\\u002b08:00",1]', '{"Array":^"DateTime"}'),
    # Array and Map: the brace of the definition, or the inner definition.
    (20, "^{}", '^{"Array":"JSON"}'), (20, "^1", '^{"Map":"JSON"}'), (20, "^[]", '^{"Map":"JSON"}'),
    (20, "[1,^true,null]", '{"Array":^"Integer"}'), (20, "[[],^{}]", '{"Array":^{"Array":"JSON"}}'),
    (20, "[[1],[2,^[]]]", '{"Array":{"Array":^"Integer"}}'),
    (20, '{"a":1,"b":^"x","c":null}', '{"Map": ^"Integer"}'),
    (20, '{"b":^"x","a":null}', '{"Map":^"Integer"}'),
    # Schema: at the value, never at a place inside it.
    (20, "^1", '^"Schema"'), (20, '^"x"', '^"Schema"'), (20, '^{"Array":1}', '^"Schema"'),
    (20, '^{"Array":"JSON","Map":"JSON"}', '^"Schema"'),
    (20, '["JSON",^{"x":1}]', '{"Array":^"Schema"}'),
    (20, '^{"Object":{"required":{"a":"JSON"},"optional":{"a":"JSON"}}}', '^"Schema"'),
    (20, "^" + '{"Array":' * 31 + "1" + "}" * 31, '^"Schema"'),
    # Object: its own kind first.
    (20, "^[]", '^{"Object":{}}'), (20, "^null", '^{"Object":{"required":{"a":"JSON"}}}'),
    (20, '{"a":^1}', '{"Object":{"required":{"a":^{"Object":{}}}}}'),
    (21, "^{}", '{"Object":{"required":{^"a":"JSON"}}}'),
    (21, ' ^{"A":1}', '{"Object":{"required":{^"\\u0061":"JSON"}}}'),
    (21, '[{"a":1},^{}]', '{"Array":{"Object":{"required":{^"a":"JSON"}}}}'),
    # Names in schema order, whatever the order of the document.
    (20, '{"b":null,"a":^null}', '{"Object":{"required":{"a":^"Float","b":"Float"}}}'),
    (20, '{"b":^null,"a":1}', '{"Object":{"required":{"a":"Float","b":^"Float"}}}'),
    (21, '^{"b":null}', '{"Object":{"required":{^"a":"Float","b":"Float"}}}'),
    # A misfit inside the first comes before a missing second.
    (20, '{"a":[^1]}', '{"Object":{"required":{"a":{"Array":^"String"},"b":"JSON"}}}'),
    (21, '{"a":^{}}',
     '{"Object":{"required":{"a":{"Object":{"required":{^"c":"JSON"}}},"b":"JSON"}}}'),
    (21, '^{"a":[1]}', '{"Object":{"required":{^"b":"JSON","a":{"Array":"String"}}}}'),
    # "required" before "optional", although it may stand behind.
    (20, '{"o":1,"r":^2}', '{"Object":{"optional":{"o":"String"},"required":{"r":^"String"}}}'),
    (21, '^{"o":1}', '{"Object":{"optional":{"o":"String"},"required":{^"r":"String"}}}'),
    (20, '{"r":"","o":^1}', '{"Object":{"optional":{"o":^"String"},"required":{"r":"String"}}}'),
    (20, '{"q":1,"o":^1}', '{"Object":{"optional":{"x":"String","o":^"String","q":"String"}}}'),
    (22, '{"d":^"x"}', '{"Object":{"optional":{"d":^"DateTime"}}}'),
    # The definitions' own names, taken after unescaping.
    (20, "[^1]", '{"\\u0041rray":^"\\u0053tring"}'),
    (21, "^{}", '{"Object":{"\\u0072equired":{^"a":"JSON"}}}'),
]

REFUSED = [
    # The schema wholly first, then the document, then the misfits.
    ("1", "", (2, 2, 0, 0)), ("[1,]", "[1,]", (3, 2, 3, 0)), ("[1,]", '"x"', (11, 2, 0, 0)),
    ("[1,]", '{"Array":1}', (10, 2, 9, 0)), ("[1,]", '"JSON"', (3, 1, 3, 0)),
    ("", '"Integer"', (2, 1, 0, 0)), ("x", '"JSON', (2, 2, 5, 0)),
    ("[null", '{"Array":"Integer"}', (2, 1, 5, 0)), ('{"a":1,"a":2}', '"JSON"', (6, 1, 9, 0)),
    ("1", '{"Array":"JSON","Array":1}', (6, 2, 22, 0)), ('"\\uDC00"', '"JSON"', (5, 1, 4, 0)),
    ("1", '"\\uDC00"', (5, 2, 4, 0)), ("1", '"JSON" 1', (3, 2, 7, 0)),
    # Limits of a schema and of a document.
    ("1", '"Float"' + " " * 16377, (0, 0, 0, 0)), ("1", '"Float"' + " " * 16378, (1, 2, 16384, 0)),
    ("1" + " " * 65535, '"Float"', (0, 0, 0, 0)), ("1" + " " * 65536, '"Float"', (1, 1, 65536, 0)),
    (" " * 65537, " " * 16385, (1, 2, 16384, 0)), (" " * 65537, '"x"', (11, 2, 0, 0)),
    ("1", "[" * 24 + "]" * 24, (10, 2, 0, 0)), ("1", "[" * 25 + "]" * 25, (7, 2, 24, 0)),
    ("[" * 32 + "]" * 32, '"JSON"', (0, 0, 0, 0)), ("[" * 33, '"JSON"', (7, 1, 32, 0)),
    ('{"Array":' * 33, '"Schema"', (7, 1, 288, 0)),
]


def check_cases():
    for document, schema in MEETING:
        yield document.encode(), schema.encode(), (0, 0, 0, 0)
    for code, document, schema in MISFITS:
        (document, place), (schema, other) = marked(document), marked(schema)
        yield document, schema, (code, 1, place, other)
    for document, schema, answer in REFUSED:
        yield document.encode(), schema.encode(), answer
    for characters, taken in DATES:
        document = json.dumps(characters).encode()
        yield document, b'"DateTime"', (0, 0, 0, 0) if taken else (22, 1, 0, 0)
    for schema, code, place in FAULTS:
        yield b"null", schema, (code, 2, place, 0)
        yield schema, b'"Schema"', (20, 1, len(schema) - len(schema.lstrip()), 0)
    for schema in DEFINITIONS:
        yield schema, b'"Schema"', (0, 0, 0, 0)


CHECK_CASES = list(check_cases())

A_REQUIRED = b'{"Object":{"required":{"a":"Integer"}}}'     # 7 rows
CHECK_TABLES = [
    # The schema's room before 10 to 12, the document's after them.
    *[(b"[1]", b'"x"', 12, words, (8, 2, 0, 1), False, False) for words in range(6)],
    *[(b"[1]", b'"x"', words, 6, (11, 2, 0, 0), False, True) for words in (0, 12)],
    (b"[1]", b'{"Array":1}', 0, 17, (8, 2, 0, 3), False, False),
    (b"[1]", b'{"Array":1}', 0, 18, (10, 2, 9, 0), False, True),
    *[(b"[1]", b'"Float"', words, 6, (8, 1, 0, 2), False, True) for words in range(12)],
    *[(b"[1]", b'"Float"', words, 11, (20, 1, 0, 0), True, True) for words in range(12, 19)],
    (b"[1]", b'{"Array":"Float"}', 12, 18, (0, 0, 0, 0), True, True),
    (b"[1]", b'{"Array":"Float"}', 15, 36, (0, 0, 0, 0), True, True),
    (b"{}", A_REQUIRED, 6, 41, (8, 2, 0, 7), False, False),
    (b"{}", A_REQUIRED, 6, 42, (21, 1, 0, 23), True, True),
    (b'"x"', b'"DateTime"', 6, 6, (22, 1, 0, 0), True, True),
    # A malformed text keeps its code whatever the table.
    (b"[1,]", b"[1,]", 0, 0, (3, 2, 3, 0), False, False),
    (b"[1,]", b'"x"', 0, 0, (8, 2, 0, 1), False, False),
    (b"[1,]", b'"JSON"', 0, 6, (3, 1, 3, 0), False, True),
    (b"[1,]", b'"JSON"', 99, 99, (3, 1, 3, 0), False, True),
    (b" " * 65537, b'"JSON"', 9, 9, (1, 1, 65536, 0), False, True),
    (b"1", b" " * 16385, 9, 9, (1, 2, 16384, 0), False, False),
]


# Compare.

def object_with(required="", optional=""):
    return '{"Object":{"required":{%s},"optional":{%s}}}' % (required, optional)


CARRIED = [
    ('"Integer"', '"Float"'), ('"DateTime"', '"String"'), ('"Schema"', '"JSON"'),
    ('{"Object":{}}', '{"Map":"JSON"}'), ('{"Map":"JSON"}', '{"Object":{}}'),
    ('{"Object":{}}', '{"Object":{"optional":{"a":"JSON"}}}'),
    ('{"Map":"Integer"}', '{"Object":{"optional":{"a":"Float"}}}'),
    ('{"Map":"Integer"}', '{"Map":"Float"}'), ('{"Array":"Integer"}', '{"Array":"Float"}'),
    ('{"Array":{"Object":{}}}', '{"Array":{"Map":"JSON"}}'),
    ('{"Map":"Integer"}', '{"Object":{"optional":{"a":"Float","b":"JSON"}}}'),
    ('{"Object":{"required":{"a":"Integer"}}}', '{"Map":"JSON"}'),
    ('{"Object":{"required":{"a":"Integer"}}}', '{"Object":{}}'),
    ('{"Object":{"required":{"a":"Integer"}}}', '{"Object":{"optional":{"a":"Integer"}}}'),
    ('{"Object":{"required":{"a":"Integer"}}}', '{"Object":{"optional":{"a":"Float"}}}'),
    ('{"Object":{"required":{"a":"Integer"}}}', '{"Object":{"required":{"a":"Float"}}}'),
    ('{"Object":{"required":{"a":"Integer"}}}', '{"Object":{"required":{"\\u0061":"Float"}}}'),
    ('{"Object":{"optional":{"a":"Integer"}}}', '{"Object":{"optional":{"a":"Float"}}}'),
    ('{"Object":{"optional":{"a":"Integer"}}}', '{"Map":"JSON"}'),
    (object_with('"a":"Integer","b":"Float"'), object_with('"b":"Float"', '"a":"JSON"')),
    (object_with('"a":"JSON"'), object_with('"a":"JSON"', '"b":"JSON"')),
    ('{"Object":{"required":{},"x":1}}', '{"Object":{}}'),
]

NOT_CARRIED = [
    ('"Float"', '"Integer"'), ('"Schema"', '"String"'), ('"String"', '"DateTime"'),
    ('"String"', '"Schema"'), ('"DateTime"', '"Schema"'), ('"JSON"', '"Schema"'),
    ('"JSON"', '{"Map":"JSON"}'), ('"Integer"', '"Boolean"'), ('"Schema"', '{"Map":"JSON"}'),
    ('"Schema"', '{"Object":{}}'), ('{"Map":"Schema"}', '"Schema"'),
    ('{"Array":"JSON"}', '"Schema"'),
    ('{"Object":{"required":{"Array":"Schema"}}}', '"Schema"'),
    ('{"Object":{"required":{"Object":{"Object":{}}}}}', '"Schema"'),
    ('{"Object":{}}', '{"Object":{"optional":{"a":"String"}}}'),
    ('{"Object":{"required":{"a":"Integer"}}}', '{"Map":"Integer"}'),
    ('{"Object":{"optional":{"a":"Integer"}}}', '{"Object":{"required":{"a":"Integer"}}}'),
    ('{"Object":{}}', '{"Map":"Schema"}'),
    ('{"Map":"JSON"}', '{"Object":{"required":{"a":"JSON"}}}'),
    ('{"Map":"Float"}', '{"Object":{"optional":{"a":"Float","b":"Integer"}}}'),
    ('{"Map":"JSON"}', '{"Object":{"optional":{"a":"Float"}}}'),
    ('{"Map":"Float"}', '{"Map":"Integer"}'), ('{"Array":"Float"}', '{"Array":"Integer"}'),
    ('{"Array":"JSON"}', '{"Map":"JSON"}'), ('{"Map":"JSON"}', '{"Array":"JSON"}'),
    ('{"Array":{"Map":"JSON"}}', '{"Array":{"Map":"Float"}}'),
    ('{"Object":{}}', '{"Object":{"required":{"a":"JSON"}}}'),
    ('{"Object":{"required":{"A":"JSON"}}}', '{"Object":{"required":{"a":"JSON"}}}'),
    ('{"Object":{"required":{"a":"Float"}}}', '{"Object":{"optional":{"a":"Integer"}}}'),
    ('{"Object":{"optional":{"a":"Float"}}}', '{"Object":{"optional":{"a":"Integer"}}}'),
    (object_with('"a":"Integer"'), object_with('"a":"Integer"', '"b":"Float"')),
    (object_with("", '"a":"Integer","b":"Float"'), object_with("", '"a":"Integer","b":"Boolean"')),
]

COMPARE_REFUSED = [
    ("[1,]", "[1,]", (3, 1, 3, 0)), ('"x"', "[1,]", (11, 1, 0, 0)),
    ('"JSON"', "[1,]", (3, 2, 3, 0)), ("", "", (2, 1, 0, 0)),
    ('"JSON"', "", (2, 2, 0, 0)), ('"Float"', '"x"', (11, 2, 0, 0)),
    ('"Float"' + " " * 16378, " " * 16385, (1, 1, 16384, 0)),
    ('"Float"' + " " * 16377, '"Integer"' + " " * 16376, (1, 2, 16384, 0)),
    ('"Float"' + " " * 16377, '"Integer"' + " " * 16375, (30, 0, 0, 0)),
    ("[" * 25, "[" * 25, (7, 1, 24, 0)), ('"JSON"', "[" * 25, (7, 2, 24, 0)),
]


def compare_cases():
    for new, old in CARRIED:
        yield new.encode(), old.encode(), (0, 0, 0, 0)
    for new, old in NOT_CARRIED:
        yield new.encode(), old.encode(), (30, 0, 0, 0)
    for new, old, answer in COMPARE_REFUSED:
        yield new.encode(), old.encode(), answer
    for schema, code, place in FAULTS:
        yield schema, b'"JSON"', (code, 1, place, 0)
        yield schema, schema, (code, 1, place, 0)
        yield b'"JSON"', schema, (code, 2, place, 0)
    for schema in DEFINITIONS:
        yield schema, schema, (0, 0, 0, 0)
        yield schema, b'"JSON"', (0, 0, 0, 0)


COMPARE_CASES = list(compare_cases())

COMPARE_TABLES = [
    *[(b'"x"', b'"x"', words, 9, (8, 1, 0, 1), False, False) for words in range(6)],
    (b'"x"', b'"x"', 6, 0, (11, 1, 0, 0), True, False),
    *[(b'"JSON"', b'"x"', 9, words, (8, 2, 0, 1), True, False) for words in range(6)],
    (b'"JSON"', b'"x"', 6, 6, (11, 2, 0, 0), True, True),
    (b'"JSON"', b'"Float"', 6, 9, (30, 0, 0, 0), True, True),
    (b'"Float"', b'"JSON"', 9, 6, (0, 0, 0, 0), True, True),
    (b'{"Array":"JSON"}', A_REQUIRED, 17, 0, (8, 1, 0, 3), False, False),
    (b'{"Array":"JSON"}', A_REQUIRED, 18, 41, (8, 2, 0, 7), True, False),
    (b'{"Array":"JSON"}', A_REQUIRED, 18, 42, (30, 0, 0, 0), True, True),
    (b"[1,]", b"[1,]", 0, 0, (3, 1, 3, 0), False, False),
    (b'"JSON"', b"[1,]", 6, 0, (3, 2, 3, 0), True, False),
    (b'"JSON"', b" " * 16385, 6, 9, (1, 2, 16384, 0), True, False),
]
