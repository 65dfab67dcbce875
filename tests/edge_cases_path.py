"""Cases of Check with the path (02, L11).

CASES:    (document, schema, answer, path): with room for every row. The path is row numbers; it is
          empty on other codes than 20 to 22.
LISTS:    (document, schema, words of table 1, of table 2, of the list, answer, path).
"""

INTEGER, DATE = '"Integer"', '"DateTime"'
A_REQUIRED = '{"Object":{"required":{"a":"Integer"}}}'
A_OPTIONAL = '{"Object":{"optional":{"a":"Integer"}}}'
EXAMPLE = '{"a":[1,true]}'      # 01's: rows 0 object, 1 name, 2 array, 3 number, 4 true
LEAST = 33
NO_LIST = (8, 0, 0, LEAST)


def nested(form, inner, times):
    """A definition inside so many Arrays or Maps."""
    return '{"%s":' % form * times + inner + "}" * times


def required(inner, times):
    return '{"Object":{"required":{"a":' * times + inner + "}}}" * times


def ones(count, last):
    return "[" + "1," * count + last + "]"


# A misfit: the code, the row at the place and those around it.
MISFITS = [
    # At the top.
    ("1", '"String"', (20, 1, 0, 0), [0]), (" \n1 ", '"String"', (20, 1, 2, 0), [0]), ("{}", A_REQUIRED, (21, 1, 0, 23), [0]),
    (' {"b":1}', A_REQUIRED, (21, 1, 1, 23), [0]), ('"2024-04-31T08:00:00Z"', DATE, (22, 1, 0, 0), [0]),
    ("[]", '{"Map":"JSON"}', (20, 1, 0, 0), [0]),
    ("[[[1]]]", INTEGER, (20, 1, 0, 0), [0]),
    (EXAMPLE, INTEGER, (20, 1, 0, 0), [0]),
    # 01's example, at each of its values.
    (EXAMPLE, '{"Map":"Integer"}', (20, 1, 5, 7), [2, 0]),
    (EXAMPLE, nested("Map", '{"Array":"Boolean"}', 1), (20, 1, 6, 16), [3, 2, 0]),
    (EXAMPLE, nested("Map", '{"Array":"Integer"}', 1), (20, 1, 8, 16), [4, 2, 0]),
    (EXAMPLE, '{"Object":{"required":{"b":"JSON"}}}', (21, 1, 0, 23), [0]),
    # A member's name is no step, and has a row.
    ('{"a":"x"}', A_REQUIRED, (20, 1, 5, 27), [2, 0]), ('{"b":1,"a":"x"}', A_REQUIRED, (20, 1, 11, 27), [4, 0]),
    ('{"\\u0061":"x"}', A_OPTIONAL, (20, 1, 10, 27), [2, 0]),
    ('{"b":[1,[2]],"\\u0061":null}', A_OPTIONAL, (20, 1, 22, 27), [7, 0]),
    ('{"a\\"b\\/~":{"\\ud83d\\ude00":"x"}}', nested("Map", INTEGER, 2), (20, 1, 27, 14), [4, 2, 0]),
    # What stands before, and has ended, is no step.
    ('[1,2,"x",3]', '{"Array":"Integer"}', (20, 1, 5, 9), [3, 0]),
    ("[[],[1,2],[3,null]]", nested("Array", INTEGER, 2), (20, 1, 13, 18), [7, 5, 0]),
    ("[[[]],[[1]],[[],[2,true]]]", nested("Array", INTEGER, 3), (20, 1, 19, 27), [10, 8, 6, 0]),
    ('[{"a":{"b":1}},{"a":{"b":[]}}]', nested("Array", nested("Map", INTEGER, 2), 1), (20, 1, 25, 23), [10, 8, 6, 0]),
    # 21 is at the object.
    ('[{"a":1},{"b":2}]', '{"Array":%s}' % A_REQUIRED, (21, 1, 9, 32), [4, 0]),
    ('[{"a":1},{}]', '{"Array":%s}' % A_REQUIRED, (21, 1, 9, 32), [4, 0]),
    ('{"x":{"y":{"b":[]}}}', nested("Map", A_REQUIRED, 2), (21, 1, 10, 37), [4, 2, 0]),
    # 22 is at the string.
    ('["1970-01-01T00:00:00Z","x"]', '{"Array":"DateTime"}', (22, 1, 24, 9), [2, 0]),
    ('{"to":"","from":"1900-02-29T00:00:00Z"}', '{"Object":{"required":{"from":"DateTime"}}}', (22, 1, 16, 30), [4, 0]),
    # Under Schema the path leads to the value that is no definition, and not into it.
    ('[{"Object":{"required":{"a":1}}}]', '{"Array":"Schema"}', (20, 1, 1, 9), [1, 0]),
    ('["JSON",{"Array":[]}]', '{"Array":"Schema"}', (20, 1, 8, 9), [2, 0]),
    ("[" * 32 + "]" * 32, '"Schema"', (20, 1, 0, 0), [0]),
    # Down to as deep as a schema reaches, and in documents as deep as they may be.
    *[("[" * depth + '"x"' + "]" * depth, nested("Array", INTEGER, depth), (20, 1, depth, 9 * depth), list(range(depth, -1, -1)))
      for depth in range(25)],
    ("[" * 32 + "]" * 32, nested("Array", INTEGER, 24), (20, 1, 24, 216), list(range(24, -1, -1))),
    ("[[]," * 23 + '[1,"x"]' + "]" * 23, nested("Array", '{"Array":"JSON"}', 23), (0, 0, 0, 0), []),
    ("[[]," * 22 + '[[1],"x"]' + "]" * 22, nested("Array", INTEGER, 24), (20, 1, 93, 207), [47] + list(range(44, -1, -2))),
    ('{"a":' * 24 + "null" + "}" * 24, nested("Map", INTEGER, 24), (20, 1, 120, 168), list(range(48, -1, -2))),
    ('{"a":' * 24 + "[" * 8 + "]" * 8 + "}" * 24, nested("Map", DATE, 24), (20, 1, 120, 168), list(range(48, -1, -2))),
    ('{"a":' * 8 + '""' + "}" * 8, required(DATE, 8), (22, 1, 40, 216), list(range(16, -1, -2))),
    ('{"a":' * 7 + "{}" + "}" * 7, required(DATE, 8), (21, 1, 35, 212), list(range(14, -1, -2))),
    ('{"b":0,"a":' * 7 + "[]" + "}" * 7, required(A_REQUIRED, 7), (20, 1, 77, 189), list(range(28, -1, -4))),
    # As far from the top as a text reaches.
    (ones(32765, '""'), '{"Array":"Integer"}', (20, 1, 65531, 9), [32766, 0]),
    (ones(32764, "[1,{}]"), '{"Array":"Integer"}', (20, 1, 65529, 9), [32765, 0]),
]

# Other codes: no steps, and the list as it was.
OTHERS = [
    ("1", INTEGER, (0, 0, 0, 0)), (EXAMPLE, '"JSON"', (0, 0, 0, 0)), ("[]", '{"Array":"Integer"}', (0, 0, 0, 0)),
    ('{"b":[null]}', A_OPTIONAL, (0, 0, 0, 0)), ("[" * 32 + "]" * 32, '"JSON"', (0, 0, 0, 0)),
    (" " * 65537, INTEGER, (1, 1, 65536, 0)),
    ("1", " " * 16385, (1, 2, 16384, 0)),
    ("[[1", '{"Array":"Integer"}', (2, 1, 3, 0)),
    ("1", '"', (2, 2, 1, 0)),
    ('["x",]', '{"Array":"Integer"}', (3, 1, 5, 0)),
    ("[]", "[1,]", (3, 2, 3, 0)),
    ('["\\udc00"]', '{"Array":"Integer"}', (5, 1, 5, 0)),
    ('{"a":"x","a":1}', A_REQUIRED, (6, 1, 11, 0)),
    ("[" * 33, nested("Array", INTEGER, 24), (7, 1, 32, 0)),
    ("[]", nested("Array", "1", 25), (7, 2, 216, 0)),
    ('["x"]', "[]", (10, 2, 0, 0)), ('["x"]', '{"Array":1}', (10, 2, 9, 0)), ('["x"]', '{"Array":"Int"}', (11, 2, 9, 0)),
    ('["x"]', '{"Object":{"required":{"a":"JSON"},"optional":{"a":"JSON"}}}', (12, 2, 47, 0)),
]

CASES = [(document.encode(), schema.encode(), answer, path) for document, schema, answer, path
         in MISFITS + [(*case, []) for case in OTHERS]]
CASES.append((b'["\xff"]', b'{"Array":"Integer"}', (4, 1, 2, 0), []))

ARRAY = b'{"Array":"Integer"}'      # 3 rows
LISTS = [
    # A list from 33 words on, whatever the path needs.
    *[(b'[1,"x"]', ARRAY, 18, 18, words, (20, 1, 3, 9), [2, 0]) for words in range(LEAST, 41)],
    *[(b"{}", A_REQUIRED.encode(), 6, 42, words, (21, 1, 0, 23), [0]) for words in (LEAST, 34, 1000)],
    *[(b"1", b'"DateTime"', 6, 6, words, (20, 1, 0, 0), [0]) for words in (LEAST, 34, 1000)],
    *[(b'""', b'"DateTime"', 6, 6, words, (22, 1, 0, 0), [0]) for words in (LEAST, 34, 1000)],
    # A shorter one before everything: lengths, text, room, definitions, misfits and 0.
    *[(b'[1,"x"]', ARRAY, 18, 18, words, NO_LIST, []) for words in range(LEAST)],
    *[(document, schema, room, room, words, NO_LIST, [])
      for words in (0, 1, 32) for room in (0, 5, 6, 99) for document, schema in [
          (b"1", b'"Integer"'), (b"1", b'"String"'), (b"{}", A_REQUIRED.encode()), (b'""', b'"DateTime"'), (b"", b""),
          (b"[1,]", b"[1,]"), (b"1", b"[]"), (b"1", b'"x"'), (b" " * 65537, b'"JSON"'), (b"1", b" " * 16385),
          (b'"\xff"', b'"\xff"'), (b"[" * 33, b"[" * 25)]],
    # Room in the tables behind it, the schema's first.
    (b'[1,"x"]', ARRAY, 17, 17, LEAST, (8, 2, 0, 3), []), (b'[1,"x"]', ARRAY, 17, 18, LEAST, (8, 1, 0, 3), []),
    (b'[1,"x"]', b'{"Array":1}', 0, 18, LEAST, (10, 2, 9, 0), []), (b'[1,"x"', ARRAY, 0, 18, LEAST, (2, 1, 6, 0), []),
]
