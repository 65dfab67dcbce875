"""Cases of Compare's sister (02, L1).

CASES:       (new, old, the document of the model): the answer is 30.
ROOM_CASES:  (new, old, words of both tables, bytes of the buffer, answer), where nothing is written.
"""

A_REQUIRED = b'{"Object":{"required":{"a":"Integer"}}}'
A_OPTIONAL = b'{"Object":{"optional":{"a":"String"}}}'
OPEN = b'{"Object":{}}'
BOTH = b'{"Object":{"required":{"a":"JSON"},"optional":{"a":"JSON"}}}'

CASES = [
    (b'"Float"', b'"Integer"', b"0.5"),
    (b'"JSON"', b'"Schema"', b"null"),
    (b'"String"', b'"DateTime"', b'""'),
    (b'"DateTime"', b'"Boolean"', b'"2000-01-01T00:00:00Z"'),
    (b'"Schema"', b'"String"', b'{"Array":"JSON"}'),
    (b'"Schema"', b'{"Map":"JSON"}', b'"JSON"'),
    (b'{"Array":"Float"}', b'{"Array":"Integer"}', b"[0.5]"),
    (b'{"Array":"Float"}', b'{"Map":"Float"}', b"[]"),
    (b'{"Map":"Float"}', b'{"Map":"Integer"}', b'{"a":0.5}'),
    (b'{"Map":"Float"}', A_REQUIRED, b"{}"),
    (b'{"Map":"Float"}', A_OPTIONAL, b'{"a":0.5}'),
    (OPEN, A_REQUIRED, b"{}"),
    (OPEN, A_OPTIONAL, b'{"a":null}'),
    (OPEN, b'{"Map":"Integer"}', b'{"a":null}'),
    (A_REQUIRED, b'{"Map":"Integer"}', b'{"aa":null,"a":0}'),
    (A_REQUIRED, b'"Schema"', b'{"aa":null,"a":0}'),
    (A_REQUIRED, A_OPTIONAL, b'{"a":0}'),
    (b'{"Object":{"required":{"b":"Boolean","\\u0061":"Float"}}}', A_REQUIRED, b'{"a":0.5,"b":true}'),
    (b'{"Object":{"required":{"\\u002F\\u001F\\n":"JSON"}}}', b'{"Object":{"required":{"/\\u001f\\u000a":"Float"}}}',
     b'{"/\\u001f\\n":null}'),
]

ROOM_CASES = [
    (b'"Float"', b'"Integer"', 6, 65535, (31, 0, 0, 0)),
    (b'"Float"', b'"Integer"', 0, 0, (31, 0, 0, 0)),
    (b"[1,]", b"[1,]", 6, 65535, (31, 0, 0, 0)),
    (b'"Integer"', b'"Float"', 6, 65535, (31, 0, 0, 0)),
    (b'"Integer"', b'"Float"', 6, 65536, (0, 0, 0, 0)),
    (b'"Float"', b'"Integer"', 5, 65536, (8, 1, 0, 1)),
    (b'"Float"', OPEN, 6, 65536, (8, 2, 0, 3)),
    (b"[1,]", b"", 6, 65536, (3, 1, 3, 0)),
    (b'"Float"', b"[1,]", 6, 65536, (3, 2, 3, 0)),
    (b'"Number"', b'"Float"', 6, 65536, (11, 1, 0, 0)),
    (b'"Float"', b"[]", 6, 65536, (10, 2, 0, 0)),
    (OPEN, BOTH, 66, 65536, (12, 2, 47, 0)),
]
