"""A model of Compare's sister (02, L1), to be read beside the paper.

counterexample() gives the answer (code, text, place, other), and fills both tables
and the buffer. Which document is written is free: here it is that of witness.py.
"""

import model
from model_compact import spelling
from model_compare import NOT_CARRIED, compare
from model_meeting import definition, write
from witness import witness

SHORT_BUFFER = 31
LEAST_BUFFER = 65536


def counterexample(new, old, table1, table2, buffer):
    """A short buffer is "judged before everything else"; then all is Compare's, but on 30 the length."""
    if len(buffer) < LEAST_BUFFER:
        return (SHORT_BUFFER, 0, 0, 0)
    answer = compare(new, old, table1, table2)
    if answer[0] != NOT_CARRIED:
        return answer
    written = document(new, old)
    buffer[:len(written)] = written
    return (NOT_CARRIED, 0, 0, len(written))


def document(new, old):
    """What is written for two schemas, of which the new is not carried to the old."""
    definitions = [definition(model.value(schema, model.SCHEMA_DEPTH)) for schema in (new, old)]
    return spelling(write(witness(*definitions)))
