"""Holds a library's Compact to the model.

    python3 tests/compact_test.py LIBRARY [--count N] [--seed S]
    python3 tests/compact_test.py --self  [--count N] [--seed S]
    python3 tests/compact_test.py --model

Whatever is written is written once more, which must change nothing, and must be
what Python's json module writes. Texts of one value must come out equal, and
texts of two values must not.
--model checks the model alone against the cases of 02.
--self puts the model in the place of the library.
"""

import itertools
import json
import random
import re
import sys

import edge_cases
import edge_cases_compact
import generate
import generate_spellings
import harness
import model
import read_test
from model_compact import compact, spelling

DEFAULT_COUNT = 200000
SMALL = 60          # up to so many bytes, a text is given buffers and tables of every length
SMALL_TEXTS = 400   # generated ones that are
PAIRS_OF = 6        # a pair of values for so many texts


# Python's json module agrees on strings, order and space. Numbers go through it as strings with a mark.

MARK = "\ue000number:"
NUMBER = re.compile('"' + MARK + '([^"]*)"')


def json_written(text):
    """What the json module writes for a well-formed text; None where a string has the mark too."""
    numbers = []

    def marked(spelled):
        numbers.append(spelled)
        return MARK + spelled
    value = json.loads(text.decode(), parse_int=marked, parse_float=marked)
    written = json.dumps(value, ensure_ascii=False, separators=(",", ":"))
    return NUMBER.sub(r"\1", written).encode() if written.count(MARK) == len(numbers) else None


class Tester:
    """Tries texts, and counts those that were written."""

    def __init__(self, function, seed):
        self.function, self.chance, self.written, self.by_json = function, random.Random(seed), 0, 0

    def agrees(self, text, words, room):
        return harness.compare(self.function, compact, [text], [words], self.chance, [harness.Bytes(room, self.chance)])

    # Each text.

    def hold(self, text):
        """Tables and buffers with room and without; then what was written, once more."""
        rows = harness.rows_needed(text)
        if rows is None:
            return self.agrees(text, read_test.table_lengths(text, self.chance)[0], self.chance.choice([0, 1, len(text), 99]))
        exact, needed = model.ROW_WORDS * rows, len(spelling(text))
        more = self.chance.randint(1, 30)
        lent = [(exact + self.chance.choice([0, 0, 1, model.ROW_WORDS - 1, more]), needed + self.chance.choice([0, 1, more])),
                (exact, self.chance.choice([needed - 1, needed - 1, 0, self.chance.randrange(needed)])),
                (exact - self.chance.randint(1, model.ROW_WORDS), self.chance.choice([0, needed - 1, needed]))]
        return all(self.agrees(text, *lengths) for lengths in lent) and self.hold_written(text, exact)

    def hold_written(self, text, words):
        """What is written is written again, the same; and the json module writes it too."""
        written = self.write(text)
        again = self.write(written)
        if again != written:
            print("text:", text.hex(), "written:", written.hex(), "again:", again and again.hex())
            return False
        if not self.agrees(written, words, len(written)):
            return False
        self.written += 1
        by_json = json_written(text)
        self.by_json += by_json is not None
        if by_json not in (None, written):
            print("text:", text.hex(), "written:", written.hex(), "json:", by_json.hex())
        return by_json in (None, written)

    def write(self, text):
        """What the library writes, with room for everything: as many bytes as it says. None where it refuses."""
        lent = [harness.Text(text, self.chance), harness.Words(model.ROW_WORDS * len(text), self.chance),
                harness.Bytes(len(text), self.chance)]
        answer = harness.Words(harness.ANSWER, self.chance)
        self.function(*harness.addresses(lent), answer.address())
        code, *_, length = answer.words()
        return bytes(lent[2].words()[:length]) if code == model.READ else None

    # Small texts.

    def hold_small(self, text):
        """Buffers of every length up to one more than is needed, and tables of every length up to a row more."""
        rows = harness.rows_needed(text)
        needed = 0 if rows is None else len(spelling(text))
        exact = model.ROW_WORDS * (rows or 0)
        return (all(self.agrees(text, exact, room) for room in range(needed + 2))
                and all(self.agrees(text, words, room) for words in range(exact + model.ROW_WORDS + 1)
                        for room in {0, max(0, needed - 1), needed, needed + 1}))

    # Values.

    def hold_values(self, triple):
        """Texts of one value come out equal; those of another value do not."""
        value, one, two, other, three = triple
        first, second, third = map(self.write, [one, two, three])
        right = None not in (first, second, third) and first == second and (first == third) == (value == other)
        if not right:
            print("texts:", one.hex(), two.hex(), three.hex(), "the third of the same value:", value == other)
            print("written:", *[written and written.hex() for written in (first, second, third)])
        return right


def run_library(function, count, seed):
    """The cases of the papers, then generated texts and values; stops at a difference."""
    tester = Tester(function, seed)
    cases = [case[0] for case in edge_cases_compact.CASES + edge_cases_compact.ROOM_CASES + edge_cases.CASES]
    sources = generate.take_turns([generate.texts(seed), generate_spellings.texts(seed)])
    texts = list(itertools.islice(sources, count))
    small = [text for text in cases + texts[:SMALL_TEXTS] if len(text) <= SMALL]
    triples = itertools.islice(generate_spellings.triples(seed), count // PAIRS_OF)
    counted = harness.count_in_turn((cases, tester.hold), (small, tester.hold_small), (texts, tester.hold),
                                    (triples, tester.hold_values))
    print(tester.written, "written twice,", tester.by_json, "of them held to the json module")
    return counted


# The cases of 02 against the model.

def model_results():
    """Pairs of a text and whether the model writes it as 02 says."""
    for text, written in edge_cases_compact.CASES:
        table, buffer = [0] * (model.ROW_WORDS * len(text)), [7] * (len(text) + 3)
        answer = compact(text, table, buffer)
        right = answer == (model.READ, 0, 0, len(written)) and bytes(buffer) == written + b"\7" * (len(buffer) - len(written))
        yield text, right and spelling(written) == written
    for text, words, room, answer in edge_cases_compact.ROOM_CASES:
        buffer = [7] * room
        right = compact(text, [0] * words, buffer) == answer
        yield text, right and (answer[0] == model.READ or buffer == [7] * room)


def main():
    given = harness.arguments("Holds a library's Compact to the model.", DEFAULT_COUNT)
    if given.model:
        return harness.finish(*harness.count_all((text[:200].hex(), right) for text, right in model_results()))
    if given.self:
        function = harness.model_function(compact, 1, [harness.Bytes])
    else:
        function = harness.load(given.library, "teleport_compact", 1, [harness.Bytes])
    return harness.finish(*run_library(function, given.count, given.seed))


if __name__ == "__main__":
    sys.exit(main())
