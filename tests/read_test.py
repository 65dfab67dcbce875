"""Holds a library's Read to the model.

    python3 tests/read_test.py LIBRARY [--count N] [--seed S]
    python3 tests/read_test.py --self  [--count N] [--seed S]
    python3 tests/read_test.py --model

--model checks the model alone against the cases of the papers.
--self puts the model in the place of the library.
"""

import itertools
import random
import sys

import edge_cases
import generate
import harness
import model

DEFAULT_COUNT = 160000
LONG = 4096     # longer texts are given fewer tables


def table_lengths(text, chance):
    """Numbers of words of the tables that a text is given."""
    rows = harness.rows_needed(text)
    if rows is None:
        return [chance.choice([0, 1, 5, 6, 11, model.ROW_WORDS * (len(text) + 1)])]
    exact = model.ROW_WORDS * rows
    lengths = [exact, exact - model.ROW_WORDS]
    if len(text) <= LONG:
        more = exact + chance.randint(1, 30)
        lengths.append(chance.choice([0, 1, 5, 6, 11, exact - 1, exact + 5, more]))
    return lengths


def run_library(function, count, seed):
    """The cases of the papers, then generated texts; stops at a difference."""
    chance = random.Random(seed)
    cases = [text for text, _ in edge_cases.CASES + edge_cases.ROW_CASES]
    texts = itertools.chain(cases, itertools.islice(generate.texts(seed), count))

    def holds(text):
        return all(harness.compare(function, model.read, [text], [length], chance)
                   for length in table_lengths(text, chance))
    return harness.count_in_turn((texts, holds))


# The cases of the papers against the model.

def model_results():
    """Pairs of a text and whether the model answers it as the papers say."""
    for text, answer in edge_cases.CASES:
        yield text, model.read(text, [0] * (model.ROW_WORDS * len(text))) == answer
    for text, rows in edge_cases.ROW_CASES:
        yield text, rows_are(text, rows)
    for text, length, answer in edge_cases.ROOM_CASES:
        yield text, room_is(text, length, answer)
    for text, answer in edge_cases.SCHEMA_CASES:
        result = model.read(text, [0] * 1000, model.SCHEMA_LIMIT, model.SCHEMA_DEPTH, 2)
        yield text, result == answer
    for text, value in edge_cases.VALUE_CASES:
        yield text, model.value(text) == value


def rows_are(text, rows):
    """The table holds these rows and its other words are as found."""
    table = [77] * 100
    words = [word for row in rows for word in row]
    answer = model.read(text, table)
    return (answer == (model.READ, 0, 0, len(rows))
            and table == words + [77] * (100 - len(words)))


def room_is(text, length, answer):
    """The answer is this and the words that hold no row are as found."""
    table = [77] * length
    result = model.read(text, table)
    written = model.ROW_WORDS * answer[3] if answer[0] == model.READ else 0
    return result == answer and table[written:] == [77] * (length - written)


def run_model():
    return harness.count_all((text[:200].hex(), right) for text, right in model_results())


def main():
    given = harness.arguments("Holds a library's Read to the model.", DEFAULT_COUNT)
    if given.model:
        return harness.finish(*run_model())
    if given.self:
        function = harness.model_function(model.read, 1)
    else:
        function = harness.load(given.library, "teleport_read", 1)
    return harness.finish(*run_library(function, given.count, given.seed))


if __name__ == "__main__":
    sys.exit(main())
