"""Holds a library's Check to the model.

    python3 tests/check_test.py LIBRARY [--count N] [--seed S]
    python3 tests/check_test.py --self  [--count N] [--seed S]
    python3 tests/check_test.py --model

--model checks the model alone against the cases of the papers.
--self puts the model in the place of the library.
"""

import itertools
import random
import sys

import edge_cases_check
import generate_pairs
import harness
import model
import model_meeting
from model_check import MEETS, NAME_MISSING, NO_DATE, WRONG_KIND, check

DEFAULT_COUNT = 60000


def rows_needed(document, schema):
    """The rows of each text; None for one that is not well-formed."""
    return [harness.rows_needed(document),
            harness.rows_needed(schema, model.SCHEMA_LIMIT, model.SCHEMA_DEPTH)]


def agrees_with_meeting(document, schema, needed):
    """0 when the value meets the definition, 20 to 22 when it fails it."""
    code = check(document, schema, *[[0] * (model.ROW_WORDS * (rows or 0)) for rows in needed])[0]
    if code not in (MEETS, WRONG_KIND, NAME_MISSING, NO_DATE):
        return True
    definition = model_meeting.definition(model.value(schema, model.SCHEMA_DEPTH))
    right = model_meeting.meets(model.value(document), definition) == (code == MEETS)
    if not right:
        print("the model's Check and Meeting differ:", document.hex(), schema.hex(), code)
    return right


def table_cases():
    """The pairs of the papers with their own table lengths."""
    return [(case[0:2], case[2:4]) for case in edge_cases_check.CHECK_TABLES]


def pairs(count, seed):
    """The cases of the papers, then generated pairs."""
    cases = [case[:2] for case in edge_cases_check.CHECK_CASES]
    return itertools.chain(cases, itertools.islice(generate_pairs.check_pairs(seed), count))


def run_library(function, count, seed):
    """Stops at a difference."""
    chance = random.Random(seed)

    def agrees(texts, lengths):
        return harness.compare(function, check, texts, lengths, chance)

    def holds(pair):
        needed = rows_needed(*pair)
        return (all(agrees(pair, lengths) for lengths in harness.pair_lengths(needed, chance))
                and agrees_with_meeting(*pair, needed))

    return harness.count_in_turn(
        (table_cases(), lambda case: agrees(*case)), (pairs(count, seed), holds))


# The cases of the papers against the model.

def model_results():
    """Pairs of a name and whether the model answers as the papers say."""
    for document, schema, answer in edge_cases_check.CHECK_CASES:
        yield (document, schema), check(document, schema, [0] * 1000, [0] * 1000) == answer
    for case in edge_cases_check.CHECK_TABLES:
        yield case, harness.tables_are(check, *case)


def main():
    given = harness.arguments("Holds a library's Check to the model.", DEFAULT_COUNT)
    if given.model:
        return harness.finish(*harness.count_all(model_results()))
    if given.self:
        function = harness.model_function(check, 2)
    else:
        function = harness.load(given.library, "teleport_check", 2)
    return harness.finish(*run_library(function, given.count, given.seed))


if __name__ == "__main__":
    sys.exit(main())
