"""Holds a library's Compare to the model, and its Check to the witnesses.

    python3 tests/compare_test.py LIBRARY [--count N] [--seed S]
    python3 tests/compare_test.py --self  [--count N] [--seed S]
    python3 tests/compare_test.py --model

--model checks the model alone against the cases of the papers.
--self puts the model in the place of the library.
"""

import itertools
import random
import sys

import edge_cases_check
import generate_pairs
import harness
import model
import model_meeting
from model_check import MEETS, NAME_MISSING, NO_DATE, WRONG_KIND, check
from model_compare import CARRIED, NOT_CARRIED, compare, witness
from witness import witness as defined_witness

DEFAULT_COUNT = 30000

MISFITS = (WRONG_KIND, NAME_MISSING, NO_DATE)


def schema_rows(text):
    return harness.rows_needed(text, model.SCHEMA_LIMIT, model.SCHEMA_DEPTH)


def definition(schema):
    return model_meeting.definition(model.value(schema, model.SCHEMA_DEPTH))


def with_room(service, first, second, needed):
    """The model's answer with room for every row."""
    return service(first, second, *[[0] * (model.ROW_WORDS * (rows or 0)) for rows in needed])


class Comparison:
    """Runs one pair of schemas after another."""

    def __init__(self, compare_function, check_function, seed):
        self.compare_function = compare_function
        self.check_function = check_function
        self.chance = random.Random(seed)
        self.writer = generate_pairs.PairWriter(self.chance)

    def holds(self, pair):
        """The answers agree, and documents show them to be right."""
        needed = list(map(schema_rows, pair))
        if not all(self.agrees(pair, lengths)
                   for lengths in harness.pair_lengths(needed, self.chance)):
            return False
        code = with_room(compare, *pair, needed)[0]
        if code == NOT_CARRIED:
            return self.witness_holds(*pair)
        return code != CARRIED or self.carried_holds(*pair)

    def agrees(self, texts, lengths):
        return harness.compare(self.compare_function, compare, texts, lengths, self.chance)

    def witness_holds(self, new, old):
        """After 30 there are documents that meet the new and fail the old:
        one that is searched for, and the one of the definition."""
        definitions = definition(new), definition(old)
        documents = witness(*definitions), model_meeting.write(defined_witness(*definitions))
        return all(self.shows(document, new, old) for document in documents)

    def shows(self, document, new, old):
        right = (document is not None
                 and self.check_code(document, new) == MEETS
                 and self.check_code(document, old) in MISFITS)
        if not right:
            print("witness for 30:", document and document.hex(), new.hex(), old.hex())
        return right

    def carried_holds(self, new, old):
        """After 0 there is no witness; a document of the new meets the old."""
        document = witness(definition(new), definition(old)) or self.document(new)
        right = self.check_code(document, new) == self.check_code(document, old) == MEETS
        if not right:
            print("document for 0:", document.hex(), new.hex(), old.hex())
        return right

    def document(self, schema):
        """A text within the limits that meets the schema."""
        while True:
            text = self.writer.text_of(self.writer.document(definition(schema)))
            if harness.rows_needed(text) is not None:
                return text

    def check_code(self, document, schema):
        """The code of Check on which library and model agree, or None."""
        needed = [harness.rows_needed(document), schema_rows(schema)]
        lengths = [harness.length_with_room(rows, self.chance) for rows in needed]
        texts = (document, schema)
        agreed = harness.compare(self.check_function, check, texts, lengths, self.chance)
        return with_room(check, document, schema, needed)[0] if agreed else None


def table_cases():
    """The pairs of the papers with their own table lengths."""
    return [(case[0:2], case[2:4]) for case in edge_cases_check.COMPARE_TABLES]


def pairs(count, seed):
    """The cases of the papers, then generated pairs."""
    cases = [case[:2] for case in edge_cases_check.COMPARE_CASES]
    return itertools.chain(cases, itertools.islice(generate_pairs.schema_pairs(seed), count))


def run_library(compare_function, check_function, count, seed):
    """Stops at a difference."""
    comparison = Comparison(compare_function, check_function, seed)
    return harness.count_in_turn(
        (table_cases(), lambda case: comparison.agrees(*case)),
        (pairs(count, seed), comparison.holds))


# The cases of the papers against the model.

def model_results():
    """Pairs of a name and whether the model answers as the papers say."""
    for new, old, answer in edge_cases_check.COMPARE_CASES:
        yield (new, old), compare(new, old, [0] * 1000, [0] * 1000) == answer
    for case in edge_cases_check.COMPARE_TABLES:
        yield case, harness.tables_are(compare, *case)


def main():
    given = harness.arguments("Holds a library's Compare to the model.", DEFAULT_COUNT)
    if given.model:
        return harness.finish(*harness.count_all(model_results()))
    if given.self:
        functions = [harness.model_function(service, 2) for service in (compare, check)]
    else:
        functions = [harness.load(given.library, name, 2)
                     for name in ("teleport_compare", "teleport_check")]
    return harness.finish(*run_library(*functions, given.count, given.seed))


if __name__ == "__main__":
    sys.exit(main())
