"""Holds a library's counterexamples to 02 (L1): to its own Compare and Check, and to the model.

    python3 tests/counterexample_test.py LIBRARY [--count N] [--seed S]
    python3 tests/counterexample_test.py --self  [--count N] [--seed S]
    python3 tests/counterexample_test.py --model

Which document is written is free, so that none is stated: what must hold of each is tried.
--count is how many documents must be seen.
--model checks the model alone against cases.
--self puts the model in the place of the library.
"""

import ctypes
import itertools
import random
import sys

import edge_cases_check
import edge_cases_counterexample
import generate_failing
import generate_pairs
import harness
import model
from compare_test import MISFITS, definition, schema_rows
from model_check import MEETS, check
from model_compact import spelling
from model_compare import NOT_CARRIED, compare
from model_counterexample import LEAST_BUFFER, SHORT_BUFFER, counterexample
from model_meeting import meets

DEFAULT_COUNT = 20000
OTHERS = 4              # pairs of any kind in each turn, beside one for each kind of failing

MOST_BRACKETS = model.SCHEMA_DEPTH + 1
MOST_LETTERS = 13       # of a name that is made up
SHORT_ROOMS = [0, 1, LEAST_BUFFER - 1]
ROOMS = [LEAST_BUFFER] * 4 + [LEAST_BUFFER + 1, LEAST_BUFFER + 4464]


# What is seen in a text.

def brackets(value):
    """How many brackets are open at once."""
    tag, content = value
    if tag == "array":
        return 1 + max(map(brackets, content), default=0)
    return 1 + max((brackets(under) for _, under in content), default=0) if tag == "object" else 0


def names(value):
    """The names of all objects, without escapes."""
    tag, content = value
    if tag == "array":
        return set().union(*map(names, content))
    if tag == "object":
        return {tuple(name) for name, _ in content}.union(*(names(under) for _, under in content))
    return set()


def longest_name(text, depth):
    """The bytes between the quotes of the longest name, as spelled."""
    _, rows, _ = model.read_whole(text, depth)
    return max((end - first - 2 for kind, first, end, *_ in rows if kind == model.NAME), default=0)


class Tester:
    """Tries pairs of schemas, and keeps count of the documents."""

    def __init__(self, functions, seed):
        self.function, self.compare, self.check = functions
        self.chance = random.Random(seed)
        self.tables = [(ctypes.c_uint32 * (model.ROW_WORDS * limit))() for limit in (model.DOCUMENT_LIMIT, model.SCHEMA_LIMIT)]
        self.shown = dict.fromkeys(generate_failing.KINDS, 0)
        self.documents = self.longest = self.deepest = self.letters = 0

    # Each call.

    def call(self, pair, lengths, room):
        """The code, where everything else is as it must be; else None."""
        texts = [harness.Text(text, self.chance) for text in pair]
        tables = [harness.Words(length, self.chance) for length in lengths]
        buffer, answer = harness.Bytes(room, self.chance), harness.Words(harness.ANSWER, self.chance)
        wanted, compared = self.wanted(texts, tables, room)
        self.function(*harness.addresses([*texts, *tables, buffer]), answer.address())
        code, *_, other = answer.words()
        document = buffer.memory[harness.GUARD:harness.GUARD + other].tobytes() if code == NOT_CARRIED else b""
        if code == wanted[0] == NOT_CARRIED:
            wanted[3] = len(document)
        found = buffer.found[harness.GUARD:harness.GUARD + room].tobytes()
        faults = ["the answer, wanted %s" % wanted] * (not answer.expect(wanted))
        faults += ["a table"] * any(table.memory != other.memory for table, other in zip(tables, compared))
        faults += ["the buffer behind the document"] * (not buffer.expect(document + found[len(document):]))
        faults += ["a text"] * (not all(text.unchanged() for text in texts))
        faults += self.faults(document, *pair) if code == NOT_CARRIED else []
        if faults:
            self.report(pair, lengths, room, answer, document, faults)
        return None if faults else code

    def wanted(self, texts, tables, room):
        """The answer, but for the length, and the tables: all as found (31), or those of Compare."""
        compared = [table.again() for table in tables]
        if room < LEAST_BUFFER:
            return [SHORT_BUFFER, 0, 0, 0], compared
        answer = harness.Words(harness.ANSWER, self.chance)
        self.compare(*harness.addresses([*texts, *compared]), answer.address())
        return answer.words(), compared

    def report(self, pair, lengths, room, answer, document, faults):
        print("new:", pair[0].hex(), "old:", pair[1].hex(), "tables:", *lengths, "buffer:", room)
        print("answer:", *answer.words(), "document:", document.hex())
        print("wrong:", "; ".join(faults))

    # Each document.

    def faults(self, document, new, old):
        """What does not hold of a document."""
        if harness.rows_needed(document) is None:
            return ["the document is not read"]
        value, definitions = model.value(document), [definition(new), definition(old)]
        made_up = names(value) - names(model.value(new, model.SCHEMA_DEPTH)) - names(model.value(old, model.SCHEMA_DEPTH))
        letters = max(map(len, made_up), default=0)
        longest = max(longest_name(schema, model.SCHEMA_DEPTH) for schema in (new, old))
        wrong = {
            "it fails the new schema": not meets(value, definitions[0]),
            "it meets the old schema": meets(value, definitions[1]),
            "Check under the new schema": self.check_code(document, new) != MEETS,
            "Check under the old schema": self.check_code(document, old) not in MISFITS,
            "it is not in its one spelling": spelling(document) != document,
            "its length": len(document) > min(LEAST_BUFFER, 3 * len(new) + len(old)),
            "its depth": brackets(value) > MOST_BRACKETS,
            "a name is too long": longest_name(document, model.DOCUMENT_DEPTH) > max(longest, MOST_LETTERS),
            "a made-up name is too long": letters > MOST_LETTERS,
        }
        self.documents += 1
        self.longest = max(self.longest, len(document))
        self.deepest = max(self.deepest, brackets(value))
        self.letters = max(self.letters, letters)
        return [name for name, holds in wrong.items() if holds]

    def check_code(self, document, schema):
        """The code of Check, with room for everything."""
        answer = (ctypes.c_uint32 * harness.ANSWER)()
        lent = [word for table in self.tables for word in (ctypes.addressof(table), len(table))]
        self.check(document, len(document), schema, len(schema), *lent, ctypes.addressof(answer))
        return answer[0]

    # Each pair.

    def hold(self, case):
        """Tables and buffers with room; then a short buffer, or tables without room."""
        kind, pair = case
        lengths, others = harness.pair_lengths(list(map(schema_rows, pair)), self.chance)
        code = self.call(pair, lengths, self.chance.choice(ROOMS))
        if kind and code == NOT_CARRIED:
            self.shown[kind] += 1
        if kind and code not in (None, NOT_CARRIED):
            print("new:", pair[0].hex(), "old:", pair[1].hex(), "code:", code, "where the new is not carried:", kind)
            return False
        if self.chance.random() < 0.5:
            again = self.call(pair, others, LEAST_BUFFER)
        else:
            again = self.call(pair, self.chance.choice([lengths, others]), self.chance.choice(SHORT_ROOMS))
        return code is not None and again is not None

    def hold_rooms(self, pair):
        """Buffers of every kind of length."""
        lengths, _ = harness.pair_lengths(list(map(schema_rows, pair)), self.chance)
        return all(self.call(pair, lengths, room) is not None for room in SHORT_ROOMS + ROOMS)

    def hold_kind(self, kind):
        """Each kind of failing was seen."""
        if not self.shown[kind]:
            print("no document for:", kind)
        return self.shown[kind] > 0


def pairs(tester, count, seed):
    """Distinct pairs by turns, each with its kind, until so many of the kinds were seen."""
    others, seen = generate_pairs.schema_pairs(seed), set()
    kinds = {kind: source(random.Random(seed)) for kind, source in generate_failing.KINDS.items()}
    while sum(tester.shown.values()) < count:
        for pair in itertools.islice(others, OTHERS):
            yield None, pair
        for kind in list(kinds):
            pair = next(kinds[kind], None)
            if pair is None:
                del kinds[kind]
            elif pair not in seen:
                seen.add(pair)
                yield kind, pair


def run_library(functions, count, seed):
    """The cases, then generated pairs; stops at a difference."""
    tester = Tester(functions, seed)
    cases = edge_cases_counterexample.CASES + edge_cases_counterexample.ROOM_CASES + edge_cases_check.COMPARE_CASES
    tables = [(case[0:2], case[2:4]) for case in edge_cases_check.COMPARE_TABLES]
    counted = harness.count_in_turn(
        ([case[:2] for case in cases], tester.hold_rooms),
        (tables, lambda case: tester.call(*case, LEAST_BUFFER) is not None),
        (pairs(tester, count, seed), tester.hold),
        (generate_failing.KINDS, tester.hold_kind))
    print("%d documents; the longest has %d bytes, the deepest %d open brackets, the longest made-up name %d letters"
          % (tester.documents, tester.longest, tester.deepest, tester.letters))
    return counted


# The cases against the model.

def model_results():
    """Pairs of a name and whether the model answers as is stated."""
    for new, old, document in edge_cases_counterexample.CASES:
        buffer = [7] * (LEAST_BUFFER + 1)
        answer = counterexample(new, old, [0] * 1000, [0] * 1000, buffer)
        right = answer == (NOT_CARRIED, 0, 0, len(document)) and bytes(buffer) == document.ljust(len(buffer), b"\7")
        yield (new, old), right
    for new, old, words, room, answer in edge_cases_counterexample.ROOM_CASES:
        buffer, tables = [7] * room, [[7] * words, [7] * words]
        right = counterexample(new, old, *tables, buffer) == answer and buffer == [7] * room
        yield (new, old), right and (answer[0] != SHORT_BUFFER or tables == [[7] * words] * 2)


def main():
    given = harness.arguments("Holds a library's counterexamples to its Compare and Check.", DEFAULT_COUNT)
    if given.model:
        return harness.finish(*harness.count_all(model_results()))
    if given.self:
        functions = [harness.model_function(*service) for service in [(counterexample, 2, [harness.Bytes]), (compare, 2), (check, 2)]]
    else:
        functions = [harness.load(given.library, *service)
                     for service in [("teleport_counterexample", 2, [harness.Bytes]), ("teleport_compare", 2), ("teleport_check", 2)]]
    return harness.finish(*run_library(functions, given.count, given.seed))


if __name__ == "__main__":
    sys.exit(main())
