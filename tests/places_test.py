"""Holds the places of a library's refusals to what they mean (02, L14).

    python3 tests/places_test.py LIBRARY [--count N] [--seed S]
    python3 tests/places_test.py --self  [--count N] [--seed S]

With codes 2 to 7 the bytes before the place are completed to a text, which
must be read; 2 must stand at the end of the text, and 3 to 7 at a byte of it.
With 3 to 7 the completion of one byte more must not be read, and with other
bytes behind the place the answer must stay. Texts with other codes, and
completions that are too long, are passed over; their number is printed.
--self (or --model) puts the model in the place of the library.
"""

import itertools
import random
import sys

import completing
import edge_cases
import generate
import harness
import model

DEFAULT_COUNT = 40000
NEW_TAILS = 3


def answer_of(function, text, chance):
    """The four numbers, with a table that has no room."""
    buffer, table, answer = harness.Text(text, chance), harness.Words(0, chance), harness.Words(harness.ANSWER, chance)
    function(*harness.addresses([buffer, table]), answer.address())
    return answer.words()


def completed(function, beginning, chance):
    """The code of what completes the beginning."""
    return answer_of(function, completing.complete(beginning), chance)[0]


def other_tails(text, place, chance):
    """Texts with the same bytes up to the place and with it, and others behind."""
    kept = text[:place + 1]
    for _ in range(NEW_TAILS):
        tail = bytes(chance.choices(generate.INTERESTING, k=chance.randint(0, 12)))
        yield (kept + tail)[:model.DOCUMENT_LIMIT]


def faults(function, text, answer, chance):
    """What the place of a refusal with 2 to 7 lacks, in words."""
    code, _, place, _ = answer
    if not (place == len(text) if code == 2 else place < len(text)):
        yield "the place is not in the text"
    if completed(function, text[:place], chance) != model.NO_ROOM:
        yield "what stands before the place begins no text"
    if code > 2 and completed(function, text[:place + 1], chance) == model.NO_ROOM:
        yield "one byte more begins a text"
    if code > 2 and any(answer_of(function, changed, chance) != answer for changed in other_tails(text, place, chance)):
        yield "a byte behind the place counts"


class Places:
    """Tries texts, and counts those that are passed over."""

    def __init__(self, function, seed):
        self.function, self.chance, self.passed_over = function, random.Random(seed), 0

    def hold(self, text):
        answer = answer_of(self.function, text, self.chance)
        if not 2 <= answer[0] <= 7 or len(completing.complete(text[:answer[2]])) > model.DOCUMENT_LIMIT:
            self.passed_over += 1
            return True
        found = list(faults(self.function, text, answer, self.chance))
        for fault in found:
            print("text:", text.hex(), "answer:", *answer, "fault:", fault)
        return not found


def run(function, count, seed):
    places = Places(function, seed)
    cases = [text for text, _ in edge_cases.CASES]
    texts = itertools.chain(cases, itertools.islice(generate.texts(seed), count))
    passed, failed = harness.count_in_turn((texts, places.hold))
    print(places.passed_over, "passed over")
    return passed - places.passed_over, failed


def main():
    given = harness.arguments("Holds a library's places to what they mean.", DEFAULT_COUNT)
    if given.model or given.self:
        function = harness.model_function(model.read, 1)
    else:
        function = harness.load(given.library, "teleport_read", 1)
    return harness.finish(*run(function, given.count, given.seed))


if __name__ == "__main__":
    sys.exit(main())
