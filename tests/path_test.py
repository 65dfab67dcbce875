"""Holds a library's Check with the path to the model, to its own Check and to its own rows.

    python3 tests/path_test.py LIBRARY [--count N] [--seed S]
    python3 tests/path_test.py --self  [--count N] [--seed S]
    python3 tests/path_test.py --model

--model holds the model alone to the cases, and tries that they tell programs apart that are
wrong in one thing.
--self puts the model in the place of the library.
"""

import collections
import contextlib
import io
import itertools
import random
import sys

import edge_cases_check
import edge_cases_path
import harness
import model
from check_test import rows_needed
from generate_misfits import path_pairs
from model_check import MEETS, NAME_MISSING, NAME_SHARED, NO_DATE, NO_DEFINITION, WRONG_KIND, check
from model_path import LEAST_LIST, MISFITS, STEPS, check_path, path_of

DEFAULT_COUNT = 60000

CODES = {*range(MEETS, model.NO_ROOM + 1), *range(NO_DEFINITION, NAME_SHARED + 1), *range(WRONG_KIND, NO_DATE + 1)}
LONGEST_PATH = model.SCHEMA_DEPTH + 1   # steps: no definition stands in more brackets
LENGTHS = range(41)                     # of lists, that are all tried
PARENT = model.ROW_WORDS - 1            # the sixth word

SHAPE = (2, [harness.Words], (harness.Words, STEPS))


class Tester:
    """Asks the library, and keeps count of what was seen."""

    def __init__(self, functions, seed):
        self.path, self.check = functions
        self.chance = random.Random(seed)
        self.codes, self.steps, self.lengths = collections.Counter(), collections.Counter(), collections.Counter()

    def model(self, *given):
        """The model, with count of what it gives."""
        answer = check_path(*given)
        self.codes[answer[0]] += 1
        self.steps[given[-1][0]] += 1
        self.lengths[len(given[-2])] += 1
        return answer

    def call(self, texts, lengths, words):
        """Every word must be the model's."""
        return harness.compare(self.path, self.model, texts, lengths, self.chance,
                               [harness.Words(words, self.chance)], harness.Words(STEPS, self.chance))

    def as_check(self, texts, lengths):
        """With a list that is long enough, answer and tables are those of Check, given the same, and the path follows the
        sixth words of the library's own table."""
        lent = [harness.Text(text, self.chance) for text in texts]
        words = [harness.Words(length, self.chance) for length in [*lengths, harness.ANSWER]]
        others = [one.again() for one in words]
        path, steps = harness.Words(LEAST_LIST, self.chance), harness.Words(STEPS, self.chance)
        self.path(*harness.addresses([*lent, *words[:-1], path]), words[-1].address(), steps.address())
        self.check(*harness.addresses([*lent, *others[:-1]]), others[-1].address())
        same = all(one.memory == other.memory for one, other in zip(words, others))
        found = path.words()[:steps.words()[0]]
        if not same:
            print("another answer or table than of Check:", *[text.hex() for text in texts], *lengths)
        elif not follows(words[0].words(), words[-1].words(), found):
            print("the path does not follow the sixth words:", *[text.hex() for text in texts], "path:", *found)
            return False
        return same

    def hold(self, pair):
        """Tables with room, and of any length, with a list that is long enough; then a list of any length."""
        roomy, other = harness.pair_lengths(rows_needed(*pair), self.chance)
        enough = LEAST_LIST + self.chance.choice([0, 0, 1, 7, self.chance.randrange(100)])
        return (self.call(pair, roomy, enough) and self.as_check(pair, roomy) and self.call(pair, other, enough)
                and self.call(pair, self.chance.choice([roomy, other]), self.chance.choice(LENGTHS)))

    def hold_lengths(self, pair):
        """Lists of every small length."""
        roomy, other = harness.pair_lengths(rows_needed(*pair), self.chance)
        return all(self.call(pair, roomy, words) and self.call(pair, other, words) for words in LENGTHS)

    # What was seen.

    def hold_seen(self, case):
        what, counted, wanted = case
        if not counted[wanted]:
            print("no call has", what, wanted)
        return counted[wanted] > 0

    def seen(self):
        """What the calls must have had, each with its count."""
        return [*[("code", self.codes, code) for code in sorted(CODES)],
                *[("so many steps:", self.steps, steps) for steps in range(LONGEST_PATH + 1)],
                *[("a list of words:", self.lengths, length) for length in LENGTHS]]


def follows(table, answer, path):
    """From the row whose first byte is the place, each row's sixth word being the next row, up to 0; empty on other codes."""
    code, _, place, _ = answer
    if code not in MISFITS:
        return path == []
    inner = [table[model.ROW_WORDS * row + PARENT] for row in path[:-1]]
    return path != [] and table[model.ROW_WORDS * path[0] + 1] == place and inner == path[1:] and path[-1] == 0


def stated(tester):
    """The cases of the papers, as pairs of cases and what holds them."""
    short = [case for case in edge_cases_path.CASES if len(case[0]) + len(case[1]) < 1000]
    cases = [case[:2] for case in edge_cases_path.CASES + edge_cases_check.CHECK_CASES]
    lists = [(case[:2], case[2:4], case[4]) for case in edge_cases_path.LISTS]
    return [(lists, lambda case: tester.call(*case)), (cases, tester.hold), ([case[:2] for case in short], tester.hold_lengths)]


def run_library(functions, count, seed):
    """Stops at a difference."""
    tester = Tester(functions, seed)
    counted = harness.count_in_turn(
        *stated(tester), (itertools.islice(path_pairs(seed), count), tester.hold), (tester.seen(), tester.hold_seen))
    print("codes: times:", ", ".join("%d: %d" % found for found in sorted(tester.codes.items())),
          "\nsteps: times:", ", ".join("%d: %d" % found for found in sorted(tester.steps.items())))
    return counted


# Programs that are wrong in one thing. Each is lent what check_path is.

def from_the_top(document, schema, table1, table2, path, steps):
    answer = check_path(document, schema, table1, table2, path, steps)
    path[:steps[0]] = path[:steps[0]][::-1]
    return answer


def short_of_the_top(document, schema, table1, table2, path, steps):
    """The last step is left out, where there are two or more."""
    before = path[:]
    answer = check_path(document, schema, table1, table2, path, steps)
    if steps[0] > 1:
        steps[0] -= 1
        path[steps[0]] = before[steps[0]]
    return answer


def last_not_written(document, schema, table1, table2, path, steps):
    before = path[:]
    answer = check_path(document, schema, table1, table2, path, steps)
    if steps[0]:
        path[steps[0] - 1] = before[steps[0] - 1]
    return answer


def written_on_0(document, schema, table1, table2, path, steps):
    answer = check_path(document, schema, table1, table2, path, steps)
    if answer[0] == MEETS:
        path[0], steps[0] = 0, 1
    return answer


def touched_on_0(document, schema, table1, table2, path, steps):
    """No steps are given, but the list is written to."""
    answer = check_path(document, schema, table1, table2, path, steps)
    if answer[0] == MEETS:
        path[0] = 0
    return answer


def steps_as_found(document, schema, table1, table2, path, steps):
    before = steps[:]
    answer = check_path(document, schema, table1, table2, path, steps)
    steps[:] = steps if steps[0] else before
    return answer


def steps_as_found_on_short_list(document, schema, table1, table2, path, steps):
    before = steps[:]
    answer = check_path(document, schema, table1, table2, path, steps)
    steps[:] = before if len(path) < LEAST_LIST else steps
    return answer


def rest_cleared(document, schema, table1, table2, path, steps):
    answer = check_path(document, schema, table1, table2, path, steps)
    if steps[0]:
        path[steps[0]:] = [0] * (len(path) - steps[0])
    return answer


def from_around_the_object(document, schema, table1, table2, path, steps):
    """With 21 the path begins with what the object stands in."""
    before = path[:]
    answer = check_path(document, schema, table1, table2, path, steps)
    if answer[0] == NAME_MISSING and steps[0] > 1:
        path[:] = path[1:steps[0]] + before[steps[0] - 1:]
        steps[0] -= 1
    return answer


def through_names(document, schema, table1, table2, path, steps):
    """A value is followed by the name that it stands under."""
    answer = check_path(document, schema, table1, table2, path, steps)
    if steps[0]:
        found = [row for number in path[:steps[0]] for row in with_name(table1, number)][:len(path)]
        path[:len(found)], steps[0] = found, len(found)
    return answer


def with_name(table, number):
    """A row, and before it that of its name where it has one."""
    return [number, number - 1] if number and table[model.ROW_WORDS * (number - 1)] == model.NAME else [number]


def under_the_name(document, schema, table1, table2, path, steps):
    """A value's sixth word is its name's row."""
    answer = check_path(document, schema, table1, table2, path, steps)
    for table, held in [(table1, answer[0] in (MEETS, *MISFITS)), (table2, answer[0] in (MEETS, *MISFITS))]:
        for number in range(1, table[4] if held else 0):
            if table[model.ROW_WORDS * (number - 1)] == model.NAME:
                table[model.ROW_WORDS * number + PARENT] = number - 1
    return answer


def beside(document, schema, table1, table2, path, steps):
    """The sixth word is the row before, unless that is a bracket that is open."""
    answer = check_path(document, schema, table1, table2, path, steps)
    if answer[0] in (MEETS, *MISFITS):
        for number in range(1, table1[4]):
            table1[model.ROW_WORDS * number + PARENT] = number - 1
    return answer


def list_behind_schema(document, schema, table1, table2, path, steps):
    """The list is looked at when the schema has been taken."""
    if len(path) >= LEAST_LIST:
        return check_path(document, schema, table1, table2, path, steps)
    answer = check(document, schema, [0] * len(table1), [0] * len(table2))
    steps[0] = 0
    return answer if answer[1] == 2 else (model.NO_ROOM, 0, 0, LEAST_LIST)


def tables_filled(document, schema, table1, table2, path, steps):
    """A short list is refused when the tables have been filled."""
    answer = check_path(document, schema, table1, table2, path, steps)
    if len(path) < LEAST_LIST:
        check(document, schema, table1, table2)
    return answer


def list_as_needed(document, schema, table1, table2, path, steps):
    """Any list is long enough that holds the path."""
    answer = check(document, schema, table1[:], table2[:])
    found = path_of(document, answer[2]) if answer[0] in MISFITS else []
    if len(found) > len(path) or len(path) >= LEAST_LIST:
        return check_path(document, schema, table1, table2, path, steps)
    path[:len(found)], steps[0] = found, len(found)
    return check(document, schema, table1, table2)


def one_word_less(document, schema, table1, table2, path, steps):
    """A list of 32 words is taken."""
    if len(path) != LEAST_LIST - 1:
        return check_path(document, schema, table1, table2, path, steps)
    longer = path + [0]
    answer = check_path(document, schema, table1, table2, longer, steps)
    path[:] = longer[:-1]
    return answer


def one_word_more(document, schema, table1, table2, path, steps):
    """A list of 33 words is refused."""
    return check_path(document, schema, table1, table2, path if len(path) != LEAST_LIST else [], steps)


def in_words(document, schema, table1, table2, path, steps):
    """The path has words of the table for rows."""
    answer = check_path(document, schema, table1, table2, path, steps)
    path[:steps[0]] = [model.ROW_WORDS * row for row in path[:steps[0]]]
    return answer


def by_depth(document, schema, table1, table2, path, steps):
    """The path counts its own steps."""
    answer = check_path(document, schema, table1, table2, path, steps)
    path[:steps[0]] = range(steps[0])[::-1]
    return answer


WRONG = [from_the_top, short_of_the_top, last_not_written, written_on_0, touched_on_0, steps_as_found,
         steps_as_found_on_short_list, rest_cleared, from_around_the_object, through_names, under_the_name, beside,
         list_behind_schema, tables_filled, list_as_needed, one_word_less, one_word_more, in_words, by_depth]


def told_apart(service, seed):
    """Whether the stated cases find that a service is wrong."""
    tester = Tester([harness.model_function(service, *SHAPE), harness.model_function(check, 2)], seed)
    with contextlib.redirect_stdout(io.StringIO()):
        return harness.count_in_turn(*stated(tester))[1] > 0


# The model against the cases.

def gives(document, schema, lengths, words, answer, path):
    """Whether the model gives this answer and path, and leaves the rest of the list as it was."""
    found, steps = [77] * words, [77]
    return (check_path(document, schema, *[[77] * length for length in lengths], found, steps) == answer
            and found == path + [77] * (words - len(path)) and steps == [len(path)])


def tables_hold(document, schema, lengths, words, answer):
    """A table holds its rows unless its text is refused with 1 to 8 or not reached, or the list is short."""
    tables = [[77] * length for length in lengths]
    check_path(document, schema, *tables, [77] * words, [77])
    code, text, *_ = answer
    held = [answer != edge_cases_path.NO_LIST and not refused for refused in
            [0 < code <= NAME_SHARED, 0 < code <= model.NO_ROOM and text == 2]]
    return all(harness.table_is(table, text, holds) for table, text, holds in zip(tables, [document, schema], held))


def model_results(seed):
    """Pairs of a name and whether the model answers as is stated."""
    for document, schema, answer, path in edge_cases_path.CASES:
        lengths = [model.ROW_WORDS * len(text) for text in (document, schema)]
        yield (document[:99], schema[:99]), gives(document, schema, lengths, LEAST_LIST, answer, path)
        yield (document[:99], schema[:99]), tables_hold(document, schema, lengths, LEAST_LIST, answer)
    for document, schema, *lengths, words, answer, path in edge_cases_path.LISTS:
        yield (document[:99], schema[:99], words), gives(document, schema, lengths, words, answer, path)
        yield (document[:99], schema[:99], words), tables_hold(document, schema, lengths, words, answer)
    for service in WRONG:
        yield service.__name__, told_apart(service, seed)


def main():
    given = harness.arguments("Holds a library's Check with the path to the model.", DEFAULT_COUNT)
    if given.model:
        return harness.finish(*harness.count_all(model_results(given.seed)))
    if given.self:
        functions = [harness.model_function(check_path, *SHAPE), harness.model_function(check, 2)]
    else:
        functions = [harness.load(given.library, "teleport_check_path", *SHAPE), harness.load(given.library, "teleport_check", 2)]
    return harness.finish(*run_library(functions, given.count, given.seed))


if __name__ == "__main__":
    sys.exit(main())
