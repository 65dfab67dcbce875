"""Holds a library's Check with dates to the model, and to its own Check.

    python3 tests/dates_test.py LIBRARY [--count N] [--seed S]
    python3 tests/dates_test.py --self  [--count N] [--seed S]
    python3 tests/dates_test.py --model

--count is how many pairs are generated. Every day of the years 0000 to 9999 is asked
about once, and RANDOM_DATES dates in lists.
--model holds the model alone to the cases, and its moments to Python's datetime.
--self puts the model in the place of the library, which takes minutes.
"""

import collections
import ctypes
import itertools
import random
import sys
from datetime import date, datetime, timedelta

import edge_cases_check
import edge_cases_dates
import harness
import model
from check_test import rows_needed
from generate_pairs import FRACTIONS, LEAP_MINUTES, dates_pairs, second_60
from model_check import MEETS, NAME_SHARED, NO_DATE, NO_DEFINITION, WRONG_KIND, check, days_in_month
from model_dates import DAY, MONTHS, NUMBERS, check_dates, days_in_year, moment

DEFAULT_COUNT = 24000
RANDOM_DATES = 180000
LENGTHS = [1, 1, 1, 2, 3, 5, 8]     # of lists of random dates
TIMES = 997                         # that the days take turns with
YEARS = range(10000)
DAYS = 366 + date.max.toordinal()   # of those years; Python's date begins with the year 1

CODES = {*range(MEETS, model.NO_ROOM + 1), *range(NO_DEFINITION, NAME_SHARED + 1), *range(WRONG_KIND, NO_DATE + 1)}
LEAST_DATED = 1000                  # pairs with two dates or more, of which too few would show nothing
BESIDE = (harness.Numbers, NUMBERS)  # stands beside the answer

# Schemas of one date and of a list, and room for the longest list.
ONE, LIST = b'"DateTime"', b'{"Array":"DateTime"}'
ROOM = model.ROW_WORDS * (1 + max(LENGTHS))


# Dates.

def days():
    """Each day of the years, with its number: counted on one by one, 1970-01-01 being 0."""
    number = -sum(days_in_year(year) for year in range(1970))
    for year, month in itertools.product(YEARS, MONTHS):
        for day in range(1, days_in_month(year, month) + 1):
            yield "%04d-%02d-%02d" % (year, month, day), number
            number += 1


def random_zone(chance):
    ahead = "%s%02d:%02d" % (chance.choice("+-"), chance.randrange(24), chance.randrange(60))
    return chance.choice(["Z", "z", ahead, ahead, ahead])


def random_fraction(chance):
    return chance.choice(["", "", *FRACTIONS[:5], ".%d" % chance.randrange(1000)])


def random_time(chance):
    """What stands behind a day."""
    time = "%s%02d:%02d:%02d" % (chance.choice("Tt"), chance.randrange(24), chance.randrange(60), chance.randrange(60))
    return time + random_fraction(chance) + random_zone(chance)


def random_date(chance):
    """A date of any year; one of ten has second 60."""
    year, month = chance.choice(YEARS), chance.choice(MONTHS)
    if chance.random() < 0.1:
        found = second_60("%04d" % year, chance.choice(LEAP_MINUTES), random_zone(chance), random_fraction(chance))
        return found.replace("T", chance.choice("Tt"))
    day = chance.randint(1, days_in_month(year, month))
    return "%04d-%02d-%02d" % (year, month, day) + random_time(chance)


def random_lists(seed):
    """Lists of dates, with as many dates as are wanted."""
    chance, left = random.Random(seed), RANDOM_DATES
    while left > 0:
        found = [random_date(chance) for _ in range(chance.choice(LENGTHS))]
        left -= len(found)
        yield found


# The library.

class Tester:
    """Asks the library, and keeps count of what was seen."""

    def __init__(self, functions, seed):
        self.dates, self.check = functions
        self.chance = random.Random(seed)
        self.codes = collections.Counter()
        self.dated = self.asked = 0
        times = [random_time(self.chance) for _ in range(TIMES)]
        self.times = itertools.cycle([(time, moment("1970-01-01" + time)) for time in times])
        self.tables = [(ctypes.c_uint32 * ROOM)() for _ in range(2)]
        self.answer = (ctypes.c_uint32 * harness.ANSWER)()
        self.numbers = (ctypes.c_int64 * NUMBERS)()
        tables = [word for table in self.tables for word in (ctypes.addressof(table), ROOM)]
        self.lent = [*tables, ctypes.addressof(self.answer), ctypes.addressof(self.numbers)]

    # Pairs of texts.

    def model(self, *given):
        """The model, with count of what it gives."""
        answer = check_dates(*given)
        self.codes[answer[0]] += 1
        self.dated += given[-1][0] > 1
        return answer

    def call(self, texts, lengths):
        """Every word and number must be the model's, and every word that of Check."""
        return (harness.compare(self.dates, self.model, texts, lengths, self.chance,
                                beside=harness.Numbers(NUMBERS, self.chance))
                and self.as_check(texts, lengths))

    def as_check(self, texts, lengths):
        """Answer and tables are those of Check, given the same."""
        lent = [harness.Text(text, self.chance) for text in texts]
        words = [harness.Words(length, self.chance) for length in [*lengths, harness.ANSWER]]
        others = [one.again() for one in words]
        numbers = harness.Numbers(NUMBERS, self.chance)
        self.dates(*harness.addresses([*lent, *words[:-1]]), words[-1].address(), numbers.address())
        self.check(*harness.addresses([*lent, *others[:-1]]), others[-1].address())
        same = all(one.memory == other.memory for one, other in zip(words, others))
        if not same:
            print("another answer or table than of Check:", *[text.hex() for text in texts], *lengths)
        return same

    def hold(self, pair):
        """Tables with room; then of any length."""
        return all(self.call(pair, lengths) for lengths in harness.pair_lengths(rows_needed(*pair), self.chance))

    # Moments.

    def ask(self, document, schema, wanted):
        """Whether the three numbers are these."""
        self.dates(document, len(document), schema, len(schema), *self.lent)
        found = self.numbers[:]
        right = found == wanted and self.answer[:] == [MEETS, 0, 0, 0]
        if not right:
            print("document:", document.decode(), "wanted:", *wanted, "found:", *found, "answer:", *self.answer)
        return right

    def hold_day(self, case):
        """A day at some time, alone in its document."""
        (day, number), (time, seconds) = case, next(self.times)
        self.asked += 1
        wanted = number * DAY + seconds
        return self.ask(b'"%s"' % (day + time).encode(), ONE, [1, wanted, wanted])

    def hold_list(self, found):
        moments = [moment(one) for one in found]
        document = "[" + ",".join('"%s"' % one for one in found) + "]"
        return self.ask(document.encode(), LIST, [len(found), min(moments), max(moments)])

    # What was seen.

    def hold_seen(self, code):
        if not self.codes[code]:
            print("no pair has code", code)
        return self.codes[code] > 0

    def hold_asked(self, count):
        if self.asked != count:
            print(self.asked, "days were asked about, wanted", count)
        return self.asked == count

    def hold_dated(self, least):
        if self.dated < least:
            print("only", self.dated, "pairs with two dates or more")
        return self.dated >= least


def run_library(functions, count, seed):
    """Stops at a difference."""
    tester = Tester(functions, seed)
    cases = [case[:2] for case in edge_cases_dates.CASES + edge_cases_check.CHECK_CASES]
    tables = [(case[:2], case[2:4]) for case in edge_cases_dates.TABLES + edge_cases_check.CHECK_TABLES]
    counted = harness.count_in_turn(
        (cases, tester.hold), (tables, lambda case: tester.call(*case)),
        (itertools.islice(dates_pairs(seed), count), tester.hold), (CODES, tester.hold_seen),
        ([min(count // 10, LEAST_DATED)], tester.hold_dated),
        (random_lists(seed), tester.hold_list),
        (days(), tester.hold_day), ([DAYS], tester.hold_asked))
    print("codes: times:", ", ".join("%d: %d" % found for found in sorted(tester.codes.items())),
          "\ntimes with two dates or more:", tester.dated)
    return counted


# The model against the cases and Python's datetime.

EPOCH = datetime(1970, 1, 1)

# Python has no year 0. After 400 years the calendar repeats, so that the year 400 stands for it.
FIRST_YEAR, LATER_YEAR = "0000", "0400"
CYCLE = datetime(401, 1, 1) - datetime(1, 1, 1)


def later(text):
    """The same in a year that Python has, and how much later that is."""
    return (LATER_YEAR + text[4:], CYCLE) if text.startswith(FIRST_YEAR) else (text, timedelta(0))


def by_datetime(text):
    """The moment of a date. Python has no second 60, which is one more than 59."""
    (text, more), leap = later(text), text[17:19] == "60"
    written = datetime.fromisoformat(text[:17] + ("59" if leap else text[17:19]))
    ahead = datetime.strptime(text[19:].lstrip(".0123456789").upper(), "%z").utcoffset()
    return (written - EPOCH - ahead - more) // timedelta(seconds=1) + leap


def is_counted(case):
    """Whether a day has the number that Python gives it."""
    day, number = case
    shown, more = later(day)
    return date.fromordinal(EPOCH.toordinal() + number + more.days).isoformat() == shown


def gives(document, schema, tables, code, numbers):
    """Whether the model gives this code, and these numbers in the place of others."""
    found = [77] * NUMBERS
    return check_dates(document, schema, *tables, found)[0] == code and found == list(numbers)


def model_results(seed):
    """Pairs of a name and whether the model answers as is stated."""
    for text, wanted in edge_cases_dates.MOMENTS:
        yield text, moment(text) == by_datetime(text) == wanted
    for document, schema, code, numbers in edge_cases_dates.CASES:
        yield (document, schema), gives(document, schema, [[0] * 20000, [0] * 20000], code, numbers)
    for document, schema, words1, words2, code in edge_cases_dates.TABLES:
        yield (document, schema), gives(document, schema, [[0] * words1, [0] * words2], code, [0] * NUMBERS)
    for text in itertools.chain.from_iterable(random_lists(seed)):
        yield text, moment(text) == by_datetime(text)
    for year, month in itertools.product(YEARS, MONTHS):
        first = "%04d-%02d-01T00:00:00Z" % (year, month)
        yield first, moment(first) == by_datetime(first)
    for case in days():
        yield case, is_counted(case)


def main():
    given = harness.arguments("Holds a library's Check with dates to the model.", DEFAULT_COUNT)
    if given.model:
        return harness.finish(*harness.count_all(model_results(given.seed)))
    if given.self:
        functions = [harness.model_function(check_dates, 2, beside=BESIDE), harness.model_function(check, 2)]
    else:
        functions = [harness.load(given.library, "teleport_check_dates", 2, beside=BESIDE),
                     harness.load(given.library, "teleport_check", 2)]
    return harness.finish(*run_library(functions, given.count, given.seed))


if __name__ == "__main__":
    sys.exit(main())
