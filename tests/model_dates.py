"""A model of Check with dates (02, L3), to be read beside the paper.

check_dates() gives Check's answer, fills both tables, and puts into dates how many
values were judged as DateTime, their earliest and their latest moment. A moment is
whole seconds from 1970-01-01T00:00:00Z.
"""

from datetime import timedelta

import model
from model_check import DATE, MEETS, check, days_in_month, offset
from model_meeting import characters, definition, members

NUMBERS = 3     # how many, earliest, latest

DAY = 24 * 60 * 60
MONTHS = range(1, 13)


def check_dates(document, schema, table1, table2, dates):
    """All three numbers are 0 with another code than 0."""
    answer = check(document, schema, table1, table2)
    dates[:] = dates_of(document, schema) if answer[0] == MEETS else [0] * NUMBERS
    return answer


def dates_of(document, schema):
    """The three numbers of a document that meets the schema; all are 0 where there is no date."""
    wanted = definition(model.value(schema, model.SCHEMA_DEPTH))
    moments = [moment(date) for date in dates_under(model.value(document), wanted)]
    return [len(moments), min(moments, default=0), max(moments, default=0)]


def dates_under(value, wanted):
    """The dates of a value that meets a definition: each value that stands under DateTime."""
    content = value[1]
    if wanted.form == "DateTime":
        return [characters(content)]
    if wanted.form == "Array":
        return [date for element in content for date in dates_under(element, wanted.inner)]
    if wanted.form == "Map":
        return [date for _, under in content for date in dates_under(under, wanted.inner)]
    if wanted.form == "Object":
        named = {**wanted.required, **wanted.optional}
        found = [(under, named[name]) for name, under in members(value).items() if name in named]
        return [date for under, inner in found for date in dates_under(under, inner)]
    return []


# Moments.

def moment(date):
    """The written time less its offset. The fraction is left out; second 60 is one more than 59."""
    found = DATE.fullmatch(date)
    year, month, day, hour, minute, second = map(int, found.groups()[:6])
    days = FIRST_DAYS[year] + sum(days_in_month(year, earlier) for earlier in range(1, month)) + day - 1
    return days * DAY + hour * 3600 + minute * 60 + second - offset(found) // timedelta(seconds=1)


def first_days():
    """The day of each 1 January, from 1970 on and back, year by year."""
    found = {1970: 0}
    for year in range(1970, 9999):
        found[year + 1] = found[year] + days_in_year(year)
    for year in range(1969, -1, -1):
        found[year] = found[year + 1] - days_in_year(year)
    return found


def days_in_year(year):
    return sum(days_in_month(year, month) for month in MONTHS)


FIRST_DAYS = first_days()
