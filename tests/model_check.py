"""A model of the service Check, to be read beside the paper.

check() gives the answer (code, text, place, other) and fills both tables.
"""

import re
from datetime import datetime, timedelta, timezone

import model

# Codes of Check beside those of Read.
MEETS = 0
NO_DEFINITION, UNKNOWN_TYPE, NAME_SHARED = 10, 11, 12
WRONG_KIND, NAME_MISSING, NO_DATE = 20, 21, 22

TYPE_NAMES = ["JSON", "Schema", "Float", "Integer", "String", "Boolean", "DateTime"]

# Kinds of values that a type name takes; Schema and DateTime want more.
ANY_KIND = range(model.NULL, model.NAME)
KINDS = {
    "JSON": ANY_KIND,
    "Schema": ANY_KIND,
    "Float": [model.INTEGER, model.OTHER_NUMBER],
    "Integer": [model.INTEGER],
    "String": [model.STRING],
    "Boolean": [model.FALSE, model.TRUE],
    "DateTime": [model.STRING],
}

DATE = re.compile(
    "([0-9]{4})-([0-9]{2})-([0-9]{2})[Tt]"
    "([0-9]{2}):([0-9]{2}):([0-9]{2})([.][0-9]+)?"
    "([Zz]|[+-]([0-9]{2}):([0-9]{2}))")


class Refused(Exception):
    """A text that is not taken, with the answer 1 to 12."""

    def __init__(self, answer):
        super().__init__(answer)
        self.answer = answer


class Fault(Exception):
    """The first fault of a definition: codes 10 to 12 and the place."""

    def __init__(self, code, place):
        super().__init__(code, place)
        self.code = code
        self.place = place


class Misfit(Exception):
    """The first misfit: codes 20 to 22, place in the document, other."""

    def __init__(self, code, place, other):
        super().__init__(code, place, other)
        self.answer = (code, 1, place, other)


def check(document, schema, table1, table2):
    """The schema wholly first, then the document, then the misfits."""
    try:
        definition = take_schema(schema, table2, 2)
        value = take_text(document, table1, model.DOCUMENT_LIMIT, model.DOCUMENT_DEPTH, 1)
        judge(value, definition)
    except (Refused, Misfit) as found:
        return found.answer
    return (MEETS, 0, 0, 0)


def take_schema(text, table, which):
    """Codes 1 to 8, then 10 to 12; the table holds its rows after those too."""
    definition = take_text(text, table, model.SCHEMA_LIMIT, model.SCHEMA_DEPTH, which)
    try:
        judge_definition(definition)
    except Fault as fault:
        raise Refused((fault.code, which, fault.place, 0))
    return definition


def take_text(text, table, limit, depth, which):
    """Codes 1 to 8; gives the tree of the text."""
    answer = model.read(text, table, limit, depth, which)
    if answer[0] != model.READ:
        raise Refused(answer)
    return model.tree(text, depth)


# Definitions.

def judge_definition(node):
    """A type name, or an object with one member: Array, Map or Object."""
    if node.kind == model.STRING:
        if node.content not in TYPE_NAMES:
            raise Fault(UNKNOWN_TYPE, node.place)
    elif node.kind == model.OBJECT:
        if len(node.content) != 1:
            raise Fault(NO_DEFINITION, node.place)
        judge_form(node.content[0])
    else:
        raise Fault(NO_DEFINITION, node.place)


def judge_form(member):
    """Under Array and Map stands a definition, under Object a body."""
    if member.name in ("Array", "Map"):
        judge_definition(member.value)
    elif member.name == "Object":
        judge_body(member.value)
    else:
        raise Fault(UNKNOWN_TYPE, member.place)


def judge_body(body):
    """Kinds, then shared names, then the definitions, "required" first."""
    want_object(body)
    for part in ("required", "optional"):
        if find(body, part):
            want_object(find(body, part).value)
    required, optional = members_under(body, "required"), members_under(body, "optional")
    judge_shared(required, optional)
    for member in required + optional:
        judge_definition(member.value)


def want_object(node):
    if node.kind != model.OBJECT:
        raise Fault(NO_DEFINITION, node.place)


def judge_shared(required, optional):
    """A name both required and optional, in the order of "optional"."""
    names = {member.name for member in required}
    for member in optional:
        if member.name in names:
            raise Fault(NAME_SHARED, member.place)


def is_definition(node):
    try:
        judge_definition(node)
    except Fault:
        return False
    return True


def find(node, name):
    """The member of an object with this name after unescaping, or None."""
    for member in node.content:
        if member.name == name:
            return member
    return None


def members_under(body, part):
    """The members of "required" or "optional"; none where it is absent."""
    found = find(body, part)
    return found.value.content if found else []


# Misfits.

def judge(value, definition):
    """A value's kind is judged before what it holds."""
    if definition.kind == model.STRING:
        judge_type(value, definition)
        return
    form = definition.content[0]
    if value.kind != (model.ARRAY if form.name == "Array" else model.OBJECT):
        raise Misfit(WRONG_KIND, value.place, definition.place)
    if form.name == "Array":
        for element in value.content:
            judge(element, form.value)
    elif form.name == "Map":
        for member in value.content:
            judge(member.value, form.value)
    else:
        judge_object(value, form.value)


def judge_type(value, definition):
    """The seven type names."""
    name = definition.content
    if value.kind not in KINDS[name]:
        raise Misfit(WRONG_KIND, value.place, definition.place)
    if name == "Schema" and not is_definition(value):
        raise Misfit(WRONG_KIND, value.place, definition.place)
    if name == "DateTime" and not is_date(value.content):
        raise Misfit(NO_DATE, value.place, definition.place)


def judge_object(value, body):
    """Names of "required", each missing or judged; then of "optional"."""
    members = {member.name: member.value for member in value.content}
    for wanted in members_under(body, "required"):
        if wanted.name not in members:
            raise Misfit(NAME_MISSING, value.place, wanted.place)
        judge(members[wanted.name], wanted.value)
    for wanted in members_under(body, "optional"):
        if wanted.name in members:
            judge(members[wanted.name], wanted.value)


# Dates.

def is_date(characters):
    """YYYY-MM-DD, T, hh:mm:ss, perhaps a fraction, Z or an offset."""
    found = DATE.fullmatch(characters)
    if not found:
        return False
    year, month, day, hour, minute, second = map(int, found.groups()[:6])
    offset_hour, offset_minute = map(int, found.groups(default="00")[8:])
    if not (1 <= month <= 12 and 1 <= day <= days_in_month(year, month)
            and hour <= 23 and minute <= 59 and second <= 60
            and offset_hour <= 23 and offset_minute <= 59):
        return False
    return second <= 59 or has_leap_second(year, month, day, hour, minute, timezone(offset(found)))


def offset(found):
    """How far the written time is ahead of UTC."""
    hours, minutes = map(int, found.groups(default="00")[8:])
    size = timedelta(hours=hours, minutes=minutes)
    return -size if found[8][0] == "-" else size


def has_leap_second(year, month, day, hour, minute, zone):
    """Whether the minute is in UTC 23:59 on 30 June or 31 December. Month and day repeat
    after 400 years, so the year is one that datetime has, with those beside it."""
    written = datetime(2000 + year % 400, month, day, hour, minute, tzinfo=zone)
    utc = written.astimezone(timezone.utc)
    return (utc.month, utc.day, utc.hour, utc.minute) in [(6, 30, 23, 59), (12, 31, 23, 59)]


def days_in_month(year, month):
    if month == 2:
        return 29 if is_leap(year) else 28
    return 30 if month in (4, 6, 9, 11) else 31


def is_leap(year):
    """Divisible by 4 but not 100, or by 400."""
    return year % 4 == 0 and year % 100 != 0 or year % 400 == 0
