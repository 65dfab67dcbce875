"""Generates pairs of texts: documents with schemas, and schemas with schemas.

    python3 generate_pairs.py check SEED COUNT
    python3 generate_pairs.py dates SEED COUNT
    python3 generate_pairs.py compare SEED COUNT

prints COUNT distinct pairs, one on a line, as hex. The same seed gives the
same pairs. Values and definitions are those of model_meeting.
"""

import itertools
import random
import sys
from datetime import datetime, timedelta, timezone

import generate
from model import DOCUMENT_DEPTH, DOCUMENT_LIMIT, SCHEMA_DEPTH, SCHEMA_LIMIT
from model_check import TYPE_NAMES
from model_meeting import (
    JSON, Definition, array, number, object_of, string, write)

# Names: short ones that meet often, the paper's own words, and odd ones.
COMMON_NAMES = ["a", "b", "c"]
NAMES = COMMON_NAMES + [
    "", "A", "aa", "ab", "required", "optional", "Array", "Map", "Object", "JSON",
    "\u00e9", "e\u0301", "/", '"', "\\", "\n", "\0", "a\0", "\x7f", "\ufeff",
    "\uffff", "\U0001f600", "\U0010ffff", "a/b", "\\u0061",
]
# Enough of them for objects whose names are looked up by an index.
WIDE_NAMES = NAMES + ["n%d" % place for place in range(60)]
IGNORED_NAMES = ["", "Required", "OPTIONAL", "require", "optional ", "a", "Object", "\0required"]
UNKNOWN_NAMES = [
    "", "Json", "json", "schema", "float", "integer", "INTEGER", "Int", "string", "boolean",
    "Bool", "Datetime", "dateTime", "Date", "Number", "null", "JSON ", " JSON", "JSO", "JSON\0",
    "String\n", "\uff2aSON", "required", "optional", "array", "map", "object", "Arra", "Mapp",
    "Objec", "Object ", "\0Map",
]
UNKNOWN_TYPES = UNKNOWN_NAMES + ["Array", "Map", "Object"]
UNKNOWN_FORMS = UNKNOWN_NAMES + TYPE_NAMES

SIMPLE_VALUES = [
    ("null", None), ("boolean", False), ("boolean", True), number("0"), number("-0"),
    number("17"), number("1.0"), number("1e2"), number("-0.5E-3"), string(""), string("x"),
    string("JSON"), string("Integer"), string("2024-02-29T00:00:00Z"), array(),
    array(("null", None)), object_of({}), object_of({"a": number("1")}),
    object_of({"Array": string("JSON")}), object_of({"Object": object_of({})}),
]
WRONG_KINDS = [value for value in SIMPLE_VALUES if value[0] not in ("string", "object")]

# Dates.
YEARS = ["0000", "0001", "0004", "0100", "0400", "1600", "1700", "1900", "2000", "2023",
         "2024", "2100", "9996", "9999"]
TIMES = ["00:00:00", "23:59:59", "24:00:00", "23:60:00", "23:59:60", "19:30:30", "20:00:00",
         "29:00:00", "30:00:00", "99:00:00", "00:99:00", "00:00:99", "00:00:61", "12:00",
         "1:00:00", "00:00:00:00", "000000"]
FRACTIONS = ["", ".0", ".5", ".123456789", "." + "9" * 40, ".", "..5", ",5", ".5.5", ".x",
             ". 5", ".-5"]
OFFSETS = ["Z", "z", "+00:00", "-00:00", "+23:59", "-23:59", "+24:00", "-24:00", "+23:60",
           "-00:60", "+19:00", "+20:00", "+30:00", "+99:99", "+0000", "+00", "+1:00", "+00:0",
           "00:00", "", "ZZ", " Z", "Z ", "Z\n", "Z\0", "+00:00Z", "\u221200:00", "++0:00",
           "+-1:00"]
SEPARATORS = ["T", "t", " ", "_", "", "TT", "\u0422", "T "]
DATE = "2024-02-29T23:59:59.5+02:00"
LEAP_DATE = "1990-12-31T15:59:60.5-08:00"
# The minutes of UTC that may have a second 60, in any year.
LEAP_MINUTES = [datetime(2024, 6, 30, 23, 59, tzinfo=timezone.utc), datetime(2024, 12, 31, 23, 59, tzinfo=timezone.utc)]
LEAP_OFFSETS = ["Z", "z"] + [sign + size for sign in "+-" for size in [
    "00:00", "00:01", "00:20", "00:59", "01:00", "05:30", "08:00", "12:00", "12:45", "14:00", "23:00", "23:59"]]
DATE_CHARACTERS = "0123456789-+:.,TtZz /\0\n\x7f\u0660\uff10\u00e9\U0001f600"

# Types that take more, and types that take less.
WIDER = {"Integer": ["Float", "JSON"], "Float": ["JSON"], "String": ["JSON"],
         "Schema": ["JSON"], "Boolean": ["JSON"], "DateTime": ["String", "JSON"], "JSON": []}
NARROWER = {"Float": ["Integer"], "String": ["DateTime"],
            "JSON": ["Schema", "Float", "String", "Boolean"]}


class PairWriter(generate.Writer):
    """Makes definitions, schemas, documents, and texts of them."""

    # Definitions.

    def names(self, most):
        """Different names, at most this many."""
        pool = COMMON_NAMES if self.chance.random() < 0.6 else NAMES
        return list(dict.fromkeys(self.chance.choices(pool, k=self.chance.randint(0, most))))

    def definition(self, depth):
        """A random definition, forms nested at most this deep."""
        if depth == 0 or self.chance.random() < 0.3:
            return Definition(self.type_name())
        form = self.chance.choice(["Array", "Map", "Object", "Object"])
        if form != "Object":
            return Definition(form, self.definition(depth - 1))
        return self.object_definition(self.names(4), depth)

    def type_name(self):
        return self.chance.choice(TYPE_NAMES)

    def object_definition(self, names, depth):
        required, optional = {}, {}
        for name in names:
            self.chance.choice([required, optional])[name] = self.definition(depth - 1)
        return Definition("Object", None, required, optional)

    def wide_definition(self):
        """An Object with about as many names in each part as an index takes; one may hold another."""
        names = self.chance.sample(WIDE_NAMES, self.chance.randint(30, 80))
        wide = self.object_definition(names, self.chance.choice([1, 1, 2]))
        if self.chance.random() < 0.3:
            wide.required[names[0]] = self.object_definition(names[1:], 1)
            wide.optional.pop(names[0], None)
        return wide

    def any_definition(self):
        return self.definition(self.chance.choice([0, 1, 2, 2, 3, 3, 4]))

    # Schemas. faults is how often a definition has a fault of its own.

    def schema(self, definition, faults=0.0):
        """A value that is the definition, or nearly."""
        if self.chance.random() < faults:
            return self.faulty(definition, faults)
        if definition.form == "Object":
            return object_of({"Object": self.body(definition, faults)})
        if definition.form in ("Array", "Map"):
            return object_of({definition.form: self.schema(definition.inner, faults)})
        return string(definition.form)

    def faulty(self, definition, faults):
        """Codes 10 and 11 at the definition itself."""
        kind = self.chance.randrange(5)
        if kind == 0:
            return self.chance.choice(WRONG_KINDS)
        if kind == 1:
            return string(self.chance.choice(UNKNOWN_TYPES))
        if kind == 2:
            return object_of({})
        inner = self.schema(definition, faults)
        if kind == 3:
            return object_of({self.chance.choice(UNKNOWN_FORMS): inner})
        forms = self.chance.sample(["Array", "Map", "Object", "x", "required"], 2)
        return object_of({forms[0]: inner, forms[1]: self.schema(JSON, faults)})

    def body(self, definition, faults):
        """What stands under Object, its members in any order."""
        if self.chance.random() < faults / 3:
            return self.chance.choice(WRONG_KINDS + [string("JSON")])
        members = self.ignored_members()
        required, optional = dict(definition.required), dict(definition.optional)
        if required and self.chance.random() < faults:
            optional = self.share_names(required, optional)
        for name, part in [("required", required), ("optional", optional)]:
            if part or self.chance.random() < 0.3:
                members[name] = self.part(part, faults)
        return object_of(self.shuffled(members))

    def ignored_members(self):
        """Other members of the body, whatever they hold."""
        if self.chance.random() < 0.7:
            return {}
        names = self.chance.sample(IGNORED_NAMES, self.chance.randint(1, 2))
        return {name: self.random_value(2) for name in names}

    def share_names(self, required, optional):
        """Code 12: some names of "required" under "optional" too."""
        count = self.chance.randint(1, len(required))
        names = list(optional) + self.chance.sample(list(required), count)
        self.chance.shuffle(names)
        return {name: optional.get(name, JSON) for name in names}

    def part(self, part, faults):
        """What stands under "required" or "optional"."""
        if self.chance.random() < faults / 3:
            return self.chance.choice(WRONG_KINDS + [string("Object")])
        return object_of({name: self.schema(under, faults) for name, under in part.items()})

    def shuffled(self, members):
        names = list(members)
        self.chance.shuffle(names)
        return {name: members[name] for name in names}

    # Documents.

    def document(self, definition, width=3):
        """A value that meets the definition, narrower the deeper it is."""
        form, inner_width = definition.form, max(1, width - 1)
        if form == "Array":
            count = self.chance.randint(0, width)
            return array(*[self.document(definition.inner, inner_width) for _ in range(count)])
        if form == "Map":
            return object_of({name: self.document(definition.inner, inner_width)
                              for name in self.names(width)})
        if form == "Object":
            return self.object_document(definition, inner_width)
        return self.type_document(form)

    def object_document(self, definition, width):
        """Every required name, some optional ones, some that are not named."""
        members = {name: self.document(under, width) for name, under in definition.required.items()}
        for name, under in definition.optional.items():
            if self.chance.random() < 0.7:
                members[name] = self.document(under, width)
        for name in self.names(2):
            if name not in definition.required and name not in definition.optional:
                members[name] = self.random_value(1)
        return object_of(self.shuffled(members) if self.chance.random() < 0.5 else members)

    def type_document(self, form):
        if form == "JSON":
            return self.random_value(2)
        if form == "Schema":
            return self.schema(self.definition(2))
        if form == "Integer":
            return number(self.chance.choice(["0", "-0", "7", "-19", "12345678901234567890"]))
        if form == "Float":
            return ("number", self.number())
        if form == "String":
            return self.random_string()
        if form == "Boolean":
            return ("boolean", self.chance.random() < 0.5)
        return string(self.good_date())

    def good_date(self):
        """A date near the boundaries, at times with a leap second."""
        if self.chance.random() < 0.2:
            date = second_60(self.chance.choice(YEARS), self.chance.choice(LEAP_MINUTES),
                             self.chance.choice(LEAP_OFFSETS), self.chance.choice(FRACTIONS[:5]))
            return date.replace("T", self.chance.choice("Tt"))
        day = self.chance.choice(["01-31", "02-28", "04-30", "06-30", "09-30", "11-30", "12-31"])
        year = self.chance.choice(YEARS)
        if year in ("0000", "0004", "0400", "1600", "2000", "2024", "9996"):
            day = self.chance.choice([day, "02-29"])
        return (year + "-" + day + self.chance.choice("Tt") + self.chance.choice(TIMES[:2])
                + self.chance.choice(FRACTIONS[:5]) + self.chance.choice(OFFSETS[:6]))

    def random_string(self):
        if self.chance.random() < 0.5:
            return ("string", list(self.scalars(4)))
        return string(self.chance.choice(["", "x", DATE, "JSON", "1", *NAMES]))

    def random_value(self, depth):
        """Any value with at most this many brackets open at once."""
        kind = self.chance.randrange(6 if depth > 0 else 3)
        if kind <= 1:
            return self.chance.choice(SIMPLE_VALUES if depth > 0 else SIMPLE_VALUES[:14])
        if kind == 2:
            return self.random_string()
        if kind == 3:
            count = self.chance.randint(0, 3)
            return array(*[self.random_value(depth - 1) for _ in range(count)])
        if kind == 4:
            return object_of({name: self.random_value(depth - 1) for name in self.names(3)})
        return self.schema(self.definition(1), 0.2)

    # Texts.

    def text_of(self, value):
        """One of the spellings of a value: compact, or with spaces and escapes."""
        if self.chance.random() < 0.6:
            return write(value)
        return self.space() + self.spell_value(value) + self.space()

    def spell_value(self, value):
        tag, content = value
        if tag == "string":
            return self.spell_string(content)
        if tag == "array":
            inner = [self.space() + self.spell_value(item) + self.space() for item in content]
            return b"[" + (b",".join(inner) or self.space()) + b"]"
        if tag == "object":
            inner = [self.spell_member(name, under) for name, under in content]
            return b"{" + (b",".join(inner) or self.space()) + b"}"
        return write(value)

    def spell_member(self, name, under):
        return (self.space() + self.spell_string(name) + self.space() + b":"
                + self.space() + self.spell_value(under) + self.space())

    def spell_string(self, scalars):
        """Most strings plain, some with escapes."""
        if self.chance.random() < 0.7:
            return write(("string", scalars))
        return self.string(scalars)

    # Damage of a document, one value at a time.

    def damaged(self, value):
        """The value with one value in it changed."""
        path = self.chance.choice(list(paths(value)))
        return changed_at(value, path, self.damaged_here)

    def damaged_here(self, value):
        tag, content = value
        if self.chance.random() < 0.4:
            return self.chance.choice(SIMPLE_VALUES)
        if tag == "string":
            return ("string", self.damaged_list(content, self.date_scalar))
        if tag == "number":
            return number(self.chance.choice(["1", "1.0", "1e0", "-0", "0.0"]))
        if tag == "array":
            return ("array", self.damaged_list(content, lambda: self.random_value(1)))
        if tag == "object":
            return self.damaged_object(content)
        return self.chance.choice(SIMPLE_VALUES)

    def date_scalar(self):
        return ord(self.chance.choice(DATE_CHARACTERS))

    def damaged_list(self, items, make):
        """One item more, less, or another in its place."""
        place = self.chance.randint(0, len(items))
        before, behind = items[:place], items[place:]
        return self.chance.choice([before + [make()] + behind, before + behind[1:],
                                   before + [make()] + behind[1:]])

    def damaged_object(self, members):
        """A member less, more, with another name, or behind the others."""
        name = list(map(ord, self.chance.choice(NAMES)))
        free = name not in [other for other, _ in members]
        kind = self.chance.randrange(4)
        if kind == 0 and free:
            members = members + [(name, self.random_value(1))]
        elif members:
            place = self.chance.randrange(len(members))
            rest = members[:place] + members[place + 1:]
            if kind == 1 and free:
                members = rest + [(name, members[place][1])]
            elif kind == 2:
                members = rest + [members[place]]
            else:
                members = rest
        return ("object", members)

    # Small changes of a definition.

    def changed(self, definition):
        """The definition with one small change somewhere in it."""
        form = definition.form
        inside = self.chance.random() < 0.6
        if form in ("Array", "Map") and inside:
            return Definition(form, self.changed(definition.inner))
        if form == "Object" and inside and (definition.required or definition.optional):
            return self.changed_field(definition)
        if form == "Array":
            return self.chance.choice([definition.inner, Definition("Map", definition.inner), JSON])
        if form == "Map":
            return self.map_exchanged(definition)
        if form == "Object":
            change = self.chance.choice([self.changed_names] * 3 + [self.object_exchanged])
            return change(definition)
        return self.changed_type(definition)

    def changed_type(self, definition):
        """A type widened, narrowed, exchanged, or put under a form."""
        form = definition.form
        near = WIDER[form] + NARROWER.get(form, [])
        other = self.chance.choice(near + [self.chance.choice(TYPE_NAMES)])
        if self.chance.random() < 0.85:
            return Definition(other)
        return Definition(self.chance.choice(["Array", "Map"]), definition)

    def changed_field(self, definition):
        """Another definition under one of the names."""
        part = self.chance.choice([part for part in definition[2:] if part])
        name = self.chance.choice(list(part))
        field = {name: self.changed(part[name])}
        if part is definition.required:
            return definition._replace(required={**part, **field})
        return definition._replace(optional={**part, **field})

    def changed_names(self, definition):
        """A name made optional or required, dropped or added."""
        required, optional = dict(definition.required), dict(definition.optional)
        kind = self.chance.randrange(4)
        if kind == 0 and required:
            move(self.chance.choice(list(required)), required, optional)
        elif kind == 1 and optional:
            move(self.chance.choice(list(optional)), optional, required)
        elif kind == 2 and (required or optional):
            part = self.chance.choice([part for part in (required, optional) if part])
            del part[self.chance.choice(list(part))]
        else:
            self.add_name(required, optional)
        return definition._replace(required=required, optional=optional)

    def add_name(self, required, optional):
        name = self.chance.choice(NAMES)
        if name not in required and name not in optional:
            part = self.chance.choice([required, optional, optional])
            part[name] = self.chance.choice([JSON, self.definition(1)])

    def map_exchanged(self, definition):
        """An Object in place of a Map."""
        fields = {name: definition.inner for name in self.names(2)}
        if self.chance.random() < 0.2:
            return Definition("Object", None, fields, {})
        return Definition("Object", None, {}, fields)

    def object_exchanged(self, definition):
        """A Map in place of an Object."""
        found = [JSON, *definition.required.values(), *definition.optional.values()]
        return Definition("Map", self.chance.choice(found))


class DateWriter(PairWriter):
    """The same with many dates, under DateTime and elsewhere."""

    def type_name(self):
        return "DateTime" if self.chance.random() < 0.6 else super().type_name()

    def random_string(self):
        return string(self.good_date()) if self.chance.random() < 0.6 else super().random_string()


def move(name, source, target):
    target[name] = source.pop(name)


# Paths inside a value: the numbers of the elements or members on the way.

def paths(value, path=()):
    yield path
    tag, content = value
    if tag in ("array", "object"):
        for place, item in enumerate(content):
            yield from paths(item if tag == "array" else item[1], path + (place,))


def changed_at(value, path, change):
    """The value with the one at the path changed."""
    if not path:
        return change(value)
    tag, content = value
    content = list(content)
    item = content[path[0]]
    if tag == "array":
        content[path[0]] = changed_at(item, path[1:], change)
    else:
        content[path[0]] = (item[0], changed_at(item[1], path[1:], change))
    return (tag, content)


# Dates.

def date_strings():
    """Dates at every boundary, and strings that nearly are dates."""
    for year in YEARS:
        for month in range(14):
            for day in [0, 1, 28, 29, 30, 31, 32]:
                yield "%s-%02d-%02dT00:00:00Z" % (year, month, day)
    for time, fraction in itertools.product(TIMES, FRACTIONS):
        yield "2024-04-30T" + time + fraction + "Z"
    for fraction, offset in itertools.product(FRACTIONS, OFFSETS):
        yield "2024-04-30T23:59:59" + fraction + offset
    for separator, date in itertools.product(SEPARATORS, ["2024-04-30", "2024-4-30", "24-04-30"]):
        yield date + separator + "08:00:00Z"
    yield from leap_second_strings()
    yield from damaged_dates(DATE)
    yield from damaged_dates(LEAP_DATE)


def leap_second_strings():
    """Second 60 at the end of June and December in UTC, a minute, an hour and a day beside it,
    with the offset turned round, and at the end of every month."""
    turned = str.maketrans("+-", "-+")
    for offset in LEAP_OFFSETS:
        for minute, year in itertools.product(LEAP_MINUTES, ["0000", "2023", "9999"]):
            for beside in [-1440, -60, -1, 0, 1, 60, 1440]:
                yield second_60(year, minute + timedelta(minutes=beside), offset)
            yield second_60(year, minute, offset)[:-len(offset)] + offset.translate(turned)
        for month in range(1, 13):
            yield second_60("2024", datetime(2024, month, 1, tzinfo=timezone.utc) - timedelta(minutes=1), offset)


def second_60(year, utc, offset, fraction=""):
    """Second 60 of a minute of UTC as it is written under an offset, in any year."""
    written = utc.astimezone(datetime.strptime(offset.upper(), "%z").tzinfo)
    return year + written.strftime("-%m-%dT%H:%M:60") + fraction + offset


def damaged_dates(date):
    """A date cut, and with each character changed, put in, or left out."""
    for place in range(len(date) + 1):
        yield date[:place]
        yield date[place:]
        yield date[:place] + date[place + 1:]
        for character in DATE_CHARACTERS:
            yield date[:place] + character + date[place:]
            yield date[:place] + character + date[place + 1:]


# Small texts, each with each.

SMALL_SCHEMAS = [b'"' + name.encode() + b'"' for name in TYPE_NAMES] + [
    b'{"Array":"JSON"}', b'{"Array":"Integer"}', b'{"Array":"Float"}', b'{"Array":"Schema"}',
    b'{"Array":"DateTime"}', b'{"Array":{"Array":"String"}}', b'{"Array":{"Map":"JSON"}}',
    b'{"Map":"JSON"}', b'{"Map":"Integer"}', b'{"Map":"Float"}', b'{"Map":"Schema"}',
    b'{"Map":{"Map":"JSON"}}', b'{"Map":{"Object":{}}}', b'{"Map":{"Array":"JSON"}}',
    b'{"Object":{}}', b'{"Object":{"required":{}}}', b'{"Object":{"optional":{},"x":1}}',
    b'{"Object":{"required":{"a":"JSON"}}}', b'{"Object":{"required":{"a":"Integer"}}}',
    b'{"Object":{"required":{"a":"Float"}}}', b'{"Object":{"required":{"b":"Integer"}}}',
    b'{"Object":{"optional":{"a":"JSON"}}}', b'{"Object":{"optional":{"a":"Integer"}}}',
    b'{"Object":{"optional":{"a":"Float"}}}', b'{"Object":{"optional":{"a":"DateTime"}}}',
    b'{"Object":{"required":{"a":"Float"},"optional":{"b":"Float"}}}',
    b'{"Object":{"required":{"b":"Float"},"optional":{"a":"Float"}}}',
    b'{"Object":{"required":{"a":"Integer","b":"Integer"}}}',
    b'{"Object":{"optional":{"a":"JSON","b":"JSON"}}}',
    b'{"Object":{"required":{"Array":"Schema"}}}', b'{"Object":{"required":{"Map":"Schema"}}}',
    b'{"Object":{"required":{"Object":{"Object":{}}}}}',
    b'{"Object":{"optional":{"Object":{"Map":"JSON"}}}}',
    b'{"Object":{"required":{"a":{"Object":{"required":{"a":"Integer"}}}}}}',
    b'{"Object":{"required":{"a":{"Map":"Integer"}}}}',
    b'{"Object":{"optional":{"":"String"}}}', b'{"Object":{"required":{"":"String"}}}',
]
SMALL_DOCUMENTS = [
    b"null", b"false", b"true", b"0", b"-0", b"12", b"1.0", b"1e2", b"-1.5E+3", b'""', b'"x"',
    b'"2024-02-29T00:00:00Z"', b'"2023-02-29T00:00:00Z"', b'"\\u0032024-02-29t00:00:00z"',
    b'"JSON"', b'"\\u004aSON"', b'"json"', b'"Object"', b"[]", b"{}", b"[1]", b"[1,2.0]", b"[null]",
    b'["JSON","x"]', b"[[],{}]", b'[["x"],[1]]', b'["2024-02-29T00:00:00Z",1]', b"[{}]", b"[{},[]]",
    b'{"a":1}', b'{"a":1.5}', b'{"a":null}', b'{"b":1}', b'{"\\u0061":1,"b":2}', b'{"b":2.5,"a":1}',
    b'{"a":1,"b":"x"}', b'{"a":{"a":1}}', b'{"a":{"a":1.5}}', b'{"a":{}}', b'{"":1}', b'{"":"x"}',
    b'{"Array":"JSON"}', b'{"Array":"x"}', b'{"Array":"JSON","x":null}', b'{"Map":1}',
    b'{"Map":{"Array":"Float"}}', b'{"Object":{}}', b'{"Object":[]}',
    b'{"Object":{"required":{"a":"x"}}}', b'{"a":"2024-02-29T00:00:00Z"}',
    b'{"Object":{"required":{"a":"JSON"},"optional":{"\\u0061":"JSON"}}}',
]
FAULTY_SCHEMAS = [
    b"null", b"true", b"1", b"[]", b'["JSON"]', b'""', b'"json"', b'"Object"', b"{}", b'{"x":1}',
    b'{"array":"JSON"}', b'{"Array":1}', b'{"Array":"x"}', b'{"Array":{}}', b'{"Map":null}',
    b'{"Array":"JSON","Map":"JSON"}', b'{"Array":"JSON","x":1}', b'{"x":1,"y":2}',
    b'{"Object":1}', b'{"Object":[]}', b'{"Object":"JSON"}', b'{"Object":{},"x":1}',
    b'{"Object":{"required":1}}', b'{"Object":{"optional":"JSON"}}',
    b'{"Object":{"optional":1,"required":2}}', b'{"Object":{"optional":1,"required":{"a":1}}}',
    b'{"Object":{"required":{"a":1},"optional":null}}', b'{"Object":{"required":{"a":1}}}',
    b'{"Object":{"optional":{"a":"x"}}}', b'{"Object":{"optional":{"a":1},"required":{"b":"x"}}}',
    b'{"Object":{"optional":{"c":1,"b":2},"required":{"b":1}}}',
    b'{"Object":{"optional":{"b":2,"a":1},"required":{"a":1,"b":2}}}',
    b'{"Object":{"required":{"a":"JSON"},"optional":{"\\u0061":"JSON"}}}',
    b'{"Object":{"required":{"x":{"Object":{"required":{"a":1},"optional":{"a":1}}},"y":1}}}',
    b'{"Object":{"required":{"a":"JSON","b":"JSON"},"optional":{"c":{"Array":[]},"b":"JSON"}}}',
]
BAD_TEXTS = [b"", b" ", b'"', b'"JSON', b"{", b'{"Array":', b'{"Array":"JSON"', b"[1,]", b'"\x80"',
             b'"\\uDC00"', b'{"a":1,"a":2}', b"[" * 40, b"nul", b"1 2", b"\xef\xbb\xbf1"]
HALF_PAIRS = [b"\\uD83D", b"\\uDE00", b"\\ud83d\\u0061", b"\\udbff\\\\"]
REPEATED = [b'"a":0,', b'"b":{},', b'"q":0,"\\u0071":1,', b'"Object":{},', b'"required":{},']


# Limits.

def padded(text, length):
    return text + b" " * (length - len(text))


def around(limit):
    return [limit - 1, limit, limit + 1]


def arrays(brackets, inner=b""):
    return b"[" * brackets + inner + b"]" * brackets


def array_schema(brackets):
    return b'{"Array":' * brackets + b'"JSON"' + b"}" * brackets


def object_schema(levels):
    """Three brackets for each level."""
    return b'{"Object":{"required":{"a":' * levels + b'"Integer"' + b"}}}" * levels


def wide_schema(count, optional):
    """This many required names, and the optional members given."""
    fields = [b'"%x":"Float"' % place for place in range(count)]
    return b'{"Object":{"required":{' + b",".join(fields) + b'},"optional":{' + optional + b"}}}"


def wide_document(names):
    return b"{" + b",".join(b'"%x":1' % name for name in names) + b"}"


def long_pairs():
    """Documents and schemas of about the longest length."""
    for length in around(SCHEMA_LIMIT):
        for schema in [b'"Integer"', b'"x"', b"[1,]", b'{"Array":"JSON"}', b'"']:
            yield b"1", padded(schema, length)
    for length in around(DOCUMENT_LIMIT):
        for document in [b"1", b"[]", b"[1,]", wide_schema(300, b"")]:
            yield padded(document, length), b'"Integer"'
        yield padded(wide_schema(3000, b""), length), b'"Schema"'
        yield padded(wide_schema(3000, b'"0":"JSON"'), length), b'"Schema"'
        yield b"[" + b"1," * ((length - 1) // 2), b'{"Array":"Integer"}'
        yield generate.fill(length, b"[0", b",0", b"]"), b'{"Array":"Integer"}'
    yield b" " * (DOCUMENT_LIMIT + 1), b" " * (SCHEMA_LIMIT + 1)
    yield b" " * (DOCUMENT_LIMIT + 1), b'"x"'
    yield b"x" * (DOCUMENT_LIMIT + 1), b'"JSON"'


def wide_pairs():
    """Objects with many names."""
    schema = wide_schema(900, b'"x":"String"')
    names = list(range(900))
    yield wide_document(names), schema
    yield wide_document(names[::-1]), schema
    yield wide_document(names[:-1]), schema
    yield wide_document(names[450:] + names[:449]), schema
    yield wide_document(names)[:-1] + b',"x":1}', schema
    yield wide_document(names), wide_schema(900, b'"383":"JSON"')
    yield wide_document(names), wide_schema(900, b'"384":"JSO"')


def deep_pairs():
    """Documents and schemas of about the deepest nesting."""
    for brackets in range(SCHEMA_DEPTH - 2, SCHEMA_DEPTH + 3):
        schema = array_schema(brackets)
        for document in [arrays(brackets), arrays(brackets - 1, b"{}"), b"[" * 33, schema]:
            yield document, schema
            yield document, b'"Schema"'
        yield b"1", arrays(brackets)
        yield b"1", b'{"Object":{"x":' + arrays(brackets - 2) + b"}}"
    for levels in range(6, 10):
        for inner in [b"1", b"1.5", b"{}"]:
            yield b'{"a":' * levels + inner + b"}" * levels, object_schema(levels)
    for brackets in range(DOCUMENT_DEPTH - 2, DOCUMENT_DEPTH + 3):
        for schema in [b'"Schema"', b'"JSON"', b'"String"', b'{"Map":"Schema"}',
                       b'{"Array":"JSON"}']:
            yield array_schema(brackets), schema
            yield array_schema(brackets).replace(b'"JSON"', b"1"), schema
            yield arrays(brackets), schema
    for levels in range(9, 12):
        yield object_schema(levels), b'"Schema"'
        yield object_schema(levels).replace(b'"Integer"', b"1"), b'"Schema"'


def long_schema_pairs():
    """Two schemas of about the longest length."""
    for length in around(SCHEMA_LIMIT):
        for schema in [b'"Integer"', b'"x"', b"[1,]", b'{"Array":"JSON"}']:
            yield padded(schema, length), b'"Float"'
            yield b'"DateTime"', padded(schema, length)
            yield padded(schema, length), padded(schema, SCHEMA_LIMIT + 1)


def deep_schema_pairs():
    """Two schemas of about the deepest nesting."""
    for new, old in itertools.product(range(SCHEMA_DEPTH - 2, SCHEMA_DEPTH + 3), repeat=2):
        yield array_schema(new), array_schema(old)
        yield array_schema(new), array_schema(old).replace(b'"JSON"', b'"Float"')
    for new, old in itertools.product(range(6, 10), repeat=2):
        yield object_schema(new), object_schema(old)
        yield object_schema(new), object_schema(old).replace(b"Integer", b"Float")


def wide_schema_pairs():
    """Two schemas with many names."""
    wide = [wide_schema(300, b""), wide_schema(300, b'"x":"JSON"'),
            wide_schema(300, b'"x":"Float"'), wide_schema(299, b'"12b":"Float"'),
            wide_schema(301, b"").replace(b"Float", b"Integer")]
    yield from itertools.product(wide, repeat=2)


# Sources of pairs.

def small_check_pairs(chance):
    """Each small document under each small schema, faulty and bad ones too."""
    takes_schema = [b'"Schema"', b'{"Object":{"optional":{"Object":"Schema"}}}']
    yield from generate.shuffled(itertools.chain(
        itertools.product(SMALL_DOCUMENTS, SMALL_SCHEMAS),
        itertools.product(SMALL_SCHEMAS + FAULTY_SCHEMAS, takes_schema),
        itertools.product([b"1"] + BAD_TEXTS, FAULTY_SCHEMAS),
        itertools.product([b"1"] + BAD_TEXTS, [b'"Integer"'] + BAD_TEXTS)), chance)


def small_schema_pairs(chance):
    """Each small schema with each, faulty and bad ones too."""
    whole = SMALL_SCHEMAS
    poor = FAULTY_SCHEMAS + BAD_TEXTS
    yield from generate.shuffled(itertools.chain(
        itertools.product(whole, whole), itertools.product(poor, poor),
        itertools.product(whole[:1], poor), itertools.product(poor, whole[:1])), chance)


def limit_check_pairs(chance):
    yield from generate.shuffled(itertools.chain(long_pairs(), wide_pairs(), deep_pairs()), chance)


def limit_schema_pairs(chance):
    yield from generate.shuffled(itertools.chain(
        long_schema_pairs(), deep_schema_pairs(), wide_schema_pairs()), chance)


def date_pairs(chance):
    """Each date under DateTime, at the top or nested."""
    writer = PairWriter(chance)
    for date in generate.shuffled(date_strings(), chance):
        kind = chance.randrange(4)
        if kind <= 1:
            value, schema = string(date), b'"DateTime"'
        elif kind == 2:
            value, schema = array(string(DATE), string(date)), b'{"Array":"DateTime"}'
        else:
            value = object_of({"a": string(date)})
            schema = b'{"Object":{"optional":{"a":"DateTime"}}}'
        yield writer.text_of(value), schema


def meeting_pairs(chance):
    """Documents that meet a schema, then damaged at one value, then at more."""
    writer = PairWriter(chance)
    while True:
        definition = writer.any_definition()
        schema = writer.text_of(writer.schema(definition))
        document = writer.document(definition)
        yield writer.text_of(document), schema
        for _ in range(4):
            damaged = writer.damaged(document)
            yield writer.text_of(damaged), schema
        for _ in range(2):
            damaged = writer.damaged(writer.damaged(damaged))
            yield writer.text_of(damaged), schema


def wide_meeting_pairs(chance):
    """The same with many names, and with faults in the schema."""
    writer = PairWriter(chance)
    while True:
        definition = writer.wide_definition()
        document = writer.document(definition)
        schema = writer.text_of(writer.schema(definition))
        yield writer.text_of(document), schema
        damaged = writer.damaged(document)
        yield writer.text_of(damaged), schema
        yield writer.text_of(writer.damaged(damaged)), schema
        yield writer.text_of(document), writer.text_of(writer.schema(definition, 0.02))


def dated_pairs(chance):
    """Documents with many dates that meet a schema, and the same damaged."""
    writer = DateWriter(chance)
    while True:
        wide = chance.random() < 0.2
        definition = writer.wide_definition() if wide else writer.any_definition()
        schema = writer.text_of(writer.schema(definition))
        for width in [2, 4, 4]:
            document = writer.document(definition, width)
            yield writer.text_of(document), schema
        yield writer.text_of(writer.damaged(document)), schema


def faulty_pairs(chance):
    """Schemas with faults, and the same as documents under Schema."""
    writer = PairWriter(chance)
    while True:
        definition = writer.any_definition()
        schema = writer.text_of(writer.schema(definition, chance.choice([0.1, 0.2, 0.4])))
        yield writer.text_of(writer.document(definition)), schema
        yield schema, chance.choice([b'"Schema"', b'"Schema"', b'{"Map":"Schema"}', schema])


def damaged_text(text, chance):
    """Damaged at some byte, with half a surrogate pair, or with a name twice."""
    kind = chance.randrange(10)
    if kind == 0:
        return put_behind(text, b'"', chance.choice(HALF_PAIRS), chance)
    if kind == 1:
        return put_behind(text, b"{", chance.choice(REPEATED), chance)
    return generate.damage(text, chance)


def put_behind(text, byte, piece, chance):
    """The piece put in behind one of these bytes."""
    places = [place + 1 for place in range(len(text)) if text[place:place + 1] == byte]
    place = chance.choice(places or [0])
    return text[:place] + piece + text[place:]


def bad_text_pairs(chance):
    """The document, the schema, or both damaged at some byte."""
    writer = PairWriter(chance)
    while True:
        definition = writer.any_definition()
        schema = writer.text_of(writer.schema(definition, chance.choice([0, 0, 0.2])))
        document = writer.text_of(writer.document(definition))
        for _ in range(2):
            yield damaged_text(document, chance), schema
            yield document, damaged_text(schema, chance)
        yield damaged_text(document, chance), damaged_text(schema, chance)


def unrelated_pairs(chance):
    """Any document with any schema."""
    writer = PairWriter(chance)
    while True:
        schema = writer.schema(writer.any_definition())
        yield writer.text_of(writer.random_value(3)), writer.text_of(schema)


def derived_schema_pairs(chance):
    """A schema, and others that come from it by small changes."""
    writer = PairWriter(chance)
    while True:
        first = writer.any_definition()
        last = first
        for _ in range(chance.randint(1, 3)):
            texts = [writer.text_of(writer.schema(definition)) for definition in (first, last)]
            yield tuple(texts)
            last = writer.changed(last)
            changed = writer.text_of(writer.schema(last))
            yield texts[0], changed
            yield changed, texts[0]


def wide_derived_schema_pairs(chance):
    """The same with many names, and with faults."""
    writer = PairWriter(chance)
    while True:
        first = writer.wide_definition()
        last = first
        for _ in range(3):
            last = writer.changed(last)
            texts = [writer.text_of(writer.schema(definition)) for definition in (first, last)]
            yield tuple(texts)
            yield tuple(texts[::-1])
        yield texts[0], writer.text_of(writer.schema(last, 0.02))


def unrelated_schema_pairs(chance):
    writer = PairWriter(chance)
    while True:
        yield tuple(writer.text_of(writer.schema(writer.any_definition())) for _ in range(2))


def faulty_schema_pairs(chance):
    """One of the schemas, or both, with faults or damaged at some byte."""
    writer = PairWriter(chance)
    while True:
        rates = chance.choice([(0, 0.3), (0.3, 0), (0.2, 0.2)])
        texts = [writer.text_of(writer.schema(writer.any_definition(), rate)) for rate in rates]
        yield tuple(texts)
        place = chance.randrange(2)
        texts[place] = damaged_text(texts[place], chance)
        yield tuple(texts)


def check_pairs(seed):
    """Pairs of a document and a schema."""
    chance = random.Random(seed)
    return generate.take_turns([
        small_check_pairs(chance), limit_check_pairs(chance), date_pairs(chance),
        meeting_pairs(chance), meeting_pairs(chance), wide_meeting_pairs(chance), faulty_pairs(chance),
        bad_text_pairs(chance), unrelated_pairs(chance)])


def dates_pairs(seed):
    """The same, and as many with many dates."""
    return generate.take_turns([check_pairs(seed), dated_pairs(random.Random(seed))])


def schema_pairs(seed):
    """Pairs of a new and an old schema."""
    chance = random.Random(seed)
    return generate.take_turns([
        small_schema_pairs(chance), limit_schema_pairs(chance), derived_schema_pairs(chance),
        derived_schema_pairs(chance), derived_schema_pairs(chance), wide_derived_schema_pairs(chance),
        unrelated_schema_pairs(chance), faulty_schema_pairs(chance)])


def main(arguments):
    pairs = {"check": check_pairs, "dates": dates_pairs, "compare": schema_pairs}[arguments[0]]
    seed, count = int(arguments[1]), int(arguments[2])
    for first, second in itertools.islice(pairs(seed), count):
        print(first.hex(), second.hex())


if __name__ == "__main__":
    main(sys.argv[1:])
