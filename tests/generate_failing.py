"""Generates pairs of schemas of which the new is not carried to the old, by the kind of failing.

    python3 generate_failing.py KIND SEED COUNT

prints COUNT pairs of a kind, one on a line, as hex. The same seed gives the same
pairs. Definitions are those of model_meeting.
"""

import itertools
import random
import sys

import generate_pairs
from generate_pairs import NAMES, PairWriter, padded
from model import SCHEMA_DEPTH, SCHEMA_LIMIT
from model_check import TYPE_NAMES
from model_compare import CARRIED_TO
from model_meeting import JSON, Definition, object_of, string, write

LARGE = 60          # pairs of a kind whose texts are long
LONGEST_NAME = 64   # bytes that a board keeps of a name

FORMS = ["Array", "Map", "Object"]
TYPES = [Definition(name) for name in TYPE_NAMES]
# Types that take not every value.
NARROW = [wanted for wanted in TYPES if wanted != JSON]
# Each type name with one that it is not carried to.
UNLIKE = [(new, old) for new, old in itertools.product(TYPES, NARROW) if old.form not in CARRIED_TO[new.form]]
ESCAPED_NAMES = ['"', "\\", "\n", "\0", "\x1f", "\x7f", "/", "\u00e9", "\U0001f600", '"\\', "\t\b\f\r", "\\u0061", "\ud7ff"]


def object_with(required=None, optional=None):
    return Definition("Object", None, required or {}, optional or {})


class FailingWriter(PairWriter):
    """Makes pairs of definitions. Each method of a kind gives one that fails in its way."""

    def __init__(self, chance, names=NAMES):
        super().__init__(chance)
        self.pool = names

    def name(self):
        return self.chance.choice(self.pool)

    def form(self, form):
        """Any definition of a form."""
        if form == "Object":
            return self.object_definition(self.names(3), 2)
        return Definition(form, self.definition(1))

    def narrow(self):
        """A definition that takes not every value."""
        return self.chance.choice([self.chance.choice(NARROW), self.form(self.chance.choice(FORMS))])

    # What fails.

    def type_names(self):
        return self.chance.choice(UNLIKE)

    def forms(self):
        """A form and another, or a form and a type name."""
        first, second = self.chance.sample(["Array", "Object", "type"], 2)
        if first == "type":
            return self.chance.choice(TYPES), self.form(second)
        return self.form(first), self.chance.choice(NARROW) if second == "type" else self.form(second)

    def schemas(self):
        """Schema, which takes strings and objects, and not all of them."""
        if self.chance.random() < 0.3:
            return self.chance.choice([new for new in TYPES if new.form != "Schema"] + [self.form("Object")]), Definition("Schema")
        narrow = [self.chance.choice([old for old in NARROW if old.form != "Schema"]), self.form(self.chance.choice(FORMS))]
        return Definition("Schema"), self.chance.choice(narrow)

    def dates(self):
        date = Definition("DateTime")
        if self.chance.random() < 0.5:
            return self.chance.choice([new for new in TYPES if new != date]), date
        return date, self.chance.choice([old for old in NARROW if old.form not in ("DateTime", "String")])

    def missing(self):
        """A name that the new definition does not require."""
        name = self.name()
        under = self.definition(1)
        new = self.chance.choice([object_with(), object_with(None, {name: under}), Definition("Map", under)])
        return self.beside(new, object_with({name: under}), name)

    def dropped(self):
        """An optional name, under which the new definition lets anything be written."""
        name = self.name()
        return self.beside(object_with(), object_with(None, {name: self.narrow()}), name)

    def map_and_object(self):
        new, old = self.type_names()
        if self.chance.random() < 0.5:
            return self.beside(object_with(*self.chance.choice([({self.name(): new}, {}), ({}, {})])), Definition("Map", old))
        return Definition("Map", new), object_with(None, {self.name(): old})

    def fails(self):
        """One of these."""
        return self.chance.choice([self.type_names, self.forms, self.schemas, self.dates, self.missing, self.dropped,
                                   self.map_and_object])()

    # Where it fails.

    def beside(self, new, old, *taken):
        """More fields in one of two Objects, or in both, the new one's carried to the old one's."""
        for name in dict.fromkeys(self.name() for _ in range(self.chance.choice([0, 0, 1, 2, 3]))):
            if name in taken or name in self.own(new) or name in self.own(old):
                continue
            under = self.definition(1)
            new = self.with_field(new, name, under)
            if self.chance.random() < 0.7 and name in new.required:
                old = self.with_field(old, name, self.chance.choice([under, JSON]))
        return new, old

    def own(self, wanted):
        return [*wanted.required, *wanted.optional]

    def with_field(self, wanted, name, under):
        """Before the other fields or behind them."""
        if wanted.form != "Object":
            return wanted
        part = self.chance.choice(["required", "required", "optional"])
        fields = getattr(wanted, part)
        more = {name: under, **fields} if self.chance.random() < 0.5 else {**fields, name: under}
        return wanted._replace(**{part: more})

    def under_array(self, pair):
        return tuple(Definition("Array", inner) for inner in pair)

    def under_map(self, pair):
        new, old = pair
        return Definition("Map", new), self.chance.choice([Definition("Map", old), object_with(None, {self.name(): old})])

    def under_fields(self, pair):
        """Under one name of two Objects; what the new requires, the old may leave optional."""
        new, old = pair
        name = self.name()
        new_part, old_part = self.chance.choice([("required", "required"), ("required", "optional"), ("optional", "optional")])
        return self.beside(object_with()._replace(**{new_part: {name: new}}), object_with()._replace(**{old_part: {name: old}}), name)

    def wrapped(self, pair, most):
        for _ in range(self.chance.randint(0, most)):
            pair = self.chance.choice([self.under_array, self.under_map, self.under_fields])(pair)
        return pair

    # Many names.

    def wide(self):
        """Many fields in both, of which one fails somewhere inside."""
        names = self.chance.sample(generate_pairs.WIDE_NAMES, self.chance.randint(20, 75))
        fields = {name: self.definition(self.chance.choice([0, 0, 0, 1])) for name in names}
        failing = self.chance.choice(names)
        new, old = self.wrapped(self.fails(), 1)
        part = self.chance.choice(["required", "optional"])
        others = {"required": "optional", "optional": "required"}[part]
        more = {"m%d" % place: JSON for place in range(self.chance.choice([0, 0, 40]))}
        return (object_with()._replace(**{part: {**fields, failing: new}, others: more}),
                object_with()._replace(**{part: {**fields, failing: old}, others: more if others == "required" else {}}))

    def beyond(self, names):
        """An Object with these names, and a definition that it fails by a name that it has not."""
        required = {name: self.chance.choice(TYPES) for name in names if self.chance.random() < 0.3}
        optional = {name: self.chance.choice(TYPES) for name in names if name not in required}
        return object_with(required, optional), self.chance.choice([*NARROW, Definition("Map", self.narrow())])

    # Texts.

    def texts(self, pair):
        return tuple(self.text_of(self.schema(wanted)) for wanted in pair)


# Kinds: each gives pairs of texts.

def simple(kind, most=2, names=NAMES):
    """Pairs of a kind, up to so many levels deep."""
    def pairs(chance):
        writer = FailingWriter(chance, names)
        while True:
            yield writer.texts(writer.wrapped(getattr(writer, kind)(), most))
    return pairs


def under(place):
    """Whatever fails, under a form."""
    def pairs(chance):
        writer = FailingWriter(chance)
        while True:
            yield writer.texts(getattr(writer, place)(writer.wrapped(writer.fails(), 3)))
    return pairs


def deep_pairs(chance):
    """As many brackets as a schema may have: one for an Array or a Map, three for an Object."""
    writer = FailingWriter(chance)
    while True:
        pair, left = chance.choice([writer.type_names(), (Definition("Schema"), Definition("Float"))]), SCHEMA_DEPTH
        places = chance.choice([["under_array"], ["under_array", "under_map"], ["under_array", "under_map", "under_fields"]])
        while left > 0:
            around = getattr(writer, chance.choice(places if left > 2 else ["under_array"]))(pair)
            left -= 3 if "Object" in (around[0].form, around[1].form) else 1
            pair = around
        texts = tuple(write(plain_schema(wanted)) for wanted in pair)
        if max(map(brackets_of, texts)) == SCHEMA_DEPTH:
            yield texts


def brackets_of(text):
    """How many brackets are open at once, where no string has one."""
    return max(itertools.accumulate({ord("{"): 1, ord("}"): -1}.get(byte, 0) for byte in text))


def plain_schema(wanted):
    """The value that is the definition, with nothing left to chance."""
    if wanted.form == "Object":
        parts = {"required": wanted.required, "optional": wanted.optional}
        return object_of({"Object": object_of({part: object_of({name: plain_schema(under) for name, under in fields.items()})
                                               for part, fields in parts.items() if fields})})
    return object_of({wanted.form: plain_schema(wanted.inner)}) if wanted.inner else string(wanted.form)


def long_pairs(chance):
    """Schemas of the longest length: many short names, one long name, space."""
    for _ in range(LARGE):
        type_name = chance.choice(["DateTime", "DateTime", "Schema", "JSON"])
        fields = (b'"%x":"%s"' % (place, type_name.encode()) for place in itertools.count())
        new = filled(b'{"Object":{"required":{', fields, b"}}}")
        name = chance.choice([b"n" * 16300, b"n" * LONGEST_NAME, b"\\u0001" * 2700, b"\xf0\x9f\x98\x80" * 4000])
        old = padded(chance.choice([
            b'{"Object":{"optional":{"%s":"Float"}}}' % name, b'{"Object":{"required":{"%s":"Float"}}}' % name, b'"Integer"',
            b'{"Map":"Float"}', b'{"Array":"JSON"}', new.replace(b'"a0":"', b'"g0":"')]), SCHEMA_LIMIT)
        yield padded(new, SCHEMA_LIMIT), old


def filled(before, pieces, behind):
    """As many of the pieces as a schema has room for, with commas between them."""
    taken, length = [], len(before) + len(behind)
    for piece in pieces:
        length += len(piece) + 1
        if length - 1 > SCHEMA_LIMIT:
            return before + b",".join(taken) + behind
        taken.append(piece)


def letter_pairs(chance):
    """Names of as many letters as a board keeps, and about as many."""
    writer = FailingWriter(chance, ["a" * LONGEST_NAME, "b" * LONGEST_NAME, "a" * 63 + "b", "\u00e9" * 32])
    while True:
        lengths = chance.sample(range(LONGEST_NAME + 1), chance.randint(1, 12)) + [LONGEST_NAME]
        names = ["a" * length + chance.choice(["", "", "b" * (LONGEST_NAME - length)]) for length in lengths]
        yield writer.texts(writer.wrapped(writer.beyond(list(dict.fromkeys(names))), 1))


def run_pairs(chance):
    """Names that begin with the same letters in all ways, so that a name that is none of them is longer."""
    writer = FailingWriter(chance)
    for turn in itertools.count():
        most = 9 if turn % 100 == 0 else chance.randint(0, 6)
        names = ["a" + "".join(letters) + chance.choice(["", "", "x", "ab"]) for letters in itertools.product("ab", repeat=most)]
        names += chance.sample(names, chance.randint(0, min(3, len(names))))
        if chance.random() < 0.5:
            names = [name for name in names if chance.random() < 0.9] or ["a"]
        pair = writer.beyond(list(dict.fromkeys(names)))
        yield tuple(map(write, map(writer.schema, pair))) if most == 9 else writer.texts(pair)


KINDS = {
    "type names": simple("type_names"),
    "forms": simple("forms"),
    "Schema": simple("schemas"),
    "dates": simple("dates"),
    "missing required": simple("missing"),
    "dropped optional": simple("dropped"),
    "Map and Object": simple("map_and_object"),
    "under Array": under("under_array"),
    "under Map": under("under_map"),
    "under fields": under("under_fields"),
    "wide objects": simple("wide", 1),
    "names with escapes": simple("fails", 3, ESCAPED_NAMES),
    "24 brackets": deep_pairs,
    "16,384 bytes": long_pairs,
    "names of 64 bytes": letter_pairs,
    "names that begin alike": run_pairs,
}


def main(arguments):
    kind, seed, count = arguments[0], int(arguments[1]), int(arguments[2])
    for new, old in itertools.islice(KINDS[kind](random.Random(seed)), count):
        print(new.hex(), old.hex())


if __name__ == "__main__":
    main(sys.argv[1:])
