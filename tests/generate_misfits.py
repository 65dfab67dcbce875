"""Generates pairs of a document and a schema, of which half fail at one value, often deep.

    python3 tests/generate_misfits.py SEED COUNT

prints COUNT distinct pairs, one on a line, as hex. The same seed gives the same pairs.
"""

import itertools
import random
import sys

import generate
from generate_pairs import NAMES, SIMPLE_VALUES, PairWriter, check_pairs
from model import DOCUMENT_DEPTH, SCHEMA_DEPTH
from model_check import TYPE_NAMES
from model_meeting import Definition, array, meets, members, object_of, string

# A definition that is nested takes not everything, so that a value can fail it.
INNERMOST = [name for name in TYPE_NAMES if name != "JSON"]

# Brackets of a schema that an Object takes, down to what stands under a name.
OBJECT_BRACKETS = 3

BAD_DATES = ["", "x", "2024-04-31T08:00:00Z", "2024-04-30T23:59:60Z", "1900-02-29T00:00:00Z", "2024-04-30T24:00:00Z"]


class MisfitWriter(PairWriter):
    """Makes definitions nested to the depth, and documents that meet them but at one value."""

    def nested(self, brackets, forms):
        """A definition inside this many brackets, by some of the forms."""
        if brackets == 0:
            return Definition(self.chance.choice(INNERMOST))
        form = self.chance.choice(forms)
        if form != "Object" or brackets < OBJECT_BRACKETS:
            return Definition("Array" if form == "Array" else "Map", self.nested(brackets - 1, forms))
        names = self.chance.sample(NAMES, self.chance.randint(1, 4))
        under = {name: Definition(self.type_name()) for name in names}
        under[self.chance.choice(names)] = self.nested(brackets - OBJECT_BRACKETS, forms)
        required = {name: under[name] for name in names if self.chance.random() < 0.6}
        return Definition("Object", None, required, {name: under[name] for name in names if name not in required})

    def failing(self, definition, brackets, early):
        """A document that may open so many brackets, and fails at one value. early is how often it fails on the way."""
        inner = self.inner_of(definition)
        if not inner or self.chance.random() < (0.5 if definition.required and inner[1].form in TYPE_NAMES else early):
            return self.wrong(definition, brackets)
        name, wanted = inner
        found = self.failing(wanted, brackets - 1, early)
        if definition.form == "Array":
            before, behind = [[self.document(wanted, 1) for _ in range(self.chance.choice([0, 0, 1, 2]))] for _ in range(2)]
            return array(*before, found, *behind)
        if definition.form == "Map":
            names = list(dict.fromkeys([*self.names(2), name]))
            under = {other: self.document(wanted, 1) for other in self.shuffled(dict.fromkeys(names))}
        else:
            under = members(self.object_document(definition, 1))
        under[name] = found
        return object_of(self.shuffled(under))

    def inner_of(self, definition):
        """A name and the definition under it that is to fail; None where nothing is nested."""
        if definition.form in ("Array", "Map"):
            return self.chance.choice(NAMES), definition.inner
        named = {**definition.required, **definition.optional}
        nested = [(name, under) for name, under in named.items() if under.form not in TYPE_NAMES]
        return self.chance.choice(nested or [(name, under) for name, under in named.items() if under.form in INNERMOST] or [None])

    def wrong(self, definition, brackets):
        """A value that fails at once: of another kind, no date, without a required name."""
        deep = self.wrapped(array, brackets), self.wrapped(lambda *inner: object_of({"a": value for value in inner}), brackets)
        choices = [*SIMPLE_VALUES, *deep, *deep]
        if definition.form == "DateTime":
            choices += [string(date) for date in BAD_DATES * 4]
        if definition.required:
            choices += [self.without_name(definition) for _ in range(30)]
        return self.chance.choice([value for value in choices if not meets(value, definition)])

    def wrapped(self, wrap, brackets):
        """A value inside at most so many brackets, as many as not."""
        value = wrap()
        for _ in range(self.chance.choice([0, brackets - 1, self.chance.randrange(brackets)]) if brackets else 0):
            value = wrap(value)
        return value if brackets else string("")

    def without_name(self, definition):
        under = members(self.object_document(definition, 1))
        del under[self.chance.choice(list(definition.required))]
        return object_of(under)


def misfit_pairs(chance):
    """Documents that fail at one value, shallow and deep, and seldom one that meets the same schema."""
    writer = MisfitWriter(chance)
    while True:
        brackets = chance.choice([chance.randint(0, 4), chance.randint(0, SCHEMA_DEPTH), SCHEMA_DEPTH])
        definition = writer.nested(brackets, chance.choice([["Array"], ["Array", "Map"], ["Object"], ["Array", "Map", "Object"]]))
        schema = writer.text_of(writer.schema(definition))
        for early in [0, 0, 0, 0.05, 0.2]:
            yield writer.text_of(writer.failing(definition, DOCUMENT_DEPTH, early)), schema
        if chance.random() < 0.2:
            yield writer.text_of(writer.document(definition)), schema


def path_pairs(seed):
    """The pairs of Check, and as many misfits."""
    return generate.take_turns([check_pairs(seed), misfit_pairs(random.Random(seed))])


def main(arguments):
    seed, count = map(int, arguments)
    for first, second in itertools.islice(path_pairs(seed), count):
        print(first.hex(), second.hex())


if __name__ == "__main__":
    main(sys.argv[1:])
