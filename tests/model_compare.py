"""A model of the service Compare, to be read beside the paper.

compare() gives the answer (code, text, place, other) and fills both tables.
witness() searches for a value that meets the new definition and fails the old.
It does not use the rules by which compare() decides.
"""

import model
from model_check import Refused, take_schema
from model_meeting import JSON, array, definition, meets, number, object_of, string, write

CARRIED, NOT_CARRIED = 0, 30

# What the type names are carried to, beside JSON.
CARRIED_TO = {
    "JSON": [],
    "Schema": ["Schema"],
    "Float": ["Float"],
    "Integer": ["Integer", "Float"],
    "String": ["String"],
    "Boolean": ["Boolean"],
    "DateTime": ["DateTime", "String"],
}


def compare(new, old, table1, table2):
    """The new schema wholly first, then the old, then whether it is carried."""
    try:
        new_definition = definition_of(take_schema(new, table1, 1))
        old_definition = definition_of(take_schema(old, table2, 2))
    except Refused as refused:
        return refused.answer
    code = CARRIED if carried(new_definition, old_definition) else NOT_CARRIED
    return (code, 0, 0, 0)


def definition_of(tree):
    """An accepted schema's definition is the value that it spells."""
    return definition(model.without_places(tree))


# Carried: every value that meets the new definition meets the old.

def carried(new, old):
    if old.form == "JSON":
        return True
    if new.form in CARRIED_TO:
        return old.form in CARRIED_TO[new.form]
    if old.form in CARRIED_TO:
        return False
    if new.form == "Array" or old.form == "Array":
        return new.form == old.form and carried(new.inner, old.inner)
    if old.form == "Map":
        return carried_to_map(new, old)
    return carried_to_object(new, old)


def carried_to_map(new, old):
    """Objects are open: under other names may stand anything."""
    if new.form == "Map":
        return carried(new.inner, old.inner)
    return old.inner.form == "JSON"


def carried_to_object(new, old):
    """Required names stay required; each name that is there is carried."""
    if new.form == "Map":
        return not old.required and all(carried(new.inner, under)
                                        for under in old.optional.values())
    named = {**new.required, **new.optional}
    return (all(name in new.required and carried(new.required[name], under)
                for name, under in old.required.items())
            and all(carried(named.get(name, JSON), under)
                    for name, under in old.optional.items()))


# Witnesses.

SAMPLES = [
    ("null", None),
    ("boolean", True),
    number("0"),
    number("0.5"),
    string("x"),
    string("2024-02-29T00:00:00Z"),
    string("JSON"),
    array(),
    object_of({}),
    object_of({"Array": string("JSON")}),
]


def witness(new, old):
    """The text of a value that meets the new and fails the old, or None."""
    found = find_witness(new, old)
    return None if found is None else write(found)


def find_witness(new, old):
    for value in candidates(new, old):
        if meets(value, new) and not meets(value, old):
            return value
    return None


def candidates(new, old):
    """Values to try: one of each kind, and those that the definitions suggest."""
    yield from SAMPLES
    if new.form == old.form == "Array":
        inner = find_witness(new.inner, old.inner)
        if inner is not None:
            yield array(inner)
    if new.form in ("Map", "Object"):
        yield from object_candidates(new, old)


def object_candidates(new, old):
    """The least object, one with a name more, and one for each old name."""
    least = least_members(new)
    other = other_name(new, old)
    yield object_of(least)
    yield object_of({**least, other: ("null", None)})
    if old.form in ("Map", "Object"):
        for name in [*old.required, *old.optional, other]:
            inner = find_witness(under_name(new, name), under_name(old, name))
            if inner is not None:
                yield object_of({**least, name: inner})


def least_members(wanted):
    """The required names of an Object, each with some value."""
    return {name: some_value(under) for name, under in wanted.required.items()}


def some_value(wanted):
    """A value that meets a definition; none is empty."""
    if wanted.form == "Object":
        return object_of(least_members(wanted))
    return next(value for value in SAMPLES if meets(value, wanted))


def under_name(wanted, name):
    """What a Map or an Object asks of the value under a name."""
    if wanted.form == "Map":
        return wanted.inner
    return {**wanted.required, **wanted.optional}.get(name, JSON)


def other_name(new, old):
    """A name that neither definition has."""
    taken = [*new.required, *new.optional, *old.required, *old.optional]
    name = "x"
    while name in taken:
        name += "x"
    return name
