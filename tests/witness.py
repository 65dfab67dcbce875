"""The witness of crates/model/specs/Witness.antt, clause by clause.

witness() gives a value that meets the new definition and fails the old one,
where the new is not carried to the old.
"""

from model_compare import carried
from model_meeting import JSON, array, number, object_of, string

NULL = ("null", None)

# A value of each named type that is neither array nor object.
PLAIN = {
    "JSON": NULL,
    "Schema": string("JSON"),
    "Float": number("0.5"),
    "Integer": number("0"),
    "String": string(""),
    "Boolean": ("boolean", True),
    "DateTime": string("2000-01-01T00:00:00Z"),
}


def apart(name):
    """A value that meets only the named types that take all of it."""
    return object_of({"Array": string("JSON")}) if name == "Schema" else PLAIN[name]


def sample(wanted):
    """A value of every definition."""
    if wanted.form == "Array":
        return array()
    if wanted.form == "Map":
        return object_of({})
    if wanted.form == "Object":
        return object_of(others(wanted, None))
    return PLAIN[wanted.form]


def others(wanted, but):
    """The required members but the one of a name."""
    if wanted.form != "Object":
        return {}
    return {name: sample(under) for name, under in wanted.required.items() if name != but}


def with_member(wanted, name, value):
    return object_of({name: value, **others(wanted, name)})


def behind(letter, names):
    """What follows the letter in the names that begin with it."""
    return [name[1:] for name in names if name.startswith(letter)]


def rarer(names):
    """The letter with which fewer of the names begin."""
    return "a" if len(behind("a", names)) <= len(behind("b", names)) else "b"


def avoiding(names):
    """Letters that none of the names begins with."""
    if not names:
        return ""
    letter = rarer(names)
    return letter + avoiding(behind(letter, names))


def fresh(wanted):
    """A name that the definition does not name: an "a" and letters."""
    return "a" + avoiding(behind("a", [*wanted.required, *wanted.optional]))


def other(wanted):
    """What is asked of a value under a name that is not named."""
    return wanted.inner if wanted.form == "Map" else JSON


def under(wanted, name):
    if wanted.form == "Map":
        return wanted.inner
    return wanted.required.get(name) or wanted.optional.get(name) or JSON


def beyond_named(wanted):
    if wanted.form in ("Array", "Map"):
        return sample(wanted)
    if wanted.form == "Object":
        return with_member(wanted, fresh(wanted), NULL)
    return apart(wanted.form)


def witness(new, old):
    objects = new.form in ("Map", "Object")
    if old.form == "Array":
        return array(witness(new.inner, old.inner)) if new.form == "Array" else sample(new)
    if old.form == "Map":
        return with_member(new, fresh(new), witness(other(new), old.inner)) if objects else sample(new)
    if old.form == "Object":
        return witness_of_object(new, old) if objects else sample(new)
    return beyond_named(new)


def witness_of_object(new, old):
    return (witness_fields(True, new, old.required) or witness_fields(False, new, old.optional)
            or sample(new))


def witness_fields(required, new, fields):
    """The first of the old fields that fails gives the member; None where none does.
    A required name that the new does not ask for is missing in its sample."""
    for name, wanted in fields.items():
        if required and name not in new.required:
            return sample(new)
        if not carried(under(new, name), wanted):
            return with_member(new, name, witness(under(new, name), wanted))
    return None
