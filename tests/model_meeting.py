"""Meeting, as the paper writes it out over JSON values.

Values are those of model.value: pairs of a tag and content. definition() gives
the definition that a value is, meets() whether a value meets a definition.
"""

from collections import namedtuple

from model_check import TYPE_NAMES, is_date

# form is a type name, Array, Map or Object. Under Array and Map stands inner;
# required and optional are the definitions under the names of an Object.
Definition = namedtuple("Definition", "form inner required optional",
                        defaults=(None, {}, {}))

JSON = Definition("JSON")


def definition(value):
    """The definition that a value is; None for a value that is none."""
    tag, content = value
    if tag == "string":
        name = characters(content)
        return Definition(name) if name in TYPE_NAMES else None
    if tag != "object" or len(content) != 1:
        return None
    name, under = characters(content[0][0]), content[0][1]
    if name in ("Array", "Map"):
        inner = definition(under)
        return Definition(name, inner) if inner else None
    return object_definition(under) if name == "Object" else None


def object_definition(body):
    """An absent "required" or "optional" has no names; none is shared."""
    if body[0] != "object":
        return None
    parts = members(body)
    required = fields(parts.get("required", ("object", [])))
    optional = fields(parts.get("optional", ("object", [])))
    if required is None or optional is None or required.keys() & optional.keys():
        return None
    return Definition("Object", None, required, optional)


def fields(value):
    """The definitions under the names of an object, or None."""
    if value[0] != "object":
        return None
    found = {name: definition(under) for name, under in members(value).items()}
    return None if None in found.values() else found


def members(value):
    """The members of an object by name."""
    return {characters(name): under for name, under in value[1]}


def characters(scalars):
    return "".join(map(chr, scalars))


def meets(value, wanted):
    """Whether a value meets a definition."""
    tag, content = value
    if wanted.form == "JSON":
        return True
    if wanted.form == "Schema":
        return definition(value) is not None
    if wanted.form == "Integer":
        return tag == "number" and not any(byte in content for byte in b".eE")
    if wanted.form == "Float":
        return tag == "number"
    if wanted.form == "String":
        return tag == "string"
    if wanted.form == "Boolean":
        return tag == "boolean"
    if wanted.form == "DateTime":
        return tag == "string" and is_date(characters(content))
    if wanted.form == "Array":
        return tag == "array" and all(meets(element, wanted.inner) for element in content)
    if wanted.form == "Map":
        return tag == "object" and all(meets(under, wanted.inner) for _, under in content)
    return tag == "object" and meets_object(members(value), wanted)


def meets_object(found, wanted):
    """Every required name is there; what stands under a name meets its definition."""
    if not wanted.required.keys() <= found.keys():
        return False
    named = {**wanted.required, **wanted.optional}
    return all(meets(under, named[name]) for name, under in found.items() if name in named)


# Building values.

def string(text):
    return ("string", list(map(ord, text)))


def number(spelling):
    return ("number", spelling.encode())


def array(*elements):
    return ("array", list(elements))


def object_of(named):
    """An object with the members of a dict."""
    return ("object", [(list(map(ord, name)), under) for name, under in named.items()])


# Writing values.

def write(value):
    """The value as text, without space and with the fewest escapes."""
    tag, content = value
    if tag == "null":
        return b"null"
    if tag == "boolean":
        return b"true" if content else b"false"
    if tag == "number":
        return content
    if tag == "string":
        return write_string(content)
    if tag == "array":
        return b"[" + b",".join(map(write, content)) + b"]"
    pairs = [write_string(name) + b":" + write(under) for name, under in content]
    return b"{" + b",".join(pairs) + b"}"


def write_string(scalars):
    return b'"' + "".join(map(write_scalar, scalars)).encode() + b'"'


def write_scalar(scalar):
    if scalar < 0x20:
        return "\\u%04x" % scalar
    return "\\" + chr(scalar) if chr(scalar) in '"\\' else chr(scalar)
