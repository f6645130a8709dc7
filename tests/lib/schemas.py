"""The schemas of docs/schema: whether a value is as one of them says. Knows the keywords of JSON Schema that
they use, and refuses others; if Python has the package jsonschema, that has to find the same."""
import functools
import json
import pathlib
import re

try:
    import jsonschema
except ImportError:
    jsonschema = None

ROOT = pathlib.Path(__file__).resolve().parents[2]
SCHEMAS = {path.stem: json.loads(path.read_text()) for path in sorted(ROOT.glob("docs/schema/*.json"))}
JUDGES = "tests/lib/schemas.py " + (
    f"and jsonschema {jsonschema.__version__}" if jsonschema else "alone, since Python has no jsonschema here"
)

_NOTES = {"$schema", "$defs", "title", "description"}
_TYPES = {"object": dict, "array": list, "string": str, "boolean": bool, "integer": int, "number": (int, float)}


def _is(value, type_of):
    return isinstance(value, _TYPES[type_of]) and (type_of == "boolean" or not isinstance(value, bool))


def _equals(value, other):
    return value == other and isinstance(value, bool) == isinstance(other, bool)


# Keywords that have schemas for the value or for its parts.
WITHIN = ("$ref", "allOf", "if", "then", "else", "items", "properties", "patternProperties", "additionalProperties")

# What a keyword asks of a value, if it is of the type that the keyword speaks of.
RULES = {
    "type": (None, _is),
    "const": (None, _equals),
    "enum": (None, lambda value, wanted: any(_equals(value, one) for one in wanted)),
    "minimum": ("number", lambda value, wanted: value >= wanted),
    "maximum": ("number", lambda value, wanted: value <= wanted),
    "exclusiveMinimum": ("number", lambda value, wanted: value > wanted),
    "exclusiveMaximum": ("number", lambda value, wanted: value < wanted),
    "pattern": ("string", lambda value, wanted: re.search(wanted, value) is not None),
    "minItems": ("array", lambda value, wanted: len(value) >= wanted),
    "maxItems": ("array", lambda value, wanted: len(value) <= wanted),
    "required": ("object", lambda value, wanted: set(wanted) <= set(value)),
    "dependentRequired": (
        "object",
        lambda value, wanted: all(set(wanted[name]) <= set(value) for name in set(wanted) & set(value)),
    ),
}


def complaints(value, schema, whole, place="$"):
    """What a schema refuses about a value; `whole` is the document that it stands in."""
    if schema is False:
        yield f"{place} has no place"
        return
    for word, wanted in schema.items():
        if word in RULES:
            of_type, fits = RULES[word]
            if (of_type is None or _is(value, of_type)) and not fits(value, wanted):
                yield f"{place}: {word} {json.dumps(wanted)}"
        elif word == "oneOf":
            fitting = sum(not any(complaints(value, one, whole, place)) for one in wanted)
            if fitting != 1:
                yield f"{place} has {fitting} of {len(wanted)} forms"
        elif word not in _NOTES:
            yield from _complaints_within(value, word, wanted, schema, whole, place)


@functools.lru_cache(maxsize=None)
def _matches(pattern, name):
    return re.search(pattern, name) is not None


def _matching(value, pattern):
    """The names of an object that a pattern matches."""
    return [name for name in value if _matches(pattern, name)] if isinstance(value, dict) else []


def _complaints_within(value, word, wanted, schema, whole, place):
    """The same of a keyword that has schemas for the value or for its parts."""
    if word == "$ref":
        named = functools.reduce(lambda part, name: part[name], wanted.split("/")[1:], whole)
        yield from complaints(value, named, whole, place)
    elif word == "allOf":
        for one in wanted:
            yield from complaints(value, one, whole, place)
    elif word == "if":
        branch = "else" if any(complaints(value, wanted, whole, place)) else "then"
        yield from complaints(value, schema.get(branch, {}), whole, place)
    elif word in ("then", "else"):
        pass
    elif word == "items":
        for index, item in enumerate(value if isinstance(value, list) else []):
            yield from complaints(item, wanted, whole, f"{place}[{index}]")
    elif word == "properties":
        for name in [name for name in wanted if isinstance(value, dict) and name in value]:
            yield from complaints(value[name], wanted[name], whole, f"{place}.{name}")
    elif word == "patternProperties":
        for pattern, of_pattern in wanted.items():
            for name in _matching(value, pattern):
                yield from complaints(value[name], of_pattern, whole, f"{place}.{name}")
    elif word == "additionalProperties" and wanted is False:
        unknown = set(value) - set(schema["properties"]) if isinstance(value, dict) else set()
        for pattern in schema.get("patternProperties", {}):
            unknown -= set(_matching(value, pattern))
        yield from (f"{place}.{name} has no place" for name in sorted(unknown))
    else:
        raise ValueError(f"a schema has the keyword {word}, which tests/lib/schemas.py does not know")


@functools.lru_cache(maxsize=None)
def _validator(name):
    jsonschema.Draft202012Validator.check_schema(SCHEMAS[name])
    return jsonschema.Draft202012Validator(SCHEMAS[name])


def refusal(name, value, is_compared=lambda found: True):
    """Why the schema of this name refuses a value; None if it doesn't. Fails if jsonschema finds otherwise; what is not compared is not
    given to it."""
    found = next(complaints(value, SCHEMAS[name], SCHEMAS[name]), None)
    if is_compared(found) and jsonschema and _validator(name).is_valid(value) != (found is None):
        raise AssertionError(f"jsonschema does not agree on {name}: {found}: {json.dumps(value)}")
    return found


def read(text, **kinds):
    """The value of a text in JSON. Refuses an object with two equal keys."""
    return json.loads(text, object_pairs_hook=_object, **kinds)


def _object(members):
    found = dict(members)
    if len(found) < len(members):
        raise ValueError(f"a key stands twice among {[key for key, _ in members]}")
    return found
