"""JSON Schema (draft 2020-12), as much of it as the corpus's schema uses. A word that is not known is an error, so that nothing
in a schema is passed over."""

import re

ANNOTATIONS = {"$schema", "$defs", "title", "description"}
TYPES = {
    "object": lambda value: isinstance(value, dict),
    "array": lambda value: isinstance(value, list),
    "string": lambda value: isinstance(value, str),
    "integer": lambda value: isinstance(value, int) and not isinstance(value, bool),
    "boolean": lambda value: isinstance(value, bool),
    "null": lambda value: value is None,
}


def same(a, b):
    """Equal as JSON has it: true is not 1."""
    return type(a) is type(b) and a == b


def known(schema, at="schema"):
    """Every word of a schema, wherever in it, is one that `mistakes` knows."""
    for word, value in schema.items():
        if word in ("properties", "$defs"):
            for name, inner in value.items():
                known(inner, f"{at}/{word}/{name}")
        elif word == "items":
            known(value, f"{at}/items")
        elif word not in ANNOTATIONS and word not in WORDS:
            raise ValueError(f"{at}: no schema here knows the word {word}")


def mistakes(value, schema, whole, at=""):
    """What of a value is not as the schema has it, each with its place."""
    for word, wanted in schema.items():
        if word not in ANNOTATIONS:
            for what in WORDS[word](value, wanted, schema, whole, at):
                yield what


def of_type(value, wanted, schema, whole, at):
    names = wanted if isinstance(wanted, list) else [wanted]
    if not any(TYPES[name](value) for name in names):
        yield f"{at}: {value!r} is no {' or '.join(names)}"


def of_ref(value, wanted, schema, whole, at):
    target = whole
    for name in wanted.removeprefix("#/").split("/"):
        target = target[name]
    yield from mistakes(value, target, whole, at)


def of_required(value, wanted, schema, whole, at):
    if isinstance(value, dict):
        yield from (f"{at}: {name} is missing" for name in wanted if name not in value)


def of_properties(value, wanted, schema, whole, at):
    if isinstance(value, dict):
        for name in wanted.keys() & value.keys():
            yield from mistakes(value[name], wanted[name], whole, f"{at}/{name}")


def of_additional(value, wanted, schema, whole, at):
    assert wanted is False, "no other additionalProperties is known"
    if isinstance(value, dict):
        yield from (f"{at}: {name} has no place here" for name in value.keys() - schema.get("properties", {}).keys())


def of_items(value, wanted, schema, whole, at):
    if isinstance(value, list):
        for i, item in enumerate(value):
            yield from mistakes(item, wanted, whole, f"{at}/{i}")


def of_unique(value, wanted, schema, whole, at):
    if wanted and isinstance(value, list):
        if any(same(value[i], value[j]) for i in range(len(value)) for j in range(i)):
            yield f"{at}: an item stands twice"


def matches(value, pattern):
    """`$` is the end of the text; in Python it may stand before a last line's end too."""
    return re.search(re.sub(r"\$$", r"\\Z", pattern), value) is not None


def simple(applies, holds, what):
    """A word that says something of one type of value."""

    def of_word(value, wanted, schema, whole, at):
        if applies(value) and not holds(value, wanted):
            yield f"{at}: {value!r} {what} {wanted!r}"

    return of_word


def anything(value):
    return True


WORDS = {
    "type": of_type,
    "$ref": of_ref,
    "required": of_required,
    "properties": of_properties,
    "additionalProperties": of_additional,
    "items": of_items,
    "uniqueItems": of_unique,
    "const": simple(anything, same, "is not"),
    "enum": simple(anything, lambda value, wanted: any(same(value, one) for one in wanted), "is none of"),
    "pattern": simple(TYPES["string"], matches, "does not match"),
    "minimum": simple(TYPES["integer"], lambda value, wanted: value >= wanted, "is below"),
    "maximum": simple(TYPES["integer"], lambda value, wanted: value <= wanted, "is above"),
    "minLength": simple(TYPES["string"], lambda value, wanted: len(value) >= wanted, "is shorter than"),
    "minItems": simple(TYPES["array"], lambda value, wanted: len(value) >= wanted, "has fewer items than"),
    "maxItems": simple(TYPES["array"], lambda value, wanted: len(value) <= wanted, "has more items than"),
}
