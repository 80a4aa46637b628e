"""Whether a value fits a JSON schema, for the part of the language (draft 7) that docs/network.schema.json uses."""
import re

TYPES = {"object": dict, "array": list, "string": str, "integer": int}
NOTES = {"$schema", "title", "description", "default", "definitions", "then"}


class Unknown(Exception):
    """A word of the language that isn't known here."""


def same(value, other):
    return type(value) is type(other) and value == other


def of_type(value, name):
    return isinstance(value, TYPES[name]) and not isinstance(value, bool)


class Schema:
    """A schema with its definitions."""

    def __init__(self, root):
        self.root = root

    def fits(self, value, schema=None):
        schema = self.root if schema is None else schema
        for word in schema:
            if word not in NOTES and word not in RULES:
                raise Unknown(word)
        if "$ref" in schema:
            return self.fits(value, self.root["definitions"][schema["$ref"].rpartition("/")[2]])
        return all(RULES[word](self, schema, value) for word in schema if word in RULES)

    def properties(self, schema, value):
        return not isinstance(value, dict) or all(self.fits(value[key], inner) for key, inner in schema["properties"].items() if key in value)

    def no_more(self, schema, value):
        return not isinstance(value, dict) or schema["additionalProperties"] or set(value) <= set(schema["properties"])

    def items(self, schema, value):
        inner = schema["items"]
        if not isinstance(value, list):
            return True
        pairs = zip(value, inner) if isinstance(inner, list) else ((it, inner) for it in value)
        return all(self.fits(it, one) for it, one in pairs)

    def condition(self, schema, value):
        return not self.fits(value, schema["if"]) or self.fits(value, schema["then"])


def at_least(word, kind):
    """Returns the rule that a number, or the length of a kind, is at least so great."""
    return lambda _, schema, value: not of_type(value, kind) or (value if kind == "integer" else len(value)) >= schema[word]


def at_most(word, kind):
    return lambda _, schema, value: not of_type(value, kind) or (value if kind == "integer" else len(value)) <= schema[word]


RULES = {
    "$ref": None,
    "type": lambda _, schema, value: of_type(value, schema["type"]),
    "const": lambda _, schema, value: same(value, schema["const"]),
    "enum": lambda _, schema, value: any(same(value, it) for it in schema["enum"]),
    "required": lambda _, schema, value: not isinstance(value, dict) or set(schema["required"]) <= set(value),
    "additionalProperties": Schema.no_more,
    "properties": Schema.properties,
    "items": Schema.items,
    "minItems": at_least("minItems", "array"),
    "maxItems": at_most("maxItems", "array"),
    "minLength": at_least("minLength", "string"),
    "maxLength": at_most("maxLength", "string"),
    "minimum": at_least("minimum", "integer"),
    "maximum": at_most("maximum", "integer"),
    "multipleOf": lambda _, schema, value: not of_type(value, "integer") or value % schema["multipleOf"] == 0,
    "pattern": lambda _, schema, value: not isinstance(value, str) or bool(re.search(schema["pattern"].replace("$", r"\Z"), value)),
    "oneOf": lambda self, schema, value: sum(self.fits(value, it) for it in schema["oneOf"]) == 1,
    "not": lambda self, schema, value: not self.fits(value, schema["not"]),
    "if": Schema.condition,
}
