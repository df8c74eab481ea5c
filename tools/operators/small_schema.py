"""A small validator of JSON Schema, for the keywords that docs/report.schema.json uses and no others."""

import re

# They say nothing of a value.
SILENT = ("$schema", "title", "description", "$defs")
TYPES = {"object": dict, "array": list, "string": str, "integer": int}
KEYWORDS = ("$ref", "type", "const", "properties", "required", "additionalProperties", "items", "maxItems", "pattern", "minimum", "maximum")


class UnknownKeyword(ValueError):
    """A schema that asks for more than this validator can tell."""


def faults_of(schema, value, whole=None, path=()):
    """What of a value is not as the schema asks, each as the path to it and what is wrong."""
    whole = schema if whole is None else whole
    unknown = [key for key in schema if key not in SILENT + KEYWORDS]
    if unknown or schema.get("additionalProperties", False) is not False:
        raise UnknownKeyword("%s: not in this subset of JSON Schema" % ", ".join(unknown or ["additionalProperties"]))
    if "$ref" in schema:
        yield from faults_of(whole["$defs"][schema["$ref"].removeprefix("#/$defs/")], value, whole, path)
    if "const" in schema and (value != schema["const"] or type(value) is not type(schema["const"])):
        yield path, "is %s, and has to be %s" % (shown(value), shown(schema["const"]))
    if "type" in schema and not is_of_type(value, schema["type"]):
        yield path, "is %s, and has to be of type %s" % (shown(value), schema["type"])
        return
    checks = {str: text_faults, int: number_faults, list: list_faults, dict: object_faults}
    yield from checks.get(type(value), nothing)(schema, value, whole, path)


def is_of_type(value, name):
    return isinstance(value, TYPES[name]) and not (isinstance(value, bool) and name == "integer")


def nothing(*_):
    return ()


def text_faults(schema, value, _, path):
    # The patterns of this subset are anchored at both ends.
    if "pattern" in schema and not re.fullmatch(schema["pattern"].removeprefix("^").removesuffix("$"), value):
        yield path, "is %s, which is not of its form" % shown(value)


def number_faults(schema, value, _, path):
    if value < schema.get("minimum", value) or value > schema.get("maximum", value):
        yield path, "is %d, which is not from %s to %s" % (value, schema.get("minimum", "any"), schema.get("maximum", "any"))


def list_faults(schema, value, whole, path):
    if len(value) > schema.get("maxItems", len(value)):
        yield path, "has %d items, and at most %d may be" % (len(value), schema["maxItems"])
    for place, item in enumerate(value):
        yield from faults_of(schema.get("items", {}), item, whole, (*path, place))


def object_faults(schema, value, whole, path):
    properties = schema.get("properties", {})
    for key in schema.get("required", ()):
        if key not in value:
            yield path, "has no '%s'" % key
    for key, part in value.items():
        if key in properties:
            yield from faults_of(properties[key], part, whole, (*path, key))
        elif "additionalProperties" in schema:
            yield path, "has '%s', which no report has" % key


def shown(value):
    text = repr(value)
    return text if len(text) <= 80 else text[:77] + ".."


def path_words(path):
    """A path as it is written behind a value: `groups[0].receipts[2]`."""
    return "".join("[%d]" % part if isinstance(part, int) else "." + part for part in path).removeprefix(".") or "the report"
