"""Judges a value by a JSON Schema, as far as the schemas of docs/ use it."""
import re

KNOWN = {
    "$schema", "title", "description", "default", "$defs", "$ref", "type", "properties", "required", "additionalProperties", "items",
    "maxItems", "minimum", "maximum", "multipleOf", "enum", "pattern", "anyOf",
}


class Unknown(Exception):
    """A keyword that this validator does not have."""


def is_of_type(value, name):
    """Whether a value is of a type. A boolean is no integer, and to JSON Schema 1.0 is one."""
    match name:
        case "integer":
            return isinstance(value, int) and not isinstance(value, bool) or isinstance(value, float) and value.is_integer()
        case "object" | "array" | "string" | "boolean":
            return isinstance(value, {"object": dict, "array": list, "string": str, "boolean": bool}[name])
        case "null":
            return value is None
    raise Unknown(name)


def mistakes_of_number(value, schema, place):
    if not isinstance(value, int | float) or isinstance(value, bool):
        return
    if value < schema.get("minimum", value) or value > schema.get("maximum", value):
        yield f"{place}: {value} is out of range"
    if value % schema.get("multipleOf", 1):
        yield f"{place}: {value} is not a multiple of {schema['multipleOf']}"


def mistakes_of_object(value, schema, root, place):
    properties = schema.get("properties", {})
    for key in schema.get("required", ()):
        if key not in value:
            yield f"{place}: no key {key}"
    for key, item in value.items():
        if key in properties:
            yield from mistakes(item, properties[key], root, f"{place}.{key}")
        elif not schema.get("additionalProperties", True):
            yield f"{place}: unknown key {key}"


def mistakes_of_array(value, schema, root, place):
    if len(value) > schema.get("maxItems", len(value)):
        yield f"{place}: more than {schema['maxItems']} items"
    for number, item in enumerate(value):
        yield from mistakes(item, schema.get("items", {}), root, f"{place}[{number}]")


def mistakes(value, schema, root, place="file"):
    """Each mistake of a value by a schema, as a sentence."""
    if set(schema) - KNOWN:
        raise Unknown(", ".join(set(schema) - KNOWN))
    if "$ref" in schema:
        schema = root["$defs"][schema["$ref"].removeprefix("#/$defs/")]
    kinds = schema.get("type", [])
    if kinds and not any(is_of_type(value, kind) for kind in ([kinds] if isinstance(kinds, str) else kinds)):
        yield f"{place}: not of the type {kinds}"
        return
    if "enum" in schema and not any(value == one and not isinstance(value, bool) for one in schema["enum"]):
        yield f"{place}: {value} is not one of {schema['enum']}"
    if isinstance(value, str) and "pattern" in schema and not re.search(schema["pattern"], value):
        yield f"{place}: {value!r} does not have the form that the schema has"
    if "anyOf" in schema and all(any(mistakes(value, one, root, place)) for one in schema["anyOf"]):
        yield f"{place}: {value!r} is none of the {len(schema['anyOf'])} forms that the schema has"
    yield from mistakes_of_number(value, schema, place)
    if isinstance(value, dict):
        yield from mistakes_of_object(value, schema, root, place)
    if isinstance(value, list):
        yield from mistakes_of_array(value, schema, root, place)
