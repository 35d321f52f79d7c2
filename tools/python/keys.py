"""The keys of a machine file, from machine-keys.toml: MACHINE-FILE's table of keys, and the JSON Schema."""
import re
import tomllib

import tables

NAME_PATTERN = "^[A-Za-z0-9._-]{1,31}$"
VARIABLE = "@?[a-z][a-z0-9_]{0,15}"
LABEL = "[a-z][a-z0-9_]{0,15}"
NUMBER = r"(?:0|[1-9][0-9]{0,9}|-[1-9][0-9]{0,9}|\$[0-9A-F]{1,8})"
QUOTED = '"[A-Za-z0-9._-]{1,31}"'
LONGEST_CODE = 1024


def load():
    """The tables of a machine file, in the order of the page."""
    return tomllib.loads((tables.TOP / "tools" / "machine-keys.toml").read_text())["table"]


def in_words(items):
    """Items as `a`, `b` or `c`."""
    shown = [str(item) if isinstance(item, int) else f'`"{item}"`' for item in items]
    return ", ".join(shown[:-1]) + " or " + shown[-1]


def value_text(key):
    """How MACHINE-FILE says what the value of a key is."""
    says = key["says"]
    match key["is"]:
        case "integer":
            return f"an integer from {key['least']} to {key['most']}: {says}"
        case "choice":
            return f"{in_words(key['of'])}: {says}"
        case "name":
            return f"a name, {says}"
        case "boolean":
            return f"a boolean: {says}"
        case "tables":
            return f"an array of at most {key['most']} tables: {says}"
    return f"an array of at most {LONGEST_CODE:,} strings, {says}"


def default_text(key):
    if key["is"] == "tables":
        return "none"
    if "default" not in key:
        return "required"
    return str(key["default"]).lower()


def page_table(all_tables):
    """MACHINE-FILE's table of keys."""
    rows = [f"| {table['name']} | `{key['name']}` | {value_text(key)} | {default_text(key)} |" for table in all_tables for key in table["key"]]
    return "\n".join(["| Table | Key | Value | Default |", "|---|---|---|---|", *rows])


def argument_pattern(argument):
    """The pattern of an argument of a line."""
    patterns = {"label": LABEL, "name": QUOTED, "softint": QUOTED, "name-or-none": f"(?:{QUOTED}|0)"}
    return patterns.get(argument["kind"], f"(?:{VARIABLE}|{NUMBER})")


def word_pattern(word, variable):
    """The pattern of the lines with a word, with the target that it may have."""
    arguments = "".join(" " + argument_pattern(argument) for argument in word["arguments"]).replace(VARIABLE, variable)
    return (f"(?:{variable} = )?" if word["answer"] else "") + word["name"] + arguments


def plain_text(text):
    """A text of a table without marks and links."""
    return re.sub(r"\[([^\]]*)\]\([^)]*\)", r"\1", text).replace("`", "")


def word_schema(word, variable):
    """The schema of the lines with a word: what it does, and a line that has it."""
    effect = plain_text(word["effect"]) or f"returns {word['answer']['text']}"
    return {"description": f"{word['here']}: {effect}.", "pattern": f"^{word_pattern(word, variable)}$"}


def line_schema(words, body):
    """The schema of a line of the body of a task or of an interrupt, an entry for each word. An interrupt has fewer words, shared variables, and no labels."""
    variable = VARIABLE if body == "task" else VARIABLE.replace("@?", "@")
    entries = [word_schema(word, variable) for word in words if body == "task" or word["in_interrupts"]]
    if body == "task":
        entries.append({"description": "A label, at which a jump goes on.", "pattern": f"^{LABEL}:$"})
    return {"type": "string", "anyOf": entries}


def key_schema(key, words):
    """The schema of the value of a key."""
    match key["is"]:
        case "integer":
            value = {"type": "integer", "minimum": key["least"], "maximum": key["most"]}
        case "choice":
            value = {"enum": key["of"]}
        case "name":
            value = {"type": "string", "pattern": NAME_PATTERN}
        case "boolean":
            value = {"type": "boolean"}
        case "tables":
            value = {"type": "array", "maxItems": key["most"], "items": {"$ref": f"#/$defs/{key['name']}"}}
        case "lines":
            value = {"type": "array", "maxItems": LONGEST_CODE, "items": {"$ref": f"#/$defs/{key['body']}_line"}}
    if key["name"] == "base":
        value |= {"minimum": 4096, "maximum": 2147483640, "multipleOf": 8}
    if key["name"] == "size" and key["most"] > 65536:
        value |= {"minimum": 8, "multipleOf": 8, "maximum": 4194304}
    if "default" in key:
        value["default"] = key["default"]
    text = value_text(key).split(". In version 2 ")[0].replace("`", "")
    return {"description": text[0].upper() + text[1:] + ".", **value}


def table_schema(table, words):
    """The schema of a table."""
    required = [key["name"] for key in table["key"] if default_text(key) == "required"]
    properties = {key["name"]: key_schema(key, words) for key in table["key"]}
    schema = {"type": "object", "description": table["says"][0].upper() + table["says"][1:] + ".", "properties": properties}
    return schema | ({"required": required} if required else {}) | {"additionalProperties": False}


def schema(all_tables, words):
    """The JSON Schema of a machine file."""
    top, *others = all_tables
    defs = {table["name"]: table_schema(table, words) for table in others}
    defs |= {f"{body}_line": line_schema(words, body) for body in ("task", "interrupt")}
    head = {"$schema": "http://json-schema.org/draft-07/schema#", "title": "A machine file of execsim"}
    return head | table_schema(top, words) | {"$defs": defs}
