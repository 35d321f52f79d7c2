"""The formats that other programs read: their pages, from the JSON Schemas and the grammar, and the grammar as a pattern."""
import json
import re

import pages
import tables
import vocabulary

GRAMMAR = pages.DOCS / "trace.abnf"
CORE = {"LF": r"\n", "DQUOTE": '"', "ALPHA": "[A-Za-z]", "DIGIT": "[0-9]"}
TOKEN = re.compile(r'"[^"]*"|\d*\*\d*|\d+|[A-Za-z]+|[()\[\]/]')


def schema_of(name):
    return json.loads((pages.DOCS / f"{name}.schema.json").read_text())


def value_text(schema, root):
    """How a page says what a value is."""
    if "$ref" in schema:
        name = schema["$ref"].rpartition("/")[2]
        return f"[{name}](#{name})" + (" or null" if isinstance(root["$defs"][name]["type"], list) else "")
    if "enum" in schema:
        return " or ".join(f"`{json.dumps(one)}`" for one in schema["enum"])
    kinds = schema["type"] if isinstance(schema["type"], list) else [schema["type"]]
    return " or ".join(kinds) + (f" of {value_text(schema['items'], root)}" if "items" in schema else "")


def key_tables(name):
    """A page's tables of the keys of a file: one for the file, and one for each kind of object in it."""
    root = schema_of(name)
    parts = []
    for title, schema in [(f"{name}.json", root), *root["$defs"].items()]:
        rows = [(f"`{key}`", value_text(value, root), value["description"]) for key, value in schema["properties"].items()]
        parts.append(f"### {title}\n\n" + pages.as_table(("Key", "Value", "What it is"), rows))
    return "\n\n".join(parts)


def example_word():
    """A word as docs/words.json has it."""
    return "```json\n" + json.dumps(vocabulary.load()["GetMsg"], ensure_ascii=False) + "\n```"


def example_run():
    """A run as index.json has it."""
    run = next(run for run in tables.all_runs() if run.status == 3)
    kept = {"name": run.name, "title": run.title, "table": run.table, "status": run.status, "fault": run.fault}
    return "```json\n" + json.dumps(kept | {"words": run.words(vocabulary.load())}, ensure_ascii=False) + "\n```"


def grammar():
    return "```abnf\n" + GRAMMAR.read_text() + "```"


def rules():
    """The rules of the grammar by their names."""
    lines = (line.split(";")[0].rstrip() for line in GRAMMAR.read_text().splitlines())
    return {name.strip(): text for name, _, text in (line.partition("=") for line in lines if line)}


class Pattern:
    """A rule of the grammar as a regular expression."""

    def __init__(self, text, known):
        self.tokens, self.known = TOKEN.findall(text), known

    def next_is(self, marks):
        return bool(self.tokens) and self.tokens[0] in marks

    def alternatives(self):
        parts = [self.sequence()]
        while self.next_is("/"):
            self.tokens.pop(0)
            parts.append(self.sequence())
        return f"(?:{'|'.join(parts)})"

    def sequence(self):
        made = ""
        while self.tokens and not self.next_is("/)]"):
            made += self.item()
        return made

    def item(self):
        """An item with the number of times before it: a text, a rule, a group, or a group that may be absent."""
        token = self.tokens.pop(0)
        if token[0].isdigit() or "*" in token:
            least, star, most = token.partition("*")
            return self.item() + (f"{{{least or 0},{most}}}" if star else f"{{{least}}}")
        if token in "([":
            inner = self.alternatives()
            self.tokens.pop(0)
            return inner + ("?" if token == "[" else "")
        if token.startswith('"'):
            return f"(?:{re.escape(token[1:-1])})"
        return CORE.get(token) or Pattern(self.known[token], self.known).alternatives()


def trace_line():
    """The pattern of a line of a trace, by the grammar."""
    known = rules()
    return re.compile(Pattern(known["line"], known).alternatives())


def wrong_lines(trace):
    """The lines of a trace that the grammar does not have."""
    pattern = trace_line()
    *whole, last = trace.split("\n")
    return [line for line in whole if not pattern.fullmatch(line) or len(line) > 160] + ([last] if last else [])
