"""Makes docs/words.json: the rows of the words that the program `runs` prints from the tables of `script`, the sources in the comments
there, and the rest from words.toml."""
import pathlib
import re
import subprocess
import tomllib

import tables

TOOLS = tables.TOP / "tools"
WORD_FILES = tables.TOP / "crates" / "script" / "src" / "word"

# A variant of a group's enum with its comment, and the row of a variant.
VARIANT = re.compile(r"((?:    /// [^\n]*\n)+)    (\w+),\n")
ROW = re.compile(r'\w+::(\w+) => \{?\s*Row::\w+\(\s*"(\w+)"')
SOURCE = re.compile(r"autodoc|RKM|Devices|amiga\.lib/|exec/\w+\.h")


class BadWords(Exception):
    """The words of the program and those of words.toml are not the same, or a row is not as the program has it."""


def sources_in(comment):
    """The sources in the manual that a comment ends with, in parentheses."""
    text = " ".join(line.strip().removeprefix("///").strip() for line in comment.splitlines())
    inside = re.search(r"\(([^()]*)\)\.?$", text)
    parts = re.split(r"; ", inside[1]) if inside else []
    sources = [re.sub(": (own choice|project rule)$", "", part) for part in parts if SOURCE.match(part)]
    return ["RKM " + source if source.startswith("Devices") else source for source in sources]


def group_of(path):
    """The words of a group's file: (text, sources) in the order of its table."""
    text = path.read_text()
    comments = {variant: comment for comment, variant in VARIANT.findall(text)}
    found = ROW.findall(text)
    for variant, word in found:
        if variant not in comments:
            raise BadWords(f"{path.name}: {word} has a row, and no variant {variant} with a comment that names its source")
    return [(word, sources_in(comments[variant])) for variant, word in found]


def source_rows():
    """Each word of the sources with its group and its sources in the manual, in the order of the groups in word.rt."""
    order = re.findall(r"&(\w+)::ALL, text\)", (WORD_FILES.parent / "word.rt").read_text())
    return {word: (group, sources) for group in order for word, sources in group_of(WORD_FILES / f"{group}.rt")}


def names_of_words():
    """The words of words.toml, in its order."""
    return [row["name"] for row in tomllib.loads((TOOLS / "words.toml").read_text())["word"]]


def printed_rows(program):
    """What the program `runs` prints of each word: (whether it answers, the kinds of its arguments)."""
    path = pathlib.Path(program).resolve()
    if not path.exists():
        raise BadWords(f"{path}: not built; build crates/runs with `rt run`, or name another with --runs")
    said = subprocess.run([path, "words", *names_of_words()], capture_output=True, text=True, check=False)
    if said.returncode != 0:
        raise BadWords(f"{path}: {' '.join(said.stdout.splitlines()[-1:])}")
    rows = {}
    for line in said.stdout.splitlines():
        name, answers, *kinds = line.split(" ")
        rows[name] = answers == "answers", kinds
    return rows


def meaning(text):
    """The meaning of an argument or an answer, and how a page names it."""
    what, _, shown = text.partition(": ")
    return what, shown or what


def alert(text):
    code, _, when = text.partition(": ")
    return {"code": code, "when": when or None}


def answer_of(text):
    if text is None:
        return None
    what, shown = meaning(text)
    return {"is": what.removeprefix("new "), "new": what.startswith("new "), "text": shown}


def one_word(row, printed, source):
    """A word of words.json."""
    answers, kinds = printed
    if answers != ("answer" in row) or len(kinds) != len(row["arguments"]):
        raise BadWords(f"{row['name']}: words.toml has other arguments or another answer than the program")
    group, sources = source
    arguments = [{"kind": kind, "is": what, "text": shown} for kind, (what, shown) in zip(kinds, map(meaning, row["arguments"]), strict=True)]
    return {
        "name": row["name"],
        "group": group,
        "prints": group != "plain" or row["name"] == "Print",
        "in_interrupts": row.get("in_interrupts", False),
        "waits": row.get("waits", False),
        "arguments": arguments,
        "answer": answer_of(row.get("answer")),
        "ends": row.get("ends"),
        "alerts": [alert(text) for text in row.get("alerts", [])],
        "effect": row["effect"],
        "c": row["c"],
        "here": row["here"],
        "sources": sources,
    }


def word_file(printed):
    """The value of docs/words.json, over the rows that the program printed."""
    rows = tomllib.loads((TOOLS / "words.toml").read_text())["word"]
    names = names_of_words()
    sources = source_rows()
    if names != list(sources):
        missing = sorted(set(sources).symmetric_difference(names)) or "their order"
        raise BadWords(f"words.toml and the tables of `script` do not have the same words: {missing}")
    words = [one_word(row, printed[row["name"]], sources[row["name"]]) for row in rows]
    numbers = tomllib.loads((TOOLS / "numbers.toml").read_text())["numbers"]
    return {"format": 1, "words": words, "numbers": numbers}
