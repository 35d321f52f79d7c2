"""The lists of docs/ADDING.md: its tables, row by row, and what of them is not so. `.ci/adding` compares them with what
it finds in a copy of the project."""
import dataclasses
import functools
import re

import tables
import wordgroups

PAGE = tables.TOP / "docs" / "ADDING.md"
EACH, BY_GROUP, BESIDE, MADE = "Each word", "By its group", "What it has beside", "Made by tools"
QUOTED = re.compile(r"`([^`\n]+)`")
PATH = re.compile(r"[\w.*-]+(?:/[\w.*-]+)+")
SOURCE = re.compile(r"[\w-]+\.(?:antt|rt|toml)")


@dataclasses.dataclass(frozen=True)
class Row:
    """A row of a table: its heading, its line, its first cell, the files of its second one, and the last cell."""

    heading: str
    line: int
    first: str
    files: tuple
    last: str

    def __str__(self):
        return f"docs/ADDING.md:{self.line}"


def rows_of(text):
    """The rows of the page's tables."""
    heading = ""
    for number, line in enumerate(text.split("\n"), 1):
        if line.startswith("#"):
            heading = line.lstrip("# ")
        elif line.startswith("| ") and not line.startswith(("| Step", "| If", "| Run")):
            cells = [it.strip() for it in line.strip().strip("|").split(" | ")]
            yield Row(heading, number, cells[0], tuple(QUOTED.findall(cells[1])), cells[-1])


@functools.cache
def pattern_of(path, group=None, word=None):
    """What a path of the page fits: GROUP in each of its spellings, WORD as a function's name, and * for what is
    between two strokes."""
    groups = [group] if group else wordgroups.groups()
    names = sorted({it for one in groups for it in wordgroups.spellings(one)})
    found = re.escape(path).replace(r"\*", "[^/]*").replace("GROUP", f"(?:{'|'.join(names)})")
    return re.compile(found.replace("WORD", wordgroups.function_name(word) if word else r"\w+"))


def fits(row, file, group=None, word=None):
    """Whether a row names a file."""
    return any(pattern_of(path, group, word).fullmatch(file) for path in row.files)


def groups_of(row):
    """The groups that a row names."""
    return re.findall(r"\w+", row.last)


# ---- what is not so

def unnamed(rows, places, group):
    """Places that no row names."""
    hand = [it for it in rows if it.heading != MADE and (it.heading != BY_GROUP or group.name in groups_of(it))]
    for place in places:
        if not any(fits(row, place.file, group, place.word) for row in hand):
            yield f"{place}, and docs/ADDING.md does not name it"


def unfounded(rows, places, group):
    """Rows for each word of which there is no place."""
    for row in rows:
        if row.heading == EACH and row.files and not any(fits(row, it.file, group, it.word) for it in places):
            yield f"{row}: {row.files[0]}: no word that is added lacks it"


def misgrouped(rows, matches):
    """Matches of a group that the page does not name with it, and groups of the page that have none. The files of each
    group's own are left out."""
    own = [row for row in rows if row.heading == EACH and any("GROUP" in it for it in row.files)]
    others = [it for it in matches if not any(fits(row, it.file) for row in own)]
    wanted = {(it.file, it.group.name): f"{it.file}:{it.line}: `{it.name}`" for it in others}
    by_group = [row for row in rows if row.heading == BY_GROUP]
    named = {(file, group): row for row in by_group for file in row.files for group in groups_of(row)}
    for (file, group), place in wanted.items():
        if (file, group) not in named:
            yield f"{place} goes over all words of {group}, and docs/ADDING.md does not name it"
    for (file, group), row in named.items():
        if (file, group) not in wanted:
            yield f"{row}: {file}: nothing there goes over all words of {group}"


def mismade(rows, made):
    """Files that tools make for a new word and the page does not name, and those that it names and that stay; those
    with an `if` may stay."""
    of_tools = [row for row in rows if row.heading == MADE]
    for file in made:
        if not any(fits(row, file) for row in of_tools):
            yield f"{file}: it is made anew for the words, and docs/ADDING.md does not say by what"
    for row in of_tools:
        for path in row.files:
            if path not in made and ", if" not in row.last and not path.endswith("/"):
                yield f"{row}: {path}: it stays as it is"


def unrelated(rows, files):
    """Files in which most other words of the group are named, and that no row names."""
    for file in files:
        if not any(fits(row, file) for row in rows):
            yield f"{file}: most words of the group are named there, and docs/ADDING.md does not name it"


def is_there(path, files):
    """Whether a file or a folder of the page is among some files; a name alone may be in any folder."""
    pattern = pattern_of(path.rstrip("/"))
    if SOURCE.fullmatch(path):
        return any(it.rpartition("/")[2] == path for it in files)
    return any(pattern.fullmatch(it) or pattern.match(it) and it.startswith(path.rstrip("/") + "/") for it in files)


def absent(text, files):
    """Paths of the page that are not there."""
    for number, line in enumerate(text.split("\n"), 1):
        for quoted in QUOTED.findall(line):
            path = quoted.split()[0]
            is_path = PATH.fullmatch(path.rstrip("/")) or SOURCE.fullmatch(path)
            if is_path and not path.startswith("./") and not is_there(path, files):
                yield f"docs/ADDING.md:{number}: {path}: it is not there"


def misquoted(rows, read):
    """Names in the last cell of a row that none of its files has, nor a file that it names beside."""
    for row in rows:
        if row.heading not in (EACH, BESIDE):
            continue
        quoted = QUOTED.findall(row.last)
        texts = [read(path) for path in (*row.files, *(it for it in quoted if PATH.fullmatch(it)))]
        for name in quoted:
            if re.fullmatch(r"[A-Za-z]\w*", name) and not any(re.search(rf"\b{name}\b", text) for text in texts):
                yield f"{row}: `{name}` is in none of its files"
