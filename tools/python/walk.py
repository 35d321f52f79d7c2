"""The walk of docs/ARCHITECTURE.md: a table that follows one call through the code, a step in each row, with the file and
the line of a function. Where a function is, is found by its name; that the walk goes from one to the next is looked at."""
import functools
import re

import pages
import tables

PAGE = pages.DOCS / "ARCHITECTURE.md"
ROW = re.compile(r"(?m)^(\| (\d+) \| `([\w/.]+):)(\d+)(` `(\w+)` \|)")


@functools.cache
def source(file):
    """The text of a source file below crates/, without its comments."""
    path = tables.TOP / "crates" / file
    if not path.is_file():
        raise pages.BadPage(f"docs/ARCHITECTURE.md: {file} is not there")
    return re.sub(r"(?m)//.*$", "", path.read_text(encoding="utf-8"))


def line_of(file, name):
    """The line where a file has the only function of that name."""
    found = [it.start() for it in re.finditer(rf"\bfn {name}\b", source(file))]
    if len(found) != 1:
        raise pages.BadPage(f"docs/ARCHITECTURE.md: {file} has {len(found)} functions `{name}`")
    return source(file).count("\n", 0, found[0]) + 1


def is_called(file, name):
    """Whether a file has a call of a function."""
    return re.search(rf"(?<!\bfn )\b{name}(?:::<[^(]*>)?\(", source(file))


def with_lines(text):
    """The page with the line of each function. The steps count from 1, and the function of each but the first is called in
    the file of a step before it."""
    rows = list(ROW.finditer(text))
    for number, row in enumerate(rows, 1):
        if int(row[2]) != number:
            raise pages.BadPage(f"docs/ARCHITECTURE.md: step {number} of the walk has the number {row[2]}")
        if number > 1 and not any(is_called(it[3], row[6]) for it in rows[: number - 1]):
            raise pages.BadPage(f"docs/ARCHITECTURE.md: no file of a step before {number} calls `{row[6]}`")
    if not rows:
        raise pages.BadPage("docs/ARCHITECTURE.md: it has no walk")
    return ROW.sub(lambda row: f"{row[1]}{line_of(row[3], row[6])}{row[5]}", text)
