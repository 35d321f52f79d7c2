"""Changes of files by anchors, as `.ci/adding.toml` has them. An anchor is the beginning of one line, by which it is
found: so a change still fits if the lines above and below it are others, which a diff with its numbers and its
neighbouring lines does not.

A change is a table with a `file` and one of these:

    text                    the file is new
    text, end_of            the text is put at the end of what the anchor begins: a block in braces or brackets, or what
                            goes on to the next empty line
    text, after             the text is put after the anchor
    line, old, new          in the line of the anchor the last `old` becomes `new`
    number, more            the number at {} in the text `number`, which is there once, becomes greater by `more`
    without                 what the pattern fits goes; it fits once
"""
import pathlib
import re
import tomllib


class Unfit(Exception):
    """A change whose anchor is not there, or is there twice."""


def read_changes(path):
    """The changes of a data file."""
    return tomllib.loads(path.read_text(encoding="utf-8"))["change"]


def only_line(lines, anchor):
    """The number of the only line that begins so, whatever its indentation."""
    found = [number for number, line in enumerate(lines) if line.lstrip().startswith(anchor.lstrip())]
    if len(found) != 1:
        raise Unfit(f"{len(found)} lines begin with `{anchor.strip()}`")
    return found[0]


def end_of(lines, begun):
    """Where what a line begins ends: at the line that closes its block, or at the next empty line."""
    head = lines[begun]
    indent = head[: len(head) - len(head.lstrip())]
    is_block = head.rstrip()[-1:] in ("{", "[", "(")
    for number in range(begun + 1, len(lines)):
        if is_block and re.match(rf"{indent}[}}\])]", lines[number]) or not is_block and not lines[number].strip():
            return number
    return len(lines)


def put(text, added, number):
    """A text with another before one of its lines."""
    lines = text.split("\n")
    return "\n".join(lines[:number] + added.rstrip("\n").split("\n") + lines[number:])


def replaced(lines, number, old, new):
    """A text, with the last such part of a line replaced."""
    before, found, after = lines[number].rpartition(old)
    if not found:
        raise Unfit(f"`{old}` is not in the line `{lines[number].strip()[:60]}`")
    return "\n".join([*lines[:number], before + new + after, *lines[number + 1 :]])


def counted_up(text, form, more):
    """A text in which the number of a form is greater."""
    before, _, after = form.partition("{}")
    pattern = re.compile(re.escape(before) + r"(\d+)" + re.escape(after))
    if len(pattern.findall(text)) != 1:
        raise Unfit(f"`{form}` is there {len(pattern.findall(text))} times")
    return pattern.sub(lambda it: f"{before}{int(it[1]) + more}{after}", text)


def without(text, form):
    """A text without what a pattern fits."""
    pattern = re.compile(form, re.M)
    if len(pattern.findall(text)) != 1:
        raise Unfit(f"the pattern `{form[:60]}` fits {len(pattern.findall(text))} times")
    return pattern.sub("", text)


def changed(text, change):
    """A text after a change."""
    lines = text.split("\n")
    if "end_of" in change:
        return put(text, change["text"], end_of(lines, only_line(lines, change["end_of"])))
    if "after" in change:
        return put(text, change["text"], only_line(lines, change["after"]) + 1)
    if "line" in change:
        return replaced(lines, only_line(lines, change["line"]), change["old"], change["new"])
    if "number" in change:
        return counted_up(text, change["number"], change["more"])
    return without(text, change["without"])


def apply(top, change):
    """Makes a change below a folder."""
    file = pathlib.Path(top, change["file"])
    try:
        is_new = set(change) & {"end_of", "after", "line", "number", "without"} == set()
        if is_new and file.exists():
            raise Unfit("it is there already")
        text = change["text"] if is_new else changed(file.read_text(encoding="utf-8"), change)
    except (Unfit, OSError) as why:
        raise Unfit(f"{change['file']}: {why}") from None
    file.parent.mkdir(parents=True, exist_ok=True)
    file.write_text(text, encoding="utf-8")
