#!/usr/bin/env python3
"""proposals EXECCHECK [TABLE..]: types in what each stored answer proposes, and checks that the line is accepted: that `execcheck` finds no fault in
it any more. A table is a file of crates/runs/data/mistakes; with none all machine files and event texts there are tried. The last line is
'N passed, M failed'."""
import pathlib
import re
import subprocess
import sys
import tempfile

TOP = pathlib.Path(__file__).resolve().parent.parent.parent
CASE = re.compile(r"(?ms)^== ([^\n]*)\n(.*?)^-- status \d\n(.*?)(?=^== |\Z)")
PLACE = re.compile(r"(?m)^text:(\d+):(\d+): ")
PROPOSED = re.compile(r"did you mean (.*)\?$", re.M)
STRING = re.compile(r'"(?:[^"\\]|\\.)*"|\'[^\']*\'')


def quoted(text, quote):
    """A text as a string of TOML with that quote."""
    if quote == '"':
        text = text.replace("\\", "\\\\").replace('"', '\\"')
    return quote + text + quote


def lines_with(line, column, text):
    """A line with a text in place of what is at a column, from 0: of the part there, of the string or the value around it, or of the whole line."""
    for found in STRING.finditer(line):
        if found.start() < column < found.end():
            yield line[: found.start()] + quoted(text, found[0][0]) + line[found.end() :]
            end = re.compile(r" |$").search(line, column, found.end() - 1).start() if " " in line[column : found.end() - 1] else found.end() - 1
            inside = text.replace('"', '\\"') if found[0][0] == '"' else text
            yield line[:column] + inside + line[end:]
    for end in re.compile(r" #|[\s,\]}]|$").finditer(line, column):
        yield line[:column] + text + line[end.start() :]
    yield text
    if "=" in line:
        yield line.split("=")[0] + "= " + text


def found_at(program, text, room, is_event):
    """The first line in which a fault is found, and whether the text is no TOML; no line if the text is accepted."""
    path = room / ("text.events" if is_event else "text")
    path.write_text(text, encoding="utf-8", newline="")
    (room / "machine").write_text('[[task]]\nname = "a"\ncode = []\n', encoding="utf-8")
    words = [room / "machine", path] if is_event else [path]
    run = subprocess.run([program, *words], capture_output=True, text=True, check=False)
    place = re.search(rf"(?m)^{re.escape(str(path))}:(\d+):", run.stdout + run.stderr)
    # A table whose name is mended lacks its keys, and so its head is refused.
    is_refused = run.returncode == 1 and place and "MissingKey" not in run.stdout + run.stderr
    return (int(place[1]) if is_refused else None), "NotToml" in run.stdout + run.stderr


def is_accepted(program, text, answer, room, is_event):
    """Whether what the answer to a text proposes is accepted when it is typed in."""
    place, proposed = PLACE.search(answer), PROPOSED.search(answer)[1]
    number, column = int(place[1]), int(place[2]) - 1
    lines = text.split("\n")
    for line in lines_with(lines[number - 1], column, proposed):
        found, is_no_toml = found_at(program, "\n".join([*lines[: number - 1], line, *lines[number:]]), room, is_event)
        if found != number and (not is_no_toml or "NotToml" in answer and found > number):
            return True
    return False


def main():
    program, *tables = sys.argv[1:]
    folder = TOP / "crates" / "runs" / "data" / "mistakes"
    tables = [pathlib.Path(it) for it in tables] or [it for it in sorted(folder.iterdir()) if it.suffix != ".endings"]
    passed = failed = 0
    with tempfile.TemporaryDirectory() as room:
        for table in tables:
            for name, text, answer in CASE.findall(table.read_bytes().decode()):
                if not PLACE.search(answer) or not PROPOSED.search(answer):
                    continue
                if is_accepted(program, text, answer, pathlib.Path(room), table.suffix == ".events"):
                    passed += 1
                else:
                    failed += 1
                    print(f"proposals: {table.name}: {name}: what is proposed is refused: {PROPOSED.search(answer)[1]}")
    print(f"{passed} passed, {failed} failed")
    return 1 if failed else 0


if __name__ == "__main__":
    sys.exit(main())
