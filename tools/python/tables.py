"""Tables of runs, as crates/runs/src/table.rt describes them, read into single runs."""
import dataclasses
import pathlib
import re

TOP = pathlib.Path(__file__).resolve().parents[2]
DATA = TOP / "crates" / "runs" / "data"

# Where a word can be in the code of a machine file: at the start of a string, or after a target.
WORD_IN_CODE = re.compile(r"""["'](?:@?[a-z][a-z0-9_]* = )?([A-Z][A-Za-z]+)(?=[ "'])""")
NAME_KEY = re.compile(r"name\s*=\s*$")


@dataclasses.dataclass(frozen=True)
class Run:
    """One run: its two texts, and what the program has to come to. `fault` is what standard error says of a refused text."""

    name: str
    table: str
    title: str
    machine: str
    events: str
    status: int
    trace: str
    fault: str | None

    def words(self, known):
        """The words of its code that are among those known, in alphabetical order."""
        found = set()
        for match in WORD_IN_CODE.finditer(self.machine):
            if match[1] in known and not NAME_KEY.search(self.machine, 0, match.start()):
                found.add(match[1])
        return sorted(found)


class BadTable(Exception):
    """An entry of a table without the form of one."""


def entry(table, text):
    """The title, the two texts, the status, what is written and the cases of an entry, from after its `== `."""
    try:
        title, rest = text.split("\n", 1)
        machine, rest = rest.split("-- events\n", 1)
        events, rest = rest.split("-- status ", 1)
        status, rest = rest.split("\n", 1)
    except ValueError:
        raise BadTable(f"{table}: {text.splitlines()[0] if text else ''}: not the form of a run") from None
    written, mark, cases = rest.partition("-- cases\n")
    return title, machine, events, int(status), written, cases.split("\n")[:-1] if mark else [None]


def filled(text, part):
    """The text with a part at its first place `{}`, if it has one."""
    return text.replace("{}", part, 1)


def runs_of_entry(table, text):
    """The runs of an entry, as (title, machine, events, status, written): one, or one for each of its cases."""
    title, machine, events, status, written, cases = entry(table, text)
    for case in cases:
        if case is None:
            yield title, machine, events, status, written
        else:
            part, _, shown = case.partition(" => ")
            if "{}" not in machine + events:
                raise BadTable(f"{table}: {title}: neither text has a place for a case")
            yield f"{title}: {case}", filled(machine, part), filled(events, part), status, filled(written, shown)


def runs_of_table(path):
    """The runs of a table file, numbered from 1."""
    # An entry ends with the empty line before the next one, which belongs to neither text.
    entries = path.read_bytes().decode().split("\n== ")[1:]
    found = (run for text in entries for run in runs_of_entry(path.name, text))
    for number, (title, machine, events, status, written) in enumerate(found, 1):
        fault = written.strip() if status == 1 else None
        trace = "" if status == 1 else written
        yield Run(f"{path.stem}/{number:04}", path.stem, title, machine, events, status, trace, fault)


def all_runs(data=DATA):
    """The runs of all tables, in the order of the tables' names."""
    for path in sorted(data.glob("*.runs")):
        yield from runs_of_table(path)
