"""How many runs and answers each table has, by reading: what crates/runs/stdout says of it. A run of a machine file
that names no version is made twice."""
import re

import tables

STDOUT = tables.TOP / "crates" / "runs" / "stdout"
LINE = re.compile(r"(?m)^(\S+): 0 of (\d+) differ$")
ALL = re.compile(r"(?m)^0 of (\d+) differ$")


def names_version(machine):
    """Whether a machine file has a key `version` before its first table."""
    for line in machine.splitlines():
        if line.startswith("["):
            return False
        if "version" in line.partition("=")[0] and "=" in line:
            return True
    return False


def counts():
    """The counts of the tables of runs, and of the tables of answers, by their names in stdout."""
    found = {}
    for run in tables.all_runs():
        name = f"{run.table}.runs"
        found[name] = found.get(name, 0) + 2 - names_version(run.machine)
    for file in sorted((tables.DATA / "mistakes").glob("*")):
        found[f"mistakes/{file.name}"] = len(re.findall("(?m)^== ", file.read_text(encoding="utf-8", errors="replace")))
    return found


def differing():
    """The lines of stdout that say another number: each with the table, the number there, and how many there are."""
    counted, text = counts(), STDOUT.read_text(encoding="utf-8")
    for found in LINE.finditer(text):
        name, number = found[1], int(found[2])
        if counted.get(name, number) != number:
            yield text.count("\n", 0, found.start()) + 1, name, number, counted[name]
    whole, total = ALL.search(text), sum(int(number) for _, number in LINE.findall(text))
    if int(whole[1]) != total:
        yield text.count("\n", 0, whole.start()) + 1, "all tables", int(whole[1]), total
