"""Where this machine differs from the ROM by a project rule: the examples of differences.toml, as runs and as cells of a table."""
import tomllib

import tables

FRAME = '[[region]]\nbase = 4096\nsize = 4096\n\n[[task]]\nname = "a"\ncode = [\n'
KNOWN = {
    "manual": "by the manual",
    "comparison": "left out of the comparison, or changed for it",
    "not known": "not known here; what is asked of a program is by the manual",
}


def load():
    """The differences, each with the lines of its setup."""
    data = tomllib.loads((tables.TOP / "tools" / "differences.toml").read_text())
    return [one | {"before": data["setup"].get(one.get("setup"), [])} for one in data["difference"]]


def setups():
    """REAL-EXEC's list of the lines that examples begin with."""
    found = tomllib.loads((tables.TOP / "tools" / "differences.toml").read_text())["setup"]
    return "\n".join(f"- **{name}**: " + ", ".join(f"`{line}`" for line in lines) for name, lines in found.items())


def machine_of(one):
    """The machine file of an example."""
    code = "".join(f"  '{line}',\n" for line in [*one["before"], *one["code"]])
    return one.get("top", "") + FRAME + code + "]\n" + one.get("others", "")


def events_of(one):
    return one.get("events", "run 20\n")


def has_in_a_row(trace, wanted):
    """Whether some lines come one after another in a trace."""
    shown = trace.splitlines()
    return any(shown[start : start + len(wanted)] == wanted for start in range(len(shown) - len(wanted) + 1))


def code_cell(one):
    """The example as it is in the table: the lines of task a, and what else the machine has."""
    cell = f"after {one['setup']}: " if "setup" in one else ""
    cell += "<br>".join(f"`{line}`" for line in one["code"])
    if "top" in one:
        cell += f"<br>with `{one['top'].strip()}`"
    if "others" in one:
        others = [line for line in one["others"].strip().splitlines() if line]
        cell += "<br>with " + " ".join(f"`{line}`" for line in others)
    if "events" in one:
        cell += "<br>events " + ", ".join(f"`{line}`" for line in one["events"].splitlines())
    return cell
