"""The parts of docs/REAL-EXEC.md that say what AROS answered, from the kept answers."""
import collections
import re

import differences
import leftout
import measuring
import pages
import recordings
import tables

ENDS = re.compile(r"\S+ RemTask \$00000000|idle")
COLUMNS = {"same": "Same", "same up to addresses": "Same up to addresses", "differs": "Differ", "no answer": "No answer"}


def name_of(kept):
    return f"AROS {kept['exec']}"


# the table of differences


def shown_lines(one):
    """The lines of an answer that are not those of this machine, without the ends of tasks after them; equal lines in a row are one."""
    lines, ours = one["lines"], one["ours"]
    start = next((n for n, pair in enumerate(zip(lines, ours)) if pair[0] != pair[1]), min(len(lines), len(ours)))
    left = lines[start:]
    while len(left) > 1 and ENDS.fullmatch(left[-1]):
        left.pop()
    shown = []
    for line in left or lines[-1:]:
        if shown and shown[-1][0] == line:
            shown[-1][1] += 1
        else:
            shown.append([line, 1])
    return [f"`{line}`" + (f" {count} times" if count > 1 else "") for line, count in shown[:6]] + [".."] * (len(shown) > 6)


def known_cell(row, kept):
    """How it is known what a real exec does: by what AROS answered, or as the table says."""
    one = kept["rows"].get(row["rule"], {"unasked": "it is new"})
    source = f"; see {row['source']}" if "source" in row else ""
    if "unasked" in one:
        known = differences.KNOWN[row["known"]] + (f" ({row['source']})" if "source" in row else "")
        return f"{known}; not asked: {one['unasked']}"
    head = f"measured: {name_of(kept)}: "
    if one["whole"] and one["lines"] == one["ours"]:
        return head + "the same lines" + source
    return head + "<br>".join(shown_lines(one)) + ("" if one["whole"] else "<br>and stops answering") + source


def difference_table():
    """REAL-EXEC's table of the differences."""
    kept = measuring.load()
    rows = []
    for row in differences.load():
        here = "<br>".join(f"`{line}`" for line in row["here"])
        rows.append((row["rule"], differences.code_cell(row), here, row["real"], known_cell(row, kept)))
    return pages.as_table(("Project rule", "Example: the code of task `a`", "Here", "A real exec", "How that is known"), rows)


# counts


def summary():
    """The first paragraph: what was asked, when, and what came."""
    kept = measuring.load()
    asked = [one for one in kept["rows"].values() if "lines" in one]
    stopped = sum(not one["whole"] for one in asked)
    same = sum(one["whole"] and one["lines"] == one["ours"] for one in asked)
    done = {name: len(one["same"]) + len(one["others"]) for name, one in kept["groups"].items()}
    equal = {name: len(one["same"]) for name, one in kept["groups"].items()}
    others = len(kept["rows"]) - len(asked)
    return (
        f"On {kept['date']} exec.library {kept['exec']} of AROS was asked, in the m68k ROM {kept['rom']} of Debian's fs-uae {kept['emulator']}, on an emulated 68020. "
        f"Of the {len(kept['rows'])} rows of the [table of differences](#where-this-machine-differs-by-choice) {len(asked)} were measured: "
        f"in {same} the lines are the same, in {len(asked) - same - stopped} they differ, and {stopped} stopped it; {others} cannot be asked there. "
        f"The traces are the same, byte for byte, in {equal['recordings']:,} of {done['recordings']:,} random scenarios, {equal['examples']} of {done['examples']} examples "
        f"and {equal['tables']} of {done['tables']} runs of the tables."
    )


def filled_columns(head, rows):
    """A table without the columns that are empty in each row."""
    kept = [index for index in range(len(head)) if any(row[index] for row in rows)]
    return pages.as_table([head[index] for index in kept], [[row[index] for index in kept] for row in rows])


def counted(names, one):
    """How many of some runs have each result."""
    results = collections.Counter({"same": sum(name in names for name in one["same"])})
    results.update(what["result"] for name, what in one["others"].items() if name in names)
    return results


def row_of(title, mode, names, one):
    results = counted(names, one)
    done = sum(results.values())
    return (title, mode, f"{done:,}", *(f"{results[column]:,}" if results[column] else "" for column in COLUMNS))


def done_names(one, prefix=""):
    return {name for name in [*one["same"], *one["others"]] if name.startswith(prefix)}


def result_table():
    """The results by groups of runs."""
    groups = measuring.load()["groups"]
    rows = [row_of("examples", "strict", done_names(groups["examples"]), groups["examples"])]
    for table in sorted({name.split("/")[0] for name in done_names(groups["tables"])}):
        rows.append(row_of(f"{table}.runs", "strict", done_names(groups["tables"], f"{table}/"), groups["tables"]))
    for group, what in recordings.GROUPS.items():
        rows.append(row_of(f"recordings {group}: {what}", "strict", done_names(groups["recordings"], f"{group}/"), groups["recordings"]))
    for kind, make in leftout.KINDS.items():
        prefix = f"{make.__name__.replace('_', '-')}/"
        rows.append(row_of(f"left out: {kind}", "plain", done_names(groups["left-out"], prefix), groups["left-out"]))
    return filled_columns(("Runs", "Mode", "Done there", *COLUMNS.values()), rows)


def finding_table():
    """What AROS does in another way, by the row of the table of differences that each belongs to: runs of the tables, and runs that were left out."""
    left = collections.Counter(map(measuring.of_kind, measuring.load()["groups"]["left-out"]["others"]))
    kinds = {make.__name__.replace("_", "-"): kind for kind, make in leftout.KINDS.items()}
    rows = []
    for row in differences.load():
        which = list(row.get("runs", []))
        if "left_out" in row:
            which.append(f"{left[row['left_out']]} left out: {kinds[row['left_out']]}")
        if which:
            rows.append((row["rule"], ", ".join(which)))
    return pages.as_table(("Project rule", "Runs"), rows)


def unrun_text():
    """Why other runs of the tables are not run there, with their numbers."""
    left = measuring.load()["groups"]["tables"]["not run"]
    return "; ".join(f"{count:,}: {why}" for why, count in sorted(left.items(), key=lambda pair: -pair[1]))


def word_table(words):
    """The calls that were compared, by word, and the runs of the tables that have it, by their results."""
    calls = recordings.calls_by_word(words)
    one = measuring.load()["groups"]["tables"]
    users = collections.defaultdict(set)
    names = done_names(one)
    for run in tables.all_runs():
        if run.name in names:
            for word in run.words(words):
                users[word].add(run.name)
    rows = []
    for word in words:
        results = counted(users[word], one)
        if calls[word] or sum(results.values()):
            rows.append((f"`{word}`", f"{calls[word]:,}" if calls[word] else "", *(f"{results[column]:,}" if results[column] else "" for column in COLUMNS)))
    return filled_columns(("Word", "Calls in the recordings", *(f"Runs of the tables: {title.lower()}" for title in COLUMNS.values())), rows)
