"""Asks AROS what it does, for docs/REAL-EXEC.md: each example of the table of differences, the examples, the runs of the tables, the recordings, and
what these left out. The answers are kept in one packed file."""
import concurrent.futures
import datetime
import json
import lzma
import pathlib
import subprocess
import threading

import asking
import comparing
import compiling
import differences
import emulator
import folders
import leftout
import pages
import recordings
import saidtraces
import tables
import targets

ARCHIVE = tables.DATA / "real-exec" / "measured.json.xz"
FORMAT = 1
TRIES = 3


def load():
    """The answers that are kept."""
    kept = json.loads(lzma.decompress(ARCHIVE.read_bytes()))
    if kept["format"] != FORMAT:
        raise folders.BadFolder(f"{ARCHIVE}: has format {kept['format']}, and this program reads format {FORMAT}; run .ci/real-exec --all --store")
    return kept


def store(kept):
    ARCHIVE.write_bytes(lzma.compress((json.dumps(kept, indent=0, sort_keys=True) + "\n").encode(), preset=9))


def simulated(program, machine, events, room):
    """The status and the trace of the program over two texts."""
    paths = room / "one.toml", room / "one.events"
    paths[0].write_text(machine)
    paths[1].write_text(events)
    said = subprocess.run([program, *paths], capture_output=True, check=False)
    return said.returncode, said.stdout.decode()


# the examples of the table of differences


def row_words(row, words):
    """The words of a row's example, or why it is not asked."""
    if "unasked" in row:
        return None, row["unasked"]
    try:
        return compiling.run_words(row["rule"], differences.machine_of(row), differences.events_of(row), words, "plain"), None
    except compiling.CannotRun as error:
        return None, error.why


def ask_row(target, compiled, words, stop):
    """What came of an example that was asked alone: its lines, and whether it answered to the end."""
    file = compiling.file_bytes([compiled], words, "plain", at_once=True)
    found = [], False
    for _ in range(TRIES):
        data = target.answer(file, stop)
        said = saidtraces.read(data)
        if 0 in said.traces:
            return said.traces[0].decode().splitlines(), True
        if said.version and not said.spoiled:
            found = saidtraces.lines_at_once(data, 0), False
            break
    return found


def same_answer(one, other):
    """Whether an example was answered as before. One that stops AROS may have other lines the next time."""
    return one["whole"] == other["whole"] and (not one["whole"] or one["lines"] == other["lines"])


def ask_rows(rows, words, jobs, progress):
    """What came of each row: {rule: {"lines", "whole"} or {"unasked"}}, each asked in a boot of its own."""
    target, stop, kept = targets.named("aros"), threading.Event(), {}
    with concurrent.futures.ThreadPoolExecutor(jobs) as pool:
        futures = {}
        for row in rows:
            compiled, why = row_words(row, words)
            if why:
                kept[row["rule"]] = {"unasked": why}
            else:
                futures[pool.submit(ask_row, target, compiled, words, stop)] = row["rule"]
        try:
            for done, future in enumerate(concurrent.futures.as_completed(futures), 1):
                lines, whole = future.result()
                kept[futures[future]] = {"lines": lines, "whole": whole}
                progress(done, len(futures))
        except BaseException:
            stop.set()
            pool.shutdown(cancel_futures=True)
            raise
    return kept


# runs


def kept_results(results, others):
    """The results of a group: the names of those that are the same, and of each other one what came."""
    kept = {"same": [], "others": {}, "not run": {}}
    for one in results:
        if one.result == comparing.SAME:
            kept["same"].append(one.run.name)
        else:
            kept["others"][one.run.name] = {"result": one.result, "line": one.line, "wanted": one.wanted, "got": one.got, "message": one.message}
    for _, error in others:
        kept["not run"][error.why] = kept["not run"].get(error.why, 0) + 1
    return kept


def ask_runs(runs, words, mode, jobs, progress):
    """Asks for runs, in a mode: the results, what was not run, and the version of exec.library."""
    compiled, others = compiling.compile_all(runs, words, mode)
    results, version = asking.compare(targets.named("aros"), compiled, words, mode, jobs, progress)
    return results, others, version


def left_out_runs(folder, program, words):
    """The runs of what was left out, with the traces of the program, in a folder."""
    entries = []
    for name, kind, machine, events in leftout.runs():
        status, trace = simulated(program, machine, events, folder)
        run = tables.Run(name, name.split("/")[0], kind, machine, events, status, trace, None)
        entries.append(folders.write_run(folder, run, words))
    folders.write_index(folder, "execsim", entries)
    return folders.runs_of(folder, words)


def table_runs(folder, words):
    """The runs of the tables, as files in a folder."""
    folders.write_index(folder, "execsim", [folders.write_run(folder, run, words) for run in tables.all_runs()])
    return folders.runs_of(folder, words)


def recorded_runs(folder, words):
    recordings.unpack(folder)
    return folders.runs_of(folder, words)


def all_groups(room, program, words):
    """Each group of runs with its mode."""
    for name in ("tables", "recordings", "left-out"):
        (room / name).mkdir()
    yield "examples", "strict", folders.runs_of(pages.EXAMPLES, words)
    yield "tables", "strict", table_runs(room / "tables", words)
    yield "recordings", "strict", recorded_runs(room / "recordings", words)
    yield "left-out", "plain", left_out_runs(room / "left-out", program, words)


def ask_all(room, program, words, jobs, say):
    """All answers, as they are kept."""
    groups = {}
    for name, mode, runs in all_groups(room, program, words):
        results, others, version = ask_runs(runs, words, mode, jobs, say(name))
        groups[name] = kept_results(results, others)
    rows = ask_rows(differences.load(), words, jobs, say("rows"))
    for row in differences.load():
        if "lines" in rows[row["rule"]]:
            rows[row["rule"]]["ours"] = simulated(program, differences.machine_of(row), differences.events_of(row), room)[1].splitlines()
    head = {"format": FORMAT, "date": datetime.date.today().isoformat(), "exec": version, "rom": emulator.rom_name(), "emulator": emulator.version()}
    return head | {"rows": rows, "groups": groups}


# what is kept


def results_of(kept):
    """The result of each run that was done, by its group and name."""
    found = {}
    for group, one in kept["groups"].items():
        found |= {(group, name): "same" for name in one["same"]}
        found |= {(group, name): what["result"] for name, what in one["others"].items()}
    return found


def changes(before, after):
    """What is not as before: rows that are answered in another way, and runs with another result."""
    rows = [rule for rule, one in after["rows"].items() if "lines" in one and not same_answer(one, before["rows"].get(rule, {"whole": None}))]
    old, new = results_of(before), results_of(after)
    return {"rows that AROS answers in another way": rows, "runs with another result": sorted(key for key in old | new if old.get(key) != new.get(key))}


def of_kind(name):
    """The kind of a run that was left out: its name without its number."""
    return name.partition("/")[0]


def unexplained():
    """What differs and is in no row, and what a row names and is the same: runs of the tables, and kinds of runs that were left out."""
    groups = load()["groups"]
    differ = {*groups["examples"]["others"], *groups["tables"]["others"], *map(of_kind, groups["left-out"]["others"])}
    rows = differences.load()
    named = {name for row in rows for name in row.get("runs", [])} | {row["left_out"] for row in rows if "left_out" in row}
    return sorted(differ - named), sorted(named - differ)
