"""Runs as files: a folder with NAME.toml, NAME.events, NAME.trace and NAME.status for each run, and index.json."""
import contextlib
import dataclasses
import json
import pathlib

import lines

FORMAT = 1
INDEX = "index.json"


class BadFolder(Exception):
    """A folder that holds no runs, an index that cannot be read, or a path that cannot be written."""


@contextlib.contextmanager
def writing(path):
    """Names the path that cannot be written, and the way out."""
    try:
        yield
    except OSError as error:
        way_out = "name a path in a folder that exists, that you may write to, and that has room"
        raise BadFolder(f"{error.filename or path}: cannot be written: {error.strerror}; {way_out}") from None


@dataclasses.dataclass(frozen=True)
class Stored:
    """A run of a folder: the paths of its texts, and what the program has to come to."""

    name: str
    title: str
    words: tuple
    machine: pathlib.Path
    events: pathlib.Path
    status: int
    trace: bytes
    fault: str | None


def write_run(folder, run, words):
    """Writes the files of a run, and answers its entry of the index."""
    path = folder / run.name
    with writing(path):
        path.parent.mkdir(parents=True, exist_ok=True)
        for ending, text in (("toml", run.machine), ("events", run.events), ("trace", run.trace), ("status", f"{run.status}\n")):
            path.with_name(f"{path.name}.{ending}").write_bytes(text.encode())
    kept = {"name": run.name, "title": run.title, "table": run.table, "status": run.status, "fault": run.fault}
    return kept | {"words": run.words(words)}


def write_index(folder, program, entries):
    index = {"format": FORMAT, "program": program, "runs": entries}
    with writing(folder / INDEX):
        (folder / INDEX).write_text(json.dumps(index, indent=1) + "\n")


def check_new(folder):
    """Refuses a folder that has files already: they could be taken for runs."""
    if folder.exists() and not folder.is_dir():
        raise BadFolder(f"{folder}: not a folder; name one that does not exist yet")
    if folder.is_dir() and any(folder.iterdir()):
        raise BadFolder(f"{folder}: the folder is not empty; name one that does not exist yet, or empty it")


def read_status(path):
    """The status that a file says."""
    try:
        return int(path.read_bytes())
    except ValueError:
        raise BadFolder(f"{path}: no status; write the number of one, as 0 or 3, or remove the file") from None


def stored(folder, entry):
    """The run of an entry of an index."""
    path = folder / entry["name"]
    file = {ending: path.with_name(f"{path.name}.{ending}") for ending in ("toml", "events", "trace", "status")}
    status = read_status(file["status"]) if file["status"].exists() else entry["status"]
    return Stored(
        entry["name"], entry["title"], tuple(entry["words"]), file["toml"], file["events"], status, file["trace"].read_bytes(), entry["fault"]
    )


def indexed(folder):
    """The runs of a folder with an index."""
    path = folder / INDEX
    try:
        index = json.loads(path.read_text())
        if index["format"] != FORMAT:
            raise BadFolder(f"{path}: has format {index['format']}, and this program reads format {FORMAT}")
        return [stored(folder, entry) for entry in index["runs"]]
    except (ValueError, KeyError, TypeError) as error:
        raise BadFolder(f"{path}: not an index of runs ({error}); export the runs again") from None
    except OSError as error:
        raise BadFolder(f"{error.filename}: {error.strerror}; export the runs again") from None


def status_of(trace):
    """The status of a trace of an accepted run: 3 if its last line is an alert."""
    last = trace.decode(errors="replace").splitlines()[-1:]
    return 3 if last and lines.alert_of(last[0]) else 0


def words_in(trace, words):
    """The words of the calls of a trace."""
    calls = (lines.call_of(line, words) for line in trace.decode(errors="replace").splitlines())
    return tuple(sorted({call.word for call in calls if call}))


def found(folder, words):
    """The runs of a folder without an index: each NAME.trace with its NAME.toml and NAME.events."""
    runs = []
    for path in sorted(folder.rglob("*.trace")):
        machine, events, status = (path.with_suffix(ending) for ending in (".toml", ".events", ".status"))
        if machine.exists() and events.exists():
            trace = path.read_bytes()
            wanted = read_status(status) if status.exists() else status_of(trace)
            name = str(path.relative_to(folder).with_suffix(""))
            runs.append(Stored(name, name, words_in(trace, words), machine, events, wanted, trace, None))
    return runs


def single(path, words, has_trace):
    """The run whose machine file this is. Without a stored trace it can be compiled, and not compared."""
    machine, events, trace, status = (path.with_suffix(ending) for ending in (".toml", ".events", ".trace", ".status"))
    for needed in (machine, events, trace)[: 2 + has_trace]:
        if not needed.is_file():
            beside = " and NAME.trace, which execsim writes" if has_trace else ""
            raise BadFolder(f"{needed}: there is no such file; a run is NAME.toml beside NAME.events{beside}")
    text = trace.read_bytes() if trace.is_file() else b""
    wanted = read_status(status) if status.is_file() else status_of(text)
    return Stored(path.stem, path.stem, words_in(text, words), machine, events, wanted, text, None)


def all_of(paths, words, has_trace):
    """The runs of folders and of machine files, in their order. To be compared, each has to have its trace."""
    found = []
    for path in map(pathlib.Path, paths):
        found += [single(path, words, has_trace)] if path.suffix == ".toml" and not path.is_dir() else runs_of(path, words)
    return found


def runs_of(folder, words):
    """The runs of a folder."""
    if not folder.is_dir():
        raise BadFolder(f"{folder}: there is no such folder; `execruns export FOLDER` makes one")
    runs = indexed(folder) if (folder / INDEX).exists() else found(folder, words)
    if not runs:
        raise BadFolder(f"{folder}: no runs here: neither {INDEX} nor a NAME.trace beside NAME.toml and NAME.events")
    return runs
