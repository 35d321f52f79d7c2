# Nothing above is changed by this, but that calls are watched for --check, --show and --why.
import argparse
import difflib
import itertools
import os
import pathlib
import re
import sys
import tarfile
import textwrap
import threading
import time
import tomllib
from functools import reduce

LIMIT = 4_194_304

class _Told(Exception):
    """What is said instead of an answer, and the status."""

def _shown(text):
    """A text as a terminal can show it in one line: each character that does not print is written as an escape."""
    return "".join(it if it.isprintable() else repr(it)[1:-1] for it in str(text))

# ---- the texts

def _data_of(value, deep=0):
    """The data of a TOML value, within the limits of the project's reader."""
    if deep > 80 and isinstance(value, (list, dict)) or isinstance(value, int) and not -2**63 <= value < 2**63:
        raise ValueError("a number or a depth is past the limits")
    match value:
        case bool(): return Data.boolean(value)
        case int(): return Data.integer(value)
        case float(): return Data.float_(value)
        case str(): return Data.string(codes(value))
        case list():
            items = [_data_of(it, deep + 1) for it in value]
            return Data.array(reduce(lambda rest, it: Items.item(it, rest), reversed(items), Items.no_items))
        case dict():
            pairs = [(codes(it), _data_of(value[it], deep + 1)) for it in sorted(value, key=str.encode, reverse=True)]
            return Data.table(reduce(lambda rest, it: Members.member(*it, rest), pairs, Members.no_members))
    return Data.datetime(value)

def _float_of(digits):
    """The number that digits are, unless it is too large for one."""
    number = float(digits)
    if abs(number) == float("inf") and "inf" not in digits:
        raise ValueError("a number is too large")
    return number

def _tree_of(text):
    """The tree of the bytes of a machine file, or none, and why there is none."""
    try:
        tree = tomllib.loads(text.removeprefix(b"\xef\xbb\xbf").decode(), parse_float=_float_of)
        return Some(_data_of(tree).a0), ""
    except (ValueError, RecursionError) as why:
        return None, _shown(why)

def _place_of(place):
    """Where a fault of a machine file is."""
    def name(key): return re.sub(r"(?<=[a-z])(?=[A-Z])", "_", type(key).__name__).lower()
    def item(it): return "the top table" if it is TablePlace.Top else f"{name(it.a0)} {it.a1 + 1}"
    match place:
        case Place.Line(it): return f"line {it.line + 1} of the code of {name(it.owner)} {it.item + 1}"
        case Place.Tree(TreePlace.UnknownKey(it)): return f"a key of {item(it)}"
        case Place.Tree(TreePlace.Key(it, key)): return f"key {name(key)} of {item(it)}"
        case Place.Tree(TreePlace.Array(array)): return f"array {name(array)}"
        case Place.Tree(it): return item(it)
    return "the file as a whole"

def _outcome(machine, events):
    """The status of a run, what is printed, the line of a refusal and its place, and all that came of it."""
    tree, why = _tree_of(machine)
    file = placed_file_of_document(tree)
    if isinstance(file, Err):
        said = f"execsim: machine: {type(file.fault.fault).__name__}"
        return 1, b"", said, f"in the machine: {why or _place_of(file.fault.place)}", None
    script = script_of(list(events))
    if isinstance(script, Err):
        numbers = [f" {getattr(script.fault, it)}" for it in script.fault.__slots__]
        return 1, b"", f"execsim: events: {type(script.fault).__name__}{''.join(numbers)}", "", None
    done = run(file.value, script.value)
    return 3 if done.state.stopped else 0, bytes(printed(done.lines)), "", "", (file.value, script.value, done)

def _read(path):
    """The bytes of a file, if it is not too large."""
    try:
        with open(path, "rb") as file:
            text = file.read(LIMIT + 1)
    except OSError:
        text = None
    if text is None or len(text) > LIMIT:
        raise _Told(f"execsim: cannot read {_shown(path)}", 4)
    return text

def _watch(name, before):
    """Has a function called before each call of a definition."""
    inner = globals()[name]

    @wraps(inner)
    def watched(*arguments):
        before(*arguments)
        return inner(*arguments)

    globals()[name] = watched

def _show_progress():
    """Says on a terminal, once a second, how often the machine has settled."""
    counts, last = itertools.count(1), [time.monotonic()]

    def before(*_):
        count, now = next(counts), time.monotonic()
        if now >= last[0] + 1:
            last[0] = now
            print(f"\r{count} steps, ticks and requests", end="", file=sys.stderr, flush=True)

    _watch("settle", before)

def _run_files(machine, events):
    """Prints the trace of a run."""
    if sys.stderr.isatty():
        _show_progress()
    status, trace, *said, _ = _outcome(_read(machine), _read(events))
    try:
        sys.stdout.buffer.write(trace)
        sys.stdout.flush()
    except OSError:
        raise _Told("execsim: write failed", 4) from None
    if said[0]:
        raise _Told("\n".join(filter(None, said)), status)
    return status

# ---- --check

def _stored_runs(project):
    """The runs of the tables, and the recordings of a real exec: (name, machine, events, status, trace, refusal)."""
    sys.path.insert(0, os.path.join(project, "tools", "python"))
    import tables
    data = os.path.join(project, "crates", "runs", "data")
    for it in tables.all_runs(pathlib.Path(data)):
        said = (it.fault or "").strip() if it.status == 1 else ""
        yield f"{it.name} ({it.title})", it.machine.encode(), it.events.encode(), it.status, it.trace.encode(), said
    with tarfile.open(os.path.join(data, "real-exec", "recordings.tar.xz")) as archive:
        texts = {it.name: archive.extractfile(it).read() for it in archive if it.isfile()}
    for path in sorted(texts):
        stem, _, end = path.rpartition(".")
        if end == "trace":
            machine, events = texts[stem + ".toml"], texts[stem + ".events"]
            yield f"recordings/{stem} (a real exec)", machine, events, None, texts[path], ""

def _difference(got, wanted):
    """What differs between an outcome and the stored one: status, trace and refusal."""
    if wanted[0] not in (None, got[0]) or got[2] != wanted[2]:
        return f"status {got[0]} {got[2]}, and stored is {wanted[0]} {wanted[2]}"
    if got[1] == wanted[1]:
        return ""
    at = len(os.path.commonprefix([got[1], wanted[1]]))
    start = got[1].rfind(b"\n", 0, at) + 1
    lines = [it[start:].partition(b"\n")[0].decode(errors="replace") for it in (got[1], wanted[1])]
    return f"byte {at + 1}, in line {got[1].count(10, 0, at) + 1}: {lines[0]!r}, and stored is {lines[1]!r}"

def _check(project, first, seconds, part, only):
    """Runs all that is stored, or each Nth of it, or the runs of some names. Laws are asked of each too, unless the
    first is sought that differs."""
    counts, wrong, begun, (place, parts) = [0, 0], 0, time.monotonic(), map(int, part.split("/"))
    if not first:
        _check_lines()
    runs = [it for it in _stored_runs(project) if it[0].startswith(tuple(only.split()) or "")]
    if first:  # the first ones of each table before others, and long ones last
        runs.sort(key=lambda it: (len(it[1]) + len(it[4]) > 10_000, it[0].partition("/")[2]))
    for name, machine, events, status, trace, said in runs[place::parts]:
        try:
            *got, _, whole = _outcome(machine, events)
            told = _difference(got, (status, trace, said)) or (_broken_law(*whole) if whole and not first else "")
        except Exception as why:
            told = f"{type(why).__name__}: {why}"
        counts[name.startswith("recordings/")] += 1
        wrong += bool(told)
        if told:
            print(f"{_shown(name)}: {_shown(told)}", flush=True)
            if first:
                return 1
        if sys.stderr.isatty():
            print(f"\r{sum(counts)} runs", end="\r", file=sys.stderr, flush=True)
        if seconds and time.process_time() > seconds:
            break
    same = "all the same" if not wrong else f"{wrong} differ"
    print(f"{counts[0]} stored runs, {counts[1]} recordings of a real exec: {same} ({time.monotonic() - begun:.0f} s)")
    return 1 if wrong or not sum(counts) else 0

@cache
def _check_lines():
    """From now on each line that is read has to be in the relation with what it is said to say."""
    inner = line_meaning

    @kept
    def checked(line):
        found = inner(line)
        if found is not None and not Says(fields(line), found.value):
            raise NoCase(f"{bytes(line)} does not say {found.value}")
        return found

    globals()["line_meaning"] = checked

def _broken_law(file, script, done):
    """The law of every run that a run breaks, if it breaks one."""
    memory = done.state.memory
    addresses = {getattr(it, it.__slots__[0]) for it in done.marks} | {it[0] for it in memory.heap}
    for it in addresses if len(done.marks) <= 300 else ():  # (what these compute takes long for many marks)
        if not IsInOrder([], turns_at_port(it, done.marks), messages_of(it, memory.heap)):
            return f"the messages of port {it} are out of order"
        if not IsInOrder([], turns_at_semaphore(it, done.marks), waiters_of(it, memory.heap)):
            return f"the tasks that wait for semaphore {it} are out of order"
    if not CountsTicks(file, script, done.state):
        return "the clock does not count the ticks"
    if not AreDisjoint(memory.regions, extents(memory.heap)):
        return "two blocks meet, or one lies in no region"
    if not done.state.stopped and not IsSettled(done.state):
        return "a task of higher priority is ready, or a request is left"
    return "a line is longer than 160 bytes" if any(len(printed([it])) > 160 for it in done.lines[:1000]) else ""

# ---- --show

@cache
def _texts():
    """Each definition by its name: the number of its line, and its lines with the comment above it."""
    found, source = {}, pathlib.Path(__file__).read_text(encoding="utf-8").split("\n")
    for number, line in enumerate(source[:source.index("# How this file is run")]):
        if head := re.match(r"(?:def|class) (\w+)\(|(\w+) = ", line):
            start, end = number, number + 1
            while source[end].startswith((" ", ")")) or not source[end] and source[end + 1].startswith(" "):
                end += 1
            while source[start - 1].startswith(("#", "@")):
                start -= 1
            found[head[1] or head[2]] = number + 1, source[start:end]
    return found

def _is_action(name):
    """Whether a name is that of a definition that is called: its comment says where the original stands."""
    return re.search(r"(?m)^# .*:\d+\]\n(@|def )", "\n".join(_texts()[name][1])) is not None

def _uses(lines):
    """The definitions that some lines name, in the order in which they do."""
    code = "\n".join(it for it in lines if not it.lstrip().startswith("#"))
    return [it for it in dict.fromkeys(re.findall(r"(?<![.\w'])[A-Za-z_]\w*", code)) if it in _texts()]

def _users(name):
    return [it for it, (_, lines) in _texts().items() if it != name and name in _uses(lines)]

def _rows(name):
    """The rows of tables for a constructor of that name: (the definition that a row is of, its lines)."""
    row = re.compile(rf"( +)(case .*\b[A-Z]\w*\.{re.escape(name)}\b.*|{re.escape(name)}='.*)")
    for owner, (_, lines) in _texts().items():
        for number, line in enumerate(lines):
            if found := row.fullmatch(line):
                start, end = number, number + 1
                while lines[start - 1].startswith(found[1] + "#"):
                    start -= 1
                while end < len(lines) and lines[end].startswith(found[1] + " "):
                    end += 1
                yield owner, lines[start:end]

def _serving(rows):
    """What serves some rows alone: all that uses it is among these, and is reached from there."""
    owners, found, open_ = {it for it, _ in rows}, [], [it for _, lines in rows for it in _uses(lines)]
    for it in open_:  # which grows on the way
        if it not in found and _is_action(it) and set(_users(it)) <= owners | set(found):
            found.append(it)
            open_ += _uses(_texts()[it][1])
    return found

def _show(name, project):
    """A definition, or the rows of one of Exec's words and what serves these alone; what it uses; and a run."""
    rows = list(_rows(name)) if name not in _texts() else []
    if not rows and name not in _texts():
        return _propose(name)
    for owner, lines in rows:
        print(f"# in {owner}, line {_texts()[owner][0]}", *lines, "", sep="\n")
    shown = _serving(rows) if rows else [name]
    for it in shown:
        print(*_texts()[it][1], "", sep="\n")
    texts = [*(lines for _, lines in rows), *(_texts()[it][1] for it in shown)]
    uses = [it for it in _uses([line for lines in texts for line in lines]) if it not in shown]
    print(f"It uses: {', '.join(uses) or 'nothing'}")
    if not rows:
        print(f"It is used by: {', '.join(_users(name)) or 'nothing'}")
    if rows or _is_action(name):
        _show_run(name, project)
    return 0

def _propose(name):
    """Says which names are near to one that is not known, and which definitions speak of it."""
    texts = {it: "\n".join(lines) for it, (_, lines) in _texts().items()}
    rows = re.findall(r"(?m)^    (\w+)='", "\n".join(texts.values()))
    known = {it.lower(): it for it in (*rows, *texts)}
    near = [known[it] for it in difflib.get_close_matches(name.lower(), known, 5, 0.5)]
    speaking = [it for it, text in texts.items() if re.search(rf"(?m)^ *#.*\b{re.escape(name)}\b", text)][:20]
    said = [f"no definition and no word is named {_shown(name)}", f"near it are {', '.join(near)}"][:1 + bool(near)]
    raise _Told("; ".join(said + [f"of it speak {', '.join(speaking)}"] * bool(speaking)), 2)

def _show_run(name, project):
    """Prints a stored run that uses a definition or a word."""
    if not os.path.isdir(os.path.join(project, "crates", "runs", "data")):
        print(f"A run that shows it is looked for in PROJECT/crates/runs/data: {_shown(project)} has none")
        return
    calls, is_called = [], name in _texts()
    if is_called:
        _watch(name, lambda *_: calls.append(1))
    for title, machine, events, status, *_ in _stored_runs(project):
        if is_called:
            _outcome(machine, events)
        if calls or not is_called and status == 0 and re.search(rb"\b%b\b" % name.encode(), machine):
            texts = ["\n".join(map(_shown, it.decode(errors="replace").split("\n"))) for it in (machine, events)]
            print(f"A run that uses it: {_shown(title)}\n", *texts, sep="\n")
            return
    print("No stored run uses it.")

# ---- --why

class _Call:
    """A call of a definition: what it gave, and the calls that it made that have ended, the last one of each name."""

    def __init__(self, name):
        self.name, self.value, self.asked = name, None, {}

class _Made(Exception):
    """The line that is asked for was made."""

def _calls_for(number, file, script):
    """The calls that are at work as a line of the trace is made, outermost first."""
    stack, left = [_Call("")], [number]
    actions = {it for it in _texts() if _is_action(it)}

    def profile(frame, event, value):
        name = frame.f_code.co_name
        if event not in ("call", "return") or name not in actions or frame.f_globals is not globals():
            return
        if event == "call":
            stack.append(_Call(name))
            left[0] -= name == "prints_line"
            if not left[0]:
                sys.setprofile(None)
                raise _Made
        else:
            ended = stack.pop()
            ended.value = value
            stack[-1].asked.pop(name, None)
            stack[-1].asked[name] = ended

    sys.setprofile(profile)
    try:
        run(file, script)
    except _Made:
        return stack[1:]

def _why(number, machine, events):
    """A line of the trace, and the definitions that made it, outermost first, each once: those that are at work as it
    is made, and beneath each those that it asked, as far as they decide and make no state."""
    status, _, *said, whole = _outcome(_read(machine), _read(events))
    if said[0]:
        raise _Told("\n".join(filter(None, said)), status)
    file, script, done = whole
    if not 1 <= number <= len(done.lines):
        raise _Told(f"line {number} is asked for, and the trace has {len(done.lines)} lines", 2)
    print(bytes(printed(done.lines[number - 1:number])).decode(errors="replace"), end="")
    state, shown = done.state, set(COMBINATORS)
    states = {type(it) for it in (done, state, state.schedule, state.memory, state.scripts, state.pending)}

    def show(call, deep):
        if call.name not in shown:
            shown.add(call.name)
            said = " ".join(it[2:] for it in _texts()[call.name][1] if it.startswith("# "))
            head = f"{'  ' * deep}{call.name}  ".ljust(34)
            said = said.partition(f"{call.name} : ")[0] or "(no comment)"
            print(textwrap.fill(said, 120, initial_indent=head, subsequent_indent=" " * 34))
        for it in call.asked.values() if deep < 3 else ():
            if type(it.value) not in states:
                show(it, deep + 1)

    for it in _calls_for(number, file, script):
        show(it, 1)
    return 0

# ---- the command line

class _Parser(argparse.ArgumentParser):
    """A parser that shows the words that it refuses as a terminal can show them."""

    def error(self, message):
        super().error(_shown(message))

def _words():
    """What the command line asks for."""
    usage = "definitions.py [--why N] MACHINE EVENTS | --show NAME [PROJECT] | --check PROJECT"
    parser = _Parser("definitions.py", usage)
    parser.add_argument("texts", nargs="*", help="MACHINE EVENTS: the trace of a run, as execsim prints it")
    parser.add_argument("--why", type=int, metavar="N", help="line N of the trace, and what made and decided it")
    parser.add_argument("--show", metavar="NAME", help="a definition, or what is done for a word as DoIO; and a run")
    parser.add_argument("--check", metavar="PROJECT", help="all stored runs of the project, and those of a real exec")
    parser.add_argument("--first", action="store_true", help="end at the first that differs, and ask no laws")
    parser.add_argument("--seconds", type=int, default=0, help="end after so many seconds of the processor")
    parser.add_argument("--part", default="0/1", help="K/N: each Nth run from K on")
    parser.add_argument("--only", default="", help="the runs whose names begin so")
    given = parser.parse_args()
    place, _, parts = given.part.partition("/")
    if not (place.isdecimal() and parts.isdecimal() and int(place) < int(parts)):
        parser.error(f"--part {given.part}: K/N is wanted, with K from 0 and below N")
    if len(given.texts) not in ((0, 1) if given.show else (0,) if given.check else (2,)):
        parser.error(f"{len(given.texts)} files are named")
    return given

def _main():
    """Does what the command line asks for."""
    given = _words()
    if given.check:
        if not os.path.isdir(os.path.join(given.check, "crates", "runs", "data")):
            raise _Told(f"execsim: {_shown(given.check)} has no folder crates/runs/data", 4)
        return _check(given.check, given.first, given.seconds, given.part, given.only)
    if given.show:
        return _show(given.show, *(given.texts or [os.path.dirname(os.path.dirname(os.path.abspath(__file__)))]))
    return _run_files(*given.texts) if given.why is None else _why(given.why, *given.texts)

def _begin():
    """Runs in a thread whose calls may go deep. Ctrl-C ends it, and a pipe that is closed at its other end."""
    ended = [4]

    def inside():
        try:
            ended[0] = _main()
            sys.stdout.flush()
        except SystemExit as why:
            ended[0] = why.code
        except _Told as why:
            ended[0] = why.args[1]
            print(why.args[0], file=sys.stderr)
        except BrokenPipeError:
            pass
        except OSError:
            print("execsim: write failed", file=sys.stderr)
        except (MemoryError, RecursionError):
            print("execsim: no memory", file=sys.stderr)

    sys.setrecursionlimit(10_000_000)
    threading.stack_size(1 << 29)
    thread = threading.Thread(target=inside, daemon=True)
    thread.start()
    try:
        while thread.is_alive():
            thread.join(0.5)
    except KeyboardInterrupt:
        print("execsim: ended before the run did", file=sys.stderr)
        os._exit(130)
    os._exit(ended[0])

if __name__ == "__main__":
    _begin()
