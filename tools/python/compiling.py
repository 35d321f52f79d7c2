"""Compiles runs into one file of big-endian words, which a program on another machine does: conform/README.md has its format.

What that machine cannot do is refused with the line: libraries without code, and timer.device in virtual time.
"""
import dataclasses
import re
import struct
import tomllib

import wordheader

MARK, VERSION, HEADER = 0x5852554E, 1, 8
MODES = ("plain", "strict")
SOURCES = {"PORTS": 3, "VERTB": 5, "EXTER": 13}
NO_TARGET, SHARED_TARGET = 0xFFFFFFFF, 0x100
NUMBER, OWN, SHARED, NAME = range(4)
RUN, TICK, REQUEST = range(3)
TITLE = 64
MOST_BYTES = 768 * 1024  # of a compiled file: a disk of 880 KB has it with the program

REFUSED, ALERT = "a refused text", "ends in an alert"
LIBRARIES, TIMER = "libraries without code", "timer.device in virtual time"
UNREAD = "a text that this compiler does not read; execcheck says if it is wrong"

LABEL = re.compile(r"[a-z][a-z0-9_]*:")
TARGET = re.compile(r"(@?[a-z][a-z0-9_]*) = (.*)")
LITERAL = re.compile(r"-?[0-9]+|\$[0-9A-F]+")


class CannotRun(Exception):
    """A run that the other side cannot do: why, the line of the machine file, what is there, and the version of the machine file."""

    def __init__(self, why, line=None, what="", version=1):
        super().__init__(why)
        self.why, self.line, self.what, self.version = why, line, what, version


@dataclasses.dataclass
class Body:
    """What a body has so far: its variables, and where its labels are, in words from its start."""

    own: dict
    labels: dict


class Compiler:
    """One machine file while it is compiled."""

    def __init__(self, words):
        self.words = words
        self.numbers = {name: number for number, name in enumerate(words)}
        self.commands, self.names, self.shared = [], [], {}

    def name(self, text):
        """The number of a name."""
        if text not in self.names:
            self.names.append(text)
        return self.names.index(text)

    def variable(self, body, text):
        """A variable, as a kind and a number."""
        if text.startswith("@"):
            return SHARED, self.shared.setdefault(text, len(self.shared))
        return OWN, body.own.setdefault(text, len(body.own))

    def argument(self, body, text):
        """An argument, as a kind and a word."""
        if text.startswith('"'):
            return NAME, self.name(text[1:-1])
        if LITERAL.fullmatch(text):
            return NUMBER, (int(text[1:], 16) if text.startswith("$") else int(text)) & 0xFFFFFFFF
        return self.variable(body, text)

    def command(self, body, line):
        """The words of a command: a jump has the place of its label in that of the target."""
        target, rest = NO_TARGET, line
        if found := TARGET.fullmatch(line):
            kind, number = self.variable(body, found[1])
            target, rest = number | (SHARED_TARGET if kind == SHARED else 0), found[2]
        word, *arguments = rest.split(" ")
        if word.startswith("Jump"):
            target = body.labels[arguments.pop()]
        pairs = [self.argument(body, one) for one in arguments]
        first = self.numbers[word] | len(pairs) << 8
        for index, (kind, _) in enumerate(pairs):
            first |= kind << 16 + 2 * index
        return [first, target, *(value for _, value in pairs)]

    def code(self, lines):
        """Compiles a body: where its commands begin, and how many words they have."""
        body, at = Body({}, {}), 0
        for line in lines:
            if LABEL.fullmatch(line):
                body.labels[line[:-1]] = at
            else:
                jumps = re.search(r"\bJump(Z|NZ)? ", line)
                at += 2 + len(TARGET.sub(r"\2", line).split(" ")) - 1 - bool(jumps)
        start = len(self.commands)
        for line in lines:
            if not LABEL.fullmatch(line):
                self.commands += self.command(body, line)
        return [start, len(self.commands) - start]


def name_words(text, size=32):
    """A name with zeros after it, in words."""
    return list(struct.unpack(f">{size // 4}I", text.encode(errors="replace")[: size - 1].ljust(size, b"\0")))


def event_words(events):
    """The events of a text, as pairs of words."""
    found = []
    for line in events.split("\n"):
        if line and not line.startswith("#"):
            what, number = line.split(" ")
            found += [REQUEST, SOURCES[number]] if what == "irq" else [RUN if what == "run" else TICK, int(number)]
    return found


def line_of(text, part):
    """The number of the first line that has this outside a comment, or None."""
    for number, line in enumerate(text.split("\n"), 1):
        if part in line and not line.lstrip().startswith("#"):
            return number
    return None


def bodies_of(machine):
    """The lines of all bodies."""
    return (line for table in ("softint", "server", "task") for one in machine.get(table, []) for line in one["code"])


def check(text, machine, words):
    """Refuses a machine that the other side does not have: with a word of libraries or of requests. A library that nobody opens is nothing."""
    version = machine.get("version", 1)
    for line in bodies_of(machine):
        word = TARGET.sub(r"\2", line).split(" ")[0]
        group = words[word]["group"] if word in words else ""
        if group in ("libraries", "requests"):
            raise CannotRun(LIBRARIES if group == "libraries" else TIMER, line_of(text, line), word, version)


def parsed(text):
    """A machine file that execsim accepts, as Python reads it."""
    try:
        return tomllib.loads(text)
    except (tomllib.TOMLDecodeError, RecursionError):
        raise CannotRun(UNREAD) from None


def table_words(compiler, machine):
    """The tables of a run: regions, software interrupts, servers and tasks."""
    low = 0xFFFFFFFF
    found = []
    for one in machine.get("region", []):
        found += [one["base"], one["size"], one.get("attrs", 1), one.get("pri", 0) & low]
    for one in machine.get("softint", []):
        found += [compiler.name(one["name"]), one["pri"] & low, *compiler.code(one["code"])]
    for one in machine.get("server", []):
        head = [compiler.name(one["name"]), SOURCES[one["source"]], one.get("pri", 0) & low, int(one.get("claim", False))]
        found += head + compiler.code(one["code"])
    for one in machine.get("task", []):
        found += [compiler.name(one["name"]), one.get("pri", 0) & low, int(one.get("start", True)), *compiler.code(one["code"])]
    return found


def run_words(title, text, events, words, mode):
    """The words of a run. Plain mode leaves the quantum as the system has it, if the file says none."""
    machine = parsed(text)
    check(text, machine, words)
    compiler = Compiler(words)
    tables = table_words(compiler, machine)
    quantum = machine.get("quantum", 4 if mode == "strict" else 0)
    counts = [len(machine.get(name, [])) for name in ("region", "softint", "server", "task")]
    happening = event_words(events)
    head = 10 + TITLE // 4
    names_at = head + len(tables)
    commands_at = names_at + 8 * len(compiler.names)
    events_at = commands_at + len(compiler.commands)
    size = events_at + len(happening)
    names = [word for name in compiler.names for word in name_words(name)]
    first = [size, quantum, *counts, len(happening) // 2, names_at, commands_at, events_at]
    return first + name_words(title, TITLE) + tables + names + compiler.commands + happening


def file_bytes(runs, words, mode, at_once=False):
    """A compiled file over the words of runs. With `at_once` a trace also comes line by line, if the other side can do that."""
    rest = [len(runs), MODES.index(mode) | 2 * at_once, wordheader.words_sum(words), 0]
    rest += [word for run in runs for word in run]
    whole = [MARK, VERSION, 4 + len(rest), wordheader.text_sum(rest), *rest]
    return struct.pack(f">{len(whole)}I", *whole)


@dataclasses.dataclass(frozen=True)
class Compiled:
    """A run as it goes to the other side."""

    run: object
    words: list


def check_alert(run, text):
    """Refuses a run that ends in an alert: an exec has none there, or stops for good. The line is the first that has the word."""
    if run.status == 3:
        last = run.trace.decode(errors="replace").splitlines()[-1]
        raise CannotRun(ALERT, line_of(text, last.split(" ")[-1]), last)


def compile_stored(run, words, mode):
    """Compiles a run of a folder."""
    if run.status == 1:
        raise CannotRun(REFUSED)
    try:
        text, events = run.machine.read_bytes().decode(), run.events.read_bytes().decode()
        made = run_words(run.name, text, events, words, mode)
    except (UnicodeDecodeError, KeyError, ValueError, TypeError, AttributeError, struct.error):
        raise CannotRun(UNREAD) from None
    check_alert(run, text)
    return Compiled(run, made)


def compile_all(runs, words, mode):
    """The runs that can be compiled, and of each other one why it cannot: (run, CannotRun)."""
    compiled, others = [], []
    for run in runs:
        try:
            compiled.append(compile_stored(run, words, mode))
        except CannotRun as error:
            others.append((run, error))
    return compiled, others


def parts_of(compiled, most_runs=10**9, most_bytes=MOST_BYTES):
    """The runs in parts of which each makes a file that is small enough. A run that is larger alone is a part alone."""
    parts, size = [], 0
    for one in compiled:
        if not parts or len(parts[-1]) >= most_runs or size + 4 * len(one.words) > most_bytes:
            parts.append([])
            size = 4 * HEADER
        parts[-1].append(one)
        size += 4 * len(one.words)
    return parts
