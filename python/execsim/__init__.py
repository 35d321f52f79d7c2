"""The proved simulator of Exec, the kernel of the Commodore Amiga, for Python: its library for C, called by ctypes.

    import execsim
    run = execsim.run(open("ports.toml").read(), "run 22")
    print(run.trace, run.status)

Texts are `str`, or `bytes` as a file has them. What is refused is an exception with the words of the program: `Refused`, `OutOfMemory`, `Closed`.
What a machine file and an event text mean is in the project's reference.
"""
from __future__ import annotations

import ctypes
import dataclasses
import json
import pathlib
import re
import threading
import typing
import weakref

__all__ = [
    "Block", "Closed", "Finding", "Machine", "OutOfMemory", "Outcome", "Refused", "Request", "Row", "Run", "Task", "View",
    "check", "chrome", "explore", "log", "picture", "run", "state",
]

Text = typing.Union[str, bytes]

RAN, MACHINE_REFUSED, EVENTS_REFUSED, ALERTED, NO_MEMORY, TOO_LONG, NO_MACHINE, NOT_THERE, TOO_MANY = range(9)
_LAST_STEP = _NO_TASK = (1 << 64) - 1
_NO_UNIT = (1 << 32) - 1
# How long a buffer is at first; one that is too short is made anew in the length that the library says.
_ROOM = 1 << 16
_KINDS = {"PORTS": 1, "tick": 2, "EXTER": 4}
_SEE = {"end": 0, "prints": 1, "trace": 2}
# The most ways that a search tries, as the program has it.
MOST_WAYS = 1 << 40


class Refused(ValueError):
    """A machine file or an event text is refused; its words are the program's, as `machine: BadCommand` or `events: BadLine 3`."""

    def __init__(self, words: str):
        super().__init__(words)
        text, _, fault = words.partition(": ")
        name, _, line = fault.partition(" ")
        #: Which text: `machine` or `events`.
        self.text: str = text
        #: The name of the fault.
        self.fault: str = name
        #: The line of the event text, from 1, if the fault names one.
        self.line: typing.Optional[int] = int(line) if line else None


class OutOfMemory(MemoryError):
    """Memory was refused. A machine is closed by it, but one that was fed a line or was to have a task more is as it was."""


class Closed(ValueError):
    """The machine was closed."""


@dataclasses.dataclass(frozen=True)
class Row:
    """A row of a log: a line of the trace, or a word that prints nothing, with when it was and which command it is of."""

    #: The number of the step, tick or request; 0 is the start.
    step: int
    #: What the clock shows after it, in microseconds.
    clock_us: int
    #: The number of the event in the event text, from 1; 0 for the start.
    event: int
    #: The line of the trace; of a word that prints nothing what it did.
    trace: str
    #: Whether it is of a word that prints nothing.
    is_plain: bool
    #: The task that acts, if one does.
    task: typing.Optional[str]
    #: The server or software interrupt that acts, if one does.
    body: typing.Optional[str]
    #: The line of the machine file, from 1, in which the command is, if the file shows it.
    line: typing.Optional[int]
    #: The text of the command, if one is meant.
    source: typing.Optional[str]


@dataclasses.dataclass(frozen=True)
class Run:
    """A run of a machine file over an event text."""

    #: The trace; each line ends with a line feed.
    trace: str
    #: 0 if the machine ran over all its events, 3 if an alert ended the run.
    status: int
    machine: Text = dataclasses.field(repr=False)
    events: Text = dataclasses.field(repr=False)

    def log(self, plain_words: bool = False, first: int = 0, last: typing.Optional[int] = None) -> list[Row]:
        """The rows of the run from a step to a step; see `log`."""
        return log(self.machine, self.events, plain_words, first, last)


@dataclasses.dataclass(frozen=True)
class Finding:
    """What the checker says of a place: a mistake, a warning or a note."""

    #: Which text: `machine` or `events`.
    text: str
    #: The line, from 1.
    line: int
    #: The column, from 1.
    column: int
    #: How grave it is: `error`, `warning` or `note`.
    severity: str
    #: The name of the fault, the code of the alert, or the name of the warning, as `BadCommand`.
    rule: str
    #: Why, in one sentence.
    reason: str
    #: The lines below: the place in words, the line of code, and its marks.
    shows: str

    def __str__(self) -> str:
        first = f"{self.text}:{self.line}:{self.column}: {self.severity}[{self.rule}]: {self.reason}"
        return first + (f"\n{self.shows}" if self.shows else "")


@dataclasses.dataclass(frozen=True)
class Outcome:
    """What is seen of some of the ways of a search, and the first of these ways."""

    #: Its number, from 1, in the order in which the ways first show it.
    number: int
    #: How many ways show it.
    ways: int
    #: The event text of the first of them.
    events: str
    #: What is seen.
    seen: str


class View(ctypes.Structure):
    """What is seen of a machine."""

    _fields_ = [
        ("clock", ctypes.c_uint64), ("system_time", ctypes.c_uint64), ("_tasks", ctypes.c_uint64), ("_running", ctypes.c_uint64),
        ("quantum_left", ctypes.c_uint32), ("latches", ctypes.c_uint32), ("_stopped", ctypes.c_uint32),
    ]
    #: The clock, and system time, in microseconds.
    clock: int
    system_time: int
    #: The servings of VERTB that are left to the task that runs.
    quantum_left: int
    #: The sources that ask to be served: bit 0 is PORTS, bit 1 VERTB, bit 2 EXTER.
    latches: int

    @property
    def running(self) -> typing.Optional[int]:
        """The place of the task that runs in `Machine.tasks`, or None."""
        return None if self._running == _NO_TASK else self._running

    @property
    def stopped(self) -> bool:
        """Whether an alert has stopped the machine."""
        return bool(self._stopped)


class _TaskView(ctypes.Structure):
    _fields_ = [("place", ctypes.c_uint64)]
    _fields_ += [(name, ctypes.c_uint32) for name in ("state", "waits_for", "received", "allocated")]
    _fields_ += [(name, ctypes.c_int32) for name in ("priority", "forbids", "disables")]


class _BlockView(ctypes.Structure):
    _fields_ = [("task", ctypes.c_uint64)]
    _fields_ += [(name, ctypes.c_uint32) for name in ("size", "kind", "count", "signal", "word", "reply_port", "state")]
    _fields_ += [("priority", ctypes.c_int32)]


class _RequestView(ctypes.Structure):
    _fields_ = [(name, ctypes.c_uint32) for name in ("reply_port", "state", "unit", "command", "seconds", "micros")]
    _fields_ += [("error", ctypes.c_int32), ("quick", ctypes.c_uint32)]


_STATES = ("absent", "ready", "running", "waits for signals", "waits for a semaphore", "removed")


@dataclasses.dataclass(frozen=True)
class Task:
    """What is seen of a task. Bit n of a mask is signal n."""

    name: str
    #: `absent`, `ready`, `running`, `waits for signals`, `waits for a semaphore` or `removed`.
    state: str
    #: Its next command, from 0; if it waits, the call that it waits in.
    place: int
    priority: int
    #: The signals that it waits for, has received, and has allocated.
    waits_for: int
    received: int
    allocated: int
    #: Its counts of Forbid and Disable; -1 if none is outstanding.
    forbids: int
    disables: int


_KINDS_OF_BLOCK = ("memory", "list", "node", "port", "message", "semaphore", "library", "request")


@dataclasses.dataclass(frozen=True)
class Block:
    """What is seen of a block of memory. What a thing of its kind does not have is 0, or None."""

    #: `memory`, `list`, `node`, `port`, `message`, `semaphore`, `library` or `request`.
    kind: str
    #: How many bytes it has.
    size: int
    #: The place in `Machine.tasks` of the task of a port, or of the owner of a semaphore.
    task: typing.Optional[int]
    #: How often the owner of a semaphore has to release it, or how often a library is open.
    count: int
    #: The number of a port's signal.
    signal: int
    #: The word of a message.
    word: int
    #: The address of the reply port of a message or of a request.
    reply_port: int
    #: Of a request: 0 never begun, 1 in progress, 2 finished at once, 3 replied.
    state: int
    #: The priority of a node.
    priority: int


@dataclasses.dataclass(frozen=True)
class Request:
    """What is seen of a request of timer.device."""

    #: The address of its reply port.
    reply_port: int
    #: 0 never begun, 1 in progress, 2 finished at once, 3 replied.
    state: int
    #: The unit that it is open for, or None.
    unit: typing.Optional[int]
    command: int
    #: Its time.
    seconds: int
    micros: int
    #: 0, or why it failed.
    error: int
    #: Whether IOF_QUICK is set in its flags.
    quick: bool


def _load() -> ctypes.CDLL:
    """The library, which lies beside this file, with the types of its calls."""
    library = ctypes.CDLL(str(pathlib.Path(__file__).with_name("libexecsim.so")))
    size, wide, word, bytes_, length = ctypes.c_size_t, ctypes.c_uint64, ctypes.c_uint32, ctypes.c_char_p, ctypes.POINTER(ctypes.c_uint64)
    texts, buffer, handle = [bytes_, size, bytes_, size], [bytes_, size, length], ctypes.POINTER(ctypes.c_void_p)
    for name, given in {
        "run": [*texts, *buffer],
        "log": [*texts, wide, wide, word, *buffer],
        "state": [*texts, wide, *buffer],
        "picture": [*texts, wide, wide, *buffer],
        "chrome": [*texts, wide, wide, *buffer],
        "check": [*texts, *buffer],
        "explore": [*texts, word, word, word, wide, *buffer],
        "open": [handle, bytes_, size, *buffer],
        "events": [handle, bytes_, size, *buffer],
        "take": [handle, *buffer],
        "view": [handle, ctypes.POINTER(View)],
        "task": [handle, size, ctypes.POINTER(_TaskView)],
        "block": [handle, word, ctypes.POINTER(_BlockView)],
        "task_name": [handle, size, *buffer],
        "request": [handle, word, ctypes.POINTER(_RequestView)],
        "message": [handle, word, word, ctypes.POINTER(word)],
        "feed": [handle, size, bytes_, size],
        "add_task": [handle, bytes_, size, ctypes.c_int32, ctypes.POINTER(wide)],
        "at_end": [handle, ctypes.POINTER(wide)],
        "close": [handle],
    }.items():
        call = getattr(library, f"execsim_{name}")
        call.argtypes, call.restype = given, None if name == "close" else word
    return library


_library = _load()


def _as_bytes(text: Text) -> bytes:
    # (a number is not a text: `bytes` alone would make as many zeros of it)
    return text.encode() if isinstance(text, str) else bytes(memoryview(text))


def _filled(call: typing.Callable[..., int], *given: typing.Any) -> tuple[int, str]:
    """What a call answers and puts into a buffer, which is made longer if it is too short. The words of what is refused are an exception."""
    room, length = _ROOM, ctypes.c_uint64()
    while True:
        buffer = ctypes.create_string_buffer(room)
        status = call(*given, buffer, room, ctypes.byref(length))
        if status != TOO_LONG:
            break
        room = length.value
    if status == NO_MACHINE:
        raise Closed("the machine is closed")
    words = ctypes.string_at(buffer, min(length.value, room)).decode()
    if status == NO_MEMORY:
        raise OutOfMemory(words)
    return status, words


def _shown(call: typing.Callable[..., int], machine: Text, events: Text, *numbers: int) -> str:
    """What a call writes of two texts, which are not refused."""
    status, words = _of_texts(call, machine, events, *numbers)
    if status in (MACHINE_REFUSED, EVENTS_REFUSED):
        raise Refused(words)
    if status in (NOT_THERE, TOO_MANY):
        raise ValueError(words)
    return words


def _of_texts(call: typing.Callable[..., int], machine: Text, events: Text, *numbers: int) -> tuple[int, str]:
    texts = (_as_bytes(machine), _as_bytes(events))
    return _filled(call, texts[0], len(texts[0]), texts[1], len(texts[1]), *numbers)


def _step(number: typing.Optional[int]) -> int:
    """A number of a step for the library; None is the last one."""
    if number is None:
        return _LAST_STEP
    if not 0 <= number < _LAST_STEP:
        raise ValueError(f"a step is a number from 0, and this is {number}")
    return number


def run(machine: Text, events: Text) -> Run:
    """Runs a machine file over an event text. That the trace is right is proved.

    machine, events: the two texts. Raises `Refused` and `OutOfMemory`.
    """
    status, words = _of_texts(_library.execsim_run, machine, events)
    if status not in (RAN, ALERTED):
        raise Refused(words)
    return Run(words, status, machine, events)


def log(machine: Text, events: Text, plain_words: bool = False, first: int = 0, last: typing.Optional[int] = None) -> list[Row]:
    """The rows of a run's log from a step to a step, as `execlog --json` writes them.

    plain_words: whether words that print nothing have rows too. first, last: steps, from 0, which is the start, to the last one.
    Raises `Refused`, `OutOfMemory`, and ValueError if the run has no such steps.
    """
    lines = _shown(_library.execsim_log, machine, events, _step(first), _step(last), int(plain_words))
    rows = []
    for line in lines.splitlines():
        it = json.loads(line)
        trace = it["plain"] if "plain" in it else it["trace"]
        rows.append(Row(it["step"], it["clock_us"], it["event"], trace, "plain" in it, *map(it.get, ("task", "body", "line", "source"))))
    return rows


def state(machine: Text, events: Text, step: typing.Optional[int] = None) -> str:
    """All that the machine shows after a step, or after the last one: the page that `execlog --state` writes. Raises as `log` does."""
    return _shown(_library.execsim_state, machine, events, _step(step))


def picture(machine: Text, events: Text, first: int = 0, last: typing.Optional[int] = None) -> str:
    """A picture of a run from a step to a step, of at most 200: the SVG document that `execlog --svg` writes. Raises as `log` does."""
    return _shown(_library.execsim_picture, machine, events, _step(first), _step(last))


def chrome(machine: Text, events: Text, first: int = 0, last: typing.Optional[int] = None) -> str:
    """The same steps in the Trace Event Format, as `execlog --chrome` writes it: a JSON document. Raises as `log` does."""
    return _shown(_library.execsim_chrome, machine, events, _step(first), _step(last))


_FIRST = re.compile(r"(machine\.toml|run\.events)(?::(\d+):(\d+))?: (error|warning|note)\[([\w-]+)\]: (.*)")


def check(machine: Text, events: Text) -> list[Finding]:
    """What is wrong with two texts, and how their run ends, as `execcheck` says it. Refused texts are findings, and no exception. Raises `OutOfMemory`."""
    found: list[Finding] = []
    for line in _of_texts(_library.execsim_check, machine, events)[1].splitlines():
        begins = _FIRST.fullmatch(line)
        if begins:
            text = {"machine.toml": "machine"}.get(begins[1], "events")
            found.append(Finding(text, int(begins[2] or 1), int(begins[3] or 1), begins[4], begins[5], begins[6], ""))
        elif found:
            shows = f"{found[-1].shows}\n{line}" if found[-1].shows else line
            found[-1] = dataclasses.replace(found[-1], shows=shows)
    return found


_OUTCOME = re.compile(r"outcome (\d+): (\d+) ways?, first ?(.*)")


def explore(
    machine: Text, events: Text, extra: int = 1, of: typing.Optional[typing.Iterable[str]] = None, see: str = "prints", limit: int = MOST_WAYS
) -> list[Outcome]:
    """Every way to insert at most so many more interrupts into the events, and each different outcome of them, as `execexplore` reports it.

    extra: how many interrupts, 0 to 8. of: which: `tick`, `PORTS`, `EXTER`; ticks and the sources that servers serve if it is None. see: what is seen of
    a way: `end`, `prints` or `trace`. limit: the most ways that are tried.
    Raises `Refused`, `OutOfMemory`, and ValueError if a word or number is not one of these, or if there are too many ways.
    """
    kinds = list(_KINDS if of is None else of)
    if unknown := [it for it in kinds if it not in _KINDS]:
        raise ValueError(f"of takes tick, PORTS and EXTER, and not {unknown[0]!r}")
    if see not in _SEE:
        raise ValueError(f"see takes end, prints or trace, and not {see!r}")
    if not 0 <= extra <= 8:
        raise ValueError("extra is a number from 0 to 8")
    chosen = 0 if of is None else sum(_KINDS[it] for it in set(kinds))
    if of is not None and not chosen:
        raise ValueError("of takes tick, PORTS and EXTER, and here it is empty")
    report = _shown(_library.execsim_explore, machine, events, extra, chosen, _SEE[see], limit)
    outcomes = []
    for part in report.split("\n\n")[1:]:
        head, _, seen = part.partition("\n")
        says = _OUTCOME.fullmatch(head)
        if says:
            first = "".join(f"{it}\n" for it in says[3].split(", ") if it)
            outcomes.append(Outcome(int(says[1]), int(says[2]), first, "".join(f"{it[2:]}\n" for it in seen.splitlines())))
    return outcomes


def _close(handle: ctypes.c_void_p, thread: int) -> None:
    """Closes a machine that was forgotten, in its own thread alone."""
    if threading.get_ident() == thread:
        _library.execsim_close(ctypes.byref(handle))


class Machine:
    """A machine that is kept, whose events are asked for step by step. It stays in the thread that opened it.

        with execsim.Machine(text) as machine:
            machine.events("run 3")
            print(machine.take(), machine.tasks[0].state)
    """

    def __init__(self, machine: Text):
        """Reads a machine file and starts its machine. Raises `Refused` and `OutOfMemory`."""
        self._handle, self._thread = ctypes.c_void_p(), threading.get_ident()
        text = _as_bytes(machine)
        status, words = _filled(_library.execsim_open, ctypes.byref(self._handle), text, len(text))
        if status not in (RAN, ALERTED):
            raise Refused(words)
        self._end = weakref.finalize(self, _close, self._handle, self._thread)

    def __enter__(self) -> Machine:
        return self

    def __exit__(self, *what: object) -> None:
        self.close()

    def _own(self) -> typing.Any:
        if threading.get_ident() != self._thread:
            raise RuntimeError("a machine stays in the thread that opened it")
        return ctypes.byref(self._handle)

    def close(self) -> None:
        """Closes the machine and frees its memory. Nothing happens if it is closed."""
        own = self._own()
        self._end.detach()
        _library.execsim_close(own)

    def events(self, events: Text) -> int:
        """Does the events of an event text, as `run 1` or a whole text. Returns 3 if an alert has stopped the machine, and else 0.

        Raises `Refused`, and then none of them is done; `OutOfMemory`; `Closed`.
        """
        text = _as_bytes(events)
        status, words = _filled(_library.execsim_events, self._own(), text, len(text))
        if status not in (RAN, ALERTED):
            raise Refused(words)
        return status

    def take(self) -> str:
        """The lines that were printed since the last call of it; each ends with a line feed. Raises `Closed`."""
        return _filled(_library.execsim_take, self._own())[1]

    @property
    def view(self) -> View:
        """What is seen of the machine now. Raises `Closed`."""
        view = View()
        if _library.execsim_view(self._own(), ctypes.byref(view)) == NO_MACHINE:
            raise Closed("the machine is closed")
        return view

    @property
    def tasks(self) -> list[Task]:
        """What is seen of each task now, in the order of the file. Raises `Closed`."""
        return [self._task(number) for number in range(self.view._tasks)]

    def _task(self, number: int) -> Task:
        view = _TaskView()
        _library.execsim_task(self._own(), number, ctypes.byref(view))
        name = _filled(_library.execsim_task_name, self._own(), number)[1]
        seen = (view.place, view.priority, view.waits_for, view.received, view.allocated, view.forbids, view.disables)
        return Task(name, _STATES[view.state], *seen)

    def block(self, address: int) -> typing.Optional[Block]:
        """What is seen of the block that begins at an address; None if none does. Raises `Closed`."""
        view = _BlockView()
        if not 0 <= address < 1 << 32:
            return None
        status = _library.execsim_block(self._own(), address, ctypes.byref(view))
        if status == NO_MACHINE:
            raise Closed("the machine is closed")
        if status == NOT_THERE:
            return None
        task = None if view.task == _NO_TASK else view.task
        seen = (view.count, view.signal, view.word, view.reply_port, view.state, view.priority)
        return Block(_KINDS_OF_BLOCK[view.kind], view.size, task, *seen)

    def request(self, address: int) -> typing.Optional[Request]:
        """What is seen of the request of timer.device that begins at an address; None if none does. Raises `Closed`."""
        view = _RequestView()
        if not 0 <= address < 1 << 32:
            return None
        if self._open(_library.execsim_request(self._own(), address, ctypes.byref(view))) == NOT_THERE:
            return None
        unit = None if view.unit == _NO_UNIT else view.unit
        return Request(view.reply_port, view.state, unit, view.command, view.seconds, view.micros, view.error, bool(view.quick))

    def messages(self, port: int) -> list[int]:
        """The addresses of the messages and requests in the port at an address, in order of arrival; none if no port begins there. Raises `Closed`."""
        found: list[int] = []
        after = ctypes.c_uint32()
        while 0 <= port < 1 << 32:
            self._open(_library.execsim_message(self._own(), port, after.value, ctypes.byref(after)))
            if not after.value:
                break
            found.append(after.value)
        return found

    @property
    def at_end(self) -> typing.Optional[int]:
        """The place in `tasks` of the task that the next step finds at the end of its lines, and ends, unless it is fed before; or None. Raises `Closed`."""
        task = ctypes.c_uint64()
        self._open(_library.execsim_at_end(self._own(), ctypes.byref(task)))
        return None if task.value == _NO_TASK else task.value

    def feed(self, task: int, line: Text) -> None:
        """Feeds a line to a task, which is the last one of its code then: as `Wait $1000`, without a variable, a label or a jump. The run is that of the
        machine file whose bodies have all lines from the start, if no step has found a task at the end of its lines that is fed later: that is proved.

        task: its place in `tasks`. Raises ValueError if it is no such line, IndexError if there is no such task, `OutOfMemory` and `Closed`; the
        machine is as it was then.
        """
        text = _as_bytes(line)
        if not 0 <= task < _NO_TASK:
            raise IndexError(f"there is no task {task}")
        status = self._open(_library.execsim_feed(self._own(), task, text, len(text)))
        if status == MACHINE_REFUSED:
            raise ValueError(f"a line that can be fed is a command without a variable, a label or a jump, and this is {line!r}")
        if status == NOT_THERE:
            raise IndexError(f"there is no task {task}")
        if status == NO_MEMORY:
            raise OutOfMemory("no memory")

    def add_task(self, name: Text, priority: int = 0) -> int:
        """Adds a task after the others, and returns its place in `tasks`. It was never added and has no lines: the word AddTask adds it, by its number,
        which is one more than its place, and `feed` feeds it. The run is that of the machine file that has it as its last, with `start = false`: that is proved.

        Raises ValueError if a machine file has no such name or priority, or if there are 4,096 tasks; RuntimeError if an alert has stopped the machine;
        `OutOfMemory` and `Closed`; the machine is as it was then.
        """
        text, task = _as_bytes(name), ctypes.c_uint64()
        refused = f"a machine file has no task of the name {name!r} and the priority {priority}"
        if not -128 <= priority <= 127:
            raise ValueError(refused)
        status = self._open(_library.execsim_add_task(self._own(), text, len(text), priority, ctypes.byref(task)))
        if status == MACHINE_REFUSED:
            raise ValueError(refused)
        if status == TOO_MANY:
            raise ValueError("the machine has 4,096 tasks, and no more are added")
        if status == ALERTED:
            raise RuntimeError("an alert has stopped the machine")
        if status == NO_MEMORY:
            raise OutOfMemory("no memory")
        return task.value

    @staticmethod
    def _open(status: int) -> int:
        """What a call answers, of a machine that is not closed."""
        if status == NO_MACHINE:
            raise Closed("the machine is closed")
        return status
