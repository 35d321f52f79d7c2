"""Random machines: valid files that reach deep states. If an alert ends a run, or tasks wait in it for ever, the line of that call is mostly
taken out, and the run is made again."""
import pathlib
import random
import re
import tempfile

import commands
import folders
import lines
import scripts
import tables

SECONDS = 10
MOST_REPAIRS = 120

# An alert is late after that many lines of trace.
LATE = 20


class World(random.Random):
    """The source of randomness, and what all bodies of a machine share."""

    def begin(self):
        self.shared, self.softints = {}, []

    def below(self, limit):
        return self.randrange(limit)

    def chance(self, probability):
        return self.random() < probability

    def some(self, items, most):
        """Up to that many of the items, in a random order, each maybe more than once."""
        return [self.choice(items) for _ in range(self.below(most + 1))] if items else []


class Machine:
    """A machine file as its parts: the head, and the bodies with their tables' keys."""

    def __init__(self, head, bodies):
        self.head, self.bodies = head, bodies

    def text(self):
        return "\n".join([*self.head, *(line for keys, body in self.bodies for line in [*keys, *code_lines(body), ""])])


def code_lines(body):
    quoted = [f"  '{line}'," for line in body.lines]
    return ["code = [", *quoted, "]"] if quoted else ["code = []"]


def head_of(world, allowed, words):
    """The top keys, regions and libraries."""
    groups = {words[name]["group"] for name in allowed}
    head = [f"version = {1 + world.below(2)}", f"quantum = {1 + world.below(4)}", f"pool = {world.choice([2, 8, 64])}", ""]
    for base in (4096, 69632)[: 1 + world.below(2)]:
        size = world.choice([256, 512, 1024, 4096])
        head += ["[[region]]", f"base = {base}", f"size = {size}", f"attrs = {world.choice([1, 1, 3, 5])}", f"pri = {world.below(3)}", ""]
    if "libraries" in groups:
        for name in scripts.LIBRARIES[: 1 + world.below(3)]:
            head += ["[[library]]", f'name = "{name}"', f"version = {36 + world.below(4)}", f"size = {8 * (1 + world.below(20))}", ""]
    return head


def bodies_of(world, allowed, words):
    """The bodies: tasks, which make what the interrupts use, and then software interrupts and servers, if the words ask for any."""
    tasks = [f"task{number}" for number in range(1, 3 + world.below(3))]
    with_interrupts = any(words[name]["in_interrupts"] for name in allowed)
    world.softints = ["soft1", "soft2"] if "Cause" in allowed or "PortCause" in allowed else []
    bodies = []
    for name in tasks:
        body = scripts.Body(world, tasks, words, name, False)
        scripts.fill_task(body, allowed, 6 + world.below(20))
        bodies.append((["[[task]]", f'name = "{name}"', f"pri = {world.below(5) - 2}"], body))
    interrupts = []
    for name in world.softints:
        interrupts.append((["[[softint]]", f'name = "{name}"', f"pri = {world.choice([-32, -16, 0, 16, 32])}"], name))
    for number in range(world.below(3) if with_interrupts else 0):
        source = world.choice(["PORTS", "VERTB", "EXTER"])
        keys = ["[[server]]", f'name = "server{number}"', f'source = "{source}"', f"pri = {world.below(5)}"]
        interrupts.append((keys, f"server{number}"))
    for keys, name in interrupts:
        body = scripts.Body(world, tasks, words, name, True)
        scripts.fill_interrupt(body, allowed, 1 + world.below(3))
        bodies.append((keys, body))
    return bodies


def events_of(world, machine):
    """An event text with steps enough for most of the commands, and ticks and requests between them."""
    left = 2 * sum(len(body.lines) for _, body in machine.bodies)
    events = []
    while left > 0:
        steps = 1 + world.below(12)
        left -= steps
        events.append(f"run {steps}")
        if world.chance(0.4):
            events.append(world.choice(["tick 1", "tick 1", "tick 2", "tick 5", "irq PORTS", "irq EXTER"]))
    return "".join(event + "\n" for event in [*events, "tick 5", "run 50"])


def printing_place(body, words, number):
    """The place of the printing line of a body of that number, counted from 0, if there is one."""
    places = [place for place, line in enumerate(body.lines) if (word := word_of(line)) and words[word]["prints"]]
    return places[number] if number < len(places) else None


def word_of(line):
    """The word of a line, or None for a label."""
    match = re.match(r"(?:@?\w+ = )?([A-Z]\w*)", line)
    return match[1] if match else None


def without_line(world, machine, words, trace, caller, word):
    """Takes out of a caller's body the line of the word that it is at, as far as the trace shows which it is."""
    body = next(body for _, body in machine.bodies if body.name == caller)
    calls = sum(1 for line in trace if (call := lines.call_of(line, words)) and call.caller == caller and not call.waits)
    place = printing_place(body, words, calls)
    if place is None or word_of(body.lines[place]) != word:
        place = world.choice([place for place, line in enumerate(body.lines) if word_of(line) == word])
    del body.lines[place]


def stuck_at(trace, words):
    """The calls that tasks still wait in when a run ends, as (caller, word)."""
    last = {}
    for line in trace:
        call = lines.call_of(line, words)
        if call:
            last[call.caller] = call
    return [(caller, call.word) for caller, call in last.items() if call.waits]


class Covered:
    """Which words have run, and which alerts were reached."""

    def __init__(self):
        self.words, self.alerts = {}, {}

    def count(self, trace, words):
        for line in trace.splitlines():
            call, alert = lines.call_of(line, words), lines.alert_of(line)
            if call:
                self.words[call.word] = self.words.get(call.word, 0) + 1
            if alert:
                self.alerts[alert] = self.alerts.get(alert, 0) + 1


class BadProgram(Exception):
    """The program that makes the traces did not accept a machine, or did not end."""


def run_of(command, machine, events, room):
    """The status and the trace of a machine by the program."""
    paths = room / "machine.toml", room / "machine.events"
    for path, text in zip(paths, (machine, events), strict=True):
        path.write_text(text)
    said = commands.run(command, *paths, SECONDS, 1 << 26)
    if said.status is None:
        raise BadProgram(f"{' '.join(command)}: no answer in {SECONDS} seconds; if it builds itself first, start it once by hand")
    if said.status not in (0, 3):
        why = said.error.decode(errors="replace").strip()
        raise BadProgram(f"{' '.join(command)}: status {said.status} over a machine that is valid: {why}")
    try:
        trace = said.out.decode()
    except UnicodeDecodeError:
        raise BadProgram(f"{' '.join(command)}: wrote what is no text, in place of a trace") from None
    if not trace:
        raise BadProgram(f"{' '.join(command)}: wrote no trace; name a program that prints one, as ./execsim")
    return said.status, trace


def line_to_drop(world, trace, words, is_alert_kept):
    """The caller and the word of a line that keeps a run from going deeper, or None if the run is kept as it is. One task may wait at the
    end."""
    alert = lines.alert_of(trace[-1]) if trace else None
    if alert:
        return None if is_alert_kept(trace, alert) else (trace[-1].split(" ")[2], alert[1])
    stuck = stuck_at(trace, words)
    return world.choice(stuck) if stuck and world.chance(0.9 if len(stuck) > 1 else 0.5) else None


def settled_run(world, machine, words, command, room, covered):
    """Runs a machine, and takes lines out that end the run or leave tasks waiting, until it is kept. Three machines in ten may end with an
    alert, one that was not reached before and that comes late."""
    may_end = world.chance(0.3)

    def is_alert_kept(trace, alert):
        return may_end and alert not in covered.alerts and len(trace) > LATE and world.chance(0.5)

    for _ in range(MOST_REPAIRS):
        events = events_of(world, machine)
        status, trace = run_of(command, machine.text(), events, room)
        shown = trace.splitlines()
        drop = line_to_drop(world, shown, words, is_alert_kept)
        if drop is None:
            break
        without_line(world, machine, words, shown, *drop)
    return events, status, trace


def one(seed, number, words, allowed, command, room, covered):
    """The run of that number of a seed."""
    world = World(f"{seed}/{number}")
    world.begin()
    machine = Machine(head_of(world, allowed, words), [])
    machine.bodies = bodies_of(world, allowed, words)
    events, status, trace = settled_run(world, machine, words, command, room, covered)
    covered.count(trace, words)
    title = f"seed {seed}, machine {number}"
    return tables.Run(f"random/{number:04}", "random", title, machine.text(), events, status, trace, None)


def write_all(folder, seed, count, words, allowed, command, progress):
    """Writes that many random machines with their traces, and answers what they cover."""
    covered, entries = Covered(), []
    with folders.writing(folder):
        folder.mkdir(parents=True, exist_ok=True)
    with tempfile.TemporaryDirectory() as room:
        for number in range(1, count + 1):
            run = one(seed, number, words, allowed, command, pathlib.Path(room), covered)
            entries.append(folders.write_run(folder, run, words))
            progress(number, count)
    folders.write_index(folder, " ".join(command), entries)
    return covered
