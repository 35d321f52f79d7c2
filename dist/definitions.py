"""The definitions of execsim: what a run of a machine file over an event text is, and what is printed of it.

This file was made by tools/reading from the definitions that the project's theorem speaks of, name for name. It is
no program of the project: it computes what they say. Read it from the top. Above each definition is its comment, with
its source in the manual (RKM: the Amiga ROM Kernel Reference Manual) or "project rule"; then its type, and file and
line of the original. Nothing is changed in place: an action takes a State and gives an Outcome: the next state, the
lines that are printed on the way, and marks, of which only laws speak.

    python3 definitions.py MACHINE EVENTS             prints the trace of a run
    python3 definitions.py --show DoIO                prints what is done for a call, or any definition by its name
    python3 definitions.py --why 4 MACHINE EVENTS     says which definitions made line 4 of the trace
    python3 definitions.py --check PROJECT            makes the stored runs, and the recordings of a real Exec

An example. The machine file

    [[task]]
    name = "server"
    pri = 5
    code = ["m = Wait $10000", "Print m"]

    [[task]]
    name = "client"
    code = ["Signal 1 $10000"]

and the event text

    run 5

come to this trace:

    switch server
    server Wait $00010000 waits
    switch client
    client Signal $00000001 $00010000
    switch server
    server Wait $00010000 -> $00010000
    server Print $00010000
    server RemTask $00000000
    switch client

In the types, which stand above the definitions, ℕ are the whole numbers from 0, and ℤ those with a sign: both are
Python's int, and have no width. A value of a script is a word of 32 bits: what calculates one, as Add and Sub do, says
% 2 ** 32. A × B is a pair; A → B → C is a function of an A and a B that gives a C; Type 0 is a statement, here True or
False. Texts are List ℕ, their bytes. An Option is None or Some(value), and a Result Ok(value) or Err(fault).

Names are those of the originals, but for these:
One that Python keeps for itself has `_` at its end: IOError_, bool_, float_, from_, list_, next_, object_, round_,
set_. ◌>>=◌ is bind. `'` in a name is `_`. A variable that would hide another one has a number at its end. A parameter
that is only matched in the original has the name of its type.

The tree of a TOML text is made by Python's tomllib, of TOML 1.0, within the limits of the project's reader (64 bits for
integers, 80 levels, no infinite number by its digits), which reads TOML 1.1: what only that has is NotToml here. All
that is read from the tree is in the definitions.

Contents, by line; of each part the longer sections:

     179  What is used everywhere
     189      The state of the abstract machine, and what an action makes of it
     230      Calls
     286  A run
     290      Steps, settling and whole runs
     456      How interrupts run
     591      Pending interrupts
     661      Calls
     863      Plain words
     957      Signals of tasks
    1081      Forbid and Disable
    1133      How tasks are added and ended, and their priorities
    1243      Lists of nodes
    1605      Memory
    1710      Message ports and messages
    2325      Signal semaphores
    2631      Libraries
    2819      Requests of timer.device
    3388      What the body of a software interrupt or of a server does
    3459      A call as a value
    3542      Objects
    3575      Libraries are asked for memory when a block fits nowhere, one after another in the order of the file
    3621      Where blocks begin, and where there is room for more
    3657      Libraries that are loaded
    3733  Services beneath it
    3737      How tasks come to run
    3821      What is known of the tasks as they are scheduled
    4092      What timer.device keeps
    4201      The sources of interrupts, their names, and which of them ask to be served
    4275      Sequences that are kept by a key, as Exec keeps its lists by priority
    4321      What calls on the tasks speak of
    4367      The signals of a task as two sets, and what each call makes of them
    4461      How deep a task has nested Forbid and Disable, and what each call makes of it
    4538      What calls on a list space speak of
    4602      Where AllocMem takes memory, and what AvailMem returns
    4677      One port without its messages, and what it does when a message arrives
    4719      One timer request
    4845      What calls on ports see
    4878      What calls on signal semaphores see
    4948      What calls on libraries see
    4987      The words of a body
    5066      Which regions a machine may have, and the first fault of regions that it may not have
    5116      Blocks of memory by address, and the gaps that they leave in a region
    6058  The state and the objects
    6062      The state of the abstract machine, and what an action makes of it
    6274  The trace
    6278      The lines of a trace, and their bytes
    6365  The texts
    6369      The events of a text, or its first fault
    6500      Numbers as they are written in the texts
    6549      The machine that a file states, or its first fault
    7006      The places of a machine file, and faults with their places
    7064      The tree that a text states, and the faults of its places
    7310      The code of one body
    7477      Which lines a body may have
    7522      Variables by number
    7693      How the program reads the fields of a line, step by step
    7976  Laws that are asked of each run
    7980      Who came to a queue, who was served at it, and who left it unserved
    8029      What the marks of a run say of one port, and of one semaphore
    8112      What a line says, as a relation between its fields and a label or a command
    8191  The words of the standard library
    8257  What the theorem speaks of, and is not above
    8278  How this file is run
    8316      the texts
    8424      --check
    8513      --show
"""

from dataclasses import make_dataclass
from functools import cache, partial, wraps

# What the records and the kinds of data of the definitions are in Python.
class NoCase(Exception):
    """No case of a definition is met: this is a mistake of the translator."""

def record(name, *fields):
    """A record: a class whose values hold their fields and are equal if these are."""
    return make_dataclass(name, fields, slots=True)

def data(name, **constructors):
    """A kind of data: a class for each constructor, and one value for a constructor that has no arguments."""
    kind = type(name, (), {})
    for constructor, fields in constructors.items():
        made = make_dataclass(constructor.rstrip("_"), fields.split(), slots=True, eq=bool(fields))
        setattr(kind, constructor, made if fields else made())
    return kind

def replace(whole, **new):
    """A record with other values in some of its fields."""
    kind = whole.__class__
    return kind(*[new[it] if it in new else getattr(whole, it) for it in kind.__slots__])

once = cache  # a definition without arguments: its value is made once

def kept(function):
    """What a text says, if it says something: it is computed once for each text."""
    found = {}

    @wraps(function)
    def of_text(text):
        key = tuple(text)
        if key not in found:
            if len(found) > 100_000:
                found.clear()
            found[key] = function(text)
        return found[key]

    return of_text

# An option is None or Some(value); a result is Ok(value) or Err(fault).
Some = make_dataclass("Some", ["value"], slots=True)
Ok = make_dataclass("Ok", ["value"], slots=True)
Err = make_dataclass("Err", ["fault"], slots=True)

@cache
def codes(text):
    """The bytes of a text. Texts are lists of bytes everywhere."""
    return list(text.encode())


# ======================================================================================================================
# What is used everywhere
# ======================================================================================================================

def monus(a, b): return a - b if a > b else 0  # subtraction of naturals ends at 0
def slice_index_or(items, n, other): return items[n] if n < len(items) else other  # item n from 0, or another one
def option_map(f, option): return None if option is None else Some(f(option.value))  # f of what is there, if it is
def unwrap_or(option, otherwise): return otherwise if option is None else option.value  # what is there, or another
def is_some(option): return option is not None  # whether something is there


# ---- The state of the abstract machine, and what an action makes of it. Nothing in it is linked and nothing is sorted:
# each queue is a sequence in order of arrival. [execmodel/specs/State.antt]

# one action after another: the state after both, and the lines and marks of the first and then of the second
# andthen : (State → Outcome) → (State → Outcome) → State → Outcome  [execmodel/specs/State.antt:97]
def andthen(first, next_, s):
    a = first(s)
    b = next_(a.state)
    return Outcome(state=b.state, lines=a.lines + b.lines, marks=a.marks + b.marks)

# a change of the schedule alone
# on_schedule : (Schedule → Schedule) → State → State  [execmodel/specs/State.antt:122]
def on_schedule(f, s):
    return replace(s, schedule=f(s.schedule))

# an action, unless an alert has stopped the machine
# unless_stopped : (State → Outcome) → State → Outcome  [execmodel/specs/State.antt:104]
def unless_stopped(next_, s):
    return quiet(s) if s.stopped else next_(s)

# the outcome of an action that prints nothing and leaves no mark
# quiet : State → Outcome  [execmodel/specs/State.antt:89]
def quiet(s):
    return Outcome(state=s, lines=[], marks=[])

# the outcome of an action that prints one line and leaves no mark
# prints_line : TraceLine → State → Outcome  [execmodel/specs/State.antt:93]
def prints_line(line, s):
    return Outcome(state=s, lines=[line], marks=[])

# a change of the memory alone
# on_memory : (Memory → Memory) → State → State  [execmodel/specs/State.antt:130]
def on_memory(f, s):
    return replace(s, memory=f(s.memory))

# a change of what is pending alone
# on_pending : (Pending → Pending) → State → State  [execmodel/specs/State.antt:134]
def on_pending(f, s):
    return replace(s, pending=f(s.pending))


# ---- Calls: the values of their arguments, and how they end. A call that waits is kept with its values, so that a
# variable that changes meanwhile is not read again; no other call is kept. [execmodel/specs/Calls.antt]

# argument k of a call as a number, counted from 0
# argument : ℕ → Call → ℕ  [execmodel/specs/Calls.antt:68]
def argument(k, call):
    return argument_number(slice_get(call.arguments, k))

# a call of task t is done, and returns nothing: its line is printed, and the task goes on with its next command
# done : ℕ → Call → State → Outcome  [execmodel/specs/Calls.antt:96]
def done(t, call, s):
    return prints_line(line_of_call(t, call, CallEnd.Done, s), on_scripts(partial(goes_on, t, call.next_), s))

# a call of task t is done, and returns a value: its line is printed, the value is stored in its target, if it has one,
# and the task goes on with its next command
# answered : ℕ → Call → ℕ → State → Outcome  [execmodel/specs/Calls.antt:101]
def answered(t, call, value, s):
    return prints_line(
        line_of_call(t, call, CallEnd.Answers(value), s),
        on_scripts(lambda scripts: goes_on(t, call.next_, stored(t, call.target, value, scripts)), s),
    )

# a call of task t that an alert may refuse: it is refused, if an alert is given, and else has its effect
# unless : Option Alert → ℕ → Call → (State → Outcome) → State → Outcome  [execmodel/specs/Calls.antt:182]
def unless(alert, t, call, effect, s):
    return unless_by(alert, Caller.ByTask(t), call, effect, s)

# a call that an alert may refuse: it is refused, if an alert is given, and else has its effect
# unless_by : Option Alert → Caller → Call → (State → Outcome) → State → Outcome  [execmodel/specs/Calls.antt:177]
def unless_by(code, c, call, effect, s):
    match code:
        case None: return effect(s)
        case Some(code): return alerted_by(code, c, call, s)
        case _: raise NoCase('unless_by')


# ---- Memory and what lies in it: blocks, each with the object that begins there; and the timer, for which requests
# wait that lie there. Nothing in it is linked and nothing is sorted: each queue is a sequence in order of arrival.
# [execmodel/specs/Blocks.antt]

# a change of the blocks alone, and of what begins there
# on_heap : (Heap → Heap) → Memory → Memory  [execmodel/specs/Blocks.antt:66]
def on_heap(f, memory):
    return replace(memory, heap=f(memory.heap))


# ---- Objects: what begins at an address, and where a new object is placed. An object takes a block of its own, with
# MEMF_PUBLIC (project rule). [execmodel/specs/Objects.antt]

# the object that begins at an address, if there is a block
# object_at : ℕ → Heap → Option Object  [execmodel/specs/Objects.antt:8]
def object_at(address, heap):
    return option_map(lambda block: block.object_, block_at(address, heap))


# ======================================================================================================================
# A run
# ======================================================================================================================


# ---- Steps, settling and whole runs: all interleaving comes from the list of events. [execmodel/specs/Step.antt]

# the whole run of a machine: its start, and then each event in order
# run : MachineData → List Event → Outcome  [execmodel/specs/Step.antt:133]
def run(machine, list_):
    return andthen(starts, partial(events, list_), booted(machine))

# the start: the tasks are added in the order of the file, and then the machine settles once
# starts : State → Outcome  [execmodel/specs/Step.antt:118]
def starts(s):
    return settle(on_schedule(partial(all_added, s.scripts, len(s.scripts.programs)), s))

# what follows each action: the sources that ask are served, and then there is at most one switch; a stopped machine
# stays as it is
# settle : State → Outcome  [execmodel/specs/Step.antt:30]
def settle(s):
    return unless_stopped(partial(andthen, interrupts, partial(unless_stopped, switches)), s)

# the switch that is due, if any: to another task, or to being idle (RKM Libraries, Exec Tasks)
# switches : State → Outcome  [execmodel/specs/Step.antt:25]
def switches(s):
    return announced(switch_of(by_arrival(), s.schedule), on_schedule(partial(rescheduled, by_arrival()), s))

# the line of a switch is printed, if one is made
# announced : Option Switch → State → Outcome  [execmodel/specs/Step.antt:19]
def announced(choice, s):
    match choice:
        case None: return quiet(s)
        case Some(Switch.To(t)): return prints_line(TraceLine.Switch(task_name(s.schedule, t)), s)
        case Some(Switch.Idle): return prints_line(TraceLine.Idle, s)
        case _: raise NoCase('announced')

# the first tasks of the file, that many, in order: each is added that is to start with the machine
# all_added : Scripts → ℕ → Schedule → Schedule  [execmodel/specs/Step.antt:113]
def all_added(scripts, number, s):
    so_far = s
    for n in range(number):
        so_far = started(scripts, n, so_far)
    return so_far

# task t is added, if it is to start with the machine
# started : Scripts → ℕ → Schedule → Schedule  [execmodel/specs/Step.antt:109]
def started(scripts, t, s):
    return added(by_arrival(), t, s) if program_of(scripts, t).starts else s

# the events, one after another
# events : List Event → State → Outcome  [execmodel/specs/Step.antt:128]
def events(items, s):
    match items:
        case []: return quiet(s)
        case [e, *rest]: return andthen(partial(event, e), partial(events, rest), s)
        case _: raise NoCase('events')

# an event: that many steps, that many ticks, or one request of an interrupt source
# event : Event → State → Outcome  [execmodel/specs/Step.antt:122]
def event(this_event, s):
    match this_event:
        case Event.Run(n): return steps(n, s)
        case Event.Tick(n): return ticks(n, s)
        case Event.Irq(asks): return request(asks, s)
        case _: raise NoCase('event')

# that many steps
# steps : ℕ → State → Outcome  [execmodel/specs/Step.antt:87]
def steps(number, s):
    so_far = quiet(s)
    for _ in range(number):
        a = so_far
        b = step(a.state)
        so_far = Outcome(state=b.state, lines=a.lines + b.lines, marks=a.marks + b.marks)
    return so_far

# one step: a software interrupt runs, or else the running task does one command; then the machine settles
# step : State → Outcome  [execmodel/specs/Step.antt:83]
def step(s):
    return andthen(acts, settle, s)

# what a step does, before the machine settles; a stopped machine does nothing
# acts : State → Outcome  [execmodel/specs/Step.antt:79]
def acts(s):
    return unless_stopped(step_action, s)

# what a step does: the next software interrupt runs, or else the running task does one command (RKM Libraries, Exec
# Interrupts: software interrupts; one a step: project rule)
# step_action : State → Outcome  [execmodel/specs/Step.antt:75]
def step_action(s):
    return softint_or_task_step(next_softint(s), s)

# the software interrupt that is next runs; only if there is none, the running task does its step
# softint_or_task_step : Option ℕ → State → Outcome  [execmodel/specs/Step.antt:69]
def softint_or_task_step(i, s):
    match i:
        case None: return task_step(s.schedule.running, s)
        case Some(i): return runs_softint(i, s)
        case _: raise NoCase('softint_or_task_step')

# the step of the running task; if no task runs, the step is used up and nothing happens
# task_step : Option ℕ → State → Outcome  [execmodel/specs/Step.antt:64]
def task_step(t, s):
    match t:
        case None: return quiet(s)
        case Some(t): return call_step(t, next_call(t, s.scripts), s)
        case _: raise NoCase('task_step')

# task t makes its next call, or ends if its commands are used up
# call_step : ℕ → Option Call → State → Outcome  [execmodel/specs/Step.antt:59]
def call_step(t, call, s):
    match call:
        case None: return ends(t, s)
        case Some(call): return does(t, call, s)
        case _: raise NoCase('call_step')

# a task whose commands are used up ends, as by RemTask 0 (RKM Libraries, Exec Tasks: task termination)
# ends : ℕ → State → Outcome  [execmodel/specs/Step.antt:55]
def ends(t, s):
    return prints_line(
        TraceLine.Call(task_name(s.schedule, t), codes('RemTask'), [Argument.Value(0)], CallEnd.Done),
        on_schedule(partial(leaves, t), s),
    )

# a call of a task, by its word
# does : ℕ → Call → State → Outcome  [execmodel/specs/Step.antt:51]
def does(t, call, s):
    return does_word(call.word, t, call, s)

# A call of task t, by the group of its word. After a call on requests that has set system time, and after its line,
# each request finishes that waits for a system time that has come.
# does_word : Word → ℕ → Call → State → Outcome  [execmodel/specs/Step.antt:37]
def does_word(this_word, t, call, s):
    match this_word:
        case Word.Plain(word): return does_plain(word, t, call, s)
        case Word.Signals(word): return does_signals(word, t, call, s)
        case Word.Nesting(word): return does_nesting(word, t, call, s)
        case Word.Tasks(word): return does_tasks(word, t, call, s)
        case Word.Lists(word): return does_lists(word, t, call, s)
        case Word.Memory(word): return does_memory(word, t, call, s)
        case Word.Ports(word): return does_ports(word, t, call, s)
        case Word.Semaphores(word): return does_semaphores(word, t, call, s)
        case Word.Interrupts(word): return does_interrupts(word, t, call, s)
        case Word.Libraries(word): return does_libraries(word, t, call, s)
        case Word.Requests(word): return andthen(partial(does_requests, word, t, call), finishes_set, s)
        case _: raise NoCase('does_word')

# that many ticks
# ticks : ℕ → State → Outcome  [execmodel/specs/Step.antt:104]
def ticks(number, s):
    so_far = quiet(s)
    for _ in range(number):
        a = so_far
        b = tick(a.state)
        so_far = Outcome(state=b.state, lines=a.lines + b.lines, marks=a.marks + b.marks)
    return so_far

# one tick: the clock and system time advance by it, even if interrupts are disabled, and VERTB is requested; a stopped
# machine does nothing
# tick : State → Outcome  [execmodel/specs/Step.antt:100]
def tick(s):
    return unless_stopped(lambda s: request(Source.Vertb, on_memory(partial(on_timer, clock_ticked), s)), s)

# an interrupt is requested: its source asks to be served, and the machine settles; a stopped machine does nothing (RKM
# Libraries, Exec Interrupts)
# request : Source → State → Outcome  [execmodel/specs/Step.antt:95]
def request(asks, s):
    return unless_stopped(lambda s: settle(on_pending(partial(with_latch_of, asks, True), s)), s)


# ---- How interrupts run (RKM Libraries, Exec Interrupts): one software interrupt in a step, and the servers of a
# source when it is served. [execmodel/specs/Interrupts.antt]

# All sources that ask are served, while interrupts are allowed. There are three sources, and no serving sets a latch,
# so three servings leave none that may be served.
# interrupts : State → Outcome  [execmodel/specs/Interrupts.antt:104]
def interrupts(s):
    return servings(3, s)

# at most that many servings: while interrupts are allowed and a source asks to be served, the one of highest level is
# served (RKM Libraries, Exec Interrupts)
# servings : ℕ → State → Outcome  [execmodel/specs/Interrupts.antt:96]
def servings(number, s):
    match number:
        case 0: return quiet(s)
        case _ if number > 0:
            n = number - 1
            match next_source(s):
                case None: return quiet(s)
                case Some(asks): return andthen(partial(serves, asks), partial(unless_stopped, partial(servings, n)), s)
                case _: raise NoCase('servings')
        case _: raise NoCase('servings')

# A source is served: its latch is cleared, and a serving of VERTB is taken from the quantum. Its line is printed, then
# the requests finish that are due, and then its servers run. (RKM Libraries, Exec Interrupts)
# serves : Source → State → Outcome  [execmodel/specs/Interrupts.antt:89]
def serves(asks, s):
    return andthen(
        partial(prints_line, TraceLine.Serve(source_text(asks))),
        partial(andthen, partial(finishes_for, asks), partial(runs_chain, chain_of(asks, s.bodies.servers))),
        on_schedule(partial(serving_counted, asks), on_pending(partial(with_latch_of, asks, False), s)),
    )

# at a serving of VERTB all requests finish whose time has come; at that of another source none does (project rule)
# finishes_for : Source → State → Outcome  [execmodel/specs/Interrupts.antt:82]
def finishes_for(source, s):
    match source:
        case Source.Ports: return quiet(s)
        case Source.Vertb: return finishes_all_due(s)
        case Source.Exter: return quiet(s)
        case _: raise NoCase('finishes_for')

# the servers run one after another, until one claims the interrupt, or an alert stops the machine
# runs_chain : List ℕ → State → Outcome  [execmodel/specs/Interrupts.antt:68]
def runs_chain(items, s):
    match items:
        case []: return quiet(s)
        case [k, *others]:
            return andthen(
                partial(runs_server, k),
                partial(unless_stopped, quiet if server_at(k, s.bodies).claim else partial(runs_chain, others)),
                s,
            )
        case _: raise NoCase('runs_chain')

# server k runs: its line is printed, and then its whole body runs (RKM Libraries, Exec Interrupts: server chains)
# runs_server : ℕ → State → Outcome  [execmodel/specs/Interrupts.antt:62]
def runs_server(k, s):
    server = server_at(k, s.bodies)
    return andthen(partial(prints_line, TraceLine.Server(server.name)), partial(runs_body, server.name, server.code), s)

# server k of the file, counted from 0
# server_at : ℕ → Bodies → ServerData  [execmodel/specs/Interrupts.antt:38]
def server_at(k, bodies):
    return slice_index_or(bodies.servers, k, no_server())

# what is read as a server at a number that the file does not have
# no_server : ServerData  [execmodel/specs/Interrupts.antt:34]
@once
def no_server():
    return ServerData(name=[], source=Source.Ports, pri=0, claim=False, code=[])

# the numbers of the servers of a source, in the order in which they run: by priority, and those of one priority in the
# order of the file (autodoc exec.library/AddIntServer)
# chain_of : Source → List ServerData → List ℕ  [execmodel/specs/Interrupts.antt:58]
def chain_of(asks, servers):
    return by_choice(len(servers), partial(server_pri, servers), servers_for(asks, servers))

# at most that many items, each chosen from those that are left: the earliest of greatest key
# by_choice : ℕ → (ℕ → ℤ) → List ℕ → List ℕ  [execmodel/specs/Interrupts.antt:51]
def by_choice(number, key, left):
    match number:
        case 0: return []
        case _ if number > 0:
            n = number - 1
            match chosen(key, left):
                case None: return []
                case Some(k): return [k, *by_choice(n, key, without_item(k, left))]
                case _: raise NoCase('by_choice')
        case _: raise NoCase('by_choice')

# the priority of server k of the file, counted from 0
# server_pri : List ServerData → ℕ → ℤ  [execmodel/specs/Interrupts.antt:42]
def server_pri(servers, k):
    return pri_at([s.pri for s in servers], k)

# the numbers of the servers of a source, in the order of the file
# servers_for : Source → List ServerData → List ℕ  [execmodel/specs/Interrupts.antt:46]
def servers_for(asks, servers):
    return [
        k for k in range_with_len(0, len(servers)) if is_source(slice_index_or(servers, k, no_server()).source, asks)
    ]

# a serving of VERTB takes one from the quantum of the running task; that of another source takes none (project rule)
# serving_counted : Source → Schedule → Schedule  [execmodel/specs/Interrupts.antt:76]
def serving_counted(source, schedule):
    match source:
        case Source.Ports: return schedule
        case Source.Vertb: return quantum_ticked(schedule)
        case Source.Exter: return schedule
        case _: raise NoCase('serving_counted')

# software interrupt i runs: it is no longer caused, so that its body may cause it again; its line is printed, and then
# its whole body runs (RKM Libraries, Exec Interrupts: software interrupts)
# runs_softint : ℕ → State → Outcome  [execmodel/specs/Interrupts.antt:26]
def runs_softint(i, s):
    softint = softint_at(i, s.bodies)
    return andthen(
        partial(prints_line, TraceLine.Softint(softint.name)),
        partial(runs_body, softint.name, softint.code),
        on_pending(partial(caused_no_more, i), s),
    )

# software interrupt i of the file, counted from 0
# softint_at : ℕ → Bodies → SoftintData  [execmodel/specs/Interrupts.antt:21]
def softint_at(i, bodies):
    return slice_index_or(bodies.softints, i, no_softint())

# what is read as a software interrupt at a number that the file does not have
# no_softint : SoftintData  [execmodel/specs/Interrupts.antt:17]
@once
def no_softint():
    return SoftintData(name=[], pri=0, code=[])


# ---- Pending interrupts (RKM Libraries, Exec Interrupts). The abstract machine keeps the software interrupts that are
# caused in order of arrival, and never sorts them: the one that runs next is the earliest among those of highest
# priority. How one arrives, and which is next, is defined for either discipline of a queue. A source asks to be served
# by its latch: more requests before it is served change nothing. [execmodel/specs/Pending.antt]

# the software interrupt that runs next, if interrupts are allowed and one is caused: of those of highest priority the
# one that was caused first (RKM Libraries, Exec Interrupts: software interrupts)
# next_softint : State → Option ℕ  [execmodel/specs/Pending.antt:55]
def next_softint(s):
    return softint_next(by_arrival(), s.bodies.softints, s.schedule, s.pending)

# the software interrupt of the list that runs next, if interrupts are allowed and one is caused
# softint_next : Discipline → List SoftintData → Schedule → Pending → Option ℕ  [execmodel/specs/Pending.antt:50]
def softint_next(d, softints, schedule, pending):
    if allows_interrupts(schedule): return d.choice(partial(softint_pri, softints), pending.caused)
    return None

# interrupts are allowed: no task runs, or the running one has not disabled them (autodoc Disable)
# allows_interrupts : Schedule → Bool  [execmodel/specs/Pending.antt:14]
def allows_interrupts(schedule):
    return is_interrupting_allowed(schedule.running, schedule)

# the priority of software interrupt i
# softint_pri : List SoftintData → ℕ → ℤ  [execmodel/specs/Pending.antt:20]
def softint_pri(softints, i):
    return pri_at([s.pri for s in softints], i)

# a source asks to be served, or no longer does: its latch is set or cleared
# with_latch_of : Source → Bool → Pending → Pending  [execmodel/specs/Pending.antt:61]
def with_latch_of(asks, set_, pending):
    return replace(pending, latches=with_latch(asks, set_, pending.latches))

# the source that is served next: the latched one of highest level, if interrupts are allowed (RKM Libraries, Exec
# Interrupts)
# next_source : State → Option Source  [execmodel/specs/Pending.antt:65]
def next_source(s):
    return highest(s.pending.latches) if allows_interrupts(s.schedule) else None

# software interrupt i is no longer caused (RKM Libraries, Exec Interrupts: software interrupts)
# caused_no_more : ℕ → Pending → Pending  [execmodel/specs/Pending.antt:46]
def caused_no_more(i, pending):
    return replace(pending, caused=without_item(i, pending.caused))

# the number of the software interrupt of that name; if none has the name, a number that none has
# softint_number : List ℕ → List SoftintData → ℕ  [execmodel/specs/Pending.antt:24]
def softint_number(name, softints):
    return position_or_len(partial(bytes_eq, name), [s.name for s in softints])

# software interrupt i is caused (autodoc exec.library/Cause)
# causes : ℕ → State → State  [execmodel/specs/Pending.antt:42]
def causes(i, s):
    return on_pending(partial(with_caused, by_arrival(), i, s.bodies.softints), s)

# software interrupt i of the list is caused, unless it is caused already; a number that is not in the list does nothing
# with_caused : Discipline → ℕ → List SoftintData → Pending → Pending  [execmodel/specs/Pending.antt:37]
def with_caused(d, i, softints, pending):
    if i < len(softints) and not is_caused(i, pending): return arrived(d, i, softints, pending)
    return pending

# software interrupt i was caused and has not run since
# is_caused : ℕ → Pending → Bool  [execmodel/specs/Pending.antt:28]
def is_caused(i, pending):
    return any(other == i for other in pending.caused)

# software interrupt i of the list is put among those that are caused, as one that arrives
# arrived : Discipline → ℕ → List SoftintData → Pending → Pending  [execmodel/specs/Pending.antt:32]
def arrived(d, i, softints, pending):
    return replace(pending, caused=d.arrival(partial(softint_pri, softints), pending.caused, i))


# ---- Calls: the values of their arguments, and how they end. A call that waits is kept with its values, so that a
# variable that changes meanwhile is not read again; no other call is kept. [execmodel/specs/Calls.antt]

# who makes a call: a task, by its number, or the body of a server or of a software interrupt, by its name
# [execmodel/specs/Calls.antt:122]
Caller = data('Caller', ByTask='task', ByBody='name')

# The call that task t tries next: the one that it waits in, or else that of its next command. There is none if its
# commands are used up.
# next_call : ℕ → Scripts → Option Call  [execmodel/specs/Calls.antt:58]
def next_call(t, scripts):
    return call_after(t, program_of(scripts, t).kept, scripts)

# the call that task t waits in, if there is one, which it tries again; else the call of its next command
# call_after : ℕ → Option Call → Scripts → Option Call  [execmodel/specs/Calls.antt:52]
def call_after(t, kept2, scripts):
    match kept2:
        case Some(kept2): return Some(kept2)
        case None: return call_at(t, slice_get(program_of(scripts, t).code, program_of(scripts, t).place), scripts)
        case _: raise NoCase('call_after')

# the call of the next command of task t, if there is one
# call_at : ℕ → Option CommandData → Scripts → Option Call  [execmodel/specs/Calls.antt:47]
def call_at(t, command, scripts):
    match command:
        case None: return None
        case Some(command): return Some(call_of(t, program_of(scripts, t).place + 1, command, scripts))
        case _: raise NoCase('call_at')

# the call of a command for task t, with the values of its arguments, and with the place of the command after it
# call_of : ℕ → ℕ → CommandData → Scripts → Call  [execmodel/specs/Calls.antt:37]
def call_of(t, next_, command, scripts):
    return Call(
        word=command.word,
        target=command.target,
        arguments=[evaluated(t, scripts, each) for each in command.arguments],
        next_=next_,
        awaited=0,
    )

# the value of an argument for task t; a place in the code is its number
# evaluated : ℕ → Scripts → ArgumentData → Argument  [execmodel/specs/Calls.antt:30]
def evaluated(t, scripts, argument_data):
    match argument_data:
        case ArgumentData.number(n): return Argument.Value(n)
        case ArgumentData.variable(v): return Argument.Value(content(t, scripts, v))
        case ArgumentData.quoted(name): return Argument.Quoted(name)
        case ArgumentData.place(k): return Argument.Value(k)
        case _: raise NoCase('evaluated')

# what a variable holds for task t
# content : ℕ → Scripts → Variable → ℕ  [execmodel/specs/Calls.antt:16]
def content(t, scripts, variable):
    match variable:
        case Variable.Private(k): return slice_index_or(program_of(scripts, t).variables, k, 0)
        case Variable.Shared(k): return slice_index_or(scripts.shared, k, 0)
        case _: raise NoCase('content')

# a word that is not a call of Exec is done, for either caller: the value is stored in its target, if it has one, and no
# line is printed
# silent_by : Caller → Call → ℕ → State → Outcome  [execmodel/specs/Calls.antt:146]
def silent_by(caller, call, value, s):
    match caller:
        case Caller.ByTask(t): return silent(t, call, value, s)
        case Caller.ByBody(name): return quiet(on_scripts(partial(stored_shared, call.target, value), s))
        case _: raise NoCase('silent_by')

# a word that is not a call of Exec is done, for task t: the value is stored in its target, if it has one, and no line
# is printed
# silent : ℕ → Call → ℕ → State → Outcome  [execmodel/specs/Calls.antt:111]
def silent(t, call, value, s):
    return quiet(on_scripts(lambda scripts: goes_on(t, call.next_, stored(t, call.target, value, scripts)), s))

# task t goes on with the command at that place, and waits in no call
# goes_on : ℕ → ℕ → Scripts → Scripts  [execmodel/specs/Calls.antt:84]
def goes_on(t, next_, scripts):
    return with_program(t, replace(program_of(scripts, t), place=next_, kept=None), scripts)

# a value is stored in a variable, for task t; nothing changes if no variable is given
# stored : ℕ → Option Variable → ℕ → Scripts → Scripts  [execmodel/specs/Calls.antt:21]
def stored(t, variable, value, scripts):
    match variable:
        case None: return scripts
        case Some(Variable.Private(k)):
            return with_program(
                t,
                replace(program_of(scripts, t), variables=slice_set(program_of(scripts, t).variables, k, value)),
                scripts,
            )
        case Some(Variable.Shared(k)): return replace(scripts, shared=slice_set(scripts.shared, k, value))
        case _: raise NoCase('stored')

# a value is stored in a shared variable; nothing changes for a task's own variable, as a body has none, or if no
# variable is given
# stored_shared : Option Variable → ℕ → Scripts → Scripts  [execmodel/specs/Calls.antt:128]
def stored_shared(variable, value, scripts):
    match variable:
        case None: return scripts
        case Some(Variable.Private(k)): return scripts
        case Some(Variable.Shared(k)): return replace(scripts, shared=slice_set(scripts.shared, k, value))
        case _: raise NoCase('stored_shared')

# an argument as a number: 0 for a name, and if there is no argument
# argument_number : Option Argument → ℕ  [execmodel/specs/Calls.antt:62]
def argument_number(this_argument):
    match this_argument:
        case None: return 0
        case Some(Argument.Value(n)): return n
        case Some(Argument.Quoted(name)): return 0
        case _: raise NoCase('argument_number')

# the line of a call of task t
# line_of_call : ℕ → Call → CallEnd → State → TraceLine  [execmodel/specs/Calls.antt:92]
def line_of_call(t, call, outcome, s):
    return TraceLine.Call(task_name(s.schedule, t), word_text(call.word), call.arguments, outcome)

# a call is refused by an alert, for either caller, and the machine stops for good
# alerted_by : Alert → Caller → Call → State → Outcome  [execmodel/specs/Calls.antt:151]
def alerted_by(code, caller, call, s):
    match caller:
        case Caller.ByTask(t): return alerted(code, t, call, s)
        case Caller.ByBody(name):
            return prints_line(TraceLine.Alert(alert_text(code), name, word_text(call.word)), replace(s, stopped=True))
        case _: raise NoCase('alerted_by')

# A call of task t is refused by an alert: its line is printed, and the machine stops for good. Nothing else changes
# (project rule).
# alerted : Alert → ℕ → Call → State → Outcome  [execmodel/specs/Calls.antt:116]
def alerted(code, t, call, s):
    return prints_line(
        TraceLine.Alert(alert_text(code), task_name(s.schedule, t), word_text(call.word)), replace(s, stopped=True)
    )

# a call that returns nothing is done, for either caller; its line has the name of the task or the body
# done_by : Caller → Call → State → Outcome  [execmodel/specs/Calls.antt:134]
def done_by(caller, call, s):
    match caller:
        case Caller.ByTask(t): return done(t, call, s)
        case Caller.ByBody(name):
            return prints_line(TraceLine.Call(name, word_text(call.word), call.arguments, CallEnd.Done), s)
        case _: raise NoCase('done_by')

# a call of task t waits: its line is printed, and it is kept, to be tried again
# waiting : ℕ → Call → State → Outcome  [execmodel/specs/Calls.antt:106]
def waiting(t, call, s):
    return prints_line(line_of_call(t, call, CallEnd.Waits, s), on_scripts(partial(keeps, t, call), s))

# task t keeps this call, to try it again
# keeps : ℕ → Call → Scripts → Scripts  [execmodel/specs/Calls.antt:88]
def keeps(t, call, scripts):
    return with_program(t, replace(program_of(scripts, t), kept=Some(call)), scripts)

# argument k of a call as a name, counted from 0, if it is one
# name_argument : ℕ → Call → Option (List ℕ)  [execmodel/specs/Calls.antt:78]
def name_argument(k, call):
    return name_in(slice_get(call.arguments, k))

# the name that an argument is, if it is one
# name_in : Option Argument → Option (List ℕ)  [execmodel/specs/Calls.antt:72]
def name_in(this_argument):
    match this_argument:
        case None: return None
        case Some(Argument.Value(n)): return None
        case Some(Argument.Quoted(name)): return Some(name)
        case _: raise NoCase('name_in')

# a call that returns a value is done, for either caller; a body stores the value in a shared variable
# answered_by : Caller → Call → ℕ → State → Outcome  [execmodel/specs/Calls.antt:139]
def answered_by(caller, call, value, s):
    match caller:
        case Caller.ByTask(t): return answered(t, call, value, s)
        case Caller.ByBody(name):
            return prints_line(
                TraceLine.Call(name, word_text(call.word), call.arguments, CallEnd.Answers(value)),
                on_scripts(partial(stored_shared, call.target, value), s),
            )
        case _: raise NoCase('answered_by')

# the call of a command of a body
# call_in_body : CommandData → Scripts → Call  [execmodel/specs/Calls.antt:165]
def call_in_body(command, scripts):
    return Call(
        word=command.word,
        target=command.target,
        arguments=[evaluated_in_body(scripts, each) for each in command.arguments],
        next_=0,
        awaited=0,
    )

# the value of an argument in a body; a place in the code is its number, and a task's own variable, which no body has,
# is 0
# evaluated_in_body : Scripts → ArgumentData → Argument  [execmodel/specs/Calls.antt:157]
def evaluated_in_body(scripts, argument_data):
    match argument_data:
        case ArgumentData.number(n): return Argument.Value(n)
        case ArgumentData.variable(Variable.Private(k)): return Argument.Value(0)
        case ArgumentData.variable(Variable.Shared(k)): return Argument.Value(slice_index_or(scripts.shared, k, 0))
        case ArgumentData.quoted(name): return Argument.Quoted(name)
        case ArgumentData.place(k): return Argument.Value(k)
        case _: raise NoCase('evaluated_in_body')


# ---- Plain words: they set variables, calculate, jump and print. They are not calls of Exec (project rule).
# [execmodel/specs/Plain.antt]

# a plain word, done by task t
# does_plain : PlainWord → ℕ → Call → State → Outcome  [execmodel/specs/Plain.antt:74]
def does_plain(plain_word, t, call, s):
    match plain_word:
        case PlainWord.Set: return does_set(t, call, s)
        case PlainWord.Add: return does_add(t, call, s)
        case PlainWord.Sub: return does_sub(t, call, s)
        case PlainWord.And: return does_and(t, call, s)
        case PlainWord.Or: return does_or(t, call, s)
        case PlainWord.Jump: return does_jump(t, call, s)
        case PlainWord.JumpZ: return does_jump_zero(t, call, s)
        case PlainWord.JumpNZ: return does_jump_not_zero(t, call, s)
        case PlainWord.Print: return does_print(t, call, s)
        case _: raise NoCase('does_plain')

# Set, done by task t
# does_set : ℕ → Call → State → Outcome  [execmodel/specs/Plain.antt:12]
def does_set(t, call, s):
    return does_set_by(Caller.ByTask(t), call, s)

# Set a: returns a
# does_set_by : Caller → Call → State → Outcome  [execmodel/specs/Plain.antt:8]
def does_set_by(c, call, s):
    return silent_by(c, call, argument(0, call), s)

# Add, done by task t
# does_add : ℕ → Call → State → Outcome  [execmodel/specs/Plain.antt:26]
def does_add(t, call, s):
    return does_add_by(Caller.ByTask(t), call, s)

# Add a b: returns the sum modulo 2^32
# does_add_by : Caller → Call → State → Outcome  [execmodel/specs/Plain.antt:22]
def does_add_by(c, call, s):
    return silent_by(c, call, (argument(0, call) + argument(1, call)) % 2 ** 32, s)

# Sub, done by task t
# does_sub : ℕ → Call → State → Outcome  [execmodel/specs/Plain.antt:34]
def does_sub(t, call, s):
    return does_sub_by(Caller.ByTask(t), call, s)

# Sub a b: returns the difference a - b modulo 2^32
# does_sub_by : Caller → Call → State → Outcome  [execmodel/specs/Plain.antt:30]
def does_sub_by(c, call, s):
    return silent_by(c, call, (argument(0, call) + monus(2 ** 32, argument(1, call))) % 2 ** 32, s)

# And, done by task t
# does_and : ℕ → Call → State → Outcome  [execmodel/specs/Plain.antt:42]
def does_and(t, call, s):
    return does_and_by(Caller.ByTask(t), call, s)

# And a b: returns the bits that both have
# does_and_by : Caller → Call → State → Outcome  [execmodel/specs/Plain.antt:38]
def does_and_by(c, call, s):
    return silent_by(c, call, argument(0, call) & argument(1, call), s)

# Or, done by task t
# does_or : ℕ → Call → State → Outcome  [execmodel/specs/Plain.antt:50]
def does_or(t, call, s):
    return does_or_by(Caller.ByTask(t), call, s)

# Or a b: returns the bits that either has
# does_or_by : Caller → Call → State → Outcome  [execmodel/specs/Plain.antt:46]
def does_or_by(c, call, s):
    return silent_by(c, call, argument(0, call) | argument(1, call), s)

# Jump l: goes on at label l
# does_jump : ℕ → Call → State → Outcome  [execmodel/specs/Plain.antt:60]
def does_jump(t, call, s):
    return jumps(t, argument(0, call), s)

# task t goes on with the command at that place
# jumps : ℕ → ℕ → State → Outcome  [execmodel/specs/Plain.antt:56]
def jumps(t, place, s):
    return quiet(on_scripts(partial(goes_on, t, place), s))

# JumpZ a l: goes on at label l if a is 0, and else with the next command
# does_jump_zero : ℕ → Call → State → Outcome  [execmodel/specs/Plain.antt:64]
def does_jump_zero(t, call, s):
    return jumps(t, argument(1, call) if argument(0, call) == 0 else call.next_, s)

# JumpNZ a l: goes on at label l if a is not 0, and else with the next command
# does_jump_not_zero : ℕ → Call → State → Outcome  [execmodel/specs/Plain.antt:68]
def does_jump_not_zero(t, call, s):
    return jumps(t, call.next_ if argument(0, call) == 0 else argument(1, call), s)

# Print a: its line shows the value of a
# does_print : ℕ → Call → State → Outcome  [execmodel/specs/Plain.antt:16]
def does_print(t, call, s):
    return done(t, call, s)


# ---- Signals of tasks (RKM Libraries, Exec Signals). [execmodel/specs/Signals.antt]

# a call of task t on signals, by its word
# does_signals : SignalWord → ℕ → Call → State → Outcome  [execmodel/specs/Signals.antt:91]
def does_signals(signal_word, t, call, s):
    match signal_word:
        case SignalWord.AllocSignal: return does_alloc_signal(t, call, s)
        case SignalWord.FreeSignal: return does_free_signal(t, call, s)
        case SignalWord.SetSignal: return does_set_signal(t, call, s)
        case SignalWord.Signal: return does_signal(t, call, s)
        case SignalWord.Wait: return does_wait(t, call, s)
        case _: raise NoCase('does_signals')

# AllocSignal a: signal a, from 16 to 31, or for -1 the highest free one, is allocated and cleared, and its number is
# returned; -1 is returned if no signal is free, signal a is allocated already, or a is another number (autodoc
# exec.library/AllocSignal; the highest one, and -1 for other numbers: project rule)
# does_alloc_signal : ℕ → Call → State → Outcome  [execmodel/specs/Signals.antt:30]
def does_alloc_signal(t, call, s):
    n = cast_signed(32, argument(0, call))
    return answered(
        t,
        call,
        cast_unsigned(32, grant_number(grant(n, signals_of(s.schedule, t)))),
        on_schedule(partial(allocates_signal, t, n), s),
    )

# FreeSignal a: signal a is no longer allocated; -1 does nothing (autodoc exec.library/FreeSignal; the alert: project
# rule)
# does_free_signal : ℕ → Call → State → Outcome  [execmodel/specs/Signals.antt:41]
def does_free_signal(t, call, s):
    n = argument(0, call)
    if n == 4_294_967_295: return done(t, call, s)
    return unless(
        free_signal_alert(n),
        t,
        call,
        lambda s: done(t, call, on_schedule(partial(frees_signal, t, n), s)),
        s,
    )

# the alert of FreeSignal: MASK if the number is not that of a signal that a task may allocate
# free_signal_alert : ℕ → Option Alert  [execmodel/specs/Signals.antt:36]
def free_signal_alert(n):
    return Some(Alert.Mask) if not is_own_signal(n) else None

# SetSignal new mask: returns the signals that were received; then those of the mask become as in new (autodoc
# exec.library/SetSignal; the alert: project rule)
# does_set_signal : ℕ → Call → State → Outcome  [execmodel/specs/Signals.antt:49]
def does_set_signal(t, call, s):
    new = argument(0, call)
    mask = argument(1, call)
    return unless(
        mask_alert(mask),
        t,
        call,
        lambda s: answered(
            t, call, signals_of(s.schedule, t).received, on_schedule(partial(sets_signals, t, new, mask), s)
        ),
        s,
    )

# the alert of a mask: MASK if it has a signal that scripts may not name
# mask_alert : ℕ → Option Alert  [execmodel/specs/Signals.antt:22]
def mask_alert(mask):
    return Some(Alert.Mask) if not is_mask(mask) else None

# a mask that scripts may name: signals 12 to 31 alone, as Exec itself uses the others (project rule)
# is_mask : ℕ → Bool  [execmodel/specs/Signals.antt:18]
def is_mask(mask):
    return mask & 4095 == 0

# Signal, called by task t (autodoc Signal)
# does_signal : ℕ → Call → State → Outcome  [execmodel/specs/Signals.antt:72]
def does_signal(t, call, s):
    return does_signal_by(Caller.ByTask(t), call, s)

# Signal t mask: the task of that number, which is 1 for the first one, receives the signals of the mask; if it waits
# for one of them, it becomes ready (autodoc exec.library/Signal; the alerts: project rule)
# does_signal_by : Caller → Call → State → Outcome  [execmodel/specs/Signals.antt:64]
def does_signal_by(c, call, s):
    other = argument(0, call)
    mask = argument(1, call)
    return unless_by(
        signal_alert(other, mask, s.scripts),
        c,
        call,
        lambda s: done_by(c, call, on_schedule(partial(signalled, by_arrival(), monus(other, 1), mask), s)),
        s,
    )

# the alert of Signal: HANDLE if there is no task of that number, and else that of the mask
# signal_alert : ℕ → ℕ → Scripts → Option Alert  [execmodel/specs/Signals.antt:59]
def signal_alert(number, mask, scripts):
    return Some(Alert.Handle) if not is_task(number, scripts) else mask_alert(mask)

# there is a task of that number; the first one has number 1
# is_task : ℕ → Scripts → Bool  [execmodel/specs/Signals.antt:14]
def is_task(number, scripts):
    return 0 < number and number <= len(scripts.programs)

# Wait mask: returns the signals of the mask that were received, and clears them; if there are none, the task waits for
# them and tries again when it next runs (autodoc exec.library/Wait; the retry, and the alert: project rule)
# does_wait : ℕ → Call → State → Outcome  [execmodel/specs/Signals.antt:82]
def does_wait(t, call, s):
    mask = argument(0, call)
    return unless(
        mask_alert(mask),
        t,
        call,
        lambda s: waited(
            t, call, come_for(mask, signals_of(s.schedule, t)), on_schedule(partial(after_wait, t, mask), s)
        ),
        s,
    )

# how a Wait ends: it returns the signals that have come, or its task waits if none has
# waited : ℕ → Call → Option ℕ → State → Outcome  [execmodel/specs/Signals.antt:76]
def waited(t, call, signals, s):
    match signals:
        case None: return waiting(t, call, s)
        case Some(signals): return answered(t, call, signals, s)
        case _: raise NoCase('waited')


# ---- Forbid and Disable (RKM Libraries, Exec Tasks: forbidding task switching). Each task has two counts of its own,
# which hold while it runs: while it waits, other tasks may run and interrupts may be served. A count that would leave
# its range is the alert NEST (project rule). [execmodel/specs/Nesting.antt]

# a call of task t on nesting, by its word
# does_nesting : NestingWord → ℕ → Call → State → Outcome  [execmodel/specs/Nesting.antt:46]
def does_nesting(nesting_word, t, call, s):
    match nesting_word:
        case NestingWord.Forbid: return does_forbid(t, call, s)
        case NestingWord.Permit: return does_permit(t, call, s)
        case NestingWord.Disable: return does_disable(t, call, s)
        case NestingWord.Enable: return does_enable(t, call, s)
        case _: raise NoCase('does_nesting')

# Forbid: no other task runs until the caller has called Permit as often as Forbid, except while it waits (autodoc
# exec.library/Forbid)
# does_forbid : ℕ → Call → State → Outcome  [execmodel/specs/Nesting.antt:27]
def does_forbid(t, call, s):
    return gives_nesting(t, call, after_forbid(nesting_of(s.schedule, t)), s)

# Forbid, Permit, Disable or Enable of task t: the task gets that nesting, or the call is refused if none is given
# gives_nesting : ℕ → Call → Option Nesting → State → Outcome  [execmodel/specs/Nesting.antt:22]
def gives_nesting(t, call, nesting, s):
    return done_or_nest(is_some(nesting), t, call, on_schedule(partial(nested, t, nesting), s))

# Forbid, Permit, Disable or Enable is done, or is refused if the count would leave its range
# done_or_nest : Bool → ℕ → Call → State → Outcome  [execmodel/specs/Nesting.antt:18]
def done_or_nest(fits, t, call, s):
    return unless(nest_alert(fits), t, call, partial(done, t, call), s)

# the alert of Forbid, Permit, Disable and Enable: NEST if the count would leave its range, -1 to 127
# nest_alert : Bool → Option Alert  [execmodel/specs/Nesting.antt:14]
def nest_alert(fits):
    return Some(Alert.Nest) if not fits else None

# Permit: takes back one Forbid (autodoc exec.library/Permit)
# does_permit : ℕ → Call → State → Outcome  [execmodel/specs/Nesting.antt:31]
def does_permit(t, call, s):
    return gives_nesting(t, call, after_permit(nesting_of(s.schedule, t)), s)

# Disable: no other task runs and no interrupt is served until the caller has called Enable as often as Disable, except
# while it waits (autodoc exec.library/Disable)
# does_disable : ℕ → Call → State → Outcome  [execmodel/specs/Nesting.antt:36]
def does_disable(t, call, s):
    return gives_nesting(t, call, after_disable(nesting_of(s.schedule, t)), s)

# Enable: takes back one Disable (autodoc exec.library/Enable)
# does_enable : ℕ → Call → State → Outcome  [execmodel/specs/Nesting.antt:40]
def does_enable(t, call, s):
    return gives_nesting(t, call, after_enable(nesting_of(s.schedule, t)), s)


# ---- How tasks are added and ended, and their priorities (RKM Libraries, Exec Tasks). [execmodel/specs/Tasks.antt]

# a call of task t on tasks, by its word
# does_tasks : TaskWord → ℕ → Call → State → Outcome  [execmodel/specs/Tasks.antt:94]
def does_tasks(task_word, t, call, s):
    match task_word:
        case TaskWord.SetTaskPri: return does_set_task_pri(t, call, s)
        case TaskWord.AddTask: return does_add_task(t, call, s)
        case TaskWord.RemTask: return does_rem_task(t, call, s)
        case TaskWord.FindTask: return does_find_task(t, call, s)
        case _: raise NoCase('does_tasks')

# SetTaskPri task pri: the task gets the priority, and its old one is returned; a ready task arrives anew. The priority
# is read as a signed word, and returned as one (autodoc exec.library/SetTaskPri).
# does_set_task_pri : ℕ → Call → State → Outcome  [execmodel/specs/Tasks.antt:34]
def does_set_task_pri(t, call, s):
    number = argument(0, call)
    pri = cast_signed(32, argument(1, call))
    def inner(s):
        old = priority_of(s.schedule, monus(number, 1))
        return answered(
            t,
            call,
            cast_unsigned(32, old),
            on_schedule(partial(reprioritized, by_arrival(), monus(number, 1), pri), s),
        )
    return unless(set_task_pri_alert(number, pri, s.scripts, s.schedule), t, call, inner, s)

# the alert of SetTaskPri: HANDLE if there is no live task of that number, VALUE if the priority is not one that a task
# may have
# set_task_pri_alert : ℕ → ℤ → Scripts → Schedule → Option Alert  [execmodel/specs/Tasks.antt:27]
def set_task_pri_alert(number, pri, scripts, schedule):
    if not is_live_task(number, scripts, schedule): return Some(Alert.Handle)
    return Some(Alert.Value) if not is_priority(pri) else None

# there is a live task of that number
# is_live_task : ℕ → Scripts → Schedule → Bool  [execmodel/specs/Tasks.antt:14]
def is_live_task(number, scripts, schedule):
    return is_task(number, scripts) and is_live(status_of(schedule, monus(number, 1)))

# a priority that a task may have: -128 to 127
# is_priority : ℤ → Bool  [execmodel/specs/Tasks.antt:18]
def is_priority(pri):
    return -128 <= pri and pri <= 127

# AddTask task: a task that was never added is added, and its number is returned; for any other task nothing changes,
# and 0 is returned (autodoc exec.library/AddTask; that an ended task is not added again: project rule)
# does_add_task : ℕ → Call → State → Outcome  [execmodel/specs/Tasks.antt:49]
def does_add_task(t, call, s):
    number = argument(0, call)
    def inner(s):
        begun = number if is_absent(status_of(s.schedule, monus(number, 1))) else 0
        return answered(t, call, begun, on_schedule(partial(added, by_arrival(), monus(number, 1)), s))
    return unless(add_task_alert(number, s.scripts), t, call, inner, s)

# the alert of AddTask: HANDLE if there is no task of that number
# add_task_alert : ℕ → Scripts → Option Alert  [execmodel/specs/Tasks.antt:44]
def add_task_alert(number, scripts):
    return Some(Alert.Handle) if not is_task(number, scripts) else None

# RemTask task: ends the caller, or another live task, which is ready or waits. What it owns is not freed (autodoc
# exec.library/RemTask; the alert, and that a waiting task may be ended: project rule).
# does_rem_task : ℕ → Call → State → Outcome  [execmodel/specs/Tasks.antt:70]
def does_rem_task(t, call, s):
    number = argument(0, call)
    if is_caller(t, number): return done(t, call, on_schedule(partial(leaves, t), s))
    return unless(
        live_task_alert(number, s.scripts, s.schedule), t, call, partial(ends_other, monus(number, 1), t, call), s
    )

# the number names the caller: it is 0, or the caller's own
# is_caller : ℕ → ℕ → Bool  [execmodel/specs/Tasks.antt:58]
def is_caller(t, number):
    return number == 0 or monus(number, 1) == t

# the alert of a call on a live task: HANDLE if there is none of that number
# live_task_alert : ℕ → Scripts → Schedule → Option Alert  [execmodel/specs/Tasks.antt:22]
def live_task_alert(number, scripts, schedule):
    return Some(Alert.Handle) if not is_live_task(number, scripts, schedule) else None

# a live task that does not run is ended; if it waits for a semaphore, it leaves that queue
# ends_other : ℕ → ℕ → Call → State → Outcome  [execmodel/specs/Tasks.antt:62]
def ends_other(other, t, call, s):
    out_of_queues = on_memory(partial(on_heap, partial(dropped, other)), s)
    ended = on_schedule(partial(task_removed, other), out_of_queues)
    return leaving_queue(awaited_by(other, s.memory.heap), other, done(t, call, ended))

# FindTask name: returns the number of the live task of that name, or 0 if there is none; for the argument 0 the
# caller's number (autodoc exec.library/FindTask)
# does_find_task : ℕ → Call → State → Outcome  [execmodel/specs/Tasks.antt:88]
def does_find_task(t, call, s):
    return answered(t, call, found_number(t, name_argument(0, call), s.schedule), s)

# the number of the live task of that name, or 0 if there is none; that of the caller if no name is given
# found_number : ℕ → Option (List ℕ) → Schedule → ℕ  [execmodel/specs/Tasks.antt:82]
def found_number(t, name, s):
    match name:
        case None: return t + 1
        case Some(name): return number_or_none(found(name, s))
        case _: raise NoCase('found_number')

# the number of a task, or 0 for none
# number_or_none : Option ℕ → ℕ  [execmodel/specs/Tasks.antt:77]
def number_or_none(t):
    match t:
        case None: return 0
        case Some(t): return t + 1
        case _: raise NoCase('number_or_none')


# ---- Lists of nodes (RKM Libraries, Exec Lists and Queues). A list is the sequence of its nodes, by their addresses;
# no node is in two lists, nor twice in one. An address at which no object of the kind begins is the alert HANDLE; a
# node that is linked where it must not be, or is not linked where it must be, and a list that has nodes when it is
# freed, is the alert LINK (project rule). [execmodel/specs/Lists.antt]

# a call of task t on lists, by its word
# does_lists : ListWord → ℕ → Call → State → Outcome  [execmodel/specs/Lists.antt:281]
def does_lists(word, t, call, s):
    return performs(list_deed(word, call), t, call, s)

# what a call on lists does: the alert that refuses it, how it changes the lists and nodes, and what it returns
# list_deed : ListWord → Call → Deed  [execmodel/specs/Lists.antt:235]
def list_deed(list_word, call):
    match list_word:
        # NewList: returns the address of a new empty list, or 0 if it cannot be made (autodoc amiga.lib/NewList; that
        # it takes the memory: project rule)
        case ListWord.NewList: return makes(None, is_list, list_size(), Object.ListHead([]))
        # FreeList list: an empty list is freed (project rule)
        case ListWord.FreeList: return frees_block(partial(free_list_alert, argument(0, call)), argument(0, call))
        # NewNode pri name: returns the address of a new node that is not linked, or 0 if it cannot be made; the
        # priority is read as a signed word (project rule)
        case ListWord.NewNode:
            pri = cast_signed(32, argument(0, call))
            return makes(
                new_node_alert(pri), is_node, node_size(), Object.Node(KeyData(pri=pri, name=name_argument(1, call)))
            )
        # FreeNode node: a node that is not linked is freed (project rule)
        case ListWord.FreeNode: return frees_block(partial(free_node_alert, argument(0, call)), argument(0, call))
        # AddHead list node: the node becomes the first of the list (autodoc exec.library/AddHead)
        case ListWord.AddHead:
            return changes(
                partial(link_alert, argument(0, call), argument(1, call)),
                partial(added_head, argument(0, call), argument(1, call)),
            )
        # AddTail list node: the node becomes the last of the list (autodoc exec.library/AddTail)
        case ListWord.AddTail:
            return changes(
                partial(link_alert, argument(0, call), argument(1, call)),
                partial(added_tail, argument(0, call), argument(1, call)),
            )
        # Enqueue list node: the node is put before the first node of lower priority, or last if there is none (autodoc
        # exec.library/Enqueue)
        case ListWord.Enqueue:
            return changes(
                partial(link_alert, argument(0, call), argument(1, call)),
                partial(enqueued, argument(0, call), argument(1, call)),
            )
        # Insert list node pred: the node is put after its predecessor, or becomes the first of the list for 0 (autodoc
        # exec.library/Insert)
        case ListWord.Insert:
            return changes(
                partial(insert_alert, argument(0, call), argument(1, call), argument(2, call)),
                partial(inserted, argument(0, call), argument(1, call), argument(2, call)),
            )
        # Remove node: the node leaves the list that it is in (autodoc exec.library/Remove)
        case ListWord.Remove:
            return changes(partial(linked_alert, argument(0, call)), partial(unlinked, argument(0, call)))
        # RemHead list: returns the first node, which leaves the list, or 0 for an empty one (autodoc
        # exec.library/RemHead)
        case ListWord.RemHead:
            return answers_and_changes(
                partial(list_alert, argument(0, call)),
                partial(first_of, argument(0, call)),
                partial(removed_head, argument(0, call)),
            )
        # RemTail list: returns the last node, which leaves the list, or 0 for an empty one (autodoc
        # exec.library/RemTail)
        case ListWord.RemTail:
            return answers_and_changes(
                partial(list_alert, argument(0, call)),
                partial(last_of, argument(0, call)),
                partial(removed_tail, argument(0, call)),
            )
        # First list: returns the first node, or 0 for an empty list (RKM Libraries, Exec Lists and Queues: scanning a
        # list)
        case ListWord.First: return reads(partial(list_alert, argument(0, call)), partial(first_of, argument(0, call)))
        # Last list: returns the last node, or 0 for an empty list (RKM Libraries, Exec Lists and Queues: scanning a
        # list)
        case ListWord.Last: return reads(partial(list_alert, argument(0, call)), partial(last_of, argument(0, call)))
        # Succ node: returns the node after a linked one, or 0 if it is the last (RKM Libraries, Exec Lists and Queues:
        # ln_Succ)
        case ListWord.Succ: return reads(partial(linked_alert, argument(0, call)), partial(succ_of, argument(0, call)))
        # Pred node: returns the node before a linked one, or 0 if it is the first (RKM Libraries, Exec Lists and
        # Queues: ln_Pred)
        case ListWord.Pred: return reads(partial(linked_alert, argument(0, call)), partial(pred_of, argument(0, call)))
        # FindName start name: returns the first node of that name in a list, or after a node of it, or 0 if there is
        # none (autodoc exec.library/FindName; that the start may be a node: RKM Libraries, Exec Lists and Queues:
        # searching by name)
        case ListWord.FindName:
            return reads(
                partial(find_alert, argument(0, call)),
                partial(found_node, argument(0, call), unwrap_or(name_argument(1, call), [])),
            )
        case _: raise NoCase('list_deed')

# the object is the header of a list
# is_list : Object → Bool  [execmodel/specs/Lists.antt:17]
def is_list(object_):
    match object_:
        case Object.ListHead(nodes): return True
        case _: return False

# the size of a list in bytes: Exec's List (include file exec/lists.h)
# list_size : ℕ  [execmodel/specs/Lists.antt:100]
@once
def list_size():
    return 14

# the alert of a call that frees a list: HANDLE if none begins there, LINK if it has nodes
# free_list_alert : ℕ → Heap → Option Alert  [execmodel/specs/Lists.antt:108]
def free_list_alert(list_, heap):
    if not is_list_at(list_, heap): return Some(Alert.Handle)
    return Some(Alert.Link) if is_some(first(nodes_of(list_, heap))) else None

# a list begins at an address
# is_list_at : ℕ → Heap → Bool  [execmodel/specs/Lists.antt:27]
def is_list_at(address, heap):
    return is_kind(is_list, object_at(address, heap))

# the nodes of the list that begins at an address
# nodes_of : ℕ → Heap → List ℕ  [execmodel/specs/Lists.antt:45]
def nodes_of(list_, heap):
    return nodes_of_object(object_at(list_, heap))

# the nodes of what begins at an address, none if it is not a list
# nodes_of_object : Option Object → List ℕ  [execmodel/specs/Lists.antt:40]
def nodes_of_object(object_):
    match object_:
        case None: return []
        case Some(object_): return nodes_in(object_)
        case _: raise NoCase('nodes_of_object')

# the nodes of a list, none for another object
# nodes_in : Object → List ℕ  [execmodel/specs/Lists.antt:35]
def nodes_in(object_):
    match object_:
        case Object.ListHead(nodes): return nodes
        case _: return []

# the alert of NewNode: VALUE if the priority is not one that a task may have
# new_node_alert : ℤ → Option Alert  [execmodel/specs/Lists.antt:114]
def new_node_alert(pri):
    return Some(Alert.Value) if not is_priority(pri) else None

# the object is a node
# is_node : Object → Bool  [execmodel/specs/Lists.antt:22]
def is_node(object_):
    match object_:
        case Object.Node(key): return True
        case _: return False

# the size of a node in bytes: Exec's Node (include file exec/nodes.h)
# node_size : ℕ  [execmodel/specs/Lists.antt:104]
@once
def node_size():
    return 14

# the alert of a call that frees a node: HANDLE if none begins there, LINK if it is linked
# free_node_alert : ℕ → Heap → Option Alert  [execmodel/specs/Lists.antt:118]
def free_node_alert(node, heap):
    if not is_node_at(node, heap): return Some(Alert.Handle)
    return Some(Alert.Link) if is_linked(node, heap) else None

# a node begins at an address
# is_node_at : ℕ → Heap → Bool  [execmodel/specs/Lists.antt:31]
def is_node_at(address, heap):
    return is_kind(is_node, object_at(address, heap))

# a node is linked: it is in a list
# is_linked : ℕ → Heap → Bool  [execmodel/specs/Lists.antt:73]
def is_linked(node, heap):
    return is_in_nodes(node, sequence_with(node, heap))

# a node is in a sequence
# is_in_nodes : ℕ → List ℕ → Bool  [execmodel/specs/Lists.antt:63]
def is_in_nodes(node, nodes):
    return any(other == node for other in nodes)

# the nodes of the list that a node is in, none if it is in no list
# sequence_with : ℕ → Heap → List ℕ  [execmodel/specs/Lists.antt:67]
def sequence_with(node, heap):
    match heap:
        case []: return []
        case [entry, *rest]:
            if is_in_nodes(node, nodes_in(entry[1].object_)): return nodes_in(entry[1].object_)
            return sequence_with(node, rest)
        case _: raise NoCase('sequence_with')

# the alert of a call that links a node into a list: HANDLE if the list or the node is not there, LINK if the node is
# linked
# link_alert : ℕ → ℕ → Heap → Option Alert  [execmodel/specs/Lists.antt:127]
def link_alert(list_, node, heap):
    if not is_list_at(list_, heap): return Some(Alert.Handle)
    if not is_node_at(node, heap): return Some(Alert.Handle)
    return Some(Alert.Link) if is_linked(node, heap) else None

# the node becomes the first of the list
# added_head : ℕ → ℕ → Heap → Heap  [execmodel/specs/Lists.antt:134]
def added_head(list_, node, heap):
    return with_nodes(list_, [node, *nodes_of(list_, heap)], heap)

# the list that begins at an address gets these nodes, and nothing else changes
# with_nodes : ℕ → List ℕ → Heap → Heap  [execmodel/specs/Lists.antt:81]
def with_nodes(list_, nodes, heap):
    return [relisted(list_, nodes, each) for each in heap]

# an entry of the heap, which gets these nodes if it is the list at that address
# relisted : ℕ → List ℕ → ℕ × Block → ℕ × Block  [execmodel/specs/Lists.antt:77]
def relisted(list_, nodes, entry):
    return (entry[0], replace(entry[1], object_=Object.ListHead(nodes)) if entry[0] == list_ else entry[1])

# the node becomes the last of the list
# added_tail : ℕ → ℕ → Heap → Heap  [execmodel/specs/Lists.antt:138]
def added_tail(list_, node, heap):
    return with_nodes(list_, nodes_of(list_, heap) + [node], heap)

# the node is put before the first node of lower priority, or last if there is none
# enqueued : ℕ → ℕ → Heap → Heap  [execmodel/specs/Lists.antt:142]
def enqueued(list_, node, heap):
    return with_nodes(list_, enqueue(lambda other: key_of(other, heap).pri, nodes_of(list_, heap), node), heap)

# the priority and the name of the node that begins at an address
# key_of : ℕ → Heap → KeyData  [execmodel/specs/Lists.antt:59]
def key_of(node, heap):
    return key_of_object(object_at(node, heap))

# the priority and the name of what begins at an address
# key_of_object : Option Object → KeyData  [execmodel/specs/Lists.antt:54]
def key_of_object(object_):
    match object_:
        case None: return blank()
        case Some(object_): return key_in(object_)
        case _: raise NoCase('key_of_object')

# the priority and the name of a node, those of a new one for another object
# key_in : Object → KeyData  [execmodel/specs/Lists.antt:49]
def key_in(object_):
    match object_:
        case Object.Node(key): return key
        case _: return blank()

# the alert of Insert: HANDLE if the list, the node or the predecessor is not there, LINK if the node is linked or the
# predecessor is not in the list
# insert_alert : ℕ → ℕ → ℕ → Heap → Option Alert  [execmodel/specs/Lists.antt:166]
def insert_alert(list_, node, pred, heap):
    if not is_list_at(list_, heap): return Some(Alert.Handle)
    if not is_node_at(node, heap): return Some(Alert.Handle)
    if not is_pred_at(predecessor(pred), heap): return Some(Alert.Handle)
    if is_linked(node, heap): return Some(Alert.Link)
    return Some(Alert.Link) if not is_pred_in(predecessor(pred), list_, heap) else None

# a predecessor is a node, or there is none
# is_pred_at : Option ℕ → Heap → Bool  [execmodel/specs/Lists.antt:151]
def is_pred_at(pred, heap):
    match pred:
        case None: return True
        case Some(pred): return is_node_at(pred, heap)
        case _: raise NoCase('is_pred_at')

# an address as a predecessor: 0 means that there is none
# predecessor : ℕ → Option ℕ  [execmodel/specs/Lists.antt:146]
def predecessor(number):
    match number:
        case 0: return None
        case _ if number > 0:
            p = number - 1
            return Some(suc(p))
        case _: raise NoCase('predecessor')

# a predecessor is in the list, or there is none
# is_pred_in : Option ℕ → ℕ → Heap → Bool  [execmodel/specs/Lists.antt:160]
def is_pred_in(pred, list_, heap):
    match pred:
        case None: return True
        case Some(pred): return is_in_nodes(pred, nodes_of(list_, heap))
        case _: raise NoCase('is_pred_in')

# the node is put after its predecessor, or becomes the first of the list for 0
# inserted : ℕ → ℕ → ℕ → Heap → Heap  [execmodel/specs/Lists.antt:175]
def inserted(list_, node, pred, heap):
    return with_nodes(list_, put_after(predecessor(pred), node, nodes_of(list_, heap)), heap)

# the alert of a call on a linked node: HANDLE if no node begins there, LINK if it is not linked
# linked_alert : ℕ → Heap → Option Alert  [execmodel/specs/Lists.antt:181]
def linked_alert(node, heap):
    if not is_node_at(node, heap): return Some(Alert.Handle)
    return Some(Alert.Link) if not is_linked(node, heap) else None

# a node leaves the list that it is in; the lists keep their other nodes in their order
# unlinked : ℕ → Heap → Heap  [execmodel/specs/Lists.antt:90]
def unlinked(node, heap):
    return [(entry[0], replace(entry[1], object_=left_by(node, entry[1].object_))) for entry in heap]

# a list without that node; another object stays as it is
# left_by : ℕ → Object → Object  [execmodel/specs/Lists.antt:85]
def left_by(node, object_):
    match object_:
        case Object.ListHead(nodes): return Object.ListHead(without_item(node, nodes))
        case object_: return object_

# the alert of a call on a list: HANDLE if none begins there
# list_alert : ℕ → Heap → Option Alert  [execmodel/specs/Lists.antt:187]
def list_alert(list_, heap):
    return Some(Alert.Handle) if not is_list_at(list_, heap) else None

# the first node of a list, or 0 if it is empty
# first_of : ℕ → Heap → ℕ  [execmodel/specs/Lists.antt:191]
def first_of(list_, heap):
    return or_none(first(nodes_of(list_, heap)))

# an address, or 0 if there is none
# or_none : Option ℕ → ℕ  [execmodel/specs/Lists.antt:94]
def or_none(place):
    return unwrap_or(place, 0)

# a list without its first node
# removed_head : ℕ → Heap → Heap  [execmodel/specs/Lists.antt:199]
def removed_head(list_, heap):
    return with_nodes(list_, drop(1, nodes_of(list_, heap)), heap)

# the last node of a list, or 0 if it is empty
# last_of : ℕ → Heap → ℕ  [execmodel/specs/Lists.antt:195]
def last_of(list_, heap):
    return or_none(last(nodes_of(list_, heap)))

# a list without its last node
# removed_tail : ℕ → Heap → Heap  [execmodel/specs/Lists.antt:203]
def removed_tail(list_, heap):
    return with_nodes(list_, take(monus(len(nodes_of(list_, heap)), 1), nodes_of(list_, heap)), heap)

# the node after a node in its list, or 0 if it is the last
# succ_of : ℕ → Heap → ℕ  [execmodel/specs/Lists.antt:209]
def succ_of(node, heap):
    return or_none(first(part_after(node, sequence_with(node, heap))))

# the node before a node in its list, or 0 if it is the first
# pred_of : ℕ → Heap → ℕ  [execmodel/specs/Lists.antt:213]
def pred_of(node, heap):
    return or_none(last(part_before(node, sequence_with(node, heap))))

# the alert of FindName: none if it starts at a list, and else that of a call on a linked node
# find_alert : ℕ → Heap → Option Alert  [execmodel/specs/Lists.antt:217]
def find_alert(start, heap):
    return None if is_list_at(start, heap) else linked_alert(start, heap)

# the first node of that name among those where FindName looks, or 0
# found_node : ℕ → List ℕ → Heap → ℕ  [execmodel/specs/Lists.antt:229]
def found_node(start, name, heap):
    return or_none(find(partial(has_name, name, heap), searched(start, heap)))

# a node has that name, byte for byte
# has_name : List ℕ → Heap → ℕ → Bool  [execmodel/specs/Lists.antt:225]
def has_name(name, heap, node):
    return name_is(key_of(node, heap).name, name)

# the nodes among which FindName looks: those of the list, or those after the node
# searched : ℕ → Heap → List ℕ  [execmodel/specs/Lists.antt:221]
def searched(start, heap):
    if is_list_at(start, heap): return nodes_of(start, heap)
    return part_after(start, sequence_with(start, heap))


# ---- Memory (RKM Libraries, Exec Memory Allocation): blocks that AllocMem allocates and FreeMem frees.
# [execmodel/specs/Memory.antt]

# a call of task t on memory, by its word
# does_memory : MemoryWord → ℕ → Call → State → Outcome  [execmodel/specs/Memory.antt:89]
def does_memory(word, t, call, s):
    return performs(memory_deed(word, call), t, call, s)

# what a call on memory does: the alert that refuses it, how it changes the blocks, and what it returns
# memory_deed : MemoryWord → Call → Deed  [execmodel/specs/Memory.antt:68]
def memory_deed(memory_word, call):
    match memory_word:
        # AllocMem size reqs: returns the address of a new plain block, or 0 if there is no place for it or the size is
        # 0. It is placed in a suitable region with room for it, the earliest of highest priority, at the front of the
        # lowest gap that is large enough. If no region has room, libraries are first asked for memory, in version 2 of
        # the rules (autodoc exec.library/AllocMem; size 0, the order of asking, and the alert: project rule).
        case MemoryWord.AllocMem:
            size = argument(0, call)
            reqs = argument(1, call)
            return allots(
                alloc_alert(reqs),
                partial(after_asking, size, reqs),
                partial(place_for, size, reqs),
                size,
                Object.Plain,
            )
        # FreeMem addr size: the plain block is freed that begins at the address, and is of that size rounded up
        # (autodoc exec.library/FreeMem; the alert: project rule)
        case MemoryWord.FreeMem:
            return frees_block(partial(free_alert, argument(0, call), argument(1, call)), argument(0, call))
        # AvailMem reqs: returns how many bytes are free in the suitable regions, or with MEMF_LARGEST the size of their
        # largest gap, or with MEMF_TOTAL their whole size (autodoc exec.library/AvailMem; the alert: project rule)
        case MemoryWord.AvailMem:
            return Deed(
                alert=lambda memory: avail_alert(argument(0, call)),
                heap=lambda memory: memory.heap,
                answer=lambda memory: Some(avail(memory.regions, extents(memory.heap), argument(0, call))),
            )
        case _: raise NoCase('memory_deed')

# the alert of AllocMem: VALUE if the requirements have a bit that it does not know
# alloc_alert : ℕ → Option Alert  [execmodel/specs/Memory.antt:31]
def alloc_alert(reqs):
    return Some(Alert.Value) if not has_only(alloc_bits(), reqs) else None

# requirements have no bits other than these
# has_only : ℕ → ℕ → Bool  [execmodel/specs/Memory.antt:14]
def has_only(bits, reqs):
    return reqs & bits == reqs

# the bits that AllocMem knows: MEMF_PUBLIC, MEMF_CHIP, MEMF_FAST and MEMF_CLEAR
# alloc_bits : ℕ  [execmodel/specs/Memory.antt:18]
@once
def alloc_bits():
    return 65_543

# the alert of FreeMem: MEM if no plain block begins at the address, or the size does not fit it
# free_alert : ℕ → ℕ → Heap → Option Alert  [execmodel/specs/Memory.antt:47]
def free_alert(address, size, heap):
    return Some(Alert.Mem) if not is_named(size, block_at(address, heap)) else None

# there is a plain block, and the size fits it: it is not 0, and rounded up it is the block's size
# is_named : ℕ → Option Block → Bool  [execmodel/specs/Memory.antt:42]
def is_named(size, block):
    match block:
        case None: return False
        case Some(block): return is_plain(block.object_) and 0 < size and round_(size) == block.size
        case _: raise NoCase('is_named')

# the object is a plain block, as AllocMem gives it
# is_plain : Object → Bool  [execmodel/specs/Memory.antt:37]
def is_plain(object_):
    match object_:
        case Object.Plain: return True
        case _: return False

# the alert of AvailMem: VALUE if it may not be called with these requirements
# avail_alert : ℕ → Option Alert  [execmodel/specs/Memory.antt:62]
def avail_alert(reqs):
    return Some(Alert.Value) if not can_be_asked(reqs) else None

# AvailMem may be called with these requirements: it knows all their bits, and MEMF_LARGEST and MEMF_TOTAL are not both
# set
# can_be_asked : ℕ → Bool  [execmodel/specs/Memory.antt:58]
def can_be_asked(reqs):
    return has_only(avail_bits(), reqs) and not (asks(17, reqs) and asks(19, reqs))

# the bits that AvailMem knows: those of AllocMem, MEMF_LARGEST and MEMF_TOTAL
# avail_bits : ℕ  [execmodel/specs/Memory.antt:53]
@once
def avail_bits():
    return 720_903

# a call makes an object of a kind, which takes that many bytes, and returns its address, or 0 if the pool does not
# allow one more or there is no place for it
# makes_object : ℕ → Call → (Object → Bool) → ℕ → Object → State → Outcome  [execmodel/specs/Memory.antt:27]
def makes_object(t, call, kind, size, object_, s):
    return allocates_block(t, call, size, object_, place_for_object(kind, size, s.memory), s)

# a call that allocates a block returns its address, or 0 if there is no place for it
# allocates_block : ℕ → Call → ℕ → Object → Option ℕ → State → Outcome  [execmodel/specs/Memory.antt:22]
def allocates_block(t, call, size, object_, place, s):
    return answered(t, call, unwrap_or(place, 0), on_memory(partial(placed, size, object_, place), s))


# ---- Message ports and messages (RKM Libraries, Exec Messages and Ports). A port has a sequence of messages in order
# of arrival; a message is in one port at most, once. The public ports are a sequence in order of arrival; the one of a
# name is the earliest among those of highest priority that have it. An address at which no object of the kind begins is
# the alert HANDLE; a message that is in a port where it must be in none, or a port that is public where it must not be,
# or is not public where it must be, is the alert LINK; a port that is in use, or that does not signal the caller, is
# the alert PORT (project rule). [execmodel/specs/Ports.antt]

# a call of task t on ports and messages, by its word
# does_ports : PortWord → ℕ → Call → State → Outcome  [execmodel/specs/Ports.antt:456]
def does_ports(port_word, t, call, s):
    match port_word:
        case PortWord.CreateMsgPort: return does_create_msg_port(t, call, s)
        case PortWord.DeleteMsgPort: return does_delete_msg_port(t, call, s)
        case PortWord.AddPort: return does_add_port(t, call, s)
        case PortWord.RemPort: return does_rem_port(t, call, s)
        case PortWord.FindPort: return does_find_port(t, call, s)
        case PortWord.PortSignal: return does_port_signal(t, call, s)
        case PortWord.PortCause: return does_port_cause(t, call, s)
        case PortWord.PortIgnore: return does_port_ignore(t, call, s)
        case PortWord.NewMsg: return does_new_msg(t, call, s)
        case PortWord.FreeMsg: return does_free_msg(t, call, s)
        case PortWord.MsgWord: return does_msg_word(t, call, s)
        case PortWord.SetMsgWord: return does_set_msg_word(t, call, s)
        case PortWord.MsgType: return does_msg_type(t, call, s)
        case PortWord.PutMsg: return does_put_msg(t, call, s)
        case PortWord.GetMsg: return does_get_msg(t, call, s)
        case PortWord.WaitPort: return does_wait_port(t, call, s)
        case PortWord.ReplyMsg: return does_reply_msg(t, call, s)
        case _: raise NoCase('does_ports')

# CreateMsgPort: returns the address of a new port of the caller, which signals the caller by a newly allocated signal;
# or 0 if it cannot be made (autodoc exec.library/CreateMsgPort)
# does_create_msg_port : ℕ → Call → State → Outcome  [execmodel/specs/Ports.antt:177]
def does_create_msg_port(t, call, s):
    bit = grant(-1, signals_of(s.schedule, t))
    return makes_port(t, call, bit, on_memory(partial(after_asking_for_port, bit), s))

# CreateMsgPort makes a port, if the pool allows one more, there is a place for it, and the caller has a signal left
# makes_port : ℕ → Call → Option ℕ → State → Outcome  [execmodel/specs/Ports.antt:172]
def makes_port(t, call, bit, s):
    return port_created(t, call, bit, place_for_object(is_port, port_size(), s.memory), s)

# CreateMsgPort is done: the caller gets a port at that address, and the signal of that number, and the address is
# returned; if either is not given, nothing changes and 0 is returned
# port_created : ℕ → Call → Option ℕ → Option ℕ → State → Outcome  [execmodel/specs/Ports.antt:158]
def port_created(t, call, bit, place, s):
    match bit, place:
        case None, place: return answered(t, call, 0, s)
        case Some(bit), None: return answered(t, call, 0, s)
        case Some(bit), Some(address):
            return answered(
                t,
                call,
                address,
                on_schedule(
                    partial(allocates_signal, t, -1),
                    on_memory(partial(placed, port_size(), Object.MsgPort(new_port(t, bit), []), Some(address)), s),
                ),
            )
        case _: raise NoCase('port_created')

# the size of a port in bytes: Exec's MsgPort (include file exec/ports.h)
# port_size : ℕ  [execmodel/specs/Ports.antt:149]
@once
def port_size():
    return 34

# the object is a message port
# is_port : Object → Bool  [execmodel/specs/Ports.antt:26]
def is_port(object_):
    match object_:
        case Object.MsgPort(port, messages): return True
        case _: return False

# the memory after libraries were asked for memory for a port; if there is no signal for the port, none is asked
# (project rule)
# after_asking_for_port : Option ℕ → Memory → Memory  [execmodel/specs/Ports.antt:167]
def after_asking_for_port(bit, memory):
    match bit:
        case None: return memory
        case Some(bit): return after_asking_for_object(is_port, port_size(), memory)
        case _: raise NoCase('after_asking_for_port')

# DeleteMsgPort port: the port is freed, and its signal is given back to its task, whichever task calls; 0 does nothing
# (autodoc exec.library/DeleteMsgPort; the alerts: project rule)
# does_delete_msg_port : ℕ → Call → State → Outcome  [execmodel/specs/Ports.antt:206]
def does_delete_msg_port(t, call, s):
    port = argument(0, call)
    if port == 0: return done(t, call, s)
    return unless(
        delete_alert(port, s.memory),
        t,
        call,
        lambda s: done(
            t, call, on_schedule(partial(gives_back, port_of(port, s.memory.heap)), on_memory(partial(freed, port), s))
        ),
        s,
    )

# the alert of a call that frees a port: HANDLE if none begins there, PORT if it has a message, is public, or is the
# reply port of a request in progress
# delete_alert : ℕ → Memory → Option Alert  [execmodel/specs/Ports.antt:193]
def delete_alert(port, memory):
    if not is_port_at(port, memory.heap): return Some(Alert.Handle)
    if is_some(first(messages_of(port, memory.heap))): return Some(Alert.Port)
    if is_public(port, memory): return Some(Alert.Port)
    return Some(Alert.Port) if is_awaited_at(port, memory.heap) else None

# a port begins at an address
# is_port_at : ℕ → Heap → Bool  [execmodel/specs/Ports.antt:36]
def is_port_at(address, heap):
    return is_kind(is_port, object_at(address, heap))

# the messages of the port that begins at an address
# messages_of : ℕ → Heap → List ℕ  [execmodel/specs/Ports.antt:68]
def messages_of(port, heap):
    return messages_of_object(object_at(port, heap))

# the messages of what begins at an address, none if it is not a port
# messages_of_object : Option Object → List ℕ  [execmodel/specs/Ports.antt:63]
def messages_of_object(object_):
    match object_:
        case None: return []
        case Some(object_): return messages_in(object_)
        case _: raise NoCase('messages_of_object')

# the messages of a port, none for another object
# messages_in : Object → List ℕ  [execmodel/specs/Ports.antt:58]
def messages_in(object_):
    match object_:
        case Object.MsgPort(port, messages): return messages
        case _: return []

# a port is public (autodoc AddPort)
# is_public : ℕ → Memory → Bool  [execmodel/specs/Ports.antt:113]
def is_public(port, memory):
    return any(public.port == port for public in memory.public)

# a request in progress has that reply port
# is_awaited_at : ℕ → Heap → Bool  [execmodel/specs/Ports.antt:188]
def is_awaited_at(port, heap):
    return any(replies_to(port, entry[1].object_) for entry in heap)

# an object is a request in progress whose reply goes to that port
# replies_to : ℕ → Object → Bool  [execmodel/specs/Ports.antt:183]
def replies_to(port, object_):
    match object_:
        case Object.Request(content): return content.port == port and is_under_way(content)
        case _: return False

# the signal of a port is no longer allocated by its task (autodoc DeleteMsgPort)
# gives_back : Port → Schedule → Schedule  [execmodel/specs/Ports.antt:201]
def gives_back(port, s):
    return frees_signal(port.task, port.bit, s)

# the task, the signal and the action of the port that begins at an address (RKM Libraries, Exec Messages and Ports)
# port_of : ℕ → Heap → Port  [execmodel/specs/Ports.antt:54]
def port_of(port, heap):
    return port_of_object(object_at(port, heap))

# the task, the signal and the action of what begins at an address
# port_of_object : Option Object → Port  [execmodel/specs/Ports.antt:49]
def port_of_object(object_):
    match object_:
        case None: return new_port(0, 0)
        case Some(object_): return port_in(object_)
        case _: raise NoCase('port_of_object')

# the task, the signal and the action of a port, those of a new one for another object
# port_in : Object → Port  [execmodel/specs/Ports.antt:44]
def port_in(object_):
    match object_:
        case Object.MsgPort(port, messages): return port
        case _: return new_port(0, 0)

# AddPort port name pri: the port becomes public under the name; its messages stay (autodoc exec.library/AddPort; that
# the priority is read as a signed word, that the messages stay, and the alerts: project rule)
# does_add_port : ℕ → Call → State → Outcome  [execmodel/specs/Ports.antt:225]
def does_add_port(t, call, s):
    port = argument(0, call)
    name = unwrap_or(name_argument(1, call), [])
    pri = cast_signed(32, argument(2, call))
    return unless(
        add_port_alert(port, pri, s.memory),
        t,
        call,
        lambda s: done(t, call, on_memory(partial(made_public, port, name, pri), s)),
        s,
    )

# the alert of AddPort: HANDLE if no port begins there, VALUE if the priority is not one that a task may have, LINK if
# the port is public already
# add_port_alert : ℕ → ℤ → Memory → Option Alert  [execmodel/specs/Ports.antt:217]
def add_port_alert(port, pri, memory):
    if not is_port_at(port, memory.heap): return Some(Alert.Handle)
    if not is_priority(pri): return Some(Alert.Value)
    return Some(Alert.Link) if is_public(port, memory) else None

# a port becomes public, after those that are (autodocs AddPort and RemPort)
# made_public : ℕ → List ℕ → ℤ → Memory → Memory  [execmodel/specs/Ports.antt:129]
def made_public(port, name, pri, memory):
    return replace(memory, public=memory.public + [under(port, name, pri)])

# a public port with that name and priority
# under : ℕ → List ℕ → ℤ → PublicPort  [execmodel/specs/Ports.antt:125]
def under(port, name, pri):
    return PublicPort(port=port, key=KeyData(pri=pri, name=Some(name)))

# RemPort port: the port is no longer public (autodoc exec.library/RemPort; the alerts: project rule)
# does_rem_port : ℕ → Call → State → Outcome  [execmodel/specs/Ports.antt:239]
def does_rem_port(t, call, s):
    port = argument(0, call)
    return unless(
        rem_port_alert(port, s.memory),
        t,
        call,
        lambda s: done(t, call, on_memory(partial(made_private, port), s)),
        s,
    )

# the alert of RemPort: HANDLE if no port begins there, LINK if it is not public
# rem_port_alert : ℕ → Memory → Option Alert  [execmodel/specs/Ports.antt:233]
def rem_port_alert(port, memory):
    if not is_port_at(port, memory.heap): return Some(Alert.Handle)
    return None if is_public(port, memory) else Some(Alert.Link)

# a port is no longer public
# made_private : ℕ → Memory → Memory  [execmodel/specs/Ports.antt:133]
def made_private(port, memory):
    return replace(memory, public=[public for public in memory.public if not public.port == port])

# FindPort name: returns the public port of that name, or 0 if there is none (autodoc exec.library/FindPort)
# does_find_port : ℕ → Call → State → Outcome  [execmodel/specs/Ports.antt:245]
def does_find_port(t, call, s):
    return answered(t, call, found_port(unwrap_or(name_argument(0, call), []), s.memory), s)

# the public port of a name: the earliest among those of highest priority that have it, or 0 if none has (autodoc
# FindPort)
# found_port : List ℕ → Memory → ℕ  [execmodel/specs/Ports.antt:143]
def found_port(name, memory):
    return port_or_none(chosen(priority_of_public, [each for each in memory.public if is_called(name, each)]))

# the address of a public port, or 0 for none
# port_or_none : Option PublicPort → ℕ  [execmodel/specs/Ports.antt:137]
def port_or_none(public):
    match public:
        case None: return 0
        case Some(public): return public.port
        case _: raise NoCase('port_or_none')

# the priority of a public port
# priority_of_public : PublicPort → ℤ  [execmodel/specs/Ports.antt:117]
def priority_of_public(public):
    return public.key.pri

# a public port has that name, byte for byte
# is_called : List ℕ → PublicPort → Bool  [execmodel/specs/Ports.antt:121]
def is_called(name, public):
    return name_is(public.key.name, name)

# PortSignal port: from now on the port signals its task when a message arrives, as a new port does (RKM Libraries, Exec
# Messages and Ports: mp_Flags, PA_SIGNAL; that there is a call for it: project rule)
# does_port_signal : ℕ → Call → State → Outcome  [execmodel/specs/Ports.antt:256]
def does_port_signal(t, call, s):
    port = argument(0, call)
    return unless(
        port_alert(port, s.memory.heap),
        t,
        call,
        lambda s: done(t, call, on_memory(partial(on_heap, partial(with_action, PortAction.Signal, port)), s)),
        s,
    )

# the alert of a call on a port: HANDLE if no port begins at the address
# port_alert : ℕ → Heap → Option Alert  [execmodel/specs/Ports.antt:103]
def port_alert(port, heap):
    return Some(Alert.Handle) if not is_port_at(port, heap) else None

# a port gets that action
# with_action : PortAction → ℕ → Heap → Heap  [execmodel/specs/Ports.antt:251]
def with_action(act, port, heap):
    return with_port(port, replace(port_of(port, heap), action=act), messages_of(port, heap), heap)

# what begins at an address becomes that port, with these messages
# with_port : ℕ → Port → List ℕ → Heap → Heap  [execmodel/specs/Ports.antt:94]
def with_port(address, port, messages, heap):
    return [replaced(address, Object.MsgPort(port, messages), each) for each in heap]

# PortCause port name: from now on the port causes the software interrupt of that name when a message arrives (RKM
# Libraries, Exec Messages and Ports: mp_Flags, PA_SOFTINT; that there is a call for it: project rule)
# does_port_cause : ℕ → Call → State → Outcome  [execmodel/specs/Ports.antt:263]
def does_port_cause(t, call, s):
    port = argument(0, call)
    i = softint_number(unwrap_or(name_argument(1, call), []), s.bodies.softints)
    return unless(
        port_alert(port, s.memory.heap),
        t,
        call,
        lambda s: done(t, call, on_memory(partial(on_heap, partial(with_action, PortAction.Cause(i), port)), s)),
        s,
    )

# PortIgnore port: from now on the port does nothing when a message arrives (RKM Libraries, Exec Messages and Ports:
# mp_Flags, PA_IGNORE; that there is a call for it: project rule)
# does_port_ignore : ℕ → Call → State → Outcome  [execmodel/specs/Ports.antt:271]
def does_port_ignore(t, call, s):
    port = argument(0, call)
    return unless(
        port_alert(port, s.memory.heap),
        t,
        call,
        lambda s: done(t, call, on_memory(partial(on_heap, partial(with_action, PortAction.Ignore, port)), s)),
        s,
    )

# NewMsg port word: returns the address of a new message with that word, and with that reply port, or with none for 0;
# or returns 0 if it cannot be made (project rule)
# does_new_msg : ℕ → Call → State → Outcome  [execmodel/specs/Ports.antt:284]
def does_new_msg(t, call, s):
    reply = argument(0, call)
    content = new_message(reply, argument(1, call))
    return unless(
        reply_port_alert(reply, s.memory.heap),
        t,
        call,
        lambda s: makes_object(
            t,
            call,
            is_message,
            message_size(),
            Object.Message(content),
            on_memory(partial(after_asking_for_object, is_message, message_size()), s),
        ),
        s,
    )

# the alert of a reply port: none for 0, as there is no reply port then; else HANDLE if no port begins there
# reply_port_alert : ℕ → Heap → Option Alert  [execmodel/specs/Ports.antt:279]
def reply_port_alert(port, heap):
    return None if port == 0 else port_alert(port, heap)

# the object is a message
# is_message : Object → Bool  [execmodel/specs/Ports.antt:31]
def is_message(object_):
    match object_:
        case Object.Message(content): return True
        case _: return False

# the size of a message in bytes: Exec's Message, and 4 for the word (include file exec/ports.h)
# message_size : ℕ  [execmodel/specs/Ports.antt:153]
@once
def message_size():
    return 24

# FreeMsg message: a message that is in no port is freed (project rule)
# does_free_msg : ℕ → Call → State → Outcome  [execmodel/specs/Ports.antt:298]
def does_free_msg(t, call, s):
    message = argument(0, call)
    return unless(
        unqueued_alert(message, s.memory.heap),
        t,
        call,
        lambda s: done(t, call, on_memory(partial(freed, message), s)),
        s,
    )

# the alert of a call on a message that must be in no port: HANDLE if none begins there, LINK if it is in a port
# unqueued_alert : ℕ → Heap → Option Alert  [execmodel/specs/Ports.antt:292]
def unqueued_alert(message, heap):
    if not is_message_at(message, heap): return Some(Alert.Handle)
    return Some(Alert.Link) if is_queued(message, heap) else None

# a message begins at an address
# is_message_at : ℕ → Heap → Bool  [execmodel/specs/Ports.antt:40]
def is_message_at(address, heap):
    return is_kind(is_message, object_at(address, heap))

# a message, or the reply of a request, is in a port
# is_queued : ℕ → Heap → Bool  [execmodel/specs/Ports.antt:90]
def is_queued(message, heap):
    return any(has_message(message, each) for each in heap)

# an entry of the heap is a port that has the message
# has_message : ℕ → ℕ × Block → Bool  [execmodel/specs/Ports.antt:86]
def has_message(message, entry):
    return any(other == message for other in messages_in(entry[1].object_))

# MsgWord message: returns its word (project rule)
# does_msg_word : ℕ → Call → State → Outcome  [execmodel/specs/Ports.antt:306]
def does_msg_word(t, call, s):
    message = argument(0, call)
    return unless(
        message_alert(message, s.memory.heap),
        t,
        call,
        lambda s: answered(t, call, content_of(message, s.memory.heap).word, s),
        s,
    )

# the alert of a call on a message: HANDLE if no message begins at the address
# message_alert : ℕ → Heap → Option Alert  [execmodel/specs/Ports.antt:107]
def message_alert(message, heap):
    return Some(Alert.Handle) if not is_message_at(message, heap) else None

# the type, the word and the reply port of the message that begins at an address
# content_of : ℕ → Heap → Message  [execmodel/specs/Ports.antt:82]
def content_of(message, heap):
    return content_of_object(object_at(message, heap))

# the type, the word and the reply port of what begins at an address
# content_of_object : Option Object → Message  [execmodel/specs/Ports.antt:77]
def content_of_object(object_):
    match object_:
        case None: return new_message(0, 0)
        case Some(object_): return content_in(object_)
        case _: raise NoCase('content_of_object')

# the type, the word and the reply port of a message, those of a new one for another object
# content_in : Object → Message  [execmodel/specs/Ports.antt:72]
def content_in(object_):
    match object_:
        case Object.Message(content): return content
        case _: return new_message(0, 0)

# SetMsgWord message word: the message gets that word (project rule)
# does_set_msg_word : ℕ → Call → State → Outcome  [execmodel/specs/Ports.antt:316]
def does_set_msg_word(t, call, s):
    message = argument(0, call)
    return unless(
        message_alert(message, s.memory.heap),
        t,
        call,
        lambda s: done(t, call, on_memory(partial(on_heap, partial(with_message_word, message, argument(1, call))), s)),
        s,
    )

# a message gets that word
# with_message_word : ℕ → ℕ → Heap → Heap  [execmodel/specs/Ports.antt:312]
def with_message_word(message, value, heap):
    return with_content(message, replace(content_of(message, heap), word=value), heap)

# the message that begins at an address gets that content; if none begins there, nothing changes
# with_content : ℕ → Message → Heap → Heap  [execmodel/specs/Ports.antt:98]
def with_content(address, content, heap):
    if is_message_at(address, heap): return [replaced(address, Object.Message(content), each) for each in heap]
    return heap

# MsgType message: returns its type, 0 for a new one (RKM Libraries, Exec Messages and Ports: ln_Type; that a new one
# has type 0, and that there is a call for it: project rule)
# does_msg_type : ℕ → Call → State → Outcome  [execmodel/specs/Ports.antt:324]
def does_msg_type(t, call, s):
    message = argument(0, call)
    return unless(
        message_alert(message, s.memory.heap),
        t,
        call,
        lambda s: answered(t, call, content_of(message, s.memory.heap).kind, s),
        s,
    )

# PutMsg, called by task t (autodoc PutMsg)
# does_put_msg : ℕ → Call → State → Outcome  [execmodel/specs/Ports.antt:368]
def does_put_msg(t, call, s):
    return does_put_msg_by(Caller.ByTask(t), call, s)

# PutMsg port message: the message is put at the port, after those that are there, and the port acts (autodoc
# exec.library/PutMsg; the alerts: project rule)
# does_put_msg_by : Caller → Call → State → Outcome  [execmodel/specs/Ports.antt:360]
def does_put_msg_by(c, call, s):
    port = argument(0, call)
    message = argument(1, call)
    return unless_by(
        put_alert(port, message, s.memory.heap),
        c,
        call,
        lambda s: leaving(Mark.put(port, message), done_by(c, call, delivered(nt_message(), port, message, s))),
        s,
    )

# the alert of PutMsg: HANDLE if the port or the message is not there, LINK if the message is in a port
# put_alert : ℕ → ℕ → Heap → Option Alert  [execmodel/specs/Ports.antt:355]
def put_alert(port, message, heap):
    return Some(Alert.Handle) if not is_port_at(port, heap) else unqueued_alert(message, heap)

# a message gets that type and becomes the last in a port, and then the port acts (autodocs PutMsg and ReplyMsg)
# delivered : ℕ → ℕ → ℕ → State → State  [execmodel/specs/Ports.antt:350]
def delivered(kind, port, message, s):
    return performed(
        arrival_action(port_of(port, s.memory.heap)),
        on_memory(partial(on_heap, partial(posted, kind, port, message)), s),
    )

# the action of a port is done for a message that has arrived: a signal, a software interrupt, or nothing
# performed : Action → State → State  [execmodel/specs/Ports.antt:344]
def performed(action, s):
    match action:
        case Action.Signal(task, mask): return on_schedule(partial(signalled, by_arrival(), task, mask), s)
        case Action.Cause(i): return causes(i, s)
        case Action.Nothing: return s
        case _: raise NoCase('performed')

# a message gets that type, and becomes the last in a port
# posted : ℕ → ℕ → ℕ → Heap → Heap  [execmodel/specs/Ports.antt:340]
def posted(kind, port, message, heap):
    return appended(port, message, typed(kind, message, heap))

# a message or a request, by its address, becomes the last in a port
# appended : ℕ → ℕ → Heap → Heap  [execmodel/specs/Ports.antt:336]
def appended(port, message, heap):
    return with_port(port, port_of(port, heap), messages_of(port, heap) + [message], heap)

# a message gets that type; an object of another kind stays as it is (autodocs PutMsg and ReplyMsg)
# typed : ℕ → ℕ → Heap → Heap  [execmodel/specs/Ports.antt:332]
def typed(kind, message, heap):
    return with_content(message, replace(content_of(message, heap), kind=kind), heap)

# GetMsg, called by task t (autodoc GetMsg)
# does_get_msg : ℕ → Call → State → Outcome  [execmodel/specs/Ports.antt:422]
def does_get_msg(t, call, s):
    return does_get_msg_by(Caller.ByTask(t), call, s)

# GetMsg port: returns the first message, which leaves the port, or 0 if there is none (autodoc exec.library/GetMsg)
# does_get_msg_by : Caller → Call → State → Outcome  [execmodel/specs/Ports.antt:416]
def does_get_msg_by(c, call, s):
    port = argument(0, call)
    return unless_by(
        port_alert(port, s.memory.heap),
        c,
        call,
        lambda s: taken_by(port, first(messages_of(port, s.memory.heap)), c, call, s),
        s,
    )

# GetMsg is done: the first message of a port, if there is one, leaves the port and is returned; else 0 is returned
# taken_by : ℕ → Option ℕ → Caller → Call → State → Outcome  [execmodel/specs/Ports.antt:407]
def taken_by(port, message, c, call, s):
    match message:
        case None: return answered_by(c, call, 0, s)
        case Some(message):
            return leaving(
                Mark.got(port, message),
                answered_by(c, call, message, on_memory(partial(on_heap, partial(taken_off, port)), s)),
            )
        case _: raise NoCase('taken_by')

# a port loses its first message (autodoc GetMsg)
# taken_off : ℕ → Heap → Heap  [execmodel/specs/Ports.antt:403]
def taken_off(port, heap):
    return with_port(port, port_of(port, heap), drop(1, messages_of(port, heap)), heap)

# WaitPort port: returns the first message of the port, and leaves it there; if there is none, the task waits for the
# port's signal, and looks again when it next runs, after the signal that it waited for is cleared (autodoc
# exec.library/WaitPort; how a task waits and looks again, and the alerts: project rule)
# does_wait_port : ℕ → Call → State → Outcome  [execmodel/specs/Ports.antt:444]
def does_wait_port(t, call, s):
    port = argument(0, call)
    def inner(s):
        mask = 2 ** port_of(port, s.memory.heap).bit
        cleared = on_schedule(partial(loses, t, call.awaited), s)
        return looked(first(messages_of(port, s.memory.heap)), mask, t, call, cleared)
    return unless(wait_alert(t, port, s.memory.heap), t, call, inner, s)

# the alert of WaitPort for task t: HANDLE if no port begins there, PORT if it does not signal that task
# wait_alert : ℕ → ℕ → Heap → Option Alert  [execmodel/specs/Ports.antt:426]
def wait_alert(t, port, heap):
    if not is_port_at(port, heap): return Some(Alert.Handle)
    return None if is_some(wait_bit(t, port_of(port, heap))) else Some(Alert.Port)

# task t loses the signals of the mask that it has received
# loses : ℕ → ℕ → Schedule → Schedule  [execmodel/specs/Ports.antt:432]
def loses(t, mask, s):
    return sets_signals(t, 0, mask, s)

# WaitPort returns the first message, if there is one; else the task clears the signals of the mask that it has
# received, and waits for one that comes from now on (autodoc WaitPort)
# looked : Option ℕ → ℕ → ℕ → Call → State → Outcome  [execmodel/specs/Ports.antt:437]
def looked(message, mask, t, call, s):
    match message:
        case None: return waiting(t, replace(call, awaited=mask), on_schedule(partial(clears_and_waits, t, mask), s))
        case Some(message): return answered(t, call, message, s)
        case _: raise NoCase('looked')

# ReplyMsg, called by task t (autodoc ReplyMsg)
# does_reply_msg : ℕ → Call → State → Outcome  [execmodel/specs/Ports.antt:397]
def does_reply_msg(t, call, s):
    return does_reply_msg_by(Caller.ByTask(t), call, s)

# ReplyMsg message: the message is put at its reply port, the one that begins at that address now, and the port acts; a
# message without a reply port gets the type NT_FREEMSG (autodoc exec.library/ReplyMsg; the alerts: project rule)
# does_reply_msg_by : Caller → Call → State → Outcome  [execmodel/specs/Ports.antt:390]
def does_reply_msg_by(c, call, s):
    message = argument(0, call)
    return unless_by(
        reply_alert(message, s.memory.heap),
        c,
        call,
        lambda s: replied_by(content_of(message, s.memory.heap).reply, c, call, message, s),
        s,
    )

# the alert of ReplyMsg: HANDLE if the message, or its reply port, if it has one, is not there; LINK if the message is
# in a port
# reply_alert : ℕ → Heap → Option Alert  [execmodel/specs/Ports.antt:373]
def reply_alert(message, heap):
    if not is_message_at(message, heap): return Some(Alert.Handle)
    if is_queued(message, heap): return Some(Alert.Link)
    return reply_port_alert(content_of(message, heap).reply, heap)

# ReplyMsg is done, for a message whose reply port is at that address, or is 0 if it has none
# replied_by : ℕ → Caller → Call → ℕ → State → Outcome  [execmodel/specs/Ports.antt:379]
def replied_by(reply, c, call, message, s):
    if reply == 0: return done_by(c, call, on_memory(partial(on_heap, partial(typed, nt_freemsg(), message)), s))
    return leaving(Mark.put(reply, message), done_by(c, call, delivered(nt_replymsg(), reply, message, s)))


# ---- Signal semaphores (RKM Libraries, Exec Semaphores). A semaphore has an owner or none, a count of how often the
# owner has to release it, and the tasks that wait for it, in order of request. An address at which no semaphore begins
# is the alert HANDLE; a semaphore that is owned where it must not be, is not owned by the caller where it must be, or
# would be obtained too often, is the alert SEM (project rule). [execmodel/specs/Semaphores.antt]

# a call of task t on semaphores, by its word
# does_semaphores : SemaphoreWord → ℕ → Call → State → Outcome  [execmodel/specs/Semaphores.antt:214]
def does_semaphores(semaphore_word, t, call, s):
    match semaphore_word:
        case SemaphoreWord.NewSem: return does_new_sem(t, call, s)
        case SemaphoreWord.FreeSem: return does_free_sem(t, call, s)
        case SemaphoreWord.ObtainSemaphore: return does_obtain_semaphore(t, call, s)
        case SemaphoreWord.AttemptSemaphore: return does_attempt_semaphore(t, call, s)
        case SemaphoreWord.ReleaseSemaphore: return does_release_semaphore(t, call, s)
        case _: raise NoCase('does_semaphores')

# NewSem: returns the address of a new semaphore, which no task owns, or 0 if it cannot be made (autodoc
# exec.library/InitSemaphore; that it takes the memory: project rule)
# does_new_sem : ℕ → Call → State → Outcome  [execmodel/specs/Semaphores.antt:108]
def does_new_sem(t, call, s):
    return makes_object(
        t,
        call,
        is_semaphore,
        semaphore_size(),
        Object.Semaphore(free_sem(), []),
        on_memory(partial(after_asking_for_object, is_semaphore, semaphore_size()), s),
    )

# the object is a semaphore
# is_semaphore : Object → Bool  [execmodel/specs/Semaphores.antt:22]
def is_semaphore(object_):
    match object_:
        case Object.Semaphore(sem, waiters): return True
        case _: return False

# the size of a semaphore in bytes: Exec's SignalSemaphore (include file exec/semaphores.h)
# semaphore_size : ℕ  [execmodel/specs/Semaphores.antt:103]
@once
def semaphore_size():
    return 46

# FreeSem semaphore: a semaphore that no task owns is freed (project rule)
# does_free_sem : ℕ → Call → State → Outcome  [execmodel/specs/Semaphores.antt:119]
def does_free_sem(t, call, s):
    semaphore = argument(0, call)
    return unless(
        free_sem_alert(semaphore, s.memory.heap),
        t,
        call,
        lambda s: done(t, call, on_memory(partial(freed, semaphore), s)),
        s,
    )

# the alert of a call that frees a semaphore: HANDLE if none begins there, SEM if a task owns it
# free_sem_alert : ℕ → Heap → Option Alert  [execmodel/specs/Semaphores.antt:113]
def free_sem_alert(semaphore, heap):
    if not is_semaphore_at(semaphore, heap): return Some(Alert.Handle)
    return Some(Alert.Sem) if is_owned(sem_of(semaphore, heap)) else None

# a semaphore begins at an address
# is_semaphore_at : ℕ → Heap → Bool  [execmodel/specs/Semaphores.antt:27]
def is_semaphore_at(address, heap):
    return is_kind(is_semaphore, object_at(address, heap))

# the owner, if there is one, and the count of the semaphore that begins at an address (RKM Libraries, Exec Semaphores)
# sem_of : ℕ → Heap → Sem  [execmodel/specs/Semaphores.antt:41]
def sem_of(semaphore, heap):
    return sem_of_object(object_at(semaphore, heap))

# the owner and the count of what begins at an address
# sem_of_object : Option Object → Sem  [execmodel/specs/Semaphores.antt:36]
def sem_of_object(object_):
    match object_:
        case None: return free_sem()
        case Some(object_): return sem_in(object_)
        case _: raise NoCase('sem_of_object')

# the owner and the count of a semaphore, those of a free one for another object
# sem_in : Object → Sem  [execmodel/specs/Semaphores.antt:31]
def sem_in(object_):
    match object_:
        case Object.Semaphore(sem, waiters): return sem
        case _: return free_sem()

# ObtainSemaphore semaphore: a task that finds it free owns it, with the count 1; the owner's count becomes one more;
# any other task waits, after those that asked before. When a task has waited and tries the call again, a release has
# made it the owner: nothing is checked, and the call is done (autodoc exec.library/ObtainSemaphore; the alerts: project
# rule).
# does_obtain_semaphore : ℕ → Call → State → Outcome  [execmodel/specs/Semaphores.antt:150]
def does_obtain_semaphore(t, call, s):
    semaphore = argument(0, call)
    if is_tried_again(t, s.scripts): return done(t, call, s)
    return unless(
        obtain_alert(t, semaphore, s.memory.heap),
        t,
        call,
        lambda s: obtains(
            outcome_for(t, sem_of(semaphore, s.memory.heap)),
            semaphore,
            t,
            call,
            on_memory(partial(on_heap, partial(obtained, semaphore, t)), s),
        ),
        s,
    )

# task t has waited in its call, and tries it again
# is_tried_again : ℕ → Scripts → Bool  [execmodel/specs/Semaphores.antt:143]
def is_tried_again(t, scripts):
    return is_some(program_of(scripts, t).kept)

# the alert of a call by which task t asks for a semaphore: HANDLE if none begins there, SEM if the task owns it and the
# count would go past 32767
# obtain_alert : ℕ → ℕ → Heap → Option Alert  [execmodel/specs/Semaphores.antt:128]
def obtain_alert(t, semaphore, heap):
    if not is_semaphore_at(semaphore, heap): return Some(Alert.Handle)
    return Some(Alert.Sem) if is_too_deep(t, sem_of(semaphore, heap)) else None

# ObtainSemaphore is done for a task that owns the semaphore; any other task waits (autodoc ObtainSemaphore)
# obtains : Obtained → ℕ → ℕ → Call → State → Outcome  [execmodel/specs/Semaphores.antt:138]
def obtains(this_obtained, semaphore, t, call, s):
    match this_obtained:
        case Obtained.Owner: return done(t, call, s)
        case Obtained.Waits:
            return leaving(Mark.asked(semaphore, t), waiting(t, call, on_schedule(partial(waits_at_semaphore, t), s)))
        case _: raise NoCase('obtains')

# task t owns the semaphore at once, or waits for it (autodocs ObtainSemaphore and AttemptSemaphore)
# obtained : ℕ → ℕ → Heap → Heap  [execmodel/specs/Semaphores.antt:134]
def obtained(semaphore, t, heap):
    if is_free_for(t, sem_of(semaphore, heap)): return entered(semaphore, t, heap)
    return queued(semaphore, t, heap)

# task t owns the semaphore, and has to release it once more than before (autodoc ObtainSemaphore)
# entered : ℕ → ℕ → Heap → Heap  [execmodel/specs/Semaphores.antt:69]
def entered(semaphore, t, heap):
    return with_semaphore(semaphore, once_more(t, sem_of(semaphore, heap)), waiters_of(semaphore, heap), heap)

# what begins at an address becomes that semaphore, with these waiting tasks
# with_semaphore : ℕ → Sem → List ℕ → Heap → Heap  [execmodel/specs/Semaphores.antt:59]
def with_semaphore(address, sem, waiters, heap):
    return [replaced(address, Object.Semaphore(sem, waiters), each) for each in heap]

# the tasks that wait for the semaphore that begins at an address
# waiters_of : ℕ → Heap → List ℕ  [execmodel/specs/Semaphores.antt:55]
def waiters_of(semaphore, heap):
    return waiters_of_object(object_at(semaphore, heap))

# the tasks that wait for what begins at an address
# waiters_of_object : Option Object → List ℕ  [execmodel/specs/Semaphores.antt:50]
def waiters_of_object(object_):
    match object_:
        case None: return []
        case Some(object_): return waiters_in(object_)
        case _: raise NoCase('waiters_of_object')

# the tasks that wait for a semaphore, none for another object
# waiters_in : Object → List ℕ  [execmodel/specs/Semaphores.antt:45]
def waiters_in(object_):
    match object_:
        case Object.Semaphore(sem, waiters): return waiters
        case _: return []

# task t waits for the semaphore, after those that wait for it already (autodoc ObtainSemaphore)
# queued : ℕ → ℕ → Heap → Heap  [execmodel/specs/Semaphores.antt:84]
def queued(semaphore, t, heap):
    return with_semaphore(semaphore, sem_of(semaphore, heap), waiters_of(semaphore, heap) + [t], heap)

# AttemptSemaphore semaphore: if ObtainSemaphore would make the task the owner, this does the same and returns 1; if the
# task would have to wait, nothing changes and 0 is returned (autodoc exec.library/AttemptSemaphore; the alerts: project
# rule)
# does_attempt_semaphore : ℕ → Call → State → Outcome  [execmodel/specs/Semaphores.antt:164]
def does_attempt_semaphore(t, call, s):
    semaphore = argument(0, call)
    return unless(
        obtain_alert(t, semaphore, s.memory.heap),
        t,
        call,
        lambda s: answered(
            t,
            call,
            1 if is_free_for(t, sem_of(semaphore, s.memory.heap)) else 0,
            on_memory(partial(on_heap, partial(attempted, semaphore, t)), s),
        ),
        s,
    )

# task t owns the semaphore at once, or nothing changes
# attempted : ℕ → ℕ → Heap → Heap  [execmodel/specs/Semaphores.antt:158]
def attempted(semaphore, t, heap):
    return entered(semaphore, t, heap) if is_free_for(t, sem_of(semaphore, heap)) else heap

# ReleaseSemaphore semaphore: the owner has to release the semaphore one time less. After the last release the first of
# the tasks that wait for it is the owner, with the count 1, and becomes ready; if none waits, no task owns it (autodoc
# exec.library/ReleaseSemaphore; the alerts: project rule).
# does_release_semaphore : ℕ → Call → State → Outcome  [execmodel/specs/Semaphores.antt:205]
def does_release_semaphore(t, call, s):
    semaphore = argument(0, call)
    return unless(
        release_alert(t, semaphore, s.memory.heap),
        t,
        call,
        lambda s: passes(
            heir(semaphore, s.memory.heap),
            semaphore,
            t,
            call,
            on_memory(partial(on_heap, partial(released, semaphore)), s),
        ),
        s,
    )

# the alert of ReleaseSemaphore for task t: HANDLE if no semaphore begins there, SEM if the task does not own it
# release_alert : ℕ → ℕ → Heap → Option Alert  [execmodel/specs/Semaphores.antt:173]
def release_alert(t, semaphore, heap):
    if not is_semaphore_at(semaphore, heap): return Some(Alert.Handle)
    return None if is_owner(t, sem_of(semaphore, heap)) else Some(Alert.Sem)

# ReleaseSemaphore is done: the new owner, if there is one, becomes ready (autodoc ReleaseSemaphore)
# passes : Option ℕ → ℕ → ℕ → Call → State → Outcome  [execmodel/specs/Semaphores.antt:198]
def passes(owner, semaphore, t, call, s):
    match owner:
        case None: return done(t, call, s)
        case Some(owner):
            return leaving(
                Mark.passed(semaphore, owner), done(t, call, on_schedule(partial(arrives, by_arrival(), owner), s))
            )
        case _: raise NoCase('passes')

# the task to which a release gives the semaphore: at the last release the first task that waits for it, if there is
# one; else none (autodoc ReleaseSemaphore)
# heir : ℕ → Heap → Option ℕ  [execmodel/specs/Semaphores.antt:180]
def heir(semaphore, heap):
    return first(waiters_of(semaphore, heap)) if is_last(sem_of(semaphore, heap)) else None

# the last release gives the semaphore to the task that waits first, or to none; any other release lowers the count
# (autodoc ReleaseSemaphore)
# released : ℕ → Heap → Heap  [execmodel/specs/Semaphores.antt:194]
def released(semaphore, heap):
    if is_last(sem_of(semaphore, heap)): return handed_on(semaphore, heap)
    return released_once(semaphore, heap)

# the first waiting task owns the semaphore, with the count 1, and waits no longer; if none waits, no task owns it
# handed_on : ℕ → Heap → Heap  [execmodel/specs/Semaphores.antt:184]
def handed_on(semaphore, heap):
    return with_semaphore(
        semaphore, owned_next(first(waiters_of(semaphore, heap))), drop(1, waiters_of(semaphore, heap)), heap
    )

# the owner has to release the semaphore one time less
# released_once : ℕ → Heap → Heap  [execmodel/specs/Semaphores.antt:189]
def released_once(semaphore, heap):
    return with_semaphore(semaphore, once_less(sem_of(semaphore, heap)), waiters_of(semaphore, heap), heap)

# task t waits for no semaphore; the other tasks keep their order
# dropped : ℕ → Heap → Heap  [execmodel/specs/Semaphores.antt:80]
def dropped(t, heap):
    return [(entry[0], replace(entry[1], object_=left_by_task(t, entry[1].object_))) for entry in heap]

# task t no longer waits for a semaphore; another object stays as it is
# left_by_task : ℕ → Object → Object  [execmodel/specs/Semaphores.antt:75]
def left_by_task(t, object_):
    match object_:
        case Object.Semaphore(sem, waiters): return Object.Semaphore(sem, without_item(t, waiters))
        case object_: return object_

# the mark of a removed task that waited for a semaphore; none if it waited for no semaphore
# leaving_queue : Option ℕ → ℕ → Outcome → Outcome  [execmodel/specs/Semaphores.antt:96]
def leaving_queue(semaphore, t, o):
    match semaphore:
        case None: return o
        case Some(semaphore): return leaving(Mark.left(semaphore, t), o)
        case _: raise NoCase('leaving_queue')

# the address of the semaphore that task t waits for, if it waits for one
# awaited_by : ℕ → Heap → Option ℕ  [execmodel/specs/Semaphores.antt:92]
def awaited_by(t, heap):
    return option_map(lambda entry: entry[0], find(partial(has_waiter, t), heap))

# an entry of the heap is a semaphore for which task t waits
# has_waiter : ℕ → ℕ × Block → Bool  [execmodel/specs/Semaphores.antt:88]
def has_waiter(t, entry):
    return any(other == t for other in waiters_in(entry[1].object_))


# ---- Calls on interrupts (RKM Libraries, Exec Interrupts: software interrupts). [execmodel/specs/Causing.antt]

# a call of task t on interrupts, by its word: Cause is the only one
# does_interrupts : InterruptWord → ℕ → Call → State → Outcome  [execmodel/specs/Causing.antt:18]
def does_interrupts(interrupt_word, t, call, s):
    match interrupt_word:
        case InterruptWord.Cause: return does_cause(t, call, s)
        case _: raise NoCase('does_interrupts')

# Cause, called by task t (autodoc Cause)
# does_cause : ℕ → Call → State → Outcome  [execmodel/specs/Causing.antt:12]
def does_cause(t, call, s):
    return does_cause_by(Caller.ByTask(t), call, s)

# Cause name: the software interrupt of that name is caused (autodoc exec.library/Cause)
# does_cause_by : Caller → Call → State → Outcome  [execmodel/specs/Causing.antt:8]
def does_cause_by(c, call, s):
    return done_by(c, call, causes(softint_number(unwrap_or(name_argument(0, call), []), s.bodies.softints), s))


# ---- Libraries (RKM Libraries, Exec Libraries). A library is absent, or it is loaded and begins at an address, its
# base. A base at which no loaded library begins is the alert HANDLE; a library that is closed more often than it was
# opened is the alert LIB (project rule). [execmodel/specs/Libraries.antt]

# a call of task t on libraries, by its word
# does_libraries : LibraryWord → ℕ → Call → State → Outcome  [execmodel/specs/Libraries.antt:143]
def does_libraries(library_word, t, call, s):
    match library_word:
        case LibraryWord.OpenLibrary: return does_open_library(t, call, s)
        case LibraryWord.CloseLibrary: return does_close_library(t, call, s)
        case LibraryWord.RemLibrary: return does_rem_library(t, call, s)
        case LibraryWord.LibOpenCnt: return does_lib_open_cnt(t, call, s)
        case _: raise NoCase('does_libraries')

# OpenLibrary name version: returns the base of the library of that name, which is loaded first if it is absent, and is
# open once more. Returns 0 if there is none of that name, its version is lower, it is open 65,535 times, or there is no
# place for it (autodoc exec.library/OpenLibrary; the count, and that a library takes memory with MEMF_PUBLIC: project
# rule).
# does_open_library : ℕ → Call → State → Outcome  [execmodel/specs/Libraries.antt:98]
def does_open_library(t, call, s):
    name = unwrap_or(name_argument(0, call), [])
    version = argument(1, call)
    return answered(
        t, call, unwrap_or(opening(name, version, s.memory), 0), on_memory(partial(opened, name, version), s)
    )

# the base that OpenLibrary returns, or none (autodoc OpenLibrary)
# opening : List ℕ → ℕ → Memory → Option ℕ  [execmodel/specs/Libraries.antt:70]
def opening(name, version, memory):
    found = library_to_open(name, version, memory)
    return base_opened(found, ready_to_open(found, memory))

# the library that OpenLibrary opens: that of the name, if its version is not too low and it may be opened once more
# library_to_open : List ℕ → ℕ → Memory → Option ℕ  [execmodel/specs/Libraries.antt:43]
def library_to_open(name, version, memory):
    return option_and_then(partial(only_if, partial(can_open, version, memory)), library_named(name, memory))

# library i has at least that version, and may be opened once more
# can_open : ℕ → Memory → ℕ → Bool  [execmodel/specs/Libraries.antt:39]
def can_open(version, memory, i):
    return version <= library_at(i, memory).version and not openings(i, memory) == most_openings()

# library i of the file, counted from 0
# library_at : ℕ → Memory → LibraryData  [execmodel/specs/Libraries.antt:27]
def library_at(i, memory):
    return slice_index_or(memory.libraries, i, no_library())

# what is read as a library at a number that the file does not have
# no_library : LibraryData  [execmodel/specs/Libraries.antt:23]
@once
def no_library():
    return LibraryData(name=[], version=0, size=0)

# how often library i is open, 0 if it is absent (autodoc OpenLibrary)
# openings : ℕ → Memory → ℕ  [execmodel/specs/Libraries.antt:35]
def openings(i, memory):
    return option_map_or(lambda base: count_of(base, memory.heap), base_of(i, memory.heap), 0)

# the number of the library of a name, if the file has one (autodoc OpenLibrary)
# library_named : List ℕ → Memory → Option ℕ  [execmodel/specs/Libraries.antt:31]
def library_named(name, memory):
    return position_from(lambda library: library.name == name, 0, memory.libraries)

# the base of a library that is opened, where it is loaded if it is absent; none if there is none to open or no place
# for it
# base_opened : Option ℕ → Memory → Option ℕ  [execmodel/specs/Libraries.antt:65]
def base_opened(i, memory):
    match i:
        case None: return None
        case Some(i): return base_or_place(base_of(i, memory.heap), i, memory)
        case _: raise NoCase('base_opened')

# the base of library i if it is loaded, and else the address where it is loaded, in a block with MEMF_PUBLIC, if there
# is one
# base_or_place : Option ℕ → ℕ → Memory → Option ℕ  [execmodel/specs/Libraries.antt:59]
def base_or_place(base, i, memory):
    match base:
        case Some(base): return Some(base)
        case None: return place_for(library_at(i, memory).size, public_memory(), memory)
        case _: raise NoCase('base_or_place')

# the memory before a library is opened: the others were asked for memory if it has to be loaded; unchanged if there is
# none to open
# ready_to_open : Option ℕ → Memory → Memory  [execmodel/specs/Libraries.antt:53]
def ready_to_open(i, memory):
    match i:
        case None: return memory
        case Some(i): return ready_to_load(base_of(i, memory.heap), i, memory)
        case _: raise NoCase('ready_to_open')

# the memory before library i is opened: if it has to be loaded, the others are asked for memory
# ready_to_load : Option ℕ → ℕ → Memory → Memory  [execmodel/specs/Libraries.antt:47]
def ready_to_load(base, i, memory):
    match base:
        case Some(base): return memory
        case None: return after_asking(library_at(i, memory).size, public_memory(), memory)
        case _: raise NoCase('ready_to_load')

# The memory after OpenLibrary: the other libraries were asked for memory if the library had to be loaded, and it is
# open once more. Nothing else changes if there is none to open or no place for it (autodoc OpenLibrary).
# opened : List ℕ → ℕ → Memory → Memory  [execmodel/specs/Libraries.antt:89]
def opened(name, version, memory):
    found = library_to_open(name, version, memory)
    return library_opened(found, ready_to_open(found, memory))

# the memory after the library to open, if there is one, is open once more
# library_opened : Option ℕ → Memory → Memory  [execmodel/specs/Libraries.antt:83]
def library_opened(i, memory):
    match i:
        case None: return memory
        case Some(i): return entered_or_loaded(base_of(i, memory.heap), i, memory)
        case _: raise NoCase('library_opened')

# a loaded library is open once more, and is no longer to be expunged; an absent one is loaded and open once, if there
# is a place for it
# entered_or_loaded : Option ℕ → ℕ → Memory → Memory  [execmodel/specs/Libraries.antt:77]
def entered_or_loaded(base, i, memory):
    match base:
        case Some(base): return on_heap(lambda heap: with_library(base, count_of(base, heap) + 1, False, heap), memory)
        case None:
            return placed(
                library_at(i, memory).size,
                Object.Library(i, 1, False),
                place_for(library_at(i, memory).size, public_memory(), memory),
                memory,
            )
        case _: raise NoCase('entered_or_loaded')

# CloseLibrary base: the library is open one time less; 0 does nothing (autodoc exec.library/CloseLibrary; the alerts:
# project rule)
# does_close_library : ℕ → Call → State → Outcome  [execmodel/specs/Libraries.antt:120]
def does_close_library(t, call, s):
    base = argument(0, call)
    if base == 0: return done(t, call, s)
    return unless(
        close_alert(base, s.memory.heap),
        t,
        call,
        lambda s: done(t, call, on_memory(partial(closed, base), s)),
        s,
    )

# the alert of CloseLibrary: HANDLE if no library begins there, LIB if it is not open
# close_alert : ℕ → Heap → Option Alert  [execmodel/specs/Libraries.antt:107]
def close_alert(base, heap):
    if not is_library_at(base, heap): return Some(Alert.Handle)
    return Some(Alert.Lib) if count_of(base, heap) == 0 else None

# a library is open one time less; if it is to be expunged, and is no longer open, it is freed (autodoc CloseLibrary)
# closed : ℕ → Memory → Memory  [execmodel/specs/Libraries.antt:113]
def closed(base, memory):
    if count_of(base, memory.heap) == 1 and is_delayed(base, memory.heap): return freed(base, memory)
    return on_heap(
        partial(with_library, base, monus(count_of(base, memory.heap), 1), is_delayed(base, memory.heap)), memory
    )

# RemLibrary base: the library is expunged, now or when it is closed for the last time (autodoc exec.library/RemLibrary;
# the alert: project rule)
# does_rem_library : ℕ → Call → State → Outcome  [execmodel/specs/Libraries.antt:128]
def does_rem_library(t, call, s):
    base = argument(0, call)
    return unless(
        library_alert(base, s.memory.heap),
        t,
        call,
        lambda s: done(t, call, on_memory(partial(after_expunge, base), s)),
        s,
    )

# the alert of a call on a library: HANDLE if none begins there
# library_alert : ℕ → Heap → Option Alert  [execmodel/specs/Libraries.antt:17]
def library_alert(base, heap):
    return Some(Alert.Handle) if not is_library_at(base, heap) else None

# LibOpenCnt base: returns how often the library is open (RKM Libraries, Exec Libraries: lib_OpenCnt; that there is a
# call for it: project rule)
# does_lib_open_cnt : ℕ → Call → State → Outcome  [execmodel/specs/Libraries.antt:135]
def does_lib_open_cnt(t, call, s):
    base = argument(0, call)
    return unless(
        library_alert(base, s.memory.heap),
        t,
        call,
        lambda s: answered(t, call, count_of(base, s.memory.heap), s),
        s,
    )


# ---- Requests of timer.device (RKM Devices, Introduction to Amiga System Devices; Devices, timer device). A request
# was never begun, is in progress, or is done: quick, or by a reply, which is the request itself, put at its reply port
# as a message. An address at which no request begins is the alert HANDLE; a request that is in progress where it must
# not be, or is not begun or not open where it must be, is the alert IO; one whose reply is in a port where it must be
# in none, or is in none where it must be in one, is the alert LINK; a reply port that does not signal the caller is the
# alert PORT (project rule). [execmodel/specs/Requests.antt]

# a call of task t on requests, by its word
# does_requests : RequestWord → ℕ → Call → State → Outcome  [execmodel/specs/Requests.antt:392]
def does_requests(request_word, t, call, s):
    match request_word:
        case RequestWord.CreateIORequest: return does_create_io_request(t, call, s)
        case RequestWord.DeleteIORequest: return does_delete_io_request(t, call, s)
        case RequestWord.OpenDevice: return does_open_device(t, call, s)
        case RequestWord.CloseDevice: return does_close_device(t, call, s)
        case RequestWord.SetIO: return does_set_io(t, call, s)
        case RequestWord.DoIO: return does_do_io(t, call, s)
        case RequestWord.SendIO: return does_send_io(t, call, s)
        case RequestWord.CheckIO: return does_check_io(t, call, s)
        case RequestWord.WaitIO: return does_wait_io(t, call, s)
        case RequestWord.AbortIO: return does_abort_io(t, call, s)
        case RequestWord.IOSecs: return does_io_secs(t, call, s)
        case RequestWord.IOMicros: return does_io_micros(t, call, s)
        case RequestWord.IOError_: return does_io_error(t, call, s)
        case RequestWord.IOFlags: return does_io_flags(t, call, s)
        case _: raise NoCase('does_requests')

# CreateIORequest port: returns the address of a new request with that reply port, or 0 if it cannot be made; for port 0
# returns 0 (autodoc exec.library/CreateIORequest; the alert: project rule)
# does_create_io_request : ℕ → Call → State → Outcome  [execmodel/specs/Requests.antt:205]
def does_create_io_request(t, call, s):
    port = argument(0, call)
    if port == 0: return answered(t, call, 0, s)
    return unless(
        port_alert(port, s.memory.heap),
        t,
        call,
        lambda s: makes_object(
            t,
            call,
            is_request,
            request_size(),
            Object.Request(idle_request(port)),
            on_memory(partial(after_asking_for_object, is_request, request_size()), s),
        ),
        s,
    )

# the object is a timer request
# is_request : Object → Bool  [execmodel/specs/Requests.antt:28]
def is_request(object_):
    match object_:
        case Object.Request(content): return True
        case _: return False

# the size of a request in bytes: a timerequest (include file devices/timer.h)
# request_size : ℕ  [execmodel/specs/Requests.antt:200]
@once
def request_size():
    return 40

# DeleteIORequest request: the request is freed; 0 does nothing (autodoc exec.library/DeleteIORequest; the alerts:
# project rule)
# does_delete_io_request : ℕ → Call → State → Outcome  [execmodel/specs/Requests.antt:213]
def does_delete_io_request(t, call, s):
    request = argument(0, call)
    if request == 0: return done(t, call, s)
    return unless(
        delete_request_alert(request, s.memory.heap),
        t,
        call,
        lambda s: done(t, call, on_memory(partial(freed, request), s)),
        s,
    )

# the alert of a call that frees a request: HANDLE if none begins there, IO if it is in progress, LINK if its reply is
# in a port
# delete_request_alert : ℕ → Heap → Option Alert  [execmodel/specs/Requests.antt:69]
def delete_request_alert(request, heap):
    if not is_request_at(request, heap): return Some(Alert.Handle)
    if is_under_way(request_of(request, heap)): return Some(Alert.Io)
    return Some(Alert.Link) if is_queued(request, heap) else None

# a request begins at an address (RKM Devices, Timer Device)
# is_request_at : ℕ → Heap → Bool  [execmodel/specs/Requests.antt:33]
def is_request_at(address, heap):
    return is_kind(is_request, object_at(address, heap))

# what the request that begins at an address holds
# request_of : ℕ → Heap → Request  [execmodel/specs/Requests.antt:47]
def request_of(request, heap):
    return request_of_object(object_at(request, heap))

# what the object at an address holds as a request, if there is one
# request_of_object : Option Object → Request  [execmodel/specs/Requests.antt:42]
def request_of_object(object_):
    match object_:
        case None: return idle_request(0)
        case Some(object_): return request_in(object_)
        case _: raise NoCase('request_of_object')

# what a request holds; for another object what a new request holds
# request_in : Object → Request  [execmodel/specs/Requests.antt:37]
def request_in(object_):
    match object_:
        case Object.Request(content): return content
        case _: return idle_request(0)

# OpenDevice name unit request: opens the request for a unit of timer.device. Returns 0, or IOERR_OPENFAIL if there is
# no such device or unit, and the request is then not open. The request's error becomes the same (autodoc
# exec.library/OpenDevice; the alerts: project rule).
# does_open_device : ℕ → Call → State → Outcome  [execmodel/specs/Requests.antt:234]
def does_open_device(t, call, s):
    unit = timer_unit(unwrap_or(name_argument(0, call), []), argument(1, call))
    request = argument(2, call)
    return unless(
        resting_alert(request, s.memory.heap),
        t,
        call,
        lambda s: answered(
            t,
            call,
            cast_unsigned(32, unit_error(unit)),
            on_memory(partial(on_heap, partial(opened_for, unit, request)), s),
        ),
        s,
    )

# the unit of timer.device that is named, none if it is another device (autodocs OpenDevice and CloseDevice)
# timer_unit : List ℕ → ℕ → Option ℕ  [execmodel/specs/Requests.antt:222]
def timer_unit(name, unit):
    return Some(unit) if name == codes('timer.device') else None

# the alert of a call on a request that must not be in progress: HANDLE if none begins there, IO if it is in progress
# resting_alert : ℕ → Heap → Option Alert  [execmodel/specs/Requests.antt:62]
def resting_alert(request, heap):
    if not is_request_at(request, heap): return Some(Alert.Handle)
    return Some(Alert.Io) if is_under_way(request_of(request, heap)) else None

# a request is open for a unit, if the timer has that unit, and is else not open; its error is 0, or IOERR_OPENFAIL
# opened_for : Option ℕ → ℕ → Heap → Heap  [execmodel/specs/Requests.antt:226]
def opened_for(unit, request, heap):
    return with_request(
        request, replace(request_of(request, heap), unit=unit if is_unit(unit) else None, error=unit_error(unit)), heap
    )

# the request that begins at an address gets that content; if none begins there, nothing changes
# with_request : ℕ → Request → Heap → Heap  [execmodel/specs/Requests.antt:51]
def with_request(address, content, heap):
    if is_request_at(address, heap): return [replaced(address, Object.Request(content), each) for each in heap]
    return heap

# CloseDevice request: the request is no longer open (autodoc exec.library/CloseDevice; the alerts: project rule)
# does_close_device : ℕ → Call → State → Outcome  [execmodel/specs/Requests.antt:246]
def does_close_device(t, call, s):
    request = argument(0, call)
    return unless(
        resting_alert(request, s.memory.heap),
        t,
        call,
        lambda s: done(t, call, on_memory(partial(on_heap, partial(closed_device, request)), s)),
        s,
    )

# a request is no longer open
# closed_device : ℕ → Heap → Heap  [execmodel/specs/Requests.antt:242]
def closed_device(request, heap):
    return with_request(request, replace(request_of(request, heap), unit=None), heap)

# SetIO request cmd secs micros: the request gets that command and that time (RKM Devices, Introduction to Amiga System
# Devices: io_Command; Devices, timer device: tr_time; that there is a call for it, and the alerts: project rule)
# does_set_io : ℕ → Call → State → Outcome  [execmodel/specs/Requests.antt:270]
def does_set_io(t, call, s):
    request = argument(0, call)
    command = argument(1, call)
    return unless(
        set_io_alert(command, request, s.memory.heap),
        t,
        call,
        lambda s: done(
            t,
            call,
            on_memory(
                partial(on_heap, partial(with_command, command, argument(2, call), argument(3, call), request)), s
            ),
        ),
        s,
    )

# the alert of SetIO: HANDLE if no request begins there, VALUE if the command is not a word of 16 bits, IO if the
# request is in progress
# set_io_alert : ℕ → ℕ → Heap → Option Alert  [execmodel/specs/Requests.antt:262]
def set_io_alert(command, request, heap):
    if not is_request_at(request, heap): return Some(Alert.Handle)
    if not is_command(command): return Some(Alert.Value)
    return Some(Alert.Io) if is_under_way(request_of(request, heap)) else None

# a command is a word of 16 bits
# is_command : ℕ → Bool  [execmodel/specs/Requests.antt:257]
def is_command(command):
    return command < 65_536

# a request gets that command and that time
# with_command : (command secs micros : ℕ) → ℕ → Heap → Heap  [execmodel/specs/Requests.antt:252]
def with_command(command, secs, micros, request, heap):
    return with_request(request, replace(request_of(request, heap), command=command, secs=secs, micros=micros), heap)

# DoIO request: the request begins, with its quick bit set. If it is done at once, its error is returned. If it has to
# wait, its quick bit is cleared, and the task waits for it as in WaitIO; when the task tries the call again, it is as
# WaitIO, and nothing begins (autodoc exec.library/DoIO; the alerts: project rule).
# does_do_io : ℕ → Call → State → Outcome  [execmodel/specs/Requests.antt:332]
def does_do_io(t, call, s):
    request = argument(0, call)
    if is_tried_again(t, s.scripts): return does_wait_io(t, call, s)
    return unless(do_alert(t, request, s.memory.heap), t, call, partial(begins_and_looks, request, t, call), s)

# WaitIO request: returns the error of a request that is done, and takes its reply, if it has one, out of its reply
# port; if it is in progress, the task waits for the signal of its reply port, and looks again when it next runs, after
# the signal that it waited for is cleared (autodoc exec.library/WaitIO; how a task waits and looks again, and the
# alerts: project rule)
# does_wait_io : ℕ → Call → State → Outcome  [execmodel/specs/Requests.antt:317]
def does_wait_io(t, call, s):
    request = argument(0, call)
    return unless(
        wait_io_alert(t, request, s.memory.heap),
        t,
        call,
        lambda s: looks_for(
            request_of(request, s.memory.heap).state, request, t, call, on_schedule(partial(loses, t, call.awaited), s)
        ),
        s,
    )

# the alert of WaitIO for task t: HANDLE if no request begins there; IO if it was never begun; that of WaitPort at its
# reply port if it is in progress; LINK if it was replied and its reply is in no port
# wait_io_alert : ℕ → ℕ → Heap → Option Alert  [execmodel/specs/Requests.antt:105]
def wait_io_alert(t, request, heap):
    if not is_request_at(request, heap): return Some(Alert.Handle)
    return state_alert(request_of(request, heap).state, t, request, heap)

# the alert of WaitIO for task t, by how far the request has come: IO if it was never begun; that of WaitPort at its
# reply port if it is in progress; LINK if it was replied and its reply is in no port
# state_alert : ReqState → ℕ → ℕ → Heap → Option Alert  [execmodel/specs/Requests.antt:97]
def state_alert(req_state, t, request, heap):
    match req_state:
        case ReqState.Idle: return Some(Alert.Io)
        case ReqState.UnderWay: return wait_alert(t, request_of(request, heap).port, heap)
        case ReqState.Quick: return None
        case ReqState.Replied: return None if is_queued(request, heap) else Some(Alert.Link)
        case _: raise NoCase('state_alert')

# A task looks how far a request has come. If it is in progress, the task clears the signal of its reply port, and waits
# until that comes again; else the request's error is returned, and its reply, if there is one, is taken out of its
# reply port. (autodoc WaitIO)
# looks_for : ReqState → ℕ → ℕ → Call → State → Outcome  [execmodel/specs/Requests.antt:303]
def looks_for(req_state, request, t, call, s):
    match req_state:
        case ReqState.Idle: return answered(t, call, error_word(request, s.memory.heap), s)
        case ReqState.UnderWay:
            mask = 2 ** port_of(request_of(request, s.memory.heap).port, s.memory.heap).bit
            return waiting(t, replace(call, awaited=mask), on_schedule(partial(clears_and_waits, t, mask), s))
        case ReqState.Quick: return answered(t, call, error_word(request, s.memory.heap), s)
        case ReqState.Replied:
            return leaving(
                Mark.out(request_of(request, s.memory.heap).port, request),
                answered(
                    t,
                    call,
                    error_word(request, s.memory.heap),
                    on_memory(partial(on_heap, partial(reply_taken, request)), s),
                ),
            )
        case _: raise NoCase('looks_for')

# the error of a request, as an unsigned word of 32 bits
# error_word : ℕ → Heap → ℕ  [execmodel/specs/Requests.antt:291]
def error_word(request, heap):
    return cast_unsigned(32, request_of(request, heap).error)

# the reply of a request leaves its reply port
# reply_taken : ℕ → Heap → Heap  [execmodel/specs/Requests.antt:295]
def reply_taken(request, heap):
    port = request_of(request, heap).port
    return with_port(port, port_of(port, heap), without_item(request, messages_of(port, heap)), heap)

# the alert of DoIO for task t: as of any call that begins a request, and that of WaitPort at its reply port
# do_alert : ℕ → ℕ → Heap → Option Alert  [execmodel/specs/Requests.antt:92]
def do_alert(t, request, heap):
    return begin_alert(wait_alert(t, request_of(request, heap).port, heap), request, heap)

# the alert of a call that begins a request: HANDLE if none begins there, IO if it is in progress or not open, LINK if
# its reply is in a port; else the alert that is given, that of its reply port
# begin_alert : Option Alert → ℕ → Heap → Option Alert  [execmodel/specs/Requests.antt:81]
def begin_alert(of_port, request, heap):
    if not is_request_at(request, heap): return Some(Alert.Handle)
    if not can_begin(request_of(request, heap)): return Some(Alert.Io)
    return Some(Alert.Link) if is_queued(request, heap) else of_port

# a request may begin: it is not in progress, and it is open
# can_begin : Request → Bool  [execmodel/specs/Requests.antt:76]
def can_begin(content):
    return not is_under_way(content) and is_opened(content)

# a request begins, with its quick bit set, and the task looks how far it has come
# begins_and_looks : ℕ → ℕ → Call → State → Outcome  [execmodel/specs/Requests.antt:324]
def begins_and_looks(request, t, call, s):
    next_ = on_memory(partial(begun_at, True, request), s)
    return looks_for(request_of(request, next_.memory.heap).state, request, t, call, next_)

# a request is begun, with its quick bit set or not: it is in progress and waits, or it is done at once
# begun_at : Bool → ℕ → Memory → Memory  [execmodel/specs/Requests.antt:180]
def begun_at(quick, request, memory):
    return replace(
        memory,
        heap=heap_begun(outcome_at(request, memory), quick, memory.timer.system, request, memory.heap),
        timer=timer_begun(outcome_at(request, memory), request, memory.timer),
    )

# what begins a request makes of it: it is in progress, or it is done at once
# heap_begun : Begun → Bool → ℕ → ℕ → Heap → Heap  [execmodel/specs/Requests.antt:161]
def heap_begun(begun, quick, system, request, heap):
    match begun:
        case Begun.Queue(due): return under_way(quick, system, request, heap)
        case Begun.Until(at): return under_way(quick, system, request, heap)
        case Begun.Finish(error): return finished_at(error, request, under_way(quick, system, request, heap))
        case Begun.NewTime(time): return finished_at(0, request, under_way(quick, system, request, heap))
        case _: raise NoCase('heap_begun')

# a request is in progress, begun at that system time; its quick bit stays set only if it does not have to wait
# under_way : Bool → ℕ → ℕ → Heap → Heap  [execmodel/specs/Requests.antt:157]
def under_way(quick, system, request, heap):
    return with_request(request, in_progress(quick, system, request_of(request, heap)), heap)

# A request is done, with an error. Its reply is put at its reply port, unless it is done quick or no port begins there
# (autodoc AbortIO; RKM Devices, Timer Device).
# finished_at : ℤ → ℕ → Heap → Heap  [execmodel/specs/Requests.antt:129]
def finished_at(error, request, heap):
    return appended_at(
        answering_port(request, heap), request, with_request(request, finished(error, request_of(request, heap)), heap)
    )

# a request becomes the last in a port, if one is given
# appended_at : Option ℕ → ℕ → Heap → Heap  [execmodel/specs/Requests.antt:123]
def appended_at(port, request, heap):
    match port:
        case None: return heap
        case Some(port): return appended(port, request, heap)
        case _: raise NoCase('appended_at')

# the port where the reply of a request is put when it finishes: none if it is done quick, nor if no port begins there
# (RKM Devices, quick I/O)
# answering_port : ℕ → Heap → Option ℕ  [execmodel/specs/Requests.antt:119]
def answering_port(request, heap):
    return where_port(reply_port(request_of(request, heap)), heap)

# the address that is given, if a port begins there
# where_port : Option ℕ → Heap → Option ℕ  [execmodel/specs/Requests.antt:113]
def where_port(port, heap):
    match port:
        case None: return None
        case Some(port): return Some(port) if is_port_at(port, heap) else None
        case _: raise NoCase('where_port')

# how a request that is begun now goes on (autodocs DoIO and SendIO)
# outcome_at : ℕ → Memory → Begun  [execmodel/specs/Requests.antt:176]
def outcome_at(request, memory):
    return outcome(memory.timer.clock, memory.timer.system, request_of(request, memory.heap))

# what begins a request makes of the timer: one that is in progress waits for a time of the clock or for a system time;
# one that sets system time does so
# timer_begun : Begun → ℕ → Timer → Timer  [execmodel/specs/Requests.antt:169]
def timer_begun(begun, request, timer):
    match begun:
        case Begun.Queue(due): return begins_to_wait(request, Due.AtClock(due), timer)
        case Begun.Until(at): return begins_to_wait(request, Due.AtSystem(at), timer)
        case Begun.Finish(error): return timer
        case Begun.NewTime(time): return system_set(time, timer)
        case _: raise NoCase('timer_begun')

# SendIO request: the request begins, with its quick bit cleared; if it is done at once, it is replied at once (autodoc
# exec.library/SendIO; the alerts: project rule)
# does_send_io : ℕ → Call → State → Outcome  [execmodel/specs/Requests.antt:281]
def does_send_io(t, call, s):
    request = argument(0, call)
    def inner(s):
        port = replying_port(False, request, s.memory)
        return with_reply(
            port,
            request,
            done(t, call, performed(acting_at(port, s.memory.heap), on_memory(partial(begun_at, False, request), s))),
        )
    return unless(send_alert(request, s.memory.heap), t, call, inner, s)

# the alert of SendIO: as of any call that begins a request, and HANDLE if no port begins at its reply port's address
# send_alert : ℕ → Heap → Option Alert  [execmodel/specs/Requests.antt:88]
def send_alert(request, heap):
    return begin_alert(port_alert(request_of(request, heap).port, heap), request, heap)

# the port where the reply of a request that is begun now is put at once: none if it waits, nor if it is done quick
# replying_port : Bool → ℕ → Memory → Option ℕ  [execmodel/specs/Requests.antt:194]
def replying_port(quick, request, memory):
    return answering_begun(outcome_at(request, memory), quick, memory.timer.system, request, memory.heap)

# the port where the reply of a request is put that goes on in this way: none if it waits, nor if it is done quick
# answering_begun : Begun → Bool → ℕ → ℕ → Heap → Option ℕ  [execmodel/specs/Requests.antt:187]
def answering_begun(begun, quick, system, request, heap):
    match begun:
        case Begun.Queue(due): return None
        case Begun.Until(at): return None
        case Begun.Finish(error): return answering_port(request, under_way(quick, system, request, heap))
        case Begun.NewTime(time): return answering_port(request, under_way(quick, system, request, heap))
        case _: raise NoCase('answering_begun')

# the mark of a reply that is put at a port; none if no port is given
# with_reply : Option ℕ → ℕ → Outcome → Outcome  [execmodel/specs/Requests.antt:139]
def with_reply(port, request, o):
    match port:
        case None: return o
        case Some(port): return leaving(Mark.put(port, request), o)
        case _: raise NoCase('with_reply')

# what is to be done when a reply arrives at a port; nothing if no port is given
# acting_at : Option ℕ → Heap → Action  [execmodel/specs/Requests.antt:134]
def acting_at(port, heap):
    match port:
        case None: return Action.Nothing
        case Some(port): return arrival_action(port_of(port, heap))
        case _: raise NoCase('acting_at')

# CheckIO request: returns 0 for a request that is in progress, and else the request's address; its reply stays where it
# is (autodoc exec.library/CheckIO; the alert: project rule)
# does_check_io : ℕ → Call → State → Outcome  [execmodel/specs/Requests.antt:340]
def does_check_io(t, call, s):
    request = argument(0, call)
    return unless(
        request_alert(request, s.memory.heap),
        t,
        call,
        lambda s: answered(t, call, 0 if is_under_way(request_of(request, s.memory.heap)) else request, s),
        s,
    )

# the alert of a call on a request: HANDLE if none begins there
# request_alert : ℕ → Heap → Option Alert  [execmodel/specs/Requests.antt:58]
def request_alert(request, heap):
    return Some(Alert.Handle) if not is_request_at(request, heap) else None

# AbortIO request: a request that is in progress is replied at once (autodoc exec.library/AbortIO; the alert: project
# rule)
# does_abort_io : ℕ → Call → State → Outcome  [execmodel/specs/Requests.antt:355]
def does_abort_io(t, call, s):
    request = argument(0, call)
    return unless(
        request_alert(request, s.memory.heap),
        t,
        call,
        lambda s: aborts(is_under_way(request_of(request, s.memory.heap)), request, t, call, s),
        s,
    )

# AbortIO is done: a request that is in progress is done, with the error IOERR_ABORTED, and 0 is returned; for any other
# request nothing changes, and -1 is returned (project rule)
# aborts : Bool → ℕ → ℕ → Call → State → Outcome  [execmodel/specs/Requests.antt:348]
def aborts(bool_, request, t, call, s):
    match bool_:
        case True:
            return with_reply(
                answering_port(request, s.memory.heap), request, answered(t, call, 0, ends_with(-2, request, s))
            )
        case False: return answered(t, call, 4_294_967_295, s)
        case _: raise NoCase('aborts')

# a request that waited is done, with an error, and no longer waits; the port where its reply arrives, if there is one,
# acts
# ends_with : ℤ → ℕ → State → State  [execmodel/specs/Requests.antt:150]
def ends_with(error, request, s):
    return performed(
        acting_at(answering_port(request, s.memory.heap), s.memory.heap), on_memory(partial(ended, error, request), s)
    )

# a request that waited is done, with an error, and no longer waits
# ended : ℤ → ℕ → Memory → Memory  [execmodel/specs/Requests.antt:144]
def ended(error, request, memory):
    return replace(memory, heap=finished_at(error, request, memory.heap), timer=waits_no_more(request, memory.timer))

# IOSecs request: returns the seconds of its time (Devices, timer device: tr_time; that there are calls for it: project
# rule)
# does_io_secs : ℕ → Call → State → Outcome  [execmodel/specs/Requests.antt:371]
def does_io_secs(t, call, s):
    return tells(lambda q: q.secs, t, call, s)

# a call that returns a part of what a request holds
# tells : (Request → ℕ) → ℕ → Call → State → Outcome  [execmodel/specs/Requests.antt:364]
def tells(part, t, call, s):
    request = argument(0, call)
    return unless(
        request_alert(request, s.memory.heap),
        t,
        call,
        lambda s: answered(t, call, part(request_of(request, s.memory.heap)), s),
        s,
    )

# IOMicros request: returns the microseconds of its time (Devices, timer device: tr_time; that there are calls for it:
# project rule)
# does_io_micros : ℕ → Call → State → Outcome  [execmodel/specs/Requests.antt:376]
def does_io_micros(t, call, s):
    return tells(lambda q: q.micros, t, call, s)

# IOError request: returns its error, as an unsigned word of 32 bits (RKM Devices, Introduction to Amiga System Devices:
# io_Error; that there is a call for it: project rule)
# does_io_error : ℕ → Call → State → Outcome  [execmodel/specs/Requests.antt:381]
def does_io_error(t, call, s):
    return tells(lambda q: cast_unsigned(32, q.error), t, call, s)

# IOFlags request: returns 1 if IOF_QUICK is set, and else 0 (RKM Devices, Introduction to Amiga System Devices:
# io_Flags; that there is a call for it: project rule)
# does_io_flags : ℕ → Call → State → Outcome  [execmodel/specs/Requests.antt:386]
def does_io_flags(t, call, s):
    return tells(lambda q: 1 if q.quick else 0, t, call, s)

# What follows a call on requests: if it set system time, all requests finish that wait for system time and whose time
# has come. Those that wait for the clock are not looked at (autodoc timer.device/TR_SETSYSTIME; that this is at once,
# and after the call's line: project rule).
# finishes_set : State → Outcome  [execmodel/specs/Requests.antt:437]
def finishes_set(s):
    if s.memory.timer.is_set:
        return finishes_until(len(s.memory.timer.waiting), on_memory(partial(on_timer, looked_at), s))
    return quiet(s)

# at most that many requests finish that wait for system time and whose time has come
# finishes_until : ℕ → State → Outcome  [execmodel/specs/Requests.antt:427]
def finishes_until(n, s):
    return finishes_each(until_next, n, s)

# at most that many requests finish, one after another: each time the one that is next, as long as there is one
# finishes_each : (Timer → Option ℕ) → ℕ → State → Outcome  [execmodel/specs/Requests.antt:416]
def finishes_each(next_, number, s):
    match number:
        case 0: return quiet(s)
        case _ if number > 0:
            n = number - 1
            match next_(s.memory.timer):
                case None: return quiet(s)
                case Some(request): return andthen(partial(finishes, request), partial(finishes_each, next_, n), s)
                case _: raise NoCase('finishes_each')
        case _: raise NoCase('finishes_each')

# a request whose time has come is done, with error 0, and its line is printed
# finishes : ℕ → State → Outcome  [execmodel/specs/Requests.antt:411]
def finishes(request, s):
    return with_reply(
        answering_port(request, s.memory.heap),
        request,
        prints_line(TraceLine.Timer(request), ends_with(0, request, s)),
    )

# all requests whose time has come finish: in the order of their due times, and those of one due time in the order in
# which they were begun
# finishes_all_due : State → Outcome  [execmodel/specs/Requests.antt:432]
def finishes_all_due(s):
    return finishes_due(len(s.memory.timer.waiting), s)

# at most that many requests finish whose time has come
# finishes_due : ℕ → State → Outcome  [execmodel/specs/Requests.antt:423]
def finishes_due(n, s):
    return finishes_each(due_next, n, s)


# ---- What the body of a software interrupt or of a server does (RKM Libraries, Exec Interrupts). A body runs to its
# end at once, or to an alert. It has only the shared variables, prints under its own name, and its calls are made by no
# task. [execmodel/specs/Bodies.antt]

# the body of that name does these commands, one after another; after an alert it does no more
# runs_body : List ℕ → List CommandData → State → Outcome  [execmodel/specs/Bodies.antt:59]
def runs_body(name, items, s):
    match items:
        case []: return quiet(s)
        case [command, *others]:
            return andthen(
                partial(unless_stopped, partial(body_step, name, command)), partial(runs_body, name, others), s
            )
        case _: raise NoCase('runs_body')

# the body of that name does one command
# body_step : List ℕ → CommandData → State → Outcome  [execmodel/specs/Bodies.antt:55]
def body_step(name, command, s):
    return does_in_body(name, call_in_body(command, s.scripts), s)

# the body of that name makes a call
# does_in_body : List ℕ → Call → State → Outcome  [execmodel/specs/Bodies.antt:51]
def does_in_body(name, call, s):
    return does_word_by(call.word, Caller.ByBody(name), call, s)

# a call of a body, by the group of its word; a word that no body may have does nothing
# does_word_by : Word → Caller → Call → State → Outcome  [execmodel/specs/Bodies.antt:41]
def does_word_by(this_word, c, call, s):
    match this_word:
        case Word.Plain(word): return does_plain_by(word, c, call, s)
        case Word.Signals(word): return does_signals_by(word, c, call, s)
        case Word.Ports(word): return does_ports_by(word, c, call, s)
        case Word.Interrupts(word): return does_interrupts_by(word, c, call, s)
        case _: return quiet(s)

# a plain word in a body; Jump, JumpZ and JumpNZ, which no body may have, do nothing
# does_plain_by : PlainWord → Caller → Call → State → Outcome  [execmodel/specs/Bodies.antt:15]
def does_plain_by(plain_word, c, call, s):
    match plain_word:
        case PlainWord.Set: return does_set_by(c, call, s)
        case PlainWord.Add: return does_add_by(c, call, s)
        case PlainWord.Sub: return does_sub_by(c, call, s)
        case PlainWord.And: return does_and_by(c, call, s)
        case PlainWord.Or: return does_or_by(c, call, s)
        case PlainWord.Print: return done_by(c, call, s)
        case _: return quiet(s)

# a word on signals in a body: Signal is the only one; any other word does nothing
# does_signals_by : SignalWord → Caller → Call → State → Outcome  [execmodel/specs/Bodies.antt:25]
def does_signals_by(signal_word, c, call, s):
    match signal_word:
        case SignalWord.Signal: return does_signal_by(c, call, s)
        case _: return quiet(s)

# a word on ports in a body: PutMsg, GetMsg or ReplyMsg; any other word does nothing
# does_ports_by : PortWord → Caller → Call → State → Outcome  [execmodel/specs/Bodies.antt:30]
def does_ports_by(port_word, c, call, s):
    match port_word:
        case PortWord.PutMsg: return does_put_msg_by(c, call, s)
        case PortWord.GetMsg: return does_get_msg_by(c, call, s)
        case PortWord.ReplyMsg: return does_reply_msg_by(c, call, s)
        case _: return quiet(s)

# a word on interrupts in a body: Cause is the only one
# does_interrupts_by : InterruptWord → Caller → Call → State → Outcome  [execmodel/specs/Bodies.antt:37]
def does_interrupts_by(interrupt_word, c, call, s):
    match interrupt_word:
        case InterruptWord.Cause: return does_cause_by(c, call, s)
        case _: raise NoCase('does_interrupts_by')


# ---- A call as a value: the alert that refuses it, how it changes the blocks of memory, and what it returns. It
# changes nothing else, except that its caller goes on. Each call on lists is such a value, and each call on memory.
# [execmodel/specs/Deeds.antt]

# what a call does, as functions of the memory before it: the alert that refuses it, if one does; the blocks after it;
# and the value that it returns, if it returns one
# [execmodel/specs/Deeds.antt:9]
Deed = record('Deed', 'alert', 'heap', 'answer')

# A call of task t is what its deed says: it is refused by the alert, or else it changes the blocks, and returns the
# value. All three are made from the memory before the call.
# performs : Deed → ℕ → Call → State → Outcome  [execmodel/specs/Deeds.antt:21]
def performs(deed, t, call, s):
    return unless(
        deed.alert(s.memory),
        t,
        call,
        lambda s: concluded(
            deed.answer(s.memory), t, call, on_memory(lambda memory: replace(memory, heap=deed.heap(memory)), s)
        ),
        s,
    )

# a call is done, and returns a value or nothing
# concluded : Option ℕ → ℕ → Call → State → Outcome  [execmodel/specs/Deeds.antt:15]
def concluded(value, t, call, s):
    match value:
        case None: return done(t, call, s)
        case Some(value): return answered(t, call, value, s)
        case _: raise NoCase('concluded')

# an object of a kind is made, which takes that many bytes, and its address is returned, or 0 if the pool does not allow
# one more or there is no place for it
# makes : Option Alert → (Object → Bool) → ℕ → Object → Deed  [execmodel/specs/Deeds.antt:57]
def makes(alert, kind, size, object_):
    return allots(
        alert, partial(after_asking_for_object, kind, size), partial(place_for_object, kind, size), size, object_
    )

# Libraries are asked for memory, and then an object gets a block of that many bytes, if there is a place for it. The
# block's address is returned, or 0 if there is no place.
# allots : Option Alert → (asked : Memory → Memory) → (place : Memory → Option ℕ) → ℕ → Object → Deed
# [execmodel/specs/Deeds.antt:48]
def allots(alert, asked, place, size, object_):
    return Deed(
        alert=lambda memory: alert,
        heap=lambda memory: placed(size, object_, place(asked(memory)), asked(memory)).heap,
        answer=lambda memory: Some(unwrap_or(place(asked(memory)), 0)),
    )

# the block that begins at an address is freed, and nothing is returned
# frees_block : (Heap → Option Alert) → ℕ → Deed  [execmodel/specs/Deeds.antt:42]
def frees_block(alert, address):
    return Deed(
        alert=lambda memory: alert(memory.heap),
        heap=lambda memory: freed(address, memory).heap,
        answer=lambda memory: None,
    )

# the blocks change, and nothing is returned
# changes : (Heap → Option Alert) → (Heap → Heap) → Deed  [execmodel/specs/Deeds.antt:29]
def changes(alert, next_):
    return Deed(
        alert=lambda memory: alert(memory.heap),
        heap=lambda memory: next_(memory.heap),
        answer=lambda memory: None,
    )

# a value of the blocks before the call is returned, and the blocks change
# answers_and_changes : (Heap → Option Alert) → (Heap → ℕ) → (Heap → Heap) → Deed  [execmodel/specs/Deeds.antt:33]
def answers_and_changes(alert, value, next_):
    return Deed(
        alert=lambda memory: alert(memory.heap),
        heap=lambda memory: next_(memory.heap),
        answer=lambda memory: Some(value(memory.heap)),
    )

# a value of the blocks is returned, and they stay as they are
# reads : (Heap → Option Alert) → (Heap → ℕ) → Deed  [execmodel/specs/Deeds.antt:38]
def reads(alert, value):
    return answers_and_changes(alert, value, lambda heap: heap)


# ---- Objects: what begins at an address, and where a new object is placed. An object takes a block of its own, with
# MEMF_PUBLIC (project rule). [execmodel/specs/Objects.antt]

# there is an object, and it is of a kind
# is_kind : (Object → Bool) → Option Object → Bool  [execmodel/specs/Objects.antt:12]
def is_kind(kind, object_):
    match object_:
        case None: return False
        case Some(object_): return kind(object_)
        case _: raise NoCase('is_kind')

# The address where a new object of a kind is placed, which takes that many bytes. There is none if the pool does not
# allow one more, or if no gap is large enough (project rule).
# place_for_object : (Object → Bool) → ℕ → Memory → Option ℕ  [execmodel/specs/Objects.antt:30]
def place_for_object(kind, size, memory):
    return place_for(size, public_memory(), memory) if is_allowed(kind, memory) else None

# the pool allows one more object of a kind (project rule)
# is_allowed : (Object → Bool) → Memory → Bool  [execmodel/specs/Objects.antt:25]
def is_allowed(kind, memory):
    return live(kind, memory.heap) < memory.pool

# how many objects of a kind there are
# live : (Object → Bool) → Heap → ℕ  [execmodel/specs/Objects.antt:21]
def live(kind, heap):
    return len([entry for entry in heap if kind(entry[1].object_)])

# an entry of the heap, which gets that object if it is the one at that address
# replaced : ℕ → Object → ℕ × Block → ℕ × Block  [execmodel/specs/Objects.antt:17]
def replaced(address, object_, entry):
    return (entry[0], replace(entry[1], object_=object_) if entry[0] == address else entry[1])


# ---- Libraries are asked for memory when a block fits nowhere, one after another in the order of the file: one that is
# not open is expunged, an open one is marked (autodoc exec.library/AllocMem; the order of asking: project rule). In
# version 1 of the rules none is asked. [execmodel/specs/LowMemory.antt]

# The memory after libraries were expunged for a block of that many bytes, before it is allocated. This happens only in
# version 2 of the rules: one library after another, in the order of the file, until the block has a place. A block of
# no bytes is never allocated, and no library is expunged for it (project rule). (autodoc AllocMem)
# after_asking : (size reqs : ℕ) → Memory → Memory  [execmodel/specs/LowMemory.antt:31]
def after_asking(size, reqs, memory):
    if memory.asks and not size == 0: return asked_each(size, reqs, range_with_len(0, len(memory.libraries)), memory)
    return memory

# libraries are asked for memory, one after another, until the block has a place
# asked_each : (size reqs : ℕ) → List ℕ → Memory → Memory  [execmodel/specs/LowMemory.antt:24]
def asked_each(size, reqs, items, memory):
    match items:
        case []: return memory
        case [i, *others]: return asked_each(size, reqs, others, asked_one(size, reqs, i, memory))
        case _: raise NoCase('asked_each')

# library i is asked for memory, unless a block of that many bytes has a place already
# asked_one : (size reqs i : ℕ) → Memory → Memory  [execmodel/specs/LowMemory.antt:20]
def asked_one(size, reqs, i, memory):
    return memory if is_some(place_for(size, reqs, memory)) else gives_way(i, memory)

# library i is asked for memory (autodocs AllocMem, RemLibrary)
# gives_way : ℕ → Memory → Memory  [execmodel/specs/LowMemory.antt:16]
def gives_way(i, memory):
    return gives_way_at(base_of(i, memory.heap), memory)

# a library is asked for memory: if it is loaded, it does as if it were removed: it is freed if it is not open, and else
# is marked, to be expunged when it is closed for the last time
# gives_way_at : Option ℕ → Memory → Memory  [execmodel/specs/LowMemory.antt:11]
def gives_way_at(base, memory):
    match base:
        case None: return memory
        case Some(base): return after_expunge(base, memory)
        case _: raise NoCase('gives_way_at')

# The memory after libraries were expunged for a new object of a kind, which takes that many bytes, before it is made.
# None is expunged if the pool does not allow one more object (project rule).
# after_asking_for_object : (Object → Bool) → ℕ → Memory → Memory  [execmodel/specs/LowMemory.antt:37]
def after_asking_for_object(kind, size, memory):
    return after_asking(size, public_memory(), memory) if is_allowed(kind, memory) else memory


# ---- Where blocks begin, and where there is room for more (RKM Libraries, Exec Memory Allocation). The gaps of a
# region are what its blocks leave free; they are not stored. [execmodel/specs/Places.antt]

# the address where a block of that many bytes is placed, if there is one
# place_for : ℕ → ℕ → Memory → Option ℕ  [execmodel/specs/Places.antt:17]
def place_for(size, reqs, memory):
    return fit(memory.regions, extents(memory.heap), size, reqs)

# Where the blocks are, and how long they are. Where another block fits, and how much is free, depends on that alone.
# extents : Heap → Blocks  [execmodel/specs/Places.antt:13]
def extents(heap):
    return [(entry[0], (entry[1].size, 0)) for entry in heap]

# the block that begins at an address
# block_at : ℕ → Heap → Option Block  [execmodel/specs/Places.antt:9]
def block_at(address, heap):
    return finmap_find(nat_cmp, address, heap)

# an object gets a block at an address, of that many bytes rounded up; nothing changes if there is no address
# placed : ℕ → Object → Option ℕ → Memory → Memory  [execmodel/specs/Places.antt:21]
def placed(size, object_, address, memory):
    match address:
        case None: return memory
        case Some(address):
            return replace(
                memory,
                heap=finmap_put(nat_cmp, address, Block(size=round_(size), object_=object_), memory.heap),
            )
        case _: raise NoCase('placed')

# the block that begins at an address is freed; what is free beside it joins it
# freed : ℕ → Memory → Memory  [execmodel/specs/Places.antt:27]
def freed(address, memory):
    return replace(memory, heap=finmap_where_key(nat_cmp, lambda other: not other == address, memory.heap))


# ---- Libraries that are loaded (RKM Libraries, Exec Libraries): each begins at an address, its base, by which it is
# removed. [execmodel/specs/Loaded.antt]

# how often the library that begins at an address is open (RKM Libraries, Exec Libraries: lib_OpenCnt)
# count_of : ℕ → Heap → ℕ  [execmodel/specs/Loaded.antt:36]
def count_of(base, heap):
    return option_map_or(count_in, object_at(base, heap), 0)

# how often a library is open, 0 for another object
# count_in : Object → ℕ  [execmodel/specs/Loaded.antt:22]
def count_in(object_):
    match object_:
        case Object.Library(number, count, delayed): return count
        case _: return 0

# the base of library i, if it is loaded (RKM Libraries, Exec Libraries)
# base_of : ℕ → Heap → Option ℕ  [execmodel/specs/Loaded.antt:53]
def base_of(i, heap):
    return option_map(lambda entry: entry[0], find(lambda entry: is_numbered(i, entry[1].object_), heap))

# an object is library i
# is_numbered : ℕ → Object → Bool  [execmodel/specs/Loaded.antt:48]
def is_numbered(i, object_):
    match object_:
        case Object.Library(number, count, delayed): return number == i
        case _: return False

# the library at a base is open that many times, and is to be expunged or not
# with_library : ℕ → ℕ → Bool → Heap → Heap  [execmodel/specs/Loaded.antt:44]
def with_library(base, count, delayed, heap):
    return [replaced(base, Object.Library(library_number_at(base, heap), count, delayed), each) for each in heap]

# the number of the library that begins at an address
# library_number_at : ℕ → Heap → ℕ  [execmodel/specs/Loaded.antt:32]
def library_number_at(base, heap):
    return option_map_or(library_number, object_at(base, heap), 0)

# the number of a library in the order of the file, 0 for another object
# library_number : Object → ℕ  [execmodel/specs/Loaded.antt:17]
def library_number(object_):
    match object_:
        case Object.Library(number, count, delayed): return number
        case _: return 0

# a loaded library begins at an address (RKM Libraries, Exec Libraries)
# is_library_at : ℕ → Heap → Bool  [execmodel/specs/Loaded.antt:13]
def is_library_at(base, heap):
    return is_kind(is_library, object_at(base, heap))

# the object is a loaded library
# is_library : Object → Bool  [execmodel/specs/Loaded.antt:8]
def is_library(object_):
    match object_:
        case Object.Library(number, count, delayed): return True
        case _: return False

# the library that begins at an address is to be expunged when it is closed for the last time (LIBF_DELEXP)
# is_delayed : ℕ → Heap → Bool  [execmodel/specs/Loaded.antt:40]
def is_delayed(base, heap):
    return option_map_or(delayed_in, object_at(base, heap), False)

# a library is to be expunged when it is closed for the last time; another object is not
# delayed_in : Object → Bool  [execmodel/specs/Loaded.antt:27]
def delayed_in(object_):
    match object_:
        case Object.Library(number, count, delayed): return delayed
        case _: return False

# a library that is not open is freed; an open one is to be expunged when it is closed for the last time
# after_expunge : ℕ → Memory → Memory  [execmodel/specs/Loaded.antt:58]
def after_expunge(base, memory):
    if count_of(base, memory.heap) == 0: return freed(base, memory)
    return on_heap(partial(with_library, base, count_of(base, memory.heap), True), memory)


# ======================================================================================================================
# Services beneath it
# ======================================================================================================================


# ---- How tasks come to run (RKM Libraries, Exec Tasks: task scheduling), for any discipline of the ready sequence. The
# discipline says where an arriving task is put, and which ready task is chosen. The scheduler of the program keeps the
# sequence by priority, the abstract machine in order of arrival. [scheduler/specs/Dispatch.antt]

# the switch that a settle makes, if any: to another task, or to being idle (RKM Libraries, Exec Tasks: scheduling)
# switch_of : Discipline → Schedule → Option Switch  [scheduler/specs/Dispatch.antt:24]
def switch_of(d, s):
    return switch_for(s.running, d.choice(partial(pri_at, s.queue.pris), s.queue.ready), s)

# the switch that is due is made (RKM Libraries, Exec Tasks: scheduling; arriving anew: project rule)
# rescheduled : Discipline → Schedule → Schedule  [scheduler/specs/Dispatch.antt:40]
def rescheduled(d, s):
    return after_switch(d, switch_of(d, s), s)

# the schedule after a switch: the chosen task begins, and the one that ran arrives anew; or the machine is idle;
# without a switch a quantum that has ended may begin anew
# after_switch : Discipline → Option Switch → Schedule → Schedule  [scheduler/specs/Dispatch.antt:34]
def after_switch(d, switch, s):
    match switch:
        case None: return renewed(s.running, s)
        case Some(Switch.Idle): return replace(s, idle=True)
        case Some(Switch.To(t)): return begins(t, displaced(d, s.running, s))
        case _: raise NoCase('after_switch')

# the task that ran before a switch, if any, arrives anew: it was pre-empted, or its quantum was over
# displaced : Discipline → Option ℕ → Schedule → Schedule  [scheduler/specs/Dispatch.antt:28]
def displaced(d, r, s):
    match r:
        case None: return s
        case Some(r): return arrives(d, r, s)
        case _: raise NoCase('displaced')

# task t becomes ready (RKM Libraries, Exec Tasks: scheduling)
# arrives : Discipline → ℕ → Schedule → Schedule  [scheduler/specs/Dispatch.antt:18]
def arrives(d, t, s):
    return joins_ready(d, t, with_status(t, TaskState.Ready, s))

# task t is put into the ready sequence, where the discipline puts a task that arrives
# joins_ready : Discipline → ℕ → Schedule → Schedule  [scheduler/specs/Dispatch.antt:14]
def joins_ready(d, t, s):
    return replace(s, queue=replace(s.queue, ready=d.arrival(partial(pri_at, s.queue.pris), s.queue.ready, t)))

# a task that was never added becomes ready; any other stays as it is (autodoc exec.library/AddTask)
# added : Discipline → ℕ → Schedule → Schedule  [scheduler/specs/Dispatch.antt:46]
def added(d, t, s):
    return arrives(d, t, s) if is_absent(status_of(s, t)) else s

# Signals join what a live task has received; a task that waits for any of them becomes ready (RKM Libraries, Exec
# Signals; autodoc exec.library/Signal). A task that is not live takes none (project rule).
# signalled : Discipline → ℕ → ℕ → Schedule → Schedule  [scheduler/specs/Dispatch.antt:58]
def signalled(d, t, mask, s):
    if not is_live(status_of(s, t)): return s
    got = with_signals(t, after_post(mask, signals_of(s, t)), s)
    return arrives(d, t, got) if awaits(status_of(s, t), signals_of(got, t).received) else got

# task t gets another priority (autodoc exec.library/SetTaskPri); a ready one arrives anew (project rule)
# reprioritized : Discipline → ℕ → ℤ → Schedule → Schedule  [scheduler/specs/Dispatch.antt:50]
def reprioritized(d, t, pri, s):
    if is_ready(status_of(s, t)): return arrives(d, t, departs(t, with_priority(t, pri, s)))
    return with_priority(t, pri, s)


# ---- How a queue of numbered items is kept, and which of its items is next: in the order in which they are to run, as
# Exec keeps its lists, or in order of arrival, as the abstract machine does. Rules that hold for both take the
# discipline as an argument. [execlist/specs/Disciplines.antt]

# where an arriving item is put among the items of a queue, and which of them is next; both by the priorities of all
# items
# [execlist/specs/Disciplines.antt:9]
Discipline = record('Discipline', 'arrival', 'choice')

# an arriving item is put last, and the earliest among those of highest priority is next: such a queue is never sorted
# (RKM Libraries, Exec Tasks: scheduling)
# by_arrival : Discipline  [execlist/specs/Disciplines.antt:19]
@once
def by_arrival():
    return Discipline(arrival=lambda key, xs, x: xs + [x], choice=chosen)

# the priority of item n, from a list of the priorities of all items; 0 if the list has no item n
# pri_at : List ℤ → ℕ → ℤ  [execlist/specs/Disciplines.antt:23]
def pri_at(pris, n):
    return slice_index_or(pris, n, 0)


# ---- What is known of the tasks as they are scheduled: lists by task number, the ready sequence, and the running task.
# The functions here leave open how the ready sequence is kept: none of them puts a task into it.
# [scheduler/specs/Schedule.antt]

# The tasks, which of them runs, and what is left of its quantum. Tasks are numbered from 0 here, and from 1 in calls.
# (RKM Libraries, Exec Tasks)
# [scheduler/specs/Schedule.antt:14]
Schedule = record('Schedule',
    # names, priorities and states by task number, and the ready sequence
    'queue',
    # the task that runs, or none
    'running',
    # each task's signals
    'signals',
    # each task's counts of Forbid and Disable
    'nestings',
    # the servings of VERTB in a full quantum, and those left to the running task
    'quantum',
    'left',
    # whether the machine was reported as idle, and no task has run since
    'idle',
)

# the name of task t
# task_name : Schedule → ℕ → List ℕ  [scheduler/specs/Schedule.antt:36]
def task_name(s, t):
    return name_at(s.queue.names, t)

# the running task ends (autodoc exec.library/RemTask)
# leaves : ℕ → Schedule → Schedule  [scheduler/specs/Schedule.antt:153]
def leaves(t, s):
    return replace(with_status(t, TaskState.Removed, s), running=None)

# task t in another state
# with_status : ℕ → TaskState → Schedule → Schedule  [scheduler/specs/Schedule.antt:56]
def with_status(t, status, s):
    return replace(s, queue=replace(s.queue, states=slice_set(s.queue.states, t, status)))

# that many tasks, of these priorities and names, before any of them is added: none runs, and the machine was not yet
# reported as idle
# unstarted : (tasks : ℕ) (pris : List ℤ) (names : List (List ℕ)) (quantum : ℕ) → Schedule
# [scheduler/specs/Schedule.antt:73]
def unstarted(tasks, pris, names, quantum):
    return Schedule(
        queue=Tasks(ready=[], states=replicate(tasks, TaskState.Absent), pris=pris, names=names),
        running=None,
        signals=replicate(tasks, initial_sets()),
        nestings=replicate(tasks, initial_nesting()),
        quantum=quantum,
        left=0,
        idle=False,
    )

# the quantum of the running task loses one serving of VERTB, but not below zero
# quantum_ticked : Schedule → Schedule  [scheduler/specs/Schedule.antt:139]
def quantum_ticked(s):
    return ticked_for(s.running, s)

# the quantum of the running task, if any, loses one serving
# ticked_for : Option ℕ → Schedule → Schedule  [scheduler/specs/Schedule.antt:134]
def ticked_for(r, s):
    match r:
        case None: return s
        case Some(r): return replace(s, left=monus(s.left, 1))
        case _: raise NoCase('ticked_for')

# The switch to be made, if r is the running task, or none, and t the ready task that is chosen, or none. If only t is
# there, it runs; if both are, it runs if switching is allowed and it takes over. If there is neither, the machine
# becomes idle, unless it was reported as idle already. (RKM Libraries, Exec Tasks: scheduling)
# switch_for : Option ℕ → Option ℕ → Schedule → Option Switch  [scheduler/specs/Schedule.antt:104]
def switch_for(r, t, s):
    match r, t:
        case None, None: return None if s.idle else Some(Switch.Idle)
        case None, Some(t): return Some(Switch.To(t))
        case Some(r), None: return None
        case Some(r), Some(t):
            if is_switching_allowed(Some(r), s) and takes_over(t, r, s): return Some(Switch.To(t))
            return None
        case _: raise NoCase('switch_for')

# another task may be given the processor: no task runs, or the running one is inside neither Forbid nor Disable (RKM
# Libraries, Exec Tasks: forbidding task switching)
# is_switching_allowed : Option ℕ → Schedule → Bool  [scheduler/specs/Schedule.antt:88]
def is_switching_allowed(r, s):
    match r:
        case None: return True
        case Some(r): return may_switch(nesting_of(s, r))
        case _: raise NoCase('is_switching_allowed')

# how deep task t has nested Forbid and Disable
# nesting_of : Schedule → ℕ → Nesting  [scheduler/specs/Schedule.antt:52]
def nesting_of(s, t):
    return slice_index_or(s.nestings, t, initial_nesting())

# Ready task t takes the place of running task r: it has a higher priority, or an equal one and the quantum of r has
# ended. (RKM Libraries, Exec Tasks: scheduling)
# takes_over : ℕ → ℕ → Schedule → Bool  [scheduler/specs/Schedule.antt:98]
def takes_over(t, r, s):
    return priority_of(s, r) < priority_of(s, t) or (priority_of(s, r) <= priority_of(s, t) and is_quantum_over(s))

# the priority of task t
# priority_of : Schedule → ℕ → ℤ  [scheduler/specs/Schedule.antt:40]
def priority_of(s, t):
    return pri_at(s.queue.pris, t)

# the quantum of the running task has ended
# is_quantum_over : Schedule → Bool  [scheduler/specs/Schedule.antt:93]
def is_quantum_over(s):
    return s.left == 0

# if no switch is made: the quantum of the running task begins anew, if it has ended and switching is allowed (project
# rule)
# renewed : Option ℕ → Schedule → Schedule  [scheduler/specs/Schedule.antt:118]
def renewed(r, s):
    match r:
        case None: return s
        case Some(r):
            if is_switching_allowed(Some(r), s) and is_quantum_over(s): return replace(s, left=s.quantum)
            return s
        case _: raise NoCase('renewed')

# task t leaves the ready sequence and runs, with a full quantum (project rule); the machine is not idle any more
# begins : ℕ → Schedule → Schedule  [scheduler/specs/Schedule.antt:123]
def begins(t, s):
    return replace(
        s,
        queue=replace(
            s.queue,
            states=with_status(t, TaskState.Running, s).queue.states,
            ready=without_item(t, s.queue.ready),
        ),
        running=Some(t),
        left=s.quantum,
        idle=False,
    )

# the task was never added
# is_absent : TaskState → Bool  [scheduler/specs/Schedule.antt:145]
def is_absent(task_state):
    match task_state:
        case TaskState.Absent: return True
        case TaskState.Ready: return False
        case TaskState.Running: return False
        case TaskState.Waiting(why): return False
        case TaskState.Removed: return False
        case _: raise NoCase('is_absent')

# whether task t is absent, ready, running, waiting or removed
# status_of : Schedule → ℕ → TaskState  [scheduler/specs/Schedule.antt:44]
def status_of(s, t):
    return state_at(s.queue.states, t)

# interrupts are allowed: no task runs, or the running task has not disabled them (autodoc Disable)
# is_interrupting_allowed : Option ℕ → Schedule → Bool  [scheduler/specs/Schedule.antt:238]
def is_interrupting_allowed(r, s):
    match r:
        case None: return True
        case Some(r): return may_interrupt(nesting_of(s, r))
        case _: raise NoCase('is_interrupting_allowed')

# the received and the allocated signals of task t
# signals_of : Schedule → ℕ → SignalSets  [scheduler/specs/Schedule.antt:48]
def signals_of(s, t):
    return slice_index_or(s.signals, t, initial_sets())

# task t allocates signal n, or for -1 the highest free signal; if none is given, nothing changes
# allocates_signal : ℕ → ℤ → Schedule → Schedule  [scheduler/specs/Schedule.antt:205]
def allocates_signal(t, n, s):
    return with_signals(t, after_grant(grant(n, signals_of(s, t)), signals_of(s, t)), s)

# task t with other signals
# with_signals : ℕ → SignalSets → Schedule → Schedule  [scheduler/specs/Schedule.antt:64]
def with_signals(t, sets, s):
    return replace(s, signals=slice_set(s.signals, t, sets))

# Signal n of a live task is not allocated any more. A task that is not live has none to give back (project rule).
# frees_signal : ℕ → ℕ → Schedule → Schedule  [scheduler/specs/Schedule.antt:213]
def frees_signal(t, n, s):
    return with_signals(t, after_free(n, signals_of(s, t)), s) if is_live(status_of(s, t)) else s

# the received signals of task t that are in the mask become those of `new`; the others stay
# sets_signals : ℕ → (new mask : ℕ) → Schedule → Schedule  [scheduler/specs/Schedule.antt:209]
def sets_signals(t, new, mask, s):
    return with_signals(t, after_set(new, mask, signals_of(s, t)), s)

# the received signals that are in the mask; none if there are none
# come_for : ℕ → SignalSets → Option ℕ  [scheduler/specs/Schedule.antt:193]
def come_for(mask, sets):
    return None if taken_signals(mask, sets) == 0 else Some(taken_signals(mask, sets))

# the running task takes the signals of the mask that it has received, or waits for them if there are none
# after_wait : ℕ → ℕ → Schedule → Schedule  [scheduler/specs/Schedule.antt:197]
def after_wait(t, mask, s):
    if taken_signals(mask, signals_of(s, t)) == 0: return waits_for(t, mask, s)
    return takes_signals(t, mask, s)

# the running task waits for signals of the mask; no task runs then (autodoc exec.library/Wait)
# waits_for : ℕ → ℕ → Schedule → Schedule  [scheduler/specs/Schedule.antt:185]
def waits_for(t, mask, s):
    return replace(with_status(t, TaskState.Waiting(Why.Signals(mask)), s), running=None)

# task t takes the signals of the mask that it has received
# takes_signals : ℕ → ℕ → Schedule → Schedule  [scheduler/specs/Schedule.antt:189]
def takes_signals(t, mask, s):
    return with_signals(t, after_take(mask, signals_of(s, t)), s)

# task t with the nesting after a call; it stays as it is if there is none, because the call is refused
# nested : ℕ → Option Nesting → Schedule → Schedule  [scheduler/specs/Schedule.antt:243]
def nested(t, nesting, s):
    match nesting:
        case None: return s
        case Some(nesting): return with_nesting(t, nesting, s)
        case _: raise NoCase('nested')

# task t with another nesting
# with_nesting : ℕ → Nesting → Schedule → Schedule  [scheduler/specs/Schedule.antt:68]
def with_nesting(t, nesting, s):
    return replace(s, nestings=slice_set(s.nestings, t, nesting))

# a live task that does not run is ended (autodoc exec.library/RemTask)
# task_removed : ℕ → Schedule → Schedule  [scheduler/specs/Schedule.antt:161]
def task_removed(t, s):
    return departs(t, with_status(t, TaskState.Removed, s))

# task t leaves the ready sequence
# departs : ℕ → Schedule → Schedule  [scheduler/specs/Schedule.antt:157]
def departs(t, s):
    return replace(s, queue=replace(s.queue, ready=without_item(t, s.queue.ready)))

# the live task of that name, if any (autodoc exec.library/FindTask)
# found : List ℕ → Schedule → Option ℕ  [scheduler/specs/Schedule.antt:165]
def found(name, s):
    return find(partial(is_live_named, s.queue, name), range_with_len(0, len(s.queue.states)))

# the running task clears the signals of the mask that it has received, and waits for new ones (autodoc WaitPort;
# project rule)
# clears_and_waits : ℕ → ℕ → Schedule → Schedule  [scheduler/specs/Schedule.antt:201]
def clears_and_waits(t, mask, s):
    return waits_for(t, mask, takes_signals(t, mask, s))

# the running task waits for a semaphore; no task runs then (autodoc exec.library/ObtainSemaphore)
# waits_at_semaphore : ℕ → Schedule → Schedule  [scheduler/specs/Schedule.antt:219]
def waits_at_semaphore(t, s):
    return replace(with_status(t, TaskState.Waiting(Why.Sem), s), running=None)

# a task in that state waits for a signal that is among the received ones (autodoc Wait)
# awaits : TaskState → ℕ → Bool  [scheduler/specs/Schedule.antt:177]
def awaits(task_state, received):
    match task_state:
        case TaskState.Absent: return False
        case TaskState.Ready: return False
        case TaskState.Running: return False
        case TaskState.Waiting(why): return is_signalled(why, received)
        case TaskState.Removed: return False
        case _: raise NoCase('awaits')

# What a task waits for has come: a signal of its mask was received. No signal ends the wait for a semaphore. (autodocs
# Wait and ObtainSemaphore)
# is_signalled : Why → ℕ → Bool  [scheduler/specs/Schedule.antt:172]
def is_signalled(why, received):
    match why:
        case Why.Signals(mask): return not received & mask == 0
        case Why.Sem: return False
        case _: raise NoCase('is_signalled')

# task t with another priority
# with_priority : ℕ → ℤ → Schedule → Schedule  [scheduler/specs/Schedule.antt:60]
def with_priority(t, pri, s):
    return replace(s, queue=replace(s.queue, pris=slice_set(s.queue.pris, t, pri)))


# ---- What timer.device keeps: its clock, system time, and the requests that wait, each for a time of the clock or for
# a system time (Devices, timer device). Each request has a number: in the abstract machine this is its address. The
# requests that wait are kept in the order in which they were begun, and are never sorted: of those whose time has come,
# the next to finish is the one that is due first, and of those that are due at one time the one that was begun first.
# [timerdev/specs/Timing.antt]

# the time that a request waits for, in microseconds
# [timerdev/specs/Timing.antt:11]
Due = data('Due',
    # a time of the clock (UNIT_MICROHZ, UNIT_VBLANK)
    AtClock='time',
    # a system time (UNIT_WAITUNTIL)
    AtSystem='time',
)

# a request that waits, and the time that it waits for
# [timerdev/specs/Timing.antt:18]
Waiting = record('Waiting', 'request', 'due')

# The clock, system time, and what both gain at each tick, in microseconds; whether system time was set and the requests
# that wait for it were not looked at since; and the requests that wait, in the order in which they were begun. (RKM
# Devices, Timer Device)
# [timerdev/specs/Timing.antt:25]
Timer = record('Timer', 'clock', 'system', 'tick_micros', 'is_set', 'waiting')

# clock and system time gain one tick
# clock_ticked : Timer → Timer  [timerdev/specs/Timing.antt:43]
def clock_ticked(timer):
    return replace(timer, clock=timer.clock + timer.tick_micros, system=timer.system + timer.tick_micros)

# a timer before its first tick: no request waits, and clock and system time begin at 0 (project rule)
# new_timer : ℕ → Timer  [timerdev/specs/Timing.antt:33]
def new_timer(tick_micros):
    return Timer(clock=0, system=0, tick_micros=tick_micros, is_set=False, waiting=[])

# a request waits, after those that were begun before
# begins_to_wait : ℕ → Due → Timer → Timer  [timerdev/specs/Timing.antt:78]
def begins_to_wait(request, due, timer):
    return replace(timer, waiting=timer.waiting + [Waiting(request=request, due=due)])

# system time becomes this time; the clock stays (autodoc timer.device TR_SETSYSTIME)
# system_set : ℕ → Timer → Timer  [timerdev/specs/Timing.antt:47]
def system_set(time, timer):
    return replace(timer, system=time, is_set=True)

# a request does not wait any more
# waits_no_more : ℕ → Timer → Timer  [timerdev/specs/Timing.antt:82]
def waits_no_more(request, timer):
    return replace(timer, waiting=[w for w in timer.waiting if not w.request == request])

# the requests that wait for system time were looked at
# looked_at : Timer → Timer  [timerdev/specs/Timing.antt:51]
def looked_at(timer):
    return replace(timer, is_set=False)

# of the requests that wait for a system time, the one that finishes next, if the time of one has come
# until_next : Timer → Option ℕ  [timerdev/specs/Timing.antt:99]
def until_next(timer):
    return next_of(lambda w: is_system(w.due) and is_due(timer, w.due), timer)

# of the requests that pass a test, the one that finishes next, if there is one: the one that is due first, and of those
# that are due at one time the one that was begun first
# next_of : (Waiting → Bool) → Timer → Option ℕ  [timerdev/specs/Timing.antt:91]
def next_of(passes, timer):
    return option_map(
        lambda w: w.request,
        chosen(partial(sooner, timer), [each for each in timer.waiting if passes(each)]),
    )

# the priority of a request among those that wait: the sooner it is due, the greater
# sooner : Timer → Waiting → ℤ  [timerdev/specs/Timing.antt:72]
def sooner(timer, waiting):
    return neg(moment(timer, waiting.due))

# the time of the clock at which a due time comes; for a system time, this depends on the offset
# moment : Timer → Due → ℤ  [timerdev/specs/Timing.antt:57]
def moment(timer, due):
    match due:
        case Due.AtClock(time): return time
        case Due.AtSystem(time): return time - offset(timer)
        case _: raise NoCase('moment')

# how far system time is ahead of the clock; negative if it is behind
# offset : Timer → ℤ  [timerdev/specs/Timing.antt:39]
def offset(timer):
    return timer.system - timer.clock

# the due time is a system time
# is_system : Due → Bool  [timerdev/specs/Timing.antt:67]
def is_system(due):
    match due:
        case Due.AtClock(time): return False
        case Due.AtSystem(time): return True
        case _: raise NoCase('is_system')

# a due time has come (RKM Devices, Timer Device)
# is_due : Timer → Due → Bool  [timerdev/specs/Timing.antt:62]
def is_due(timer, due):
    match due:
        case Due.AtClock(time): return time <= timer.clock
        case Due.AtSystem(time): return time <= timer.system
        case _: raise NoCase('is_due')

# of all requests that wait, the one that finishes next, if the time of one has come (RKM Devices, Timer Device)
# due_next : Timer → Option ℕ  [timerdev/specs/Timing.antt:95]
def due_next(timer):
    return next_of(lambda w: is_due(timer, w.due), timer)


# ---- The sources of interrupts, their names, and which of them ask to be served (RKM Libraries, Exec Interrupts).
# [softint/specs/Sources.antt]

# no source asks to be served
# no_latches : Latches  [softint/specs/Sources.antt:45]
@once
def no_latches():
    return Latches(ports=False, vertb=False, exter=False)

# the name of a source, in the texts and in the trace
# source_text : Source → List ℕ  [softint/specs/Sources.antt:12]
def source_text(source):
    match source:
        case Source.Ports: return codes('PORTS')
        case Source.Vertb: return codes('VERTB')
        case Source.Exter: return codes('EXTER')
        case _: raise NoCase('source_text')

# the two are the same source
# is_source : (source other : Source) → Bool  [softint/specs/Sources.antt:32]
def is_source(source, other_source):
    match source, other_source:
        case Source.Ports, Source.Ports: return True
        case Source.Vertb, Source.Vertb: return True
        case Source.Exter, Source.Exter: return True
        case _, _: return False

# the latch of one source is set or cleared
# with_latch : Source → Bool → Latches → Latches  [softint/specs/Sources.antt:49]
def with_latch(source, set_, latches):
    match source:
        case Source.Ports: return replace(latches, ports=set_)
        case Source.Vertb: return replace(latches, vertb=set_)
        case Source.Exter: return replace(latches, exter=set_)
        case _: raise NoCase('with_latch')

# the source of highest level among those that ask to be served, if any does
# highest : Latches → Option Source  [softint/specs/Sources.antt:55]
def highest(latches):
    return chosen(lambda source: level(source), [source for source in sources() if is_latched(source, latches)])

# the level at which a source interrupts the processor
# level : Source → ℕ  [softint/specs/Sources.antt:26]
def level(source):
    match source:
        case Source.Ports: return 2
        case Source.Vertb: return 3
        case Source.Exter: return 6
        case _: raise NoCase('level')

# all sources
# sources : List Source  [softint/specs/Sources.antt:8]
@once
def sources():
    return [Source.Ports, Source.Vertb, Source.Exter]

# a source asks to be served: its latch is set
# is_latched : Source → Latches → Bool  [softint/specs/Sources.antt:39]
def is_latched(source, latches):
    match source:
        case Source.Ports: return latches.ports
        case Source.Vertb: return latches.vertb
        case Source.Exter: return latches.exter
        case _: raise NoCase('is_latched')

# the source of a name, if it is the name of one
# source_of : List ℕ → Option Source  [softint/specs/Sources.antt:18]
@kept
def source_of(name):
    if name == codes('PORTS'): return Some(Source.Ports)
    if name == codes('VERTB'): return Some(Source.Vertb)
    return Some(Source.Exter) if name == codes('EXTER') else None


# ---- Sequences that are kept by a key, as Exec keeps its lists by priority: what an arrival does, which item is
# chosen, and the laws that tie the two. The key of an item is any integer. [execlist/specs/Order.antt]

# the earliest among the items of greatest key, if there are items (RKM Libraries, Exec Tasks: scheduling)
# chosen : {A : Type 0} → (A → ℤ) → List A → Option A  [execlist/specs/Order.antt:33]
def chosen(key, items):
    match items:
        case []: return None
        case [x, *xs]: return chosen_or(key, x, chosen(key, xs))
        case _: raise NoCase('chosen')

# x, unless the item that is chosen from those after it has a greater key
# chosen_or : {A : Type 0} → (A → ℤ) → A → Option A → Option A  [execlist/specs/Order.antt:28]
def chosen_or(key, x, y):
    match y:
        case None: return Some(x)
        case Some(y): return Some(y) if is_lower(key, x, y) else Some(x)
        case _: raise NoCase('chosen_or')

# y has a lower key than x
# is_lower : {A : Type 0} → (A → ℤ) → A → A → Bool  [execlist/specs/Order.antt:6]
def is_lower(key, y, x):
    return key(y) < key(x)

# the sequence with item n left out
# without_item : ℕ → List ℕ → List ℕ  [execlist/specs/Order.antt:24]
def without_item(n, xs):
    return [x for x in xs if not x == n]

# the first item, if there is one
# first : {A : Type 0} → List A → Option A  [execlist/specs/Order.antt:19]
def first(items):
    match items:
        case []: return None
        case [x, *xs]: return Some(x)
        case _: raise NoCase('first')

# x put before the first item of lower key, or last if there is none (autodoc exec.library/Enqueue)
# enqueue : {A : Type 0} → (A → ℤ) → List A → A → List A  [execlist/specs/Order.antt:10]
def enqueue(key, items, x):
    match items:
        case []: return [x]
        case [y, *ys]: return [x, y, *ys] if is_lower(key, y, x) else [y, *enqueue(key, ys, x)]
        case _: raise NoCase('enqueue')


# ---- What calls on the tasks speak of: the state, the priority and the name of each task, by its number, and the ready
# tasks. The program (`TaskQ`) keeps the ready tasks in the order in which they are to run, the abstract machine in
# order of arrival. RKM Libraries, Exec Tasks. [taskq/specs/Tasks.antt]

# the ready tasks, and what is known of each task (RKM Libraries, Exec Tasks)
# [taskq/specs/Tasks.antt:11]
Tasks = record('Tasks', 'ready', 'states', 'pris', 'names')

# the name of task t
# name_at : List (List ℕ) → ℕ → List ℕ  [taskq/specs/Tasks.antt:22]
def name_at(names, t):
    return slice_index_or(names, t, [])

# the state of task t; Absent if no task has that number
# state_at : List TaskState → ℕ → TaskState  [taskq/specs/Tasks.antt:18]
def state_at(states, t):
    return slice_index_or(states, t, TaskState.Absent)

# a task of that state was added and not removed (RKM Libraries, Exec Tasks: task states)
# is_live : TaskState → Bool  [taskq/specs/Tasks.antt:34]
def is_live(task_state):
    match task_state:
        case TaskState.Absent: return False
        case TaskState.Ready: return True
        case TaskState.Running: return True
        case TaskState.Waiting(why): return True
        case TaskState.Removed: return False
        case _: raise NoCase('is_live')

# task t is live and has that name, byte for byte (autodoc FindTask)
# is_live_named : Tasks → List ℕ → ℕ → Bool  [taskq/specs/Tasks.antt:42]
def is_live_named(s, name, t):
    return is_live(state_at(s.states, t)) and pointwise(nat_eq, name_at(s.names, t), name)

# a task of that state is ready
# is_ready : TaskState → Bool  [taskq/specs/Tasks.antt:26]
def is_ready(task_state):
    match task_state:
        case TaskState.Absent: return False
        case TaskState.Ready: return True
        case TaskState.Running: return False
        case TaskState.Waiting(why): return False
        case TaskState.Removed: return False
        case _: raise NoCase('is_ready')


# ---- The signals of a task as two sets, and what each call makes of them. A set of signals is a word of 32 bits: bit n
# represents signal n. [signals/specs/Signals.antt]

# the signals that a task has received, and those that it has allocated (RKM Libraries, Exec Signals)
# [signals/specs/Signals.antt:7]
SignalSets = record('SignalSets', 'received', 'allocated')

# the sets of a task that begins: no signal is received, and signals 0 to 15, the system's, are allocated (RKM
# Libraries, Exec Signals)
# initial_sets : SignalSets  [signals/specs/Signals.antt:25]
@once
def initial_sets():
    return SignalSets(received=0, allocated=65535)

# what AllocSignal returns: the number of the signal, or -1 if none is given
# grant_number : Option ℕ → ℤ  [signals/specs/Signals.antt:76]
def grant_number(n):
    match n:
        case None: return -1
        case Some(n): return n
        case _: raise NoCase('grant_number')

# the signal that AllocSignal gives, if any: for -1 the highest free one, and for a number from 16 to 31 that signal if
# it is free (autodoc AllocSignal)
# grant : ℤ → SignalSets → Option ℕ  [signals/specs/Signals.antt:70]
def grant(number, sets):
    match number:
        case _ if number >= 0:
            n = number
            return Some(n) if is_own_signal(n) and not has_signal(sets.allocated, n) else None
        case -1: return highest_free(sets.allocated)
        case _ if number < -1: return None
        case _: raise NoCase('grant')

# a signal from 16 to 31: one that a task may allocate
# is_own_signal : ℕ → Bool  [signals/specs/Signals.antt:65]
def is_own_signal(n):
    return 16 <= n and n < 32

# signal n is in the set
# has_signal : ℕ → ℕ → Bool  [signals/specs/Signals.antt:14]
def has_signal(set_, n):
    return not set_ & 2 ** n == 0

# the first of signals 31, 30, .., 16 that is not allocated, if there is one
# highest_free : ℕ → Option ℕ  [signals/specs/Signals.antt:54]
def highest_free(allocated):
    return find(lambda n: not has_signal(allocated, n), own_signals())

# the signals that a task may allocate, the highest first
# own_signals : List ℕ  [signals/specs/Signals.antt:50]
@once
def own_signals():
    return [31, 30, 29, 28, 27, 26, 25, 24, 23, 22, 21, 20, 19, 18, 17, 16]

# AllocSignal: a signal that is given becomes allocated, and is removed from the received ones
# after_grant : Option ℕ → SignalSets → SignalSets  [signals/specs/Signals.antt:81]
def after_grant(n, sets):
    match n:
        case None: return sets
        case Some(n): return SignalSets(received=without_bits(sets.received, 2 ** n), allocated=sets.allocated | 2 ** n)
        case _: raise NoCase('after_grant')

# the set less the signals of the mask
# without_bits : ℕ → ℕ → ℕ  [signals/specs/Signals.antt:18]
def without_bits(set_, mask):
    return set_ & bit_not(32, mask)

# FreeSignal: the signal is not allocated any more, and the received signals stay as they are (autodoc FreeSignal)
# after_free : ℕ → SignalSets → SignalSets  [signals/specs/Signals.antt:86]
def after_free(n, sets):
    return SignalSets(received=sets.received, allocated=without_bits(sets.allocated, 2 ** n))

# SetSignal: inside the mask the received signals become those of `new`, and outside it they stay (autodoc SetSignal)
# after_set : ℕ → ℕ → SignalSets → SignalSets  [signals/specs/Signals.antt:41]
def after_set(new, mask, sets):
    return SignalSets(received=without_bits(sets.received, mask) | new & mask, allocated=sets.allocated)

# what Wait returns: the received signals that are in the mask (autodoc Wait)
# taken_signals : ℕ → SignalSets → ℕ  [signals/specs/Signals.antt:33]
def taken_signals(mask, sets):
    return sets.received & mask

# Wait: the signals of the mask are removed from the received ones, and the others stay
# after_take : ℕ → SignalSets → SignalSets  [signals/specs/Signals.antt:37]
def after_take(mask, sets):
    return SignalSets(received=without_bits(sets.received, mask), allocated=sets.allocated)

# Signal: the signals of the mask join the received ones (autodoc Signal)
# after_post : ℕ → SignalSets → SignalSets  [signals/specs/Signals.antt:29]
def after_post(mask, sets):
    return SignalSets(received=sets.received | mask, allocated=sets.allocated)


# ---- How deep a task has nested Forbid and Disable, and what each call makes of it. [forbid/specs/Nesting.antt]

# the two counts of a task: the number of its calls of Forbid minus that of Permit, minus one; and the number of its
# calls of Disable minus that of Enable, minus one (RKM Libraries, Exec Tasks: forbidding)
# [forbid/specs/Nesting.antt:7]
Nesting = record('Nesting', 'forbids', 'disables')

# both counts begin at -1
# initial_nesting : Nesting  [forbid/specs/Nesting.antt:20]
@once
def initial_nesting():
    return Nesting(forbids=not_nested(), disables=not_nested())

# -1, the count of a task that is not inside a pair of calls
# not_nested : ℤ  [forbid/specs/Nesting.antt:12]
@once
def not_nested():
    return -1

# another task may be given the processor: the running task is inside neither Forbid nor Disable (autodocs Forbid and
# Disable)
# may_switch : Nesting → Bool  [forbid/specs/Nesting.antt:68]
def may_switch(nesting):
    return nesting.forbids == not_nested() and nesting.disables == not_nested()

# the nesting after a Forbid; none if the count is 127 already (autodoc Forbid; the refusal: project rule)
# after_forbid : Nesting → Option Nesting  [forbid/specs/Nesting.antt:49]
def after_forbid(nesting):
    return option_map(partial(with_forbids, nesting), count_inside(nesting.forbids))

# the nesting with another count of Forbid and Permit
# with_forbids : Nesting → ℤ → Nesting  [forbid/specs/Nesting.antt:39]
def with_forbids(nesting, count):
    return Nesting(forbids=count, disables=nesting.disables)

# the count one level deeper; none if it is 127 already
# count_inside : ℤ → Option ℤ  [forbid/specs/Nesting.antt:31]
def count_inside(count):
    return Some(count + 1) if count < most_nested() else None

# 127, the greatest count
# most_nested : ℤ  [forbid/specs/Nesting.antt:16]
@once
def most_nested():
    return 127

# the nesting after a Permit; none if the count of Forbid is -1 (autodoc Permit; the refusal: project rule)
# after_permit : Nesting → Option Nesting  [forbid/specs/Nesting.antt:53]
def after_permit(nesting):
    return option_map(partial(with_forbids, nesting), count_outside(nesting.forbids))

# the count one level less deep; none if it is -1 already
# count_outside : ℤ → Option ℤ  [forbid/specs/Nesting.antt:35]
def count_outside(count):
    return Some(count - 1) if not_nested() < count else None

# the nesting after a Disable; none if the count is 127 already (autodoc Disable; the refusal: project rule)
# after_disable : Nesting → Option Nesting  [forbid/specs/Nesting.antt:57]
def after_disable(nesting):
    return option_map(partial(with_disables, nesting), count_inside(nesting.disables))

# the nesting with another count of Disable and Enable
# with_disables : Nesting → ℤ → Nesting  [forbid/specs/Nesting.antt:43]
def with_disables(nesting, count):
    return Nesting(forbids=nesting.forbids, disables=count)

# the nesting after an Enable; none if the count of Disable is -1 (autodoc Enable; the refusal: project rule)
# after_enable : Nesting → Option Nesting  [forbid/specs/Nesting.antt:61]
def after_enable(nesting):
    return option_map(partial(with_disables, nesting), count_outside(nesting.disables))

# an interrupt may be served: the running task is not inside Disable
# may_interrupt : Nesting → Bool  [forbid/specs/Nesting.antt:72]
def may_interrupt(nesting):
    return nesting.disables == not_nested()


# ---- What calls on a list space speak of: headers that hold sequences of nodes, the header of each node, and its key.
# Nodes and headers are numbers. RKM Libraries, Exec Lists and Queues. [execlist/specs/Lists.antt]

# what is known of a node besides its place: its priority, and its name or none
# [execlist/specs/Lists.antt:7]
KeyData = record('KeyData', 'pri', 'name')

# the key of a new node: priority 0, and no name
# blank : KeyData  [execlist/specs/Lists.antt:12]
@once
def blank():
    return KeyData(pri=0, name=None)

# node n put after node p, or first if p is none
# put_after : Option ℕ → ℕ → List ℕ → List ℕ  [execlist/specs/Lists.antt:52]
def put_after(p, n, xs):
    match p:
        case None: return [n, *xs]
        case Some(p): return part_before(p, xs) + [p, n, *part_after(p, xs)]
        case _: raise NoCase('put_after')

# the nodes before node n
# part_before : ℕ → List ℕ → List ℕ  [execlist/specs/Lists.antt:36]
def part_before(n, items):
    match items:
        case []: return []
        case [x, *xs]: return [] if x == n else [x, *part_before(n, xs)]
        case _: raise NoCase('part_before')

# the nodes after node n
# part_after : ℕ → List ℕ → List ℕ  [execlist/specs/Lists.antt:41]
def part_after(n, items):
    match items:
        case []: return []
        case [x, *xs]: return xs if x == n else part_after(n, xs)
        case _: raise NoCase('part_after')

# the last node, if there is one
# last : List ℕ → Option ℕ  [execlist/specs/Lists.antt:46]
@kept
def last(items):
    match items:
        case []: return None
        case [x]: return Some(x)
        case [x, y, *xs]: return last([y, *xs])
        case _: raise NoCase('last')

# there is a name, and it is this one, byte for byte
# name_is : Option (List ℕ) → List ℕ → Bool  [execlist/specs/Lists.antt:67]
def name_is(a, b):
    match a:
        case None: return False
        case Some(a): return pointwise(nat_eq, a, b)
        case _: raise NoCase('name_is')

# there is a number, of a header or of an owner, and it is this one
# is_at : Option ℕ → ℕ → Bool  [execlist/specs/Lists.antt:76]
def is_at(k, h):
    match k:
        case None: return False
        case Some(k): return k == h
        case _: raise NoCase('is_at')


# ---- Where AllocMem takes memory, and what AvailMem returns (RKM Libraries, Exec Memory Allocation).
# [memlist/specs/Fit.antt]

# The greatest gap of the suitable regions if bit 17 is set (MEMF_LARGEST), else their installed size if bit 19 is set
# (MEMF_TOTAL), else the sum of their gaps (autodoc exec.library/AvailMem).
# avail : List Region → Blocks → ℕ → ℕ  [memlist/specs/Fit.antt:53]
def avail(regions, blocks, reqs):
    if asks(17, reqs): return greatest(free_sizes(regions, blocks, reqs))
    if asks(19, reqs): return total_size([each for each in regions if is_suitable(reqs, each)])
    return sum(n for n in free_sizes(regions, blocks, reqs))

# this bit is set in the requirements
# asks : ℕ → ℕ → Bool  [memlist/specs/Fit.antt:48]
def asks(bit, reqs):
    return not reqs & 2 ** bit == 0

# the greatest of some numbers, 0 if there are none
# greatest : List ℕ → ℕ  [memlist/specs/Fit.antt:43]
def greatest(items):
    match items:
        case []: return 0
        case [n, *rest]: return max_(n, greatest(rest))
        case _: raise NoCase('greatest')

# the sizes of all gaps of the suitable regions
# free_sizes : List Region → Blocks → ℕ → List ℕ  [memlist/specs/Fit.antt:39]
def free_sizes(regions, blocks, reqs):
    return [
        gap.size
        for gap in flat_map(lambda region: gaps(region, blocks), [each for each in regions if is_suitable(reqs, each)])
    ]

# a region is suitable if it has all of bits 0 to 2 that are asked for (autodoc AllocMem)
# is_suitable : ℕ → Region → Bool  [memlist/specs/Fit.antt:11]
def is_suitable(reqs, region):
    return region.attrs & reqs & 7 == reqs & 7

# the least multiple of 8 that is at least n; it has no upper bound and so never wraps (RKM Libraries, Exec Memory
# Allocation)
# round : ℕ → ℕ  [memlist/specs/Fit.antt:7]
def round_(n):
    return (n + 7) // 8 * 8

# Where a block of that many bytes is placed. Of the suitable regions that have a gap of at least the rounded size, the
# earliest among those of highest priority is taken, and in it the front of the lowest such gap. None if there is no
# such region, and for size 0 (project rule). (autodoc AllocMem)
# fit : List Region → Blocks → ℕ → ℕ → Option ℕ  [memlist/specs/Fit.antt:33]
def fit(regions, blocks, size, reqs):
    if size == 0: return None
    return option_and_then(
        partial(front, round_(size), blocks),
        chosen(region_pri, [each for each in regions if has_room(round_(size), reqs, blocks, each)]),
    )

# the address of the lowest gap of a region that has at least that size, if there is one
# front : ℕ → Blocks → Region → Option ℕ  [memlist/specs/Fit.antt:27]
def front(size, blocks, region):
    return option_map(lambda gap: gap.address, lowest_gap(size, gaps(region, blocks)))

# the lowest gap of at least that size, if there is one
# lowest_gap : ℕ → List Gap → Option Gap  [memlist/specs/Fit.antt:15]
def lowest_gap(size, free):
    return find(lambda gap: size <= gap.size, free)

# the priority of a region
# region_pri : Region → ℤ  [memlist/specs/Fit.antt:23]
def region_pri(region):
    return region.pri

# a region is suitable, and has a gap of at least that size
# has_room : ℕ → ℕ → Blocks → Region → Bool  [memlist/specs/Fit.antt:19]
def has_room(size, reqs, blocks, region):
    return is_suitable(reqs, region) and is_some(lowest_gap(size, gaps(region, blocks)))


# ---- One port without its messages, and what it does when a message arrives (RKM Libraries, Exec Messages and Ports).
# [msgport/specs/Port.antt]

# the task of a port, the number of its signal, and its action
# [msgport/specs/Port.antt:8]
Port = record('Port', 'task', 'bit', 'action')

# a port that signals its task
# new_port : ℕ → ℕ → Port  [msgport/specs/Port.antt:14]
def new_port(task, bit):
    return Port(task=task, bit=bit, action=PortAction.Signal)

# what a port does when a message arrives: it signals its task, causes its software interrupt, or does nothing (RKM
# Libraries, Exec Messages and Ports: mp_Flags)
# arrival_action : Port → Action  [msgport/specs/Port.antt:25]
def arrival_action(port):
    return acting_by(port.action, port)

# what is to be done for a message that arrives at a port with this action
# acting_by : PortAction → Port → Action  [msgport/specs/Port.antt:18]
def acting_by(port_action, port):
    match port_action:
        case PortAction.Signal: return Action.Signal(port.task, 2 ** port.bit)
        case PortAction.Cause(i): return Action.Cause(i)
        case PortAction.Ignore: return Action.Nothing
        case _: raise NoCase('acting_by')

# the number of the signal that a task waits for at a port, if the port signals that task (autodoc WaitPort)
# wait_bit : ℕ → Port → Option ℕ  [msgport/specs/Port.antt:35]
def wait_bit(task, port):
    return wait_bit_by(port.action, task, port)

# the signal of a port with this action, if the action is to signal, and the task is that of the port
# wait_bit_by : PortAction → ℕ → Port → Option ℕ  [msgport/specs/Port.antt:29]
def wait_bit_by(port_action, task, port):
    match port_action:
        case PortAction.Signal: return Some(port.bit) if port.task == task else None
        case PortAction.Cause(i): return None
        case PortAction.Ignore: return None
        case _: raise NoCase('wait_bit_by')


# ---- One timer request: how it begins and how it is finished (RKM Devices, Timer Device).
# [iorequest/specs/Request.antt]

# the request is in progress: it was begun, and is not finished
# is_under_way : Request → Bool  [iorequest/specs/Request.antt:18]
def is_under_way(q):
    return is_way(q.state)

# the state of a request that is in progress: begun, and not finished
# is_way : ReqState → Bool  [iorequest/specs/Request.antt:13]
def is_way(req_state):
    match req_state:
        case ReqState.UnderWay: return True
        case _: return False

# a request with this reply port that was never begun: it is not open, and its other fields are 0
# idle_request : ℕ → Request  [iorequest/specs/Request.antt:8]
def idle_request(port):
    return Request(port=port, state=ReqState.Idle, unit=None, command=0, secs=0, micros=0, error=0, quick=False)

# the request is open, for some unit
# is_opened : Request → Bool  [iorequest/specs/Request.antt:22]
def is_opened(q):
    return is_some(q.unit)

# the request in progress: its error is 0, and IOF_QUICK is as the caller asked, but cleared if the request is to wait
# in_progress : Bool → (system : ℕ) → Request → Request  [iorequest/specs/Request.antt:83]
def in_progress(quick, system, q):
    return replace(
        with_system_time(system, q),
        state=ReqState.UnderWay,
        error=0,
        quick=quick and not is_to_wait(system, q),
    )

# the request with system time in its time field, if it asks for that; the seconds are modulo 2 to the power 32 (project
# rule)
# with_system_time : (system : ℕ) → Request → Request  [iorequest/specs/Request.antt:79]
def with_system_time(system, q):
    if asks_time(q): return replace(q, secs=quotient(system, second()) % 2 ** 32, micros=remainder(system, second()))
    return q

# the command is 10, TR_GETSYSTIME
# asks_time : Request → Bool  [iorequest/specs/Request.antt:42]
def asks_time(q):
    return q.command == 10

# the number of microseconds in a second
# second : ℕ  [iorequest/specs/Request.antt:28]
@once
def second():
    return 1_000_000

# the request is not done at once: it is a TR_ADDREQUEST, and its time field is not 0, or, for UNIT_WAITUNTIL, is later
# than system time
# is_to_wait : (system : ℕ) → Request → Bool  [iorequest/specs/Request.antt:59]
def is_to_wait(system, q):
    return adds(q) and (system < time_of(q) if is_until(q) else not time_of(q) == 0)

# the command is 9, TR_ADDREQUEST
# adds : Request → Bool  [iorequest/specs/Request.antt:38]
def adds(q):
    return q.command == 9

# the request is open for the unit whose requests name a system time, UNIT_WAITUNTIL
# is_until : Request → Bool  [iorequest/specs/Request.antt:50]
def is_until(q):
    return is_unit_until(q.unit)

# the unit is 3, UNIT_WAITUNTIL
# is_unit_until : Option ℕ → Bool  [iorequest/specs/Request.antt:53]
def is_unit_until(unit):
    match unit:
        case None: return False
        case Some(unit): return unit == 3
        case _: raise NoCase('is_unit_until')

# the time field of a request, in microseconds
# time_of : Request → ℕ  [iorequest/specs/Request.antt:32]
def time_of(q):
    return q.secs * second() + q.micros

# the request that is done, with this error
# finished : ℤ → Request → Request  [iorequest/specs/Request.antt:94]
def finished(error, q):
    return replace(q, state=done_state(q.quick), error=error)

# the state of a request that is done: Quick if IOF_QUICK is set, else Replied
# done_state : Bool → ReqState  [iorequest/specs/Request.antt:89]
def done_state(bool_):
    match bool_:
        case True: return ReqState.Quick
        case False: return ReqState.Replied
        case _: raise NoCase('done_state')

# the port to which the finished request is replied; none if it is done quick
# reply_port : Request → Option ℕ  [iorequest/specs/Request.antt:98]
def reply_port(q):
    return None if q.quick else Some(q.port)

# what comes of a request that begins at this time of the clock and this system time: it sets system time, it waits for
# a time of one or the other, or it is finished at once
# outcome : (now system : ℕ) → Request → Begun  [iorequest/specs/Request.antt:72]
def outcome(now, system, q):
    if sets_time(q): return Begun.NewTime(time_of(q))
    if is_to_wait(system, q): return Begun.Until(time_of(q)) if is_until(q) else Begun.Queue(due_of(now, q))
    return Begun.Finish(error_of(q))

# the command is 11, TR_SETSYSTIME
# sets_time : Request → Bool  [iorequest/specs/Request.antt:46]
def sets_time(q):
    return q.command == 11

# the time of the clock at which a request is due, if it begins when the clock is at `now`
# due_of : ℕ → Request → ℕ  [iorequest/specs/Request.antt:63]
def due_of(now, q):
    return now + time_of(q)

# the error of a request that is done at once: IOERR_NOCMD (-3) for a command that the timer does not know, else 0
# error_of : Request → ℤ  [iorequest/specs/Request.antt:67]
def error_of(q):
    if adds(q): return 0
    if asks_time(q): return 0
    return 0 if sets_time(q) else -3


# ---- What calls on ports see: the ports and the messages by number, the messages of each port, those that are held,
# and the public ports (RKM Libraries, Exec Messages and Ports). [msgport/specs/Ports.antt]

# a message that was never put
# new_message : ℕ → ℕ → Message  [msgport/specs/Ports.antt:54]
def new_message(reply, word):
    return Message(kind=nt_unknown(), word=word, reply=reply)

# NT_UNKNOWN, 0: the type of a message that was never put (include file exec/nodes.h)
# nt_unknown : ℕ  [msgport/specs/Ports.antt:28]
@once
def nt_unknown():
    return 0

# NT_MESSAGE, 5: the type of a message that was put
# nt_message : ℕ  [msgport/specs/Ports.antt:32]
@once
def nt_message():
    return 5

# NT_FREEMSG, 6: the type of a message that was replied and has no reply port
# nt_freemsg : ℕ  [msgport/specs/Ports.antt:36]
@once
def nt_freemsg():
    return 6

# NT_REPLYMSG, 7: the type of a message that was replied
# nt_replymsg : ℕ  [msgport/specs/Ports.antt:40]
@once
def nt_replymsg():
    return 7


# ---- What calls on signal semaphores see: the semaphores by number, the tasks that wait at each, and where each task
# waits (RKM Libraries, Exec Semaphores). [sigsem/specs/Semaphores.antt]

# a semaphore that no task owns, with the count 0
# free_sem : Sem  [sigsem/specs/Semaphores.antt:25]
@once
def free_sem():
    return Sem(owner=None, count=0)

# some task owns a semaphore (RKM Libraries, Exec Semaphores)
# is_owned : Sem → Bool  [sigsem/specs/Semaphores.antt:33]
def is_owned(sem):
    return is_some(sem.owner)

# a task that asks for a semaphore becomes its owner, or waits for it (autodoc ObtainSemaphore)
# outcome_for : ℕ → Sem → Obtained  [sigsem/specs/Semaphores.antt:45]
def outcome_for(t, sem):
    return Obtained.Owner if is_free_for(t, sem) else Obtained.Waits

# task t may have a semaphore at once: no other task owns it
# is_free_for : ℕ → Sem → Bool  [sigsem/specs/Semaphores.antt:41]
def is_free_for(t, sem):
    return not is_owned(sem) or is_owner(t, sem)

# task t owns a semaphore
# is_owner : ℕ → Sem → Bool  [sigsem/specs/Semaphores.antt:37]
def is_owner(t, sem):
    return is_at(sem.owner, t)

# task t owns a semaphore, and once more would take its count past the greatest
# is_too_deep : ℕ → Sem → Bool  [sigsem/specs/Semaphores.antt:49]
def is_too_deep(t, sem):
    return is_owner(t, sem) and most_obtained() < sem.count + 1

# 32767, the greatest count (project rule: that of a signed word, as ss_NestCount is in exec/semaphores.h)
# most_obtained : ℕ  [sigsem/specs/Semaphores.antt:21]
@once
def most_obtained():
    return 32767

# task t owns the semaphore, and has to release it once more than before (autodocs ObtainSemaphore and ReleaseSemaphore)
# once_more : ℕ → Sem → Sem  [sigsem/specs/Semaphores.antt:53]
def once_more(t, sem):
    return Sem(owner=Some(t), count=sem.count + 1)

# the owner has to release a semaphore exactly once more
# is_last : Sem → Bool  [sigsem/specs/Semaphores.antt:57]
def is_last(sem):
    return sem.count == 1

# a semaphore after its last release: owned by this task, which has to release it once, or free if there is none
# (autodoc ReleaseSemaphore)
# owned_next : Option ℕ → Sem  [sigsem/specs/Semaphores.antt:66]
def owned_next(t):
    match t:
        case None: return free_sem()
        case Some(t): return owned_by(t)
        case _: raise NoCase('owned_next')

# a semaphore that a task owns and has to release once
# owned_by : ℕ → Sem  [sigsem/specs/Semaphores.antt:29]
def owned_by(t):
    return Sem(owner=Some(t), count=1)

# the owner has to release the semaphore once less than before
# once_less : Sem → Sem  [sigsem/specs/Semaphores.antt:61]
def once_less(sem):
    return replace(sem, count=monus(sem.count, 1))


# ---- What calls on libraries see: which libraries there are; and of each loaded one, where it lies, how often it is
# open, and whether it is to be expunged when it is closed for the last time (RKM Libraries, Exec Libraries).
# [execlib/specs/Libraries.antt]

# a number, if it passes a test; else none
# only_if : (ℕ → Bool) → ℕ → Option ℕ  [execlib/specs/Libraries.antt:171]
def only_if(test, i):
    return Some(i) if test(i) else None

# 65535: how often a library may be open at one time (project rule: lib_OpenCnt is a word of 16 bits)
# most_openings : ℕ  [execlib/specs/Libraries.antt:163]
@once
def most_openings():
    return 65535

# MEMF_PUBLIC, 1: libraries lie in memory of that attribute (project rule)
# public_memory : ℕ  [execlib/specs/Libraries.antt:73]
@once
def public_memory():
    return 1


# ---- What calls on timer requests see: each request by its number (RKM Devices, Timer Device).
# [iorequest/specs/Requests.antt]

# the error of opening a unit: 0 if the timer has it, else IOERR_OPENFAIL (-1)
# unit_error : Option ℕ → ℤ  [iorequest/specs/Requests.antt:53]
def unit_error(unit):
    return 0 if is_unit(unit) else -1

# the timer has this unit: UNIT_MICROHZ (0), UNIT_VBLANK (1) or UNIT_WAITUNTIL (3)
# is_unit : Option ℕ → Bool  [iorequest/specs/Requests.antt:48]
def is_unit(unit):
    match unit:
        case None: return False
        case Some(unit): return unit <= 1 or unit == 3
        case _: raise NoCase('is_unit')


# ---- The words of a body. The scripts of this simulator are our own; a word that is named as a call of exec.library
# represents that call. [script/specs/Words.antt]

# the text of a word, in a line and in the trace
# word_text : Word → List ℕ  [script/specs/Words.antt:22]
def word_text(word):
    return row(word).text

# what is known of a word by itself, which is its row, by the group of the word
# row : Word → RowData  [script/specs/Words.antt:8]
def row(this_word):
    match this_word:
        case Word.Plain(word): return plain_row(word)
        case Word.Signals(word): return signal_row(word)
        case Word.Nesting(word): return nesting_row(word)
        case Word.Tasks(word): return task_row(word)
        case Word.Lists(word): return list_row(word)
        case Word.Memory(word): return memory_row(word)
        case Word.Ports(word): return port_row(word)
        case Word.Semaphores(word): return semaphore_row(word)
        case Word.Interrupts(word): return interrupt_row(word)
        case Word.Libraries(word): return library_row(word)
        case Word.Requests(word): return request_row(word)
        case _: raise NoCase('row')

# the kinds of a word's arguments, from left to right
# kinds : Word → List Kind  [script/specs/Words.antt:30]
def kinds(word):
    return row(word).kinds

# the word of a text, if there is one
# word_of : List ℕ → Option Word  [script/specs/Words.antt:41]
@kept
def word_of(text):
    return find(lambda word: word_text(word) == text, all_words())

# all words, group by group
# all_words : List Word  [script/specs/Words.antt:34]
@once
def all_words():
    return (
        [Word.Plain(each) for each in plain_words()]
        + [Word.Signals(each) for each in signal_words()]
        + [Word.Nesting(each) for each in nesting_words()]
        + [Word.Tasks(each) for each in task_words()]
        + [Word.Lists(each) for each in list_words()]
        + [Word.Memory(each) for each in memory_words()]
        + [Word.Ports(each) for each in port_words()]
        + [Word.Semaphores(each) for each in semaphore_words()]
        + [Word.Interrupts(each) for each in interrupt_words()]
        + [Word.Libraries(each) for each in library_words()]
        + [Word.Requests(each) for each in request_words()]
    )

# whether a word answers, that is, returns a value: only such a word may have a target before it
# answers : Word → Bool  [script/specs/Words.antt:26]
def answers(word):
    return row(word).answers


# ---- The code of an alert, as it is in a trace. [script/specs/Alerts.antt]

# the text of each alert
# alert_text : Alert → List ℕ  [script/specs/Alerts.antt:7]
def alert_text(alert):
    match alert:
        case Alert.Handle: return codes('HANDLE')
        case Alert.Io: return codes('IO')
        case Alert.Lib: return codes('LIB')
        case Alert.Link: return codes('LINK')
        case Alert.Mask: return codes('MASK')
        case Alert.Mem: return codes('MEM')
        case Alert.Nest: return codes('NEST')
        case Alert.Port: return codes('PORT')
        case Alert.Sem: return codes('SEM')
        case Alert.Value: return codes('VALUE')
        case _: raise NoCase('alert_text')


# ---- Which regions a machine may have, and the first fault of regions that it may not have.
# [memlist/specs/Regions.antt]

# the bytes of all regions together
# total_size : List Region → ℕ  [memlist/specs/Regions.antt:27]
def total_size(regions):
    return sum(region.size for region in regions)

# the address after a region's last byte
# region_end : Region → ℕ  [memlist/specs/Regions.antt:15]
def region_end(region):
    return region.base + region.size

# the first of the faults Misaligned, TooLarge and Overlap that the regions have, if they have one; `total` is the
# number of bytes that they may have in all
# regions_fault : ℕ → List Region → Option MemFault  [memlist/specs/Regions.antt:45]
def regions_fault(total, regions):
    if not all(is_aligned(each) for each in regions): return Some(MemFault.Misaligned)
    if not are_small(total, regions): return Some(MemFault.TooLarge)
    return Some(MemFault.Overlap) if not are_apart(regions) else None

# base and size are multiples of 8, the size is not 0, and the lowest page, of 4096 bytes, is left free
# is_aligned : Region → Bool  [memlist/specs/Regions.antt:19]
def is_aligned(region):
    return region.base % 8 == 0 and region.size % 8 == 0 and 0 < region.size and 4096 <= region.base

# there are at most 8 regions, they have at most that many bytes in all, and each ends at 2 GB at most
# are_small : ℕ → List Region → Bool  [memlist/specs/Regions.antt:31]
def are_small(total, regions):
    return len(regions) <= 8 and total_size(regions) <= total and all(is_in_reach(each) for each in regions)

# a region ends at 2 GB at most
# is_in_reach : Region → Bool  [memlist/specs/Regions.antt:23]
def is_in_reach(region):
    return region_end(region) <= 2_147_483_648

# no two regions overlap
# are_apart : List Region → Bool  [memlist/specs/Regions.antt:39]
def are_apart(items):
    match items:
        case []: return True
        case [region, *rest]: return not any(overlaps(region, each) for each in rest) and are_apart(rest)
        case _: raise NoCase('are_apart')

# two regions overlap; those that only touch do not
# overlaps : Region → Region → Bool  [memlist/specs/Regions.antt:35]
def overlaps(a, b):
    return a.base < region_end(b) and b.base < region_end(a)


# ---- Blocks of memory by address, and the gaps that they leave in a region. [memlist/specs/Blocks.antt]

# each block's address, with its size and its tag, in order of address; tag 0 is a plain block
# [memlist/specs/Blocks.antt:7]
Blocks = 'List (ℕ × (ℕ × ℕ))'

# a region's gaps, the lowest first: the maximal stretches of the region outside all blocks (RKM Libraries, Exec Memory
# Allocation)
# gaps : Region → Blocks → List Gap  [memlist/specs/Blocks.antt:40]
def gaps(region, blocks):
    return gaps_between(region.base, blocks_in(region, blocks), region_end(region))

# the gaps that these blocks leave between two addresses
# gaps_between : ℕ → Blocks → ℕ → List Gap  [memlist/specs/Blocks.antt:35]
def gaps_between(from_, blocks, to):
    match blocks:
        case []: return stretch(from_, to)
        case [block, *rest]: return stretch(from_, block[0]) + gaps_between(block[0] + block[1][0], rest, to)
        case _: raise NoCase('gaps_between')

# the gap from one address up to another, unless it is empty
# stretch : ℕ → ℕ → List Gap  [memlist/specs/Blocks.antt:31]
def stretch(from_, to):
    return [Gap(address=from_, size=monus(to, from_))] if from_ < to else []

# the blocks that begin in a region
# blocks_in : Region → Blocks → Blocks  [memlist/specs/Blocks.antt:27]
def blocks_in(region, blocks):
    return finmap_where_key(nat_cmp, partial(is_in, region), blocks)

# an address is in a region
# is_in : Region → ℕ → Bool  [memlist/specs/Blocks.antt:23]
def is_in(region, address):
    return region.base <= address and address < region_end(region)


# ---- Plain words: they set variables, calculate, jump and print, and ask nothing of Exec.
# [script/specs/PlainWords.antt]

# the row of a word
# plain_row : PlainWord → RowData  [script/specs/PlainWords.antt:12]
def plain_row(plain_word):
    match plain_word:
        case PlainWord.Set: return answering(codes('Set'), [Kind.Value])
        case PlainWord.Add: return answering(codes('Add'), [Kind.Value, Kind.Value])
        case PlainWord.Sub: return answering(codes('Sub'), [Kind.Value, Kind.Value])
        case PlainWord.And: return answering(codes('And'), [Kind.Value, Kind.Value])
        case PlainWord.Or: return answering(codes('Or'), [Kind.Value, Kind.Value])
        case PlainWord.Jump: return without_answer(codes('Jump'), [Kind.Label])
        case PlainWord.JumpZ: return without_answer(codes('JumpZ'), [Kind.Value, Kind.Label])
        case PlainWord.JumpNZ: return without_answer(codes('JumpNZ'), [Kind.Value, Kind.Label])
        case PlainWord.Print: return without_answer(codes('Print'), [Kind.Value])
        case _: raise NoCase('plain_row')

# all plain words
# plain_words : List PlainWord  [script/specs/PlainWords.antt:8]
@once
def plain_words():
    return [
        PlainWord.Set,
        PlainWord.Add,
        PlainWord.Sub,
        PlainWord.And,
        PlainWord.Or,
        PlainWord.Jump,
        PlainWord.JumpZ,
        PlainWord.JumpNZ,
        PlainWord.Print,
    ]


# ---- Words of signals (RKM Libraries, Exec Signals). [script/specs/SignalWords.antt]

# the row of a word
# signal_row : SignalWord → RowData  [script/specs/SignalWords.antt:11]
def signal_row(signal_word):
    match signal_word:
        case SignalWord.AllocSignal: return answering(codes('AllocSignal'), [Kind.Value])
        case SignalWord.FreeSignal: return without_answer(codes('FreeSignal'), [Kind.Value])
        case SignalWord.SetSignal: return answering(codes('SetSignal'), [Kind.Value, Kind.Value])
        case SignalWord.Signal: return without_answer(codes('Signal'), [Kind.Value, Kind.Value])
        case SignalWord.Wait: return answering(codes('Wait'), [Kind.Value])
        case _: raise NoCase('signal_row')

# all words of signals
# signal_words : List SignalWord  [script/specs/SignalWords.antt:7]
@once
def signal_words():
    return [SignalWord.AllocSignal, SignalWord.FreeSignal, SignalWord.SetSignal, SignalWord.Signal, SignalWord.Wait]


# ---- Words of Forbid and Disable (RKM Libraries, Exec Tasks: forbidding task switching).
# [script/specs/NestingWords.antt]

# the row of a word
# nesting_row : NestingWord → RowData  [script/specs/NestingWords.antt:11]
def nesting_row(nesting_word):
    match nesting_word:
        case NestingWord.Forbid: return without_answer(codes('Forbid'), [])
        case NestingWord.Permit: return without_answer(codes('Permit'), [])
        case NestingWord.Disable: return without_answer(codes('Disable'), [])
        case NestingWord.Enable: return without_answer(codes('Enable'), [])
        case _: raise NoCase('nesting_row')

# all words of Forbid and Disable
# nesting_words : List NestingWord  [script/specs/NestingWords.antt:7]
@once
def nesting_words():
    return [NestingWord.Forbid, NestingWord.Permit, NestingWord.Disable, NestingWord.Enable]


# ---- Words of tasks (RKM Libraries, Exec Tasks). [script/specs/TaskWords.antt]

# the row of a word
# task_row : TaskWord → RowData  [script/specs/TaskWords.antt:12]
def task_row(task_word):
    match task_word:
        case TaskWord.SetTaskPri: return answering(codes('SetTaskPri'), [Kind.Value, Kind.Value])
        case TaskWord.AddTask: return answering(codes('AddTask'), [Kind.Value])
        case TaskWord.RemTask: return without_answer(codes('RemTask'), [Kind.Value])
        case TaskWord.FindTask: return answering(codes('FindTask'), [Kind.NameOrNone])
        case _: raise NoCase('task_row')

# all words of tasks
# task_words : List TaskWord  [script/specs/TaskWords.antt:8]
@once
def task_words():
    return [TaskWord.SetTaskPri, TaskWord.AddTask, TaskWord.RemTask, TaskWord.FindTask]


# ---- Words of lists and nodes (RKM Libraries, Exec Lists and Queues). [script/specs/ListWords.antt]

# the row of a word
# list_row : ListWord → RowData  [script/specs/ListWords.antt:12]
def list_row(list_word):
    match list_word:
        case ListWord.NewList: return answering(codes('NewList'), [])
        case ListWord.FreeList: return without_answer(codes('FreeList'), [Kind.Value])
        case ListWord.NewNode: return answering(codes('NewNode'), [Kind.Value, Kind.NameOrNone])
        case ListWord.FreeNode: return without_answer(codes('FreeNode'), [Kind.Value])
        case ListWord.AddHead: return without_answer(codes('AddHead'), [Kind.Value, Kind.Value])
        case ListWord.AddTail: return without_answer(codes('AddTail'), [Kind.Value, Kind.Value])
        case ListWord.Enqueue: return without_answer(codes('Enqueue'), [Kind.Value, Kind.Value])
        case ListWord.Insert: return without_answer(codes('Insert'), [Kind.Value, Kind.Value, Kind.Value])
        case ListWord.Remove: return without_answer(codes('Remove'), [Kind.Value])
        case ListWord.RemHead: return answering(codes('RemHead'), [Kind.Value])
        case ListWord.RemTail: return answering(codes('RemTail'), [Kind.Value])
        case ListWord.First: return answering(codes('First'), [Kind.Value])
        case ListWord.Last: return answering(codes('Last'), [Kind.Value])
        case ListWord.Succ: return answering(codes('Succ'), [Kind.Value])
        case ListWord.Pred: return answering(codes('Pred'), [Kind.Value])
        case ListWord.FindName: return answering(codes('FindName'), [Kind.Value, Kind.Name])
        case _: raise NoCase('list_row')

# all words of lists and nodes
# list_words : List ListWord  [script/specs/ListWords.antt:8]
@once
def list_words():
    return [
        ListWord.NewList,
        ListWord.FreeList,
        ListWord.NewNode,
        ListWord.FreeNode,
        ListWord.AddHead,
        ListWord.AddTail,
        ListWord.Enqueue,
        ListWord.Insert,
        ListWord.Remove,
        ListWord.RemHead,
        ListWord.RemTail,
        ListWord.First,
        ListWord.Last,
        ListWord.Succ,
        ListWord.Pred,
        ListWord.FindName,
    ]


# ---- Words of memory (RKM Libraries, Exec Memory Allocation). [script/specs/MemoryWords.antt]

# the row of a word
# memory_row : MemoryWord → RowData  [script/specs/MemoryWords.antt:11]
def memory_row(memory_word):
    match memory_word:
        case MemoryWord.AllocMem: return answering(codes('AllocMem'), [Kind.Value, Kind.Value])
        case MemoryWord.FreeMem: return without_answer(codes('FreeMem'), [Kind.Value, Kind.Value])
        case MemoryWord.AvailMem: return answering(codes('AvailMem'), [Kind.Value])
        case _: raise NoCase('memory_row')

# all words of memory
# memory_words : List MemoryWord  [script/specs/MemoryWords.antt:7]
@once
def memory_words():
    return [MemoryWord.AllocMem, MemoryWord.FreeMem, MemoryWord.AvailMem]


# ---- Words of message ports and messages (RKM Libraries, Exec Messages and Ports). [script/specs/PortWords.antt]

# the row of a word
# port_row : PortWord → RowData  [script/specs/PortWords.antt:12]
def port_row(port_word):
    match port_word:
        case PortWord.CreateMsgPort: return answering(codes('CreateMsgPort'), [])
        case PortWord.DeleteMsgPort: return without_answer(codes('DeleteMsgPort'), [Kind.Value])
        case PortWord.AddPort: return without_answer(codes('AddPort'), [Kind.Value, Kind.Name, Kind.Value])
        case PortWord.RemPort: return without_answer(codes('RemPort'), [Kind.Value])
        case PortWord.FindPort: return answering(codes('FindPort'), [Kind.Name])
        case PortWord.PortSignal: return without_answer(codes('PortSignal'), [Kind.Value])
        case PortWord.PortCause: return without_answer(codes('PortCause'), [Kind.Value, Kind.Softint])
        case PortWord.PortIgnore: return without_answer(codes('PortIgnore'), [Kind.Value])
        case PortWord.NewMsg: return answering(codes('NewMsg'), [Kind.Value, Kind.Value])
        case PortWord.FreeMsg: return without_answer(codes('FreeMsg'), [Kind.Value])
        case PortWord.MsgWord: return answering(codes('MsgWord'), [Kind.Value])
        case PortWord.SetMsgWord: return without_answer(codes('SetMsgWord'), [Kind.Value, Kind.Value])
        case PortWord.MsgType: return answering(codes('MsgType'), [Kind.Value])
        case PortWord.PutMsg: return without_answer(codes('PutMsg'), [Kind.Value, Kind.Value])
        case PortWord.GetMsg: return answering(codes('GetMsg'), [Kind.Value])
        case PortWord.WaitPort: return answering(codes('WaitPort'), [Kind.Value])
        case PortWord.ReplyMsg: return without_answer(codes('ReplyMsg'), [Kind.Value])
        case _: raise NoCase('port_row')

# all words of message ports and messages
# port_words : List PortWord  [script/specs/PortWords.antt:8]
@once
def port_words():
    return [
        PortWord.CreateMsgPort,
        PortWord.DeleteMsgPort,
        PortWord.AddPort,
        PortWord.RemPort,
        PortWord.FindPort,
        PortWord.PortSignal,
        PortWord.PortCause,
        PortWord.PortIgnore,
        PortWord.NewMsg,
        PortWord.FreeMsg,
        PortWord.MsgWord,
        PortWord.SetMsgWord,
        PortWord.MsgType,
        PortWord.PutMsg,
        PortWord.GetMsg,
        PortWord.WaitPort,
        PortWord.ReplyMsg,
    ]


# ---- Words of signal semaphores (RKM Libraries, Exec Semaphores). [script/specs/SemaphoreWords.antt]

# the row of a word
# semaphore_row : SemaphoreWord → RowData  [script/specs/SemaphoreWords.antt:11]
def semaphore_row(semaphore_word):
    match semaphore_word:
        case SemaphoreWord.NewSem: return answering(codes('NewSem'), [])
        case SemaphoreWord.FreeSem: return without_answer(codes('FreeSem'), [Kind.Value])
        case SemaphoreWord.ObtainSemaphore: return without_answer(codes('ObtainSemaphore'), [Kind.Value])
        case SemaphoreWord.AttemptSemaphore: return answering(codes('AttemptSemaphore'), [Kind.Value])
        case SemaphoreWord.ReleaseSemaphore: return without_answer(codes('ReleaseSemaphore'), [Kind.Value])
        case _: raise NoCase('semaphore_row')

# all words of signal semaphores
# semaphore_words : List SemaphoreWord  [script/specs/SemaphoreWords.antt:7]
@once
def semaphore_words():
    return [
        SemaphoreWord.NewSem,
        SemaphoreWord.FreeSem,
        SemaphoreWord.ObtainSemaphore,
        SemaphoreWord.AttemptSemaphore,
        SemaphoreWord.ReleaseSemaphore,
    ]


# ---- Words of interrupts (RKM Libraries, Exec Interrupts). [script/specs/InterruptWords.antt]

# the row of a word
# interrupt_row : InterruptWord → RowData  [script/specs/InterruptWords.antt:10]
def interrupt_row(interrupt_word):
    match interrupt_word:
        case InterruptWord.Cause: return without_answer(codes('Cause'), [Kind.Softint])
        case _: raise NoCase('interrupt_row')

# all words of interrupts
# interrupt_words : List InterruptWord  [script/specs/InterruptWords.antt:6]
@once
def interrupt_words():
    return [InterruptWord.Cause]


# ---- Words of libraries (RKM Libraries, Exec Libraries). [script/specs/LibraryWords.antt]

# the row of a word
# library_row : LibraryWord → RowData  [script/specs/LibraryWords.antt:12]
def library_row(library_word):
    match library_word:
        case LibraryWord.OpenLibrary: return answering(codes('OpenLibrary'), [Kind.Name, Kind.Value])
        case LibraryWord.CloseLibrary: return without_answer(codes('CloseLibrary'), [Kind.Value])
        case LibraryWord.RemLibrary: return without_answer(codes('RemLibrary'), [Kind.Value])
        case LibraryWord.LibOpenCnt: return answering(codes('LibOpenCnt'), [Kind.Value])
        case _: raise NoCase('library_row')

# all words of libraries
# library_words : List LibraryWord  [script/specs/LibraryWords.antt:8]
@once
def library_words():
    return [LibraryWord.OpenLibrary, LibraryWord.CloseLibrary, LibraryWord.RemLibrary, LibraryWord.LibOpenCnt]


# ---- Words of requests of timer.device (RKM Devices, Introduction to Amiga System Devices; Devices, timer device).
# [script/specs/RequestWords.antt]

# the row of a word
# request_row : RequestWord → RowData  [script/specs/RequestWords.antt:14]
def request_row(request_word):
    match request_word:
        case RequestWord.CreateIORequest: return answering(codes('CreateIORequest'), [Kind.Value])
        case RequestWord.DeleteIORequest: return without_answer(codes('DeleteIORequest'), [Kind.Value])
        case RequestWord.OpenDevice: return answering(codes('OpenDevice'), [Kind.Name, Kind.Value, Kind.Value])
        case RequestWord.CloseDevice: return without_answer(codes('CloseDevice'), [Kind.Value])
        case RequestWord.SetIO: return without_answer(codes('SetIO'), [Kind.Value, Kind.Value, Kind.Value, Kind.Value])
        case RequestWord.DoIO: return answering(codes('DoIO'), [Kind.Value])
        case RequestWord.SendIO: return without_answer(codes('SendIO'), [Kind.Value])
        case RequestWord.CheckIO: return answering(codes('CheckIO'), [Kind.Value])
        case RequestWord.WaitIO: return answering(codes('WaitIO'), [Kind.Value])
        case RequestWord.AbortIO: return answering(codes('AbortIO'), [Kind.Value])
        case RequestWord.IOSecs: return answering(codes('IOSecs'), [Kind.Value])
        case RequestWord.IOMicros: return answering(codes('IOMicros'), [Kind.Value])
        case RequestWord.IOError_: return answering(codes('IOError'), [Kind.Value])
        case RequestWord.IOFlags: return answering(codes('IOFlags'), [Kind.Value])
        case _: raise NoCase('request_row')

# all words of requests of timer.device
# request_words : List RequestWord  [script/specs/RequestWords.antt:8]
@once
def request_words():
    return [
        RequestWord.CreateIORequest,
        RequestWord.DeleteIORequest,
        RequestWord.OpenDevice,
        RequestWord.CloseDevice,
        RequestWord.SetIO,
        RequestWord.DoIO,
        RequestWord.SendIO,
        RequestWord.CheckIO,
        RequestWord.WaitIO,
        RequestWord.AbortIO,
        RequestWord.IOSecs,
        RequestWord.IOMicros,
        RequestWord.IOError_,
        RequestWord.IOFlags,
    ]


# ---- The row of a word: what a line may have beside it. [script/specs/Rows.antt]

# the text of a word, in a line and in the trace; whether it answers, that is, returns a value: only such a word may
# have a target before it; and the kinds of its arguments, from left to right
# [script/specs/Rows.antt:7]
RowData = record('RowData', 'text', 'answers', 'kinds')

# the row of a word that answers
# answering : List ℕ → List Kind → RowData  [script/specs/Rows.antt:13]
def answering(text, kinds):
    return RowData(text=text, answers=True, kinds=kinds)

# the row of a word that does not answer
# without_answer : List ℕ → List Kind → RowData  [script/specs/Rows.antt:17]
def without_answer(text, kinds):
    return RowData(text=text, answers=False, kinds=kinds)


# ---- Types of the code in source.rt [softint/src/source.rt]

# A source of interrupts. RKM Libraries, Exec Interrupts: the order of their priorities.
# [softint/src/source.rt:7]
Source = data('Source',
    # Ports, timers and the keyboard: source 3, of level 2.
    Ports='',
    # The start of the vertical blank: source 5, of level 3.
    Vertb='',
    # An external interrupt: source 13, of level 6.
    Exter='',
)


# ---- Types of the code in event.rt [script/src/event.rt]

# One event.
# [script/src/event.rt:10]
Event = data('Event',
    # That many steps, each followed by a settle: 1 to 1,000,000.
    Run='a0',
    # That many ticks of the vertical blank, each followed by a settle: 1 to 1,000,000.
    Tick='a0',
    # One request of an interrupt by that source, PORTS or EXTER, followed by a settle.
    Irq='a0',
)


# ---- Types of the code in lib.rt [taskq/src/lib.rt]

# What a task waits for.
# [taskq/src/lib.rt:32]
Why = data('Why',
    # Any of the signals of this mask. Autodoc exec.library/Wait.
    Signals='a0',
    # A semaphore, until a release makes the task its owner. Autodoc exec.library/ObtainSemaphore.
    Sem='',
)

# Where a task is in its life. RKM Libraries, Exec Tasks: task states.
# [taskq/src/lib.rt:41]
TaskState = data('TaskState',
    # It was never added.
    Absent='',
    # It may run, and another one runs or none has been chosen.
    Ready='',
    # It runs.
    Running='',
    # It sleeps until what it waits for has come.
    Waiting='a0',
    # It has ended, or was ended, and does not come back.
    Removed='',
)


# ---- Types of the code in latches.rt [softint/src/latches.rt]

# For each source, whether it asks to be served. RKM Libraries, Exec Interrupts: interrupt requests.
# [softint/src/latches.rt:9]
Latches = record('Latches', 'ports', 'vertb', 'exter')


# ---- Types of the code in region.rt [memlist/src/region.rt]

# A stretch of the machine's memory, as a MemHeader describes it.
# [memlist/src/region.rt:22]
Region = record('Region',
    # The address of its first byte.
    'base',
    # Its size in bytes.
    'size',
    # Its attributes. Bits 0 to 2 may be asked for: MEMF_PUBLIC, MEMF_CHIP and MEMF_FAST.
    'attrs',
    # Its priority: AllocMem tries greater ones first.
    'pri',
)

# Why regions are refused.
# [memlist/src/region.rt:35]
MemFault = data('MemFault',
    # A base or a size is not a multiple of 8, a size is 0, or a base is below 4096.
    Misaligned='',
    # Two regions have a byte in common.
    Overlap='',
    # There are more than 8 regions, more bytes than the total in all, or a region that ends past 2,147,483,648.
    TooLarge='',
    # There was no memory for the list itself. Only `MemList::new` returns it.
    OutOfMemory='',
)


# ---- Types of the code in word.rt [script/src/word.rt]

# A word of a body. It begins a line, or comes after a target and `=`.
# [script/src/word.rt:37]
Word = data('Word',
    # A word that sets a variable, calculates, jumps or prints.
    Plain='a0',
    # A call on signals.
    Signals='a0',
    # A call on the nesting of the running task.
    Nesting='a0',
    # A call that begins, ends or finds a task, or sets its priority.
    Tasks='a0',
    # A call on lists and nodes.
    Lists='a0',
    # A call on memory.
    Memory='a0',
    # A call on message ports and messages.
    Ports='a0',
    # A call on signal semaphores.
    Semaphores='a0',
    # A call on interrupts.
    Interrupts='a0',
    # A call on libraries.
    Libraries='a0',
    # A call on requests of timer.device.
    Requests='a0',
)


# ---- Types of the code in row.rt [script/src/word/row.rt]

# What may be at one place after a word.
# [script/src/word/row.rt:7]
Kind = data('Kind',
    # A number or a variable.
    Value='',
    # A label of the body.
    Label='',
    # A name between double quotes.
    Name='',
    # A name between double quotes, or `0` alone for none.
    NameOrNone='',
    # The name of a software interrupt of the file, between double quotes.
    Softint='',
)


# ---- Types of the code in lib.rt [scheduler/src/lib.rt]

# What a machine turns to: another task, or nothing.
# [scheduler/src/lib.rt:29]
Switch = data('Switch',
    # This task runs from now on.
    To='a0',
    # No task is ready, and the machine is idle from now on.
    Idle='',
)


# ---- Types of the code in plain.rt [script/src/word/plain.rt]

# A word that sets a variable, calculates, jumps or prints.
# [script/src/word/plain.rt:10]
PlainWord = data('PlainWord',
    # Gives its argument to the target. It prints nothing.
    Set='',
    # Gives the sum of its arguments, modulo 2^32, to the target. It prints nothing.
    Add='',
    # Gives the first argument minus the second, modulo 2^32, to the target. It prints nothing.
    Sub='',
    # Gives the bitwise and of its arguments to the target. It prints nothing.
    And='',
    # Gives the bitwise or of its arguments to the target. It prints nothing.
    Or='',
    # Goes on at the label.
    Jump='',
    # Goes on at the label if its argument is 0.
    JumpZ='',
    # Goes on at the label if its argument is not 0.
    JumpNZ='',
    # Prints its argument.
    Print='',
)


# ---- Types of the code in task_signals.rt [script/src/word/task_signals.rt]

# A call on signals.
# [script/src/word/task_signals.rt:10]
SignalWord = data('SignalWord',
    # Allocates a signal (autodoc exec.library/AllocSignal).
    AllocSignal='',
    # Frees a signal (autodoc exec.library/FreeSignal).
    FreeSignal='',
    # Sets signals of the caller (autodoc exec.library/SetSignal).
    SetSignal='',
    # Sends signals to a task (autodoc exec.library/Signal).
    Signal='',
    # Waits for signals (autodoc exec.library/Wait).
    Wait='',
)


# ---- Types of the code in nesting.rt [script/src/word/nesting.rt]

# A call on the nesting of the running task.
# [script/src/word/nesting.rt:10]
NestingWord = data('NestingWord',
    # Keeps other tasks from running (autodoc exec.library/Forbid).
    Forbid='',
    # Takes back one Forbid (autodoc exec.library/Permit).
    Permit='',
    # Keeps interrupts and other tasks from running (autodoc exec.library/Disable).
    Disable='',
    # Takes back one Disable (autodoc exec.library/Enable).
    Enable='',
)


# ---- Types of the code in tasks.rt [script/src/word/tasks.rt]

# A call that begins, ends or finds a task, or sets its priority.
# [script/src/word/tasks.rt:10]
TaskWord = data('TaskWord',
    # Gives a task another priority (autodoc exec.library/SetTaskPri).
    SetTaskPri='',
    # Starts a task that never was added (autodoc exec.library/AddTask).
    AddTask='',
    # Ends a task (autodoc exec.library/RemTask).
    RemTask='',
    # Finds a task by its name, or the caller (autodoc exec.library/FindTask).
    FindTask='',
)


# ---- Types of the code in lists.rt [script/src/word/lists.rt]

# A call on lists and nodes.
# [script/src/word/lists.rt:10]
ListWord = data('ListWord',
    # Makes an empty list (amiga.lib/NewList; that it takes the memory for the list: project rule).
    NewList='',
    # Frees an empty list (project rule).
    FreeList='',
    # Makes a node with a priority and a name, or with no name (project rule).
    NewNode='',
    # Frees a node that is in no list (project rule).
    FreeNode='',
    # Puts a node first in a list (autodoc exec.library/AddHead).
    AddHead='',
    # Puts a node last in a list (autodoc exec.library/AddTail).
    AddTail='',
    # Puts a node into a list by its priority (autodoc exec.library/Enqueue).
    Enqueue='',
    # Puts a node into a list after another one (autodoc exec.library/Insert).
    Insert='',
    # Takes a node out of the list that it is in (autodoc exec.library/Remove).
    Remove='',
    # Takes out the first node of a list (autodoc exec.library/RemHead).
    RemHead='',
    # Takes out the last node of a list (autodoc exec.library/RemTail).
    RemTail='',
    # Asks for the first node of a list (RKM Libraries, Exec Lists and Queues: scanning a list).
    First='',
    # Asks for the last node of a list (RKM Libraries, Exec Lists and Queues: scanning a list).
    Last='',
    # Asks for the node after a node (RKM Libraries, Exec Lists and Queues: scanning a list).
    Succ='',
    # Asks for the node before a node (RKM Libraries, Exec Lists and Queues: scanning a list).
    Pred='',
    # Finds a node by its name, from the start of a list or after a node (autodoc exec.library/FindName).
    FindName='',
)


# ---- Types of the code in memory.rt [script/src/word/memory.rt]

# A call on memory.
# [script/src/word/memory.rt:10]
MemoryWord = data('MemoryWord',
    # Allocates memory (autodoc exec.library/AllocMem).
    AllocMem='',
    # Frees memory (autodoc exec.library/FreeMem).
    FreeMem='',
    # Asks how much memory there is (autodoc exec.library/AvailMem).
    AvailMem='',
)


# ---- Types of the code in ports.rt [script/src/word/ports.rt]

# A call on message ports and messages.
# [script/src/word/ports.rt:10]
PortWord = data('PortWord',
    # Makes a port that signals the caller and is not public (autodoc exec.library/CreateMsgPort).
    CreateMsgPort='',
    # Ends a port that holds no message and is not public (autodoc exec.library/DeleteMsgPort).
    DeleteMsgPort='',
    # Makes a port public under a name, with a priority (autodoc exec.library/AddPort).
    AddPort='',
    # Takes a port out of the public ones (autodoc exec.library/RemPort).
    RemPort='',
    # Finds a public port by its name (autodoc exec.library/FindPort).
    FindPort='',
    # Sets the port's action to PA_SIGNAL (project rule; RKM Libraries, Exec Messages and Ports: mp_Flags).
    PortSignal='',
    # Sets the port's action to PA_SOFTINT, which causes a software interrupt (project rule; RKM Libraries, Exec
    # Messages and Ports: mp_Flags).
    PortCause='',
    # Sets the port's action to PA_IGNORE (project rule; RKM Libraries, Exec Messages and Ports: mp_Flags).
    PortIgnore='',
    # Makes a message with a reply port, or with none, and with a word (project rule).
    NewMsg='',
    # Frees a message that is in no port (project rule).
    FreeMsg='',
    # Asks for the word that a message carries (project rule).
    MsgWord='',
    # Sets the word that a message carries (project rule).
    SetMsgWord='',
    # Asks for the type of a message (exec/nodes.h, ln_Type).
    MsgType='',
    # Puts a message at the end of a port (autodoc exec.library/PutMsg).
    PutMsg='',
    # Takes the first message out of a port (autodoc exec.library/GetMsg).
    GetMsg='',
    # Asks for the first message of a port, which stays there; waits if there is none (autodoc exec.library/WaitPort).
    WaitPort='',
    # Puts a message to its reply port (autodoc exec.library/ReplyMsg).
    ReplyMsg='',
)


# ---- Types of the code in semaphores.rt [script/src/word/semaphores.rt]

# A call on signal semaphores.
# [script/src/word/semaphores.rt:10]
SemaphoreWord = data('SemaphoreWord',
    # Makes a semaphore that no task owns (autodoc exec.library/InitSemaphore; that it takes the memory: project rule).
    NewSem='',
    # Frees a semaphore that no task owns (project rule).
    FreeSem='',
    # Asks for a semaphore; the task waits if another one owns it (autodoc exec.library/ObtainSemaphore).
    ObtainSemaphore='',
    # Asks for a semaphore without waiting (autodoc exec.library/AttemptSemaphore).
    AttemptSemaphore='',
    # Releases a semaphore once (autodoc exec.library/ReleaseSemaphore).
    ReleaseSemaphore='',
)


# ---- Types of the code in interrupts.rt [script/src/word/interrupts.rt]

# A call on interrupts.
# [script/src/word/interrupts.rt:10]
InterruptWord = data('InterruptWord',
    # Causes a software interrupt, by its name (autodoc exec.library/Cause).
    Cause='',
)


# ---- Types of the code in libraries.rt [script/src/word/libraries.rt]

# A call on libraries.
# [script/src/word/libraries.rt:10]
LibraryWord = data('LibraryWord',
    # Opens a library of a name and at least a version, and loads it first if it is absent (autodoc
    # exec.library/OpenLibrary).
    OpenLibrary='',
    # Closes a library once (autodoc exec.library/CloseLibrary).
    CloseLibrary='',
    # Expunges a library, or has it expunged when it is closed for the last time (autodoc exec.library/RemLibrary).
    RemLibrary='',
    # Asks how often a library is open (RKM Libraries, Exec Libraries: lib_OpenCnt).
    LibOpenCnt='',
)


# ---- Types of the code in requests.rt [script/src/word/requests.rt]

# A call on requests.
# [script/src/word/requests.rt:10]
RequestWord = data('RequestWord',
    # Makes a request with a reply port (autodoc exec.library/CreateIORequest).
    CreateIORequest='',
    # Frees a request (autodoc exec.library/DeleteIORequest).
    DeleteIORequest='',
    # Opens a request for a unit of a device (autodoc exec.library/OpenDevice).
    OpenDevice='',
    # Closes a request, which is not open any more (autodoc exec.library/CloseDevice).
    CloseDevice='',
    # Gives a request a command and a time (RKM Devices, Introduction to Amiga System Devices: io_Command; Devices,
    # timer device: tr_time).
    SetIO='',
    # Begins a request, and waits until it is done (autodoc exec.library/DoIO).
    DoIO='',
    # Begins a request (autodoc exec.library/SendIO).
    SendIO='',
    # Asks whether a request is in progress (autodoc exec.library/CheckIO).
    CheckIO='',
    # Waits until a request is done, and takes its reply (autodoc exec.library/WaitIO).
    WaitIO='',
    # Has a request that is in progress replied at once (autodoc exec.library/AbortIO).
    AbortIO='',
    # Asks for the seconds of the time of a request (Devices, timer device: tr_time).
    IOSecs='',
    # Asks for the microseconds of the time of a request (Devices, timer device: tr_time).
    IOMicros='',
    # Asks for the error of a request (RKM Devices, Introduction to Amiga System Devices: io_Error).
    IOError_='',
    # Asks whether IOF_QUICK of a request is set (RKM Devices, Introduction to Amiga System Devices: io_Flags).
    IOFlags='',
)


# ---- Commands, as contracts and the abstract machine see them. [script/specs/Commands.antt]

# an argument: a number, a variable, whose value is meant, a name that was between double quotes, or the place of a
# command
# [script/specs/Commands.antt:9]
ArgumentData = data('ArgumentData', number='a0', variable='a0', quoted='a0', place='a0')

# a command: its word, the variable that its answer goes to, or none, and its arguments from left to right
# [script/specs/Commands.antt:16]
CommandData = record('CommandData', 'word', 'target', 'arguments')


# ---- Types of the code in variable.rt [script/src/variable.rt]

# A variable, by its number in the order of first sight.
# [script/src/variable.rt:5]
Variable = data('Variable',
    # Private to its body: the order is that of the body.
    Private='a0',
    # Shared by all bodies: the order is that of the file.
    Shared='a0',
)


# ---- Types of the code in action.rt [msgport/src/action.rt]

# What a port does when a message arrives. RKM Libraries, Exec Messages and Ports: `mp_Flags`.
# [msgport/src/action.rt:11]
PortAction = data('PortAction',
    # PA_SIGNAL: it signals its task.
    Signal='',
    # PA_SOFTINT: it causes the software interrupt of this number.
    Cause='a0',
    # PA_IGNORE: it does nothing.
    Ignore='',
)

# What is to be done for a message that has arrived. Whoever keeps the ports has to do it.
# [msgport/src/action.rt:22]
Action = data('Action',
    # The task of this number gets the signals of this mask.
    Signal='a0 a1',
    # The software interrupt of this number is caused.
    Cause='a0',
    # There is nothing to be done.
    Nothing='',
)


# ---- Types of the code in request.rt [iorequest/src/request.rt]

# How far a request has come. RKM Devices, Introduction to Amiga System Devices; that an idle one is distinguished:
# project rule.
# [iorequest/src/request.rt:26]
ReqState = data('ReqState',
    # It was never begun.
    Idle='',
    # It was begun, and is not finished.
    UnderWay='',
    # It was finished at once, without a reply.
    Quick='',
    # It was finished, and replied.
    Replied='',
)

# A timer request. RKM Devices, Timer Device: `timerequest`; Introduction to Amiga System Devices: `IORequest`.
# [iorequest/src/request.rt:39]
Request = record('Request',
    # Its reply port, as the caller names it.
    'port',
    'state',
    # The unit that it is open for, or none.
    'unit',
    'command',
    # The time field, in seconds and microseconds.
    'secs',
    'micros',
    # 0, or why it failed.
    'error',
    # IOF_QUICK (bit 0) of its flags.
    'quick',
)

# What comes of beginning a request. Whoever keeps the requests has to do it.
# [iorequest/src/request.rt:57]
Begun = data('Begun',
    # It is to be finished at once, with this error.
    Finish='a0',
    # It is due at that time, in microseconds of the clock.
    Queue='a0',
    # It is due when system time comes to that, in microseconds.
    Until='a0',
    # System time becomes that, in microseconds, and the request is to be finished at once, with error 0.
    NewTime='a0',
)


# ---- Types of the code in alert.rt [script/src/alert.rt]

# Why a call is refused; the machine stops then.
# [script/src/alert.rt:7]
Alert = data('Alert',
    # No object of the kind begins at the address, or no task has the number; for SetTaskPri and RemTask, no live task.
    Handle='',
    # A request is in progress where it must not be, was never begun, or is not open.
    Io='',
    # A library is to be closed that is not open.
    Lib='',
    # A node, message, request or port is in a list or queue, or public, where it must not be, or is not where it must
    # be; or a list that is to be freed is not empty.
    Link='',
    # A mask names signals that a script may not name, which are 0 to 11; or FreeSignal names neither one of 16 to 31
    # nor -1.
    Mask='',
    # No block that AllocMem gave begins there, or the size does not round up to the size of the block.
    Mem='',
    # A Permit or Enable has nothing to take back, or a Forbid or Disable would take the count past 127.
    Nest='',
    # A port to be deleted has messages, is public, or is the reply port of a request in progress; or a port to wait at
    # does not signal the caller.
    Port='',
    # A semaphore is to be freed that a task owns, is to be released by a task that does not own it, or is obtained too
    # often.
    Sem='',
    # An argument has a value that the call does not take.
    Value='',
)


# ---- Types of the code in message.rt [msgport/src/message.rt]

# A message without its place: its type, its word, and its reply port or 0. RKM Libraries, Exec Messages and Ports.
# [msgport/src/message.rt:17]
Message = record('Message', 'kind', 'word', 'reply')


# ---- Types of the code in semaphore.rt [sigsem/src/semaphore.rt]

# A semaphore without the tasks that wait for it: its owner, and how often the owner has to release it. A free one has
# no owner and the count 0. RKM Libraries, Exec Semaphores: `ss_Owner` and `ss_NestCount`.
# [sigsem/src/semaphore.rt:9]
Sem = record('Sem', 'owner', 'count')

# What comes of asking for a semaphore. Whoever keeps the tasks has to make the task wait.
# [sigsem/src/semaphore.rt:16]
Obtained = data('Obtained',
    # The task is the owner.
    Owner='',
    # The task waits until a release makes it the owner.
    Waits='',
)


# ---- Types of the code in gap.rt [memlist/src/gap.rt]

# A stretch of free memory: its address and its size in bytes.
# [memlist/src/gap.rt:5]
Gap = record('Gap',
    # The address at which it begins.
    'address',
    # Its size in bytes, a multiple of 8.
    'size',
)


# ======================================================================================================================
# The state and the objects
# ======================================================================================================================


# ---- The state of the abstract machine, and what an action makes of it. Nothing in it is linked and nothing is sorted:
# each queue is a sequence in order of arrival. [execmodel/specs/State.antt]

# a command of a task with the values that its arguments had when it was first tried, and the place of the command after
# it; and, if the task waits in it for a signal of a port, the mask of that signal, else 0
# [execmodel/specs/State.antt:13]
Call = record('Call', 'word', 'target', 'arguments', 'next_', 'awaited')

# what a task executes: its commands, the place of the next one, its own variables, and the call that it waits in, if
# any; and whether it is added when the machine starts
# [execmodel/specs/State.antt:22]
Program = record('Program', 'code', 'place', 'variables', 'kept', 'starts')

# the programs by task number, and the variables that all bodies share
# [execmodel/specs/State.antt:30]
Scripts = record('Scripts', 'programs', 'shared')

# what the software interrupts and the servers of all sources execute, both in the order of the file; nothing changes it
# (RKM Libraries, Exec Interrupts)
# [execmodel/specs/State.antt:36]
Bodies = record('Bodies', 'softints', 'servers')

# the interrupts that are pending: the software interrupts that are caused, by number from 0, in order of arrival; and
# the latches, which say which sources ask to be served (RKM Libraries, Exec Interrupts)
# [execmodel/specs/State.antt:42]
Pending = record('Pending', 'caused', 'latches')

# the abstract machine at one time
# [execmodel/specs/State.antt:47]
State = record('State',
    # the tasks' names, priorities, states and signals, the ready sequence, and the running task
    'schedule',
    # what the tasks execute, and the variables
    'scripts',
    # the regions, and the blocks and objects that lie in them; and the timer
    'memory',
    # what interrupts execute
    'bodies',
    # the interrupts that are asked for, and have not run yet
    'pending',
    # whether an alert has stopped the machine
    'stopped',
)

# What an action leaves in the history of a port or a semaphore. Marks are not printed: the laws of whole runs speak of
# them.
# [execmodel/specs/State.antt:62]
Mark = data('Mark',
    # a message, or the reply of a request, is put at a port: by PutMsg, by ReplyMsg, or as the request finishes
    put='port message',
    # GetMsg takes a message out of a port
    got='port message',
    # WaitIO or DoIO takes the reply of a request out of its reply port
    out='port message',
    # a task asks for a semaphore, and has to wait
    asked='semaphore task',
    # a release makes a task that waits the owner of a semaphore
    passed='semaphore task',
    # a task that waits for a semaphore is removed
    left='semaphore task',
)

# the next state, the lines that are printed on the way, and the marks that are left
# [execmodel/specs/State.antt:77]
Outcome = record('Outcome', 'state', 'lines', 'marks')

# The machine of a file before its start: no task was added, nothing runs, it was not yet reported as idle, and no
# interrupt was asked for. No memory is allocated, no port is public, and no request waits; the clock of the timer and
# system time begin at 0 (project rule).
# booted : MachineData → State  [execmodel/specs/State.antt:158]
def booted(machine):
    return State(
        schedule=unstarted(
            len(machine.tasks),
            [task.pri for task in machine.tasks],
            [task.name for task in machine.tasks],
            machine.quantum,
        ),
        scripts=Scripts(
            programs=[new_program(each) for each in machine.tasks],
            shared=replicate(shared_variables(), 0),
        ),
        memory=Memory(
            regions=machine.regions,
            libraries=machine.libraries,
            asks=machine.version == 2,
            pool=machine.pool,
            tasks=len(machine.tasks),
            heap=[],
            public=[],
            timer=new_timer(machine.tick_micros),
        ),
        bodies=Bodies(softints=machine.softints, servers=machine.servers),
        pending=Pending(caused=[], latches=no_latches()),
        stopped=False,
    )

# the program of a task of the file before its first command
# new_program : TaskData → Program  [execmodel/specs/State.antt:152]
def new_program(task):
    return begun_with(task.code, task.start)

# a program at its first command; every variable begins at 0
# begun_with : List CommandData → Bool → Program  [execmodel/specs/State.antt:148]
def begun_with(code, starts):
    return Program(code=code, place=0, variables=replicate(private_variables(), 0), kept=None, starts=starts)

# 32: the number of variables of one task (project rule)
# private_variables : ℕ  [execmodel/specs/State.antt:140]
@once
def private_variables():
    return 32

# 64: the number of variables that all bodies share (project rule)
# shared_variables : ℕ  [execmodel/specs/State.antt:144]
@once
def shared_variables():
    return 64

# the program of task t
# program_of : Scripts → ℕ → Program  [execmodel/specs/State.antt:114]
def program_of(scripts, t):
    return slice_index_or(scripts.programs, t, no_program())

# the program of a number that no task has
# no_program : Program  [execmodel/specs/State.antt:110]
@once
def no_program():
    return Program(code=[], place=0, variables=[], kept=None, starts=False)

# a change of the scripts alone
# on_scripts : (Scripts → Scripts) → State → State  [execmodel/specs/State.antt:126]
def on_scripts(f, s):
    return replace(s, scripts=f(s.scripts))

# an outcome with one more mark, before its others
# leaving : Mark → Outcome → Outcome  [execmodel/specs/State.antt:85]
def leaving(mark, o):
    return replace(o, marks=[mark, *o.marks])

# task t gets another program
# with_program : ℕ → Program → Scripts → Scripts  [execmodel/specs/State.antt:118]
def with_program(t, program, scripts):
    return replace(scripts, programs=slice_set(scripts.programs, t, program))


# ---- Memory and what lies in it: blocks, each with the object that begins there; and the timer, for which requests
# wait that lie there. Nothing in it is linked and nothing is sorted: each queue is a sequence in order of arrival.
# [execmodel/specs/Blocks.antt]

# what a block of memory holds
# [execmodel/specs/Blocks.antt:14]
Object = data('Object',
    # nothing that Exec knows of: AllocMem gave the block
    Plain='',
    # the header of a list, with the addresses of its nodes from the first to the last (RKM Libraries, Exec Lists and
    # Queues)
    ListHead='nodes',
    # a node, with its priority and its name or none
    Node='key',
    # a message port, with the addresses of its messages in order of arrival (RKM Libraries, Exec Messages and Ports)
    MsgPort='port messages',
    # a message, with its type, its word, and the address of its reply port or 0
    Message='content',
    # a semaphore, with its owner or none, how often the owner has to release it, and the tasks that wait for it in
    # order of request (RKM Libraries, Exec Semaphores)
    Semaphore='sem waiters',
    # a loaded library, by its number from 0 in the order of the file, with how often it is open, and whether it is to
    # be expunged when it is closed for the last time (RKM Libraries, Exec Libraries: lib_OpenCnt, LIBF_DELEXP)
    Library='number count delayed',
    # a timer request: the address of its reply port, how far it has come, what it asks of the device, and what the
    # device returned (RKM Devices, Introduction to Amiga System Devices)
    Request='content',
)

# the size of a block of memory in bytes, and the object that begins there (RKM Libraries, Exec Lists and Queues; RKM
# Libraries, Exec Messages and Ports; RKM Libraries, Exec Semaphores; RKM Libraries, Exec Libraries)
# [execmodel/specs/Blocks.antt:37]
Block = record('Block', 'size', 'object_')

# the blocks by address, in order of address
# [execmodel/specs/Blocks.antt:42]
Heap = 'List (ℕ × Block)'

# a public port: its address, and its priority and its name (RKM Libraries, Exec Messages and Ports)
# [execmodel/specs/Blocks.antt:46]
PublicPort = record('PublicPort', 'port', 'key')

# the regions of memory and the libraries, both in the order of the file; whether libraries are asked for memory; how
# many objects of each kind may live; how many tasks there are, each of which may wait for a semaphore; the blocks that
# are allocated; the public ports in order of arrival; and the timer (RKM Libraries, Exec Memory Allocation; RKM
# Libraries, Exec Messages and Ports; RKM Devices, Timer Device)
# [execmodel/specs/Blocks.antt:54]
Memory = record('Memory',
    'regions',
    'libraries',
    # whether libraries that are not open are expunged when memory is refused: so it is in version 2 of the rules
    'asks',
    'pool',
    'tasks',
    'heap',
    'public',
    'timer',
)

# a change of the timer alone
# on_timer : (Timer → Timer) → Memory → Memory  [execmodel/specs/Blocks.antt:70]
def on_timer(f, memory):
    return replace(memory, timer=f(memory.timer))


# ======================================================================================================================
# The trace
# ======================================================================================================================


# ---- The lines of a trace, and their bytes. A name, a word, a code and a source are lists of bytes; a value is a
# 32-bit word. [exectrace/specs/Trace.antt]

# an argument of a call
# [exectrace/specs/Trace.antt:5]
Argument = data('Argument', Value='value', Quoted='name')

# how a call ends: it returns nothing, it returns a value, or its task waits
# [exectrace/specs/Trace.antt:10]
CallEnd = data('CallEnd', Done='', Answers='value', Waits='')

# what happened; a name is that of a task, a server or a software interrupt
# [exectrace/specs/Trace.antt:16]
TraceLine = data('TraceLine',
    # a task begins to run
    Switch='name',
    # no task runs
    Idle='',
    # a call was made
    Call='name word arguments outcome',
    # an interrupt source is served
    Serve='source',
    # the request at this address finishes: at a serving of VERTB, or after system time was set
    Timer='value',
    # the body of a server begins
    Server='name',
    # the body of a software interrupt begins
    Softint='name',
    # a call was refused
    Alert='code name word',
)

# the bytes of a trace
# printed : List TraceLine → List ℕ  [exectrace/specs/Trace.antt:70]
def printed(lines):
    return flat_map(printed_line, lines)

# a line, with its line feed
# printed_line : TraceLine → List ℕ  [exectrace/specs/Trace.antt:58]
def printed_line(trace_line):
    match trace_line:
        case TraceLine.Switch(name): return codes('switch ') + name + codes('\n')
        case TraceLine.Idle: return codes('idle\n')
        case TraceLine.Call(name, word, arguments, outcome):
            return name + codes(' ') + word + flat_map(argument_text, arguments) + outcome_text(outcome) + codes('\n')
        case TraceLine.Serve(source): return codes('serve ') + source + codes('\n')
        case TraceLine.Timer(value): return codes('timer ') + value_text(value) + codes('\n')
        case TraceLine.Server(name): return codes('server ') + name + codes('\n')
        case TraceLine.Softint(name): return codes('softint ') + name + codes('\n')
        case TraceLine.Alert(code, name, word):
            return codes('alert ') + code + codes(' ') + name + codes(' ') + word + codes('\n')
        case _: raise NoCase('printed_line')

# an argument, after the space before it
# argument_text : Argument → List ℕ  [exectrace/specs/Trace.antt:47]
def argument_text(this_argument):
    match this_argument:
        case Argument.Value(n): return codes(' ') + value_text(n)
        case Argument.Quoted(name): return codes(' "') + name + codes('"')
        case _: raise NoCase('argument_text')

# a value: `$` and eight hexadecimal digits
# value_text : ℕ → List ℕ  [exectrace/specs/Trace.antt:43]
def value_text(n):
    return codes('$') + [digit_at(n, each) for each in [7, 6, 5, 4, 3, 2, 1, 0]]

# the hexadecimal digit of a number at the place of 16 to this power
# digit_at : ℕ → ℕ → ℕ  [exectrace/specs/Trace.antt:39]
def digit_at(n, power):
    return hex_digit(n // 16 ** power % 16)

# the hexadecimal digit for a number below 16
# hex_digit : ℕ → ℕ  [exectrace/specs/Trace.antt:35]
def hex_digit(n):
    return slice_index_or(codes('0123456789ABCDEF'), n, 0)

# the end of the line of a call: nothing, the value that it returns, or that its task waits
# outcome_text : CallEnd → List ℕ  [exectrace/specs/Trace.antt:52]
def outcome_text(call_end):
    match call_end:
        case CallEnd.Done: return []
        case CallEnd.Answers(n): return codes(' -> ') + value_text(n)
        case CallEnd.Waits: return codes(' waits')
        case _: raise NoCase('outcome_text')


# ======================================================================================================================
# The texts
# ======================================================================================================================


# ---- The events of a text, or its first fault. [taskscript/specs/Events.antt]

# the events of a text, or the fault of its first faulty line
# script_of : List ℕ → Result (List Event) EventFault  [taskscript/specs/Events.antt:70]
def script_of(text):
    return fault_or(first(event_faults([], text_lines(text))), events_of(text_lines(text)))

# the faults of all lines in their order, each judged by itself after the lines before it
# event_faults : List (List ℕ) → List (List ℕ) → List EventFault  [taskscript/specs/Events.antt:61]
def event_faults(before, items):
    match items:
        case []: return []
        case [line, *lines]: return event_line_faults(before, line) + event_faults(before + [line], lines)
        case _: raise NoCase('event_faults')

# the fault of a line after the lines before it
# event_line_faults : List (List ℕ) → List ℕ → List EventFault  [taskscript/specs/Events.antt:56]
def event_line_faults(before, line):
    if is_skipped(line): return []
    return fault_by(event_of(line), len(before) + 1, events_of(before + [line]))

# a line is skipped: it is empty, or begins with #
# is_skipped : List ℕ → Bool  [taskscript/specs/Events.antt:34]
def is_skipped(items):
    match items:
        case []: return True
        case [b, *bs]: return b == 35
        case _: raise NoCase('is_skipped')

# the fault of a line with this number: it states no event, or the events of all lines up to it are more than a text may
# ask for
# fault_by : Option Event → ℕ → List Event → List EventFault  [taskscript/specs/Events.antt:51]
def fault_by(event, number, events):
    match event:
        case None: return [EventFault.BadLine(number)]
        case Some(event): return [] if keeps_event_limits(events) else [EventFault.TooMany]
        case _: raise NoCase('fault_by')

# the event that a line states, if it states one
# event_of : List ℕ → Option Event  [taskscript/specs/Events.antt:26]
@kept
def event_of(line):
    if begins_with(codes('run '), line): return option_map(Event.Run, turns_of(drop(4, line)))
    if begins_with(codes('tick '), line): return option_map(Event.Tick, turns_of(drop(5, line)))
    if begins_with(codes('irq '), line): return option_map(Event.Irq, requested_source_of(drop(4, line)))
    return None

# a line begins with these bytes
# begins_with : List ℕ → List ℕ → Bool  [taskscript/specs/Events.antt:22]
def begins_with(front, line):
    return take(len(front), line) == front

# the number of steps or ticks that digits state: 1 to 1,000,000, decimal and without leading zeros
# turns_of : List ℕ → Option ℕ  [taskscript/specs/Events.antt:18]
@kept
def turns_of(digits):
    return option_and_then(in_turns, decimal_of(digits))

# a number of steps or ticks: 1 to 1,000,000
# in_turns : ℕ → Option ℕ  [taskscript/specs/Events.antt:14]
def in_turns(n):
    return Some(n) if 1 <= n and n <= 1_000_000 else None

# the events of some lines, in their order
# events_of : List (List ℕ) → List Event  [taskscript/specs/Events.antt:45]
def events_of(items):
    match items:
        case []: return []
        case [line, *lines]: return events_on(line) + events_of(lines)
        case _: raise NoCase('events_of')

# the event of a line, or none if the line is skipped or states none
# events_on : List ℕ → List Event  [taskscript/specs/Events.antt:41]
def events_on(line):
    return [] if is_skipped(line) else option_to_list(event_of(line))

# the lines of a text, which is cut at its line feeds
# text_lines : List ℕ → List (List ℕ)  [taskscript/specs/Events.antt:66]
def text_lines(text):
    return slice_split(lambda b: b == 10, text)


# ---- What a call that may be refused returns, and what it leaves: by the fault, if there is one.
# [execlist/specs/Answers.antt]

# the fault, if there is one, and else the value
# fault_or : {A F : Type 0} → Option F → A → Result A F  [execlist/specs/Answers.antt:5]
def fault_or(fault, value):
    match fault:
        case None: return Ok(value)
        case Some(fault): return Err(fault)
        case _: raise NoCase('fault_or')


# ---- What events ask for, and how much of it a text may ask for. [script/specs/Events.antt]

# the sum of the steps and that of the ticks are at most 1,000,000, and there are at most 100,000 events
# keeps_event_limits : List Event → Bool  [script/specs/Events.antt:21]
def keeps_event_limits(events):
    return are_within(sum(event_steps(each) for each in events), sum(event_ticks(each) for each in events), len(events))

# steps, ticks and events are within the limits of a text
# are_within : ℕ → ℕ → ℕ → Bool  [script/specs/Events.antt:17]
def are_within(run, tick, count):
    return run <= 1_000_000 and tick <= 1_000_000 and count <= 100_000

# the steps that an event asks for
# event_steps : Event → ℕ  [script/specs/Events.antt:7]
def event_steps(this_event):
    match this_event:
        case Event.Run(n): return n
        case _: return 0

# the ticks that an event asks for
# event_ticks : Event → ℕ  [script/specs/Events.antt:12]
def event_ticks(this_event):
    match this_event:
        case Event.Tick(n): return n
        case _: return 0


# ---- The sources of interrupts that the texts of events may name. [script/specs/Sources.antt]

# the source of a name that an event may request: PORTS or EXTER; VERTB comes with ticks alone
# requested_source_of : List ℕ → Option Source  [script/specs/Sources.antt:7]
@kept
def requested_source_of(name):
    if name == codes('PORTS'): return Some(Source.Ports)
    return Some(Source.Exter) if name == codes('EXTER') else None


# ---- Numbers as they are written in the texts. [taskscript/specs/Numbers.antt]

# the number that decimal digits state: there is no leading zero, and it is one of 32 bits
# decimal_of : List ℕ → Option ℕ  [taskscript/specs/Numbers.antt:18]
@kept
def decimal_of(digits):
    if len(digits) < 1 or not all(is_digit(each) for each in digits): return None
    if 1 < len(digits) and slice_index(digits, 0) == 48: return None
    return below_word(digits_value(10, digits))

# a decimal digit, `0` to `9`
# is_digit : ℕ → Bool  [taskscript/specs/Numbers.antt:6]
def is_digit(b):
    return 48 <= b and b <= 57

# the number, if it is one of 32 bits
# below_word : ℕ → Option ℕ  [taskscript/specs/Numbers.antt:14]
def below_word(n):
    return Some(n) if n < 4_294_967_296 else None

# the number of a field: hexadecimal after `$`, a negative decimal number after `-`, else a decimal number
# number_written : List ℕ → Option ℕ  [taskscript/specs/Numbers.antt:35]
@kept
def number_written(items):
    match items:
        case []: return None
        case [b, *bs]:
            if b == 36: return hex_of(bs)
            return option_and_then(negated, decimal_of(bs)) if b == 45 else decimal_of([b, *bs])
        case _: raise NoCase('number_written')

# the number that 1 to 8 hexadecimal digits state
# hex_of : List ℕ → Option ℕ  [taskscript/specs/Numbers.antt:25]
@kept
def hex_of(digits):
    if len(digits) < 1 or 8 < len(digits) or not all(is_hex_digit(each) for each in digits): return None
    return below_word(digits_value(16, digits))

# a hexadecimal digit, `0` to `9` or `A` to `F`
# is_hex_digit : ℕ → Bool  [taskscript/specs/Numbers.antt:10]
def is_hex_digit(b):
    return (48 <= b and b <= 57) or (65 <= b and b <= 70)

# the 32-bit word of -n, for n from 1 to 2,147,483,648
# negated : ℕ → Option ℕ  [taskscript/specs/Numbers.antt:31]
def negated(n):
    return Some(monus(4_294_967_296, n)) if 1 <= n and n <= 2_147_483_648 else None


# ---- The machine that a file states, or its first fault. [taskscript/specs/File.antt]

# how the table of an item is judged: at its place, after the names before it
# [taskscript/specs/File.antt:135]
Judge = 'TablePlace → List (List ℕ) → Members → List Refused'

# what the tree of a document states: the first fault with its place, or the machine; if there is no tree, the fault is
# NotToml, at the whole file
# placed_file_of_document : Option Members → Result MachineData Refused  [taskscript/specs/File.antt:337]
def placed_file_of_document(tree):
    match tree:
        case None: return Err(refused(Place.File, FileFault.NotToml))
        case Some(tree): return fault_or(first(refusals(tree)), machine_of(tree))
        case _: raise NoCase('placed_file_of_document')

# the faults of a tree with their places, in their order
# refusals : Members → List Refused  [taskscript/specs/File.antt:279]
def refusals(tree):
    return (
        at(unknown_key_at(TablePlace.Top), check(keys_are_among(top_keys(), tree), FileFault.UnknownKey))
        + settings_faults(tree)
        + regions_faults(total_of(version_of(tree)), tree)
        + libraries_faults(tree)
        + both_passes_faults(tree)
    )

# the keys of the top table
# top_keys : List (List ℕ)  [taskscript/specs/File.antt:20]
@once
def top_keys():
    return [
        codes('version'),
        codes('quantum'),
        codes('tick_micros'),
        codes('pool'),
        codes('region'),
        codes('library'),
        codes('softint'),
        codes('server'),
        codes('task'),
    ]

# the faults of the keys version, quantum, tick_micros and pool
# settings_faults : Members → List Refused  [taskscript/specs/File.antt:237]
def settings_faults(tree):
    return (
        at(
            key_at(TablePlace.Top, Key.Version),
            optional(partial(integer_faults, 1, 2), get_member(codes('version'), tree)),
        )
        + at(
            key_at(TablePlace.Top, Key.Quantum),
            optional(partial(integer_faults, 1, 255), get_member(codes('quantum'), tree)),
        )
        + at(
            key_at(TablePlace.Top, Key.TickMicros),
            optional(partial(integer_faults, 1, 1_000_000), get_member(codes('tick_micros'), tree)),
        )
        + at(
            key_at(TablePlace.Top, Key.Pool),
            optional(partial(integer_faults, 1, 1024), get_member(codes('pool'), tree)),
        )
    )

# the faults of the regions in their order, and then that of all regions together, which may have that many bytes in all
# regions_faults : ℕ → Members → List Refused  [taskscript/specs/File.antt:69]
def regions_faults(total, tree):
    return (
        optional(
            partial(array_faults, Array.Region, partial(items_faults, region_item_faults, 0)),
            get_member(codes('region'), tree),
        )
        + at(array_at(Array.Region), check(is_none(regions_fault(total, regions_in(tree))), FileFault.BadRegions))
    )

# the faults of the item of that number of the array `region`
# region_item_faults : ℕ → Data → List Refused  [taskscript/specs/File.antt:43]
def region_item_faults(number, data):
    return table_faults(
        item_at(Array.Region, number), partial(region_faults, TablePlace.Item(Array.Region, number)), data
    )

# the faults of the table of a region: those of its keys, then those of its values in the order base, size, attrs, pri
# region_faults : TablePlace → Members → List Refused  [taskscript/specs/File.antt:34]
def region_faults(of, region):
    return (
        at(unknown_key_at(of), check(keys_are_among(region_keys(), region), FileFault.UnknownKey))
        + at(
            key_at(of, Key.Base),
            required(partial(integer_faults, 0, 4_294_967_295), get_member(codes('base'), region)),
        )
        + at(
            key_at(of, Key.Size),
            required(partial(integer_faults, 0, 4_294_967_295), get_member(codes('size'), region)),
        )
        + at(key_at(of, Key.Attrs), optional(partial(integer_faults, 0, 7), get_member(codes('attrs'), region)))
        + at(key_at(of, Key.Pri), pri_faults(region))
    )

# the keys of the table of a region
# region_keys : List (List ℕ)  [taskscript/specs/File.antt:30]
@once
def region_keys():
    return [codes('base'), codes('size'), codes('attrs'), codes('pri')]

# the items of the array `region`
# regions_in : Members → List Region  [taskscript/specs/File.antt:60]
def regions_in(tree):
    return regions_of(items_or_none(get_member(codes('region'), tree)))

# the regions that an array states
# regions_of : Items → List Region  [taskscript/specs/File.antt:56]
def regions_of(regions):
    return of_items(region_of, regions)

# the region that a table states; attrs is 1, MEMF_PUBLIC, if the table does not say it, and pri is 0
# region_of : Data → Region  [taskscript/specs/File.antt:47]
def region_of(region):
    return Region(
        base=number_or(0, get_member(codes('base'), members_or_none(region))),
        size=number_or(0, get_member(codes('size'), members_or_none(region))),
        attrs=number_or(1, get_member(codes('attrs'), members_or_none(region))),
        pri=pri_in(members_or_none(region)),
    )

# the version of the rules, 1 if the file does not say it (project rule)
# version_of : Members → ℕ  [taskscript/specs/File.antt:64]
def version_of(tree):
    return number_or(1, get_member(codes('version'), tree))

# the faults of the libraries in their order; no two may have the same name
# libraries_faults : Members → List Refused  [taskscript/specs/File.antt:196]
def libraries_faults(tree):
    return optional(
        partial(array_faults, Array.Library, partial(named_faults, library_faults, Array.Library, 0, [])),
        get_member(codes('library'), tree),
    )

# the faults of the items of an array from that number on, each a table that is judged after the names before it
# named_faults : Judge → Array → ℕ → List (List ℕ) → Items → List Refused  [taskscript/specs/File.antt:143]
def named_faults(judge, of, number, before, items):
    match items:
        case Items.no_items: return []
        case Items.item(owner, rest):
            return (
                named_item_faults(judge, of, number, before, owner)
                + named_faults(judge, of, number + 1, before + [name_in_table(owner)], rest)
            )
        case _: raise NoCase('named_faults')

# the faults of the item of that number of an array, after the names before it
# named_item_faults : Judge → Array → ℕ → List (List ℕ) → Data → List Refused  [taskscript/specs/File.antt:139]
def named_item_faults(judge, of, number, before, data):
    return table_faults(item_at(of, number), partial(judge, TablePlace.Item(of, number), before), data)

# the name in a table, empty if it has none
# name_in_table : Data → List ℕ  [taskscript/specs/File.antt:115]
def name_in_table(owner):
    return string_or_nothing(get_member(codes('name'), members_or_none(owner)))

# the faults of the table of a library, after the names of the libraries before it: those of its keys, then those of its
# values in the order name, version, size
# library_faults : TablePlace → List (List ℕ) → Members → List Refused  [taskscript/specs/File.antt:184]
def library_faults(of, before, library):
    return (
        at(unknown_key_at(of), check(keys_are_among(library_keys(), library), FileFault.UnknownKey))
        + at(key_at(of, Key.Name), required(partial(name_faults, before), get_member(codes('name'), library)))
        + at(
            key_at(of, Key.Version), required(partial(integer_faults, 0, 65535), get_member(codes('version'), library))
        )
        + at(key_at(of, Key.Size), required(partial(integer_faults, 8, 65_536), get_member(codes('size'), library)))
    )

# the keys of the table of a library
# library_keys : List (List ℕ)  [taskscript/specs/File.antt:179]
@once
def library_keys():
    return [codes('name'), codes('version'), codes('size')]

# the faults of the software interrupts, the servers and the tasks, and after all of them those of their lines
# both_passes_faults : Members → List Refused  [taskscript/specs/File.antt:275]
def both_passes_faults(tree):
    return owners_faults(tree) + lines_of_all_faults(tree)

# the faults of the software interrupts, the servers and the tasks, without those of their lines
# owners_faults : Members → List Refused  [taskscript/specs/File.antt:261]
def owners_faults(tree):
    return (
        optional(
            partial(array_faults, Array.Softint, partial(named_faults, softint_faults, Array.Softint, 0, [])),
            get_member(codes('softint'), tree),
        )
        + optional(
            partial(
                array_faults,
                Array.Server,
                partial(named_faults, server_faults, Array.Server, 0, names_before_servers(tree)),
            ),
            get_member(codes('server'), tree),
        )
        + optional(
            partial(
                array_faults, Array.Task, partial(named_faults, task_faults, Array.Task, 0, names_before_tasks(tree))
            ),
            get_member(codes('task'), tree),
        )
    )

# the faults of the table of a software interrupt, after the names before it: those of its keys, then those of its
# values in the order name, pri, code
# softint_faults : TablePlace → List (List ℕ) → Members → List Refused  [taskscript/specs/File.antt:86]
def softint_faults(of, before, softint):
    return (
        at(unknown_key_at(of), check(keys_are_among(softint_keys(), softint), FileFault.UnknownKey))
        + at(key_at(of, Key.Name), required(partial(name_faults, before), get_member(codes('name'), softint)))
        + at(key_at(of, Key.Pri), required(softint_pri_faults, get_member(codes('pri'), softint)))
        + at(key_at(of, Key.Code), required(code_faults, get_member(codes('code'), softint)))
    )

# the keys of the table of a software interrupt
# softint_keys : List (List ℕ)  [taskscript/specs/File.antt:77]
@once
def softint_keys():
    return [codes('name'), codes('pri'), codes('code')]

# the faults of the table of a server, after the names before it: those of its keys, then those of its values in the
# order name, source, pri, claim, code
# server_faults : TablePlace → List (List ℕ) → Members → List Refused  [taskscript/specs/File.antt:95]
def server_faults(of, before, server):
    return (
        at(unknown_key_at(of), check(keys_are_among(server_keys(), server), FileFault.UnknownKey))
        + at(key_at(of, Key.Name), required(partial(name_faults, before), get_member(codes('name'), server)))
        + at(key_at(of, Key.Source), required(source_faults, get_member(codes('source'), server)))
        + at(key_at(of, Key.Pri), pri_faults(server))
        + at(key_at(of, Key.Claim), optional(boolean_faults, get_member(codes('claim'), server)))
        + at(key_at(of, Key.Code), required(code_faults, get_member(codes('code'), server)))
    )

# the keys of the table of a server
# server_keys : List (List ℕ)  [taskscript/specs/File.antt:81]
@once
def server_keys():
    return [codes('name'), codes('source'), codes('pri'), codes('claim'), codes('code')]

# the names before those of the servers: those of all software interrupts
# names_before_servers : Members → List (List ℕ)  [taskscript/specs/File.antt:253]
def names_before_servers(tree):
    return item_names(softints_in(tree))

# the names of some items
# item_names : Items → List (List ℕ)  [taskscript/specs/File.antt:149]
def item_names(owners):
    return of_items(name_in_table, owners)

# the array of software interrupts of a tree
# softints_in : Members → Items  [taskscript/specs/File.antt:165]
def softints_in(tree):
    return items_or_none(get_member(codes('softint'), tree))

# the faults of the table of a task, after the names before it: those of its keys, then those of its values in the order
# name, pri, start, code
# task_faults : TablePlace → List (List ℕ) → Members → List Refused  [taskscript/specs/File.antt:106]
def task_faults(of, before, task):
    return (
        at(unknown_key_at(of), check(keys_are_among(task_keys(), task), FileFault.UnknownKey))
        + at(key_at(of, Key.Name), required(partial(name_faults, before), get_member(codes('name'), task)))
        + at(key_at(of, Key.Pri), pri_faults(task))
        + at(key_at(of, Key.Start), optional(boolean_faults, get_member(codes('start'), task)))
        + at(key_at(of, Key.Code), required(code_faults, get_member(codes('code'), task)))
    )

# the keys of the table of a task
# task_keys : List (List ℕ)  [taskscript/specs/File.antt:26]
@once
def task_keys():
    return [codes('name'), codes('pri'), codes('start'), codes('code')]

# the names before those of the tasks: those of all software interrupts and servers
# names_before_tasks : Members → List (List ℕ)  [taskscript/specs/File.antt:257]
def names_before_tasks(tree):
    return names_before_servers(tree) + item_names(servers_in(tree))

# the array of servers of a tree
# servers_in : Members → Items  [taskscript/specs/File.antt:169]
def servers_in(tree):
    return items_or_none(get_member(codes('server'), tree))

# the faults of the lines of all bodies: of software interrupts, servers and tasks
# lines_of_all_faults : Members → List Refused  [taskscript/specs/File.antt:268]
def lines_of_all_faults(tree):
    return (
        bodies_faults(Owner.Softint, 0, setting_of(True, tree), [], softints_in(tree))
        + bodies_faults(Owner.Server, 0, setting_of(True, tree), shared_after_softints(tree), servers_in(tree))
        + bodies_faults(Owner.Task, 0, setting_of(False, tree), shared_after_servers(tree), tasks_in(tree))
    )

# the faults of the lines of the bodies of items from that number on, each after the shared variables of those before it
# bodies_faults : Owner → ℕ → Setting → List (List ℕ) → Items → List Refused  [taskscript/specs/File.antt:219]
def bodies_faults(owner, number, setting, shared, items):
    match items:
        case Items.no_items: return []
        case Items.item(body, rest):
            return (
                body_faults(owner, number, setting, shared, code_lines(body))
                + bodies_faults(owner, number + 1, setting, shared_after(shared, code_lines(body)), rest)
            )
        case _: raise NoCase('bodies_faults')

# the lines of the body in a table, which its key `code` has
# code_lines : Data → List (List ℕ)  [taskscript/specs/File.antt:210]
def code_lines(owner):
    return lines_in(items_or_none(get_member(codes('code'), members_or_none(owner))))

# what a body is judged by: whether it is that of an interrupt, and the software interrupts of the file
# setting_of : Bool → Members → Setting  [taskscript/specs/File.antt:214]
def setting_of(of_interrupt, tree):
    return Setting(of_interrupt=of_interrupt, softints=item_names(softints_in(tree)))

# the names of the shared variables, in order of first sight, after all software interrupts
# shared_after_softints : Members → List (List ℕ)  [taskscript/specs/File.antt:245]
def shared_after_softints(tree):
    return shared_after_bodies([], softints_in(tree))

# the names of the shared variables, in order of first sight, after the bodies of these items
# shared_after_bodies : List (List ℕ) → Items → List (List ℕ)  [taskscript/specs/File.antt:225]
def shared_after_bodies(shared, items):
    match items:
        case Items.no_items: return shared
        case Items.item(owner, rest): return shared_after_bodies(shared_after(shared, code_lines(owner)), rest)
        case _: raise NoCase('shared_after_bodies')

# the names of the shared variables, in order of first sight, after all software interrupts and servers
# shared_after_servers : Members → List (List ℕ)  [taskscript/specs/File.antt:249]
def shared_after_servers(tree):
    return shared_after_bodies(shared_after_softints(tree), servers_in(tree))

# the array of tasks of a tree
# tasks_in : Members → Items  [taskscript/specs/File.antt:173]
def tasks_in(tree):
    return items_or_none(get_member(codes('task'), tree))

# the machine that a tree states: a key that is absent has its default
# machine_of : Members → MachineData  [taskscript/specs/File.antt:322]
def machine_of(tree):
    return MachineData(
        version=version_of(tree),
        quantum=quantum_of(tree),
        tick_micros=tick_micros_of(tree),
        pool=pool_of(tree),
        regions=regions_in(tree),
        libraries=of_items(library_of, libraries_in(tree)),
        softints=softints_of([], softints_in(tree)),
        servers=servers_of(shared_after_softints(tree), servers_in(tree)),
        tasks=tasks_of(shared_after_servers(tree), tasks_in(tree)),
    )

# the quantum, 4 if the file does not say it
# quantum_of : Members → ℕ  [taskscript/specs/File.antt:153]
def quantum_of(tree):
    return number_or(4, get_member(codes('quantum'), tree))

# the microseconds of a tick, 20,000 if the file does not say it
# tick_micros_of : Members → ℕ  [taskscript/specs/File.antt:157]
def tick_micros_of(tree):
    return number_or(20000, get_member(codes('tick_micros'), tree))

# how many objects of each kind may live, 64 if the file does not say it
# pool_of : Members → ℕ  [taskscript/specs/File.antt:161]
def pool_of(tree):
    return number_or(64, get_member(codes('pool'), tree))

# the library that a table states
# library_of : Data → LibraryData  [taskscript/specs/File.antt:200]
def library_of(library):
    return LibraryData(
        name=name_in_table(library),
        version=number_or(0, get_member(codes('version'), members_or_none(library))),
        size=number_or(0, get_member(codes('size'), members_or_none(library))),
    )

# the items of the array `library`
# libraries_in : Members → Items  [taskscript/specs/File.antt:192]
def libraries_in(tree):
    return items_or_none(get_member(codes('library'), tree))

# the software interrupts that an array states
# softints_of : List (List ℕ) → Items → List SoftintData  [taskscript/specs/File.antt:304]
def softints_of(shared, softints):
    return with_bodies(softint_of, shared, softints)

# what each item that has a body states, after the shared variables of the bodies before it
# with_bodies : {X : Type 0} → (List (List ℕ) → Data → X) → List (List ℕ) → Items → List X
# [taskscript/specs/File.antt:230]
def with_bodies(of, shared, items):
    match items:
        case Items.no_items: return []
        case Items.item(owner, rest):
            return [of(shared, owner), *with_bodies(of, shared_after(shared, code_lines(owner)), rest)]
        case _: raise NoCase('with_bodies')

# the software interrupt that a table states, after the shared variables that were seen before it
# softint_of : List (List ℕ) → Data → SoftintData  [taskscript/specs/File.antt:296]
def softint_of(shared, softint):
    return SoftintData(name=name_in_table(softint), pri=pri_of(softint), code=code_of(shared, code_lines(softint)))

# the priority in a table, 0 if it has none
# pri_of : Data → ℤ  [taskscript/specs/File.antt:119]
def pri_of(owner):
    return pri_in(members_or_none(owner))

# the servers that an array states
# servers_of : List (List ℕ) → Items → List ServerData  [taskscript/specs/File.antt:318]
def servers_of(shared, servers):
    return with_bodies(server_of, shared, servers)

# the server that a table states, after the shared variables that were seen before it
# server_of : List (List ℕ) → Data → ServerData  [taskscript/specs/File.antt:308]
def server_of(shared, server):
    return ServerData(
        name=name_in_table(server),
        source=server_source_of(server),
        pri=pri_of(server),
        claim=claim_of(server),
        code=code_of(shared, code_lines(server)),
    )

# the interrupt source of the server of a table
# server_source_of : Data → Source  [taskscript/specs/File.antt:131]
def server_source_of(server):
    return source_in(members_or_none(server))

# whether the server of a table claims the interrupt and so ends the chain; false if the table does not say it
# claim_of : Data → Bool  [taskscript/specs/File.antt:127]
def claim_of(server):
    return boolean_or(False, get_member(codes('claim'), members_or_none(server)))

# the tasks that an array states
# tasks_of : List (List ℕ) → Items → List TaskData  [taskscript/specs/File.antt:292]
def tasks_of(shared, tasks):
    return with_bodies(task_of, shared, tasks)

# the task that a table states, after the shared variables that were seen before it
# task_of : List (List ℕ) → Data → TaskData  [taskscript/specs/File.antt:288]
def task_of(shared, task):
    return TaskData(
        name=name_in_table(task),
        pri=pri_of(task),
        start=start_of(task),
        code=code_of(shared, code_lines(task)),
    )

# whether the task of a table is added when the machine starts; true if the table does not say it
# start_of : Data → Bool  [taskscript/specs/File.antt:123]
def start_of(task):
    return boolean_or(True, get_member(codes('start'), members_or_none(task)))


# ---- The places of a machine file, and faults with their places. [taskscript/specs/Places.antt]

# a fault at a place
# refused : Place → FileFault → Refused  [taskscript/specs/Places.antt:68]
def refused(place, fault):
    return Refused(fault=fault, place=place)

# these faults, all at one place
# at : Place → List FileFault → List Refused  [taskscript/specs/Places.antt:72]
def at(place, faults):
    return [refused(place, each) for each in faults]

# the place of a key that a table may not have
# unknown_key_at : TablePlace → Place  [taskscript/specs/Places.antt:46]
def unknown_key_at(of):
    return Place.Tree(TreePlace.UnknownKey(of))

# the place of a key of a table, whether it is there or not
# key_at : TablePlace → Key → Place  [taskscript/specs/Places.antt:50]
def key_at(of, k):
    return Place.Tree(TreePlace.Key(of, k))

# the place of an array as a whole
# array_at : Array → Place  [taskscript/specs/Places.antt:54]
def array_at(of):
    return Place.Tree(TreePlace.Array(of))

# the place of the item of that number of an array
# item_at : Array → ℕ → Place  [taskscript/specs/Places.antt:58]
def item_at(of, number):
    return Place.Tree(TreePlace.Item(of, number))

# the greatest number of items of each array
# limit : Array → ℕ  [taskscript/specs/Places.antt:20]
def limit(array):
    match array:
        case Array.Region: return 8
        case Array.Library: return 32
        case Array.Softint: return 32
        case Array.Server: return 32
        case Array.Task: return 64
        case _: raise NoCase('limit')

# the place of a line of the body of an item; items and lines are numbered from 0
# line_at : Owner → ℕ → ℕ → Place  [taskscript/specs/Places.antt:62]
def line_at(owner, number, line):
    return Place.Line(LinePlace(owner=owner, item=number, line=line))


# ---- Faults: their numbers and names. A text is judged by the first of all its faults in their order.
# [taskscript/specs/Faults.antt]

# this fault, unless the test holds
# check : Bool → FileFault → List FileFault  [taskscript/specs/Faults.antt:43]
def check(good, fault):
    return [] if good else [fault]


# ---- The tree that a text states, and the faults of its places. Each place is judged by itself, from the tree alone.
# [taskscript/specs/Tree.antt]

# each key of the table is one of those listed
# keys_are_among : List (List ℕ) → Members → Bool  [taskscript/specs/Tree.antt:28]
def keys_are_among(listed, members):
    match members:
        case Members.no_members: return True
        case Members.member(key, value, rest):
            return any(key == each for each in listed) and keys_are_among(listed, rest)
        case _: raise NoCase('keys_are_among')

# the faults of a key that may be absent: those of its value, if it is there
# optional : {F : Type 0} → (Data → List F) → Option Data → List F  [taskscript/specs/Tree.antt:23]
def optional(judge, value):
    match value:
        case None: return []
        case Some(value): return judge(value)
        case _: raise NoCase('optional')

# BadValue, unless the value is an integer from low to high
# integer_faults : ℤ → ℤ → Data → List FileFault  [taskscript/specs/Tree.antt:40]
def integer_faults(low, high, data):
    match data:
        case Data.integer(z): return check(low <= z and z <= high, FileFault.BadValue)
        case _: return [FileFault.BadValue]

# the faults of an array: TooMany if it has more items than its limit, and then those of its items; what is not an array
# has the fault BadValue
# array_faults : Array → (Items → List Refused) → Data → List Refused  [taskscript/specs/Tree.antt:81]
def array_faults(of, judge, data):
    match data:
        case Data.array(items):
            return at(array_at(of), check(count_items(items) <= limit(of), FileFault.TooMany)) + judge(items)
        case _: return [refused(array_at(of), FileFault.BadValue)]

# the number of the items of an array
# count_items : Items → ℕ  [taskscript/specs/Tree.antt:75]
def count_items(items):
    match items:
        case Items.no_items: return 0
        case Items.item(value, rest): return count_items(rest) + 1
        case _: raise NoCase('count_items')

# the faults of the items of an array from that number on, each judged by itself
# items_faults : (ℕ → Data → List Refused) → ℕ → Items → List Refused  [taskscript/specs/Tree.antt:86]
def items_faults(judge, number, items):
    match items:
        case Items.no_items: return []
        case Items.item(value, rest): return judge(number, value) + items_faults(judge, number + 1, rest)
        case _: raise NoCase('items_faults')

# the faults of a table; what is not a table has the fault BadValue, at that place
# table_faults : Place → (Members → List Refused) → Data → List Refused  [taskscript/specs/Tree.antt:35]
def table_faults(place, judge, data):
    match data:
        case Data.table(members): return judge(members)
        case _: return [refused(place, FileFault.BadValue)]

# the faults of a key that has to be there: MissingKey if it is absent, else those of its value
# required : (Data → List FileFault) → Option Data → List FileFault  [taskscript/specs/Tree.antt:18]
def required(judge, value):
    match value:
        case None: return [FileFault.MissingKey]
        case Some(value): return judge(value)
        case _: raise NoCase('required')

# the faults of the key `pri`, which may be absent: its value is -128 to 127
# pri_faults : Members → List FileFault  [taskscript/specs/Tree.antt:45]
def pri_faults(owner):
    return optional(partial(integer_faults, -128, 127), get_member(codes('pri'), owner))

# the items of an array; none if the value is absent or is not an array
# items_or_none : Option Data → Items  [taskscript/specs/Tree.antt:132]
def items_or_none(data):
    match data:
        case Some(Data.array(items)): return items
        case _: return Items.no_items

# what each of some items states, in order
# of_items : {X : Type 0} → (Data → X) → Items → List X  [taskscript/specs/Tree.antt:142]
def of_items(of, items):
    match items:
        case Items.no_items: return []
        case Items.item(value, rest): return [of(value), *of_items(of, rest)]
        case _: raise NoCase('of_items')

# the integer that a value is, without its sign; `otherwise` if it is absent or is not an integer
# number_or : ℕ → Option Data → ℕ  [taskscript/specs/Tree.antt:114]
def number_or(otherwise, value):
    return unsigned_abs(integer_or(otherwise, value))

# the integer that a value is; `otherwise` if it is absent or is not an integer
# integer_or : ℤ → Option Data → ℤ  [taskscript/specs/Tree.antt:105]
def integer_or(otherwise, data):
    match data:
        case Some(Data.integer(z)): return z
        case _: return otherwise

# the members of a table; none if the value is not a table
# members_or_none : Data → Members  [taskscript/specs/Tree.antt:137]
def members_or_none(data):
    match data:
        case Data.table(members): return members
        case _: return Members.no_members

# the priority in a table, 0 if it has none
# pri_in : Members → ℤ  [taskscript/specs/Tree.antt:110]
def pri_in(owner):
    return integer_or(0, get_member(codes('pri'), owner))

# the bytes of a string; no bytes if the value is absent or is not a string
# string_or_nothing : Option Data → List ℕ  [taskscript/specs/Tree.antt:123]
def string_or_nothing(data):
    match data:
        case Some(Data.string(s)): return s
        case _: return []

# the faults of a name: BadValue if it does not have the form of a name, NameTwice if it is one of the names before it
# name_faults : List (List ℕ) → Data → List FileFault  [taskscript/specs/Tree.antt:70]
def name_faults(before, data):
    match data:
        case Data.string(s):
            if is_name(s): return check(not any(s == each for each in before), FileFault.NameTwice)
            return [FileFault.BadValue]
        case _: return [FileFault.BadValue]

# BadValue, unless the value is a priority that a software interrupt may have
# softint_pri_faults : Data → List FileFault  [taskscript/specs/Tree.antt:55]
def softint_pri_faults(data):
    match data:
        case Data.integer(z): return check(is_softint_pri(z), FileFault.BadValue)
        case _: return [FileFault.BadValue]

# a priority that a software interrupt may have: -32, -16, 0, 16 or 32 (RKM Libraries, Exec Interrupts: software
# interrupts)
# is_softint_pri : ℤ → Bool  [taskscript/specs/Tree.antt:50]
def is_softint_pri(pri):
    return pri == -32 or pri == -16 or pri == 0 or pri == 16 or pri == 32

# the faults of the value of `code`: BadValue unless it is an array of strings, and TooMany if it has more than 1,024
# items
# code_faults : Data → List FileFault  [taskscript/specs/Tree.antt:98]
def code_faults(data):
    match data:
        case Data.array(items):
            return check(are_strings(items), FileFault.BadValue) + check(count_items(items) <= 1024, FileFault.TooMany)
        case _: return [FileFault.BadValue]

# each item of an array is a string
# are_strings : Items → Bool  [taskscript/specs/Tree.antt:91]
def are_strings(items):
    match items:
        case Items.no_items: return True
        case Items.item(Data.string(s), rest): return are_strings(rest)
        case Items.item(_, rest): return False
        case _: raise NoCase('are_strings')

# BadValue, unless the value is the name of an interrupt source
# source_faults : Data → List FileFault  [taskscript/specs/Tree.antt:60]
def source_faults(data):
    match data:
        case Data.string(s): return check(is_some(source_of(s)), FileFault.BadValue)
        case _: return [FileFault.BadValue]

# BadValue, unless the value is a boolean
# boolean_faults : Data → List FileFault  [taskscript/specs/Tree.antt:65]
def boolean_faults(data):
    match data:
        case Data.boolean(b): return []
        case _: return [FileFault.BadValue]

# the source that the key `source` of a table names; PORTS if it names none, which is refused elsewhere
# source_in : Members → Source  [taskscript/specs/Tree.antt:128]
def source_in(owner):
    return unwrap_or(source_of(string_or_nothing(get_member(codes('source'), owner))), Source.Ports)

# the boolean that a value is; `otherwise` if it is absent or is not a boolean
# boolean_or : Bool → Option Data → Bool  [taskscript/specs/Tree.antt:118]
def boolean_or(otherwise, data):
    match data:
        case Some(Data.boolean(b)): return b
        case _: return otherwise


# ---- What a machine file states. [script/specs/File.antt]

# a task: its name (1 to 31 characters), its priority (-128 to 127), whether it is added at the start, and its commands
# in the order of its lines
# [script/specs/File.antt:8]
TaskData = record('TaskData', 'name', 'pri', 'start', 'code')

# a library: its name, its version (0 to 65535), and the bytes of memory that it takes while it is loaded (8 to 65536)
# [script/specs/File.antt:15]
LibraryData = record('LibraryData', 'name', 'version', 'size')

# a software interrupt: its name, its priority (-32, -16, 0, 16 or 32), and its commands in the order of its lines
# [script/specs/File.antt:21]
SoftintData = record('SoftintData', 'name', 'pri', 'code')

# a server: its name, the source that it serves, its priority (-128 to 127), whether it ends the chain of its source,
# and its commands in the order of its lines
# [script/specs/File.antt:28]
ServerData = record('ServerData', 'name', 'source', 'pri', 'claim', 'code')

# a machine: the version of its rules (1 or 2), the quantum in servings of VERTB (1 to 255), the microseconds of a tick
# (1 to 1,000,000), the number of objects of each kind that may live (1 to 1,024), and its regions of memory, its
# libraries, its software interrupts, its servers and its tasks, each in the order of the file; the first task is task 1
# [script/specs/File.antt:37]
MachineData = record(
    'MachineData', 'version', 'quantum', 'tick_micros', 'pool', 'regions', 'libraries', 'softints', 'servers', 'tasks'
)

# the bytes that all regions may have together: 1,048,576 in version 1, and 4,194,304 in version 2 (project rule)
# total_of : ℕ → ℕ  [script/specs/File.antt:49]
def total_of(version):
    return 1_048_576 if version == 1 else 4_194_304


# ---- What a `Value` is, and what a look-up finds in it. [rattle/toml/specs/Data.antt]

# [rattle/toml/specs/Data.antt:9]
Data = data('Data', string='a0', integer='a0', float_='a0', boolean='a0', datetime='a0', array='a0', table='a0')

# [rattle/toml/specs/Data.antt:17]
Items = data('Items', no_items='', item='a0 a1')

# [rattle/toml/specs/Data.antt:20]
Members = data('Members', no_members='', member='a0 a1 a2')

# the value at a key
# get_member : List ℕ → Members → Option Data  [rattle/toml/specs/Data.antt:36]
def get_member(k, members):
    match members:
        case Members.no_members: return None
        case Members.member(l, d, ms):
            return (
                get_member(k, ms)
                if slice_cmp(nat_cmp, k, l) < 0
                else Some(d)
                if slice_cmp(nat_cmp, k, l) == 0
                else get_member(k, ms)
            )
        case _: raise NoCase('get_member')


# ---- The code of one body: the commands of its lines, or all their faults in order. [taskscript/specs/Code.antt]

# The faults of a body: TooMany at the line after the 1,024th, if there are more; then those of its lines in their
# order, and then those of its jumps in their order.
# body_faults : Owner → ℕ → Setting → List (List ℕ) → List (List ℕ) → List Refused  [taskscript/specs/Code.antt:93]
def body_faults(owner, item, setting, shared, lines):
    return (
        at(line_at(owner, item, 1024), check(len(lines) <= 1024, FileFault.TooMany))
        + lines_faults(owner, item, 0, setting, names_of(shared, lines), [], lines)
        + jumps_faults(owner, item, 0, labels_of(lines), lines)
    )

# the faults of the lines of a body from that number on, each after the labels before it
# lines_faults : Owner → ℕ → ℕ → Setting → Names → List (List ℕ) → List (List ℕ) → List Refused
# [taskscript/specs/Code.antt:70]
def lines_faults(owner, item, number, setting, names, before, items):
    match items:
        case []: return []
        case [line, *others]:
            return (
                at(line_at(owner, item, number), line_faults(setting, names, before, line_meaning(line)))
                + lines_faults(owner, item, number + 1, setting, names, before + labels_of([line]), others)
            )
        case _: raise NoCase('lines_faults')

# The faults of what a line says, after the labels before it: BadCommand if it says nothing, or names a software
# interrupt that the file lacks; NotInInterrupt if the body is that of an interrupt, which may not have such a line;
# BadLabel if the line is a label that was there before; TooMany if it has a variable past the limit.
# line_faults : Setting → Names → List (List ℕ) → Option LineData → List FileFault  [taskscript/specs/Code.antt:60]
def line_faults(setting, names, before, line_data):
    match line_data:
        case None: return [FileFault.BadCommand]
        case Some(LineData.label_line(name)):
            return (
                check(not setting.of_interrupt, FileFault.NotInInterrupt)
                + check(not any(name == each for each in before), FileFault.BadLabel)
            )
        case Some(LineData.command_line(c)):
            return (
                check(names_softints(setting, c), FileFault.BadCommand)
                + check(may_have(setting, c), FileFault.NotInInterrupt)
                + check(all(keeps_variable_limits(variable_in(names, v)) for v in variables_of(c)), FileFault.TooMany)
            )
        case _: raise NoCase('line_faults')

# the labels of those lines that are labels
# labels_of : List (List ℕ) → List (List ℕ)  [taskscript/specs/Code.antt:39]
def labels_of(lines):
    return filter_map(lambda line: label_said(line_meaning(line)), lines)

# the label that a line is, if it is one
# label_said : Option LineData → Option (List ℕ)  [taskscript/specs/Code.antt:28]
def label_said(line_data):
    match line_data:
        case Some(LineData.label_line(name)): return Some(name)
        case _: return None

# all names of variables in the order of first sight, after the shared ones that were seen before; a line that is not a
# command names none
# names_of : List (List ℕ) → List (List ℕ) → Names  [taskscript/specs/Code.antt:52]
def names_of(shared, lines):
    return names_after(Names(private=[], shared=shared), flat_map(variables_of, commands_of(lines)))

# the commands of those lines that are commands
# commands_of : List (List ℕ) → List NamedCommandData  [taskscript/specs/Code.antt:35]
def commands_of(lines):
    return filter_map(lambda line: command_said(line_meaning(line)), lines)

# the command that a line is, if it is one
# command_said : Option LineData → Option NamedCommandData  [taskscript/specs/Code.antt:23]
def command_said(line_data):
    match line_data:
        case Some(LineData.command_line(c)): return Some(c)
        case _: return None

# the faults of the jumps of the lines from that number on
# jumps_faults : Owner → ℕ → ℕ → List (List ℕ) → List (List ℕ) → List Refused  [taskscript/specs/Code.antt:86]
def jumps_faults(owner, item, number, labels, items):
    match items:
        case []: return []
        case [line, *others]:
            return (
                at(line_at(owner, item, number), jumps_said(labels, command_said(line_meaning(line))))
                + jumps_faults(owner, item, number + 1, labels, others)
            )
        case _: raise NoCase('jumps_faults')

# the fault of the jump of a line, if it is a command that jumps
# jumps_said : List (List ℕ) → Option NamedCommandData → List FileFault  [taskscript/specs/Code.antt:81]
def jumps_said(labels, c):
    match c:
        case None: return []
        case Some(c): return jump_faults(labels, c)
        case _: raise NoCase('jumps_said')

# BadLabel, if a command jumps to a label that is not among these
# jump_faults : List (List ℕ) → NamedCommandData → List FileFault  [taskscript/specs/Code.antt:77]
def jump_faults(labels, c):
    return check(
        all(any(name == each for each in labels) for name in labels_of_arguments(c.arguments)), FileFault.BadLabel
    )

# the names of the shared variables, in order of first sight, after a body
# shared_after : List (List ℕ) → List (List ℕ) → List (List ℕ)  [taskscript/specs/Code.antt:106]
def shared_after(shared, lines):
    return names_of(shared, lines).shared

# the lines of an array of strings
# lines_in : Items → List (List ℕ)  [taskscript/specs/Code.antt:18]
def lines_in(items):
    match items:
        case Items.no_items: return []
        case Items.item(d, ds): return [line_in(d), *lines_in(ds)]
        case _: raise NoCase('lines_in')

# the text of an item; an item that is not a string counts as the empty text, which says nothing
# line_in : Data → List ℕ  [taskscript/specs/Code.antt:13]
def line_in(data):
    match data:
        case Data.string(text): return text
        case _: return []

# the commands of a body, with their variables by number and their labels by the place of the command after them
# code_of : List (List ℕ) → List (List ℕ) → List CommandData  [taskscript/specs/Code.antt:102]
def code_of(shared, lines):
    return [command_in(names_of(shared, lines), partial(place_of, lines), each) for each in commands_of(lines)]

# the place that a label names: the number of commands before it
# place_of : List (List ℕ) → List ℕ → ℕ  [taskscript/specs/Code.antt:47]
def place_of(lines, name):
    return len(commands_of(before_first(partial(is_label_of, name), lines)))

# a line is the label of a name
# is_label_of : List ℕ → List ℕ → Bool  [taskscript/specs/Code.antt:43]
def is_label_of(name, line):
    return option_map_or(partial(bytes_eq, name), label_said(line_meaning(line)), False)


# ---- Names of the machine file. [script/specs/Names.antt]

# a name: 1 to 31 bytes, each of them A to Z, a to z, 0 to 9, `.`, `_` or `-`
# is_name : List ℕ → Bool  [script/specs/Names.antt:11]
def is_name(text):
    return 1 <= len(text) and len(text) <= 31 and all(is_name_byte(each) for each in text)

# a byte of a name: A to Z, a to z, 0 to 9, `.`, `_` or `-`
# is_name_byte : ℕ → Bool  [script/specs/Names.antt:7]
def is_name_byte(b):
    return (65 <= b and b <= 90) or (97 <= b and b <= 122) or (48 <= b and b <= 57) or b == 46 or b == 95 or b == 45


# ---- What a line says, as a function that is determined by the relation `Says`. [taskscript/specs/Meaning.antt]

# what a line says, if it says something
# line_meaning : List ℕ → Option LineData  [taskscript/specs/Meaning.antt:11]
@kept
def line_meaning(line):
    return meaning().answer(fields(line))

# There is a function that gives what the fields of a line say. It is known by its type alone: no definition and no
# proof uses more of it.
# meaning : Meaning  [taskscript/specs/Meaning.antt:7]
@once
def meaning():
    return reader()


# ---- Which lines a body may have. The body of a software interrupt or of a server may have only some words, and no
# variables of its own. In every body, a word that names a software interrupt names one of the file.
# [taskscript/specs/Interrupting.antt]

# what a body is judged by, besides its lines: whether it is that of an interrupt, and the names of the software
# interrupts of the file
# [taskscript/specs/Interrupting.antt:10]
Setting = record('Setting', 'of_interrupt', 'softints')

# each software interrupt that a command names is one of the file
# names_softints : Setting → NamedCommandData → Bool  [taskscript/specs/Interrupting.antt:41]
def names_softints(setting, c):
    return all(any(name == each for each in setting.softints) for name in softints_named_by(c))

# the names of software interrupts that a command has
# softints_named_by : NamedCommandData → List (List ℕ)  [taskscript/specs/Interrupting.antt:37]
def softints_named_by(c):
    return softints_among(kinds(c.word), c.arguments)

# the names of software interrupts among the arguments, by the kinds that the word asks for
# softints_among : List Kind → List NamedArgumentData → List (List ℕ)  [taskscript/specs/Interrupting.antt:32]
def softints_among(items, other_items):
    match items, other_items:
        case [kind, *kinds2], [a, *others]:
            return cons_option(softint_argument(kind, a), softints_among(kinds2, others))
        case _, _: return []

# the name of a software interrupt that an argument of a kind is, if it is one
# softint_argument : Kind → NamedArgumentData → Option (List ℕ)  [taskscript/specs/Interrupting.antt:27]
def softint_argument(kind, named_argument_data):
    match kind, named_argument_data:
        case Kind.Softint, NamedArgumentData.quoted(name): return Some(name)
        case _, _: return None

# a body that is judged by this setting may have this command
# may_have : Setting → NamedCommandData → Bool  [taskscript/specs/Interrupting.antt:21]
def may_have(setting, c):
    return not setting.of_interrupt or is_of_interrupt(c)

# the body of an interrupt may have this command: its word is allowed there, and its variables are shared
# is_of_interrupt : NamedCommandData → Bool  [taskscript/specs/Interrupting.antt:17]
def is_of_interrupt(c):
    return is_word_of_interrupt(c.word) and all(v.is_shared for v in variables_of(c))


# ---- Variables by number: the number of a name is its place in the order of first sight. Jumps by place.
# [taskscript/specs/Numbering.antt]

# the names of the private variables of a body, and those of the shared variables of the file up to here, both in the
# order of first sight
# [taskscript/specs/Numbering.antt:24]
Names = record('Names', 'private', 'shared')

# the variables of a command: the target, and then the arguments from left to right
# variables_of : NamedCommandData → List NamedVariableData  [taskscript/specs/Numbering.antt:77]
def variables_of(c):
    return variables_of_target(c.target) + variables_of_arguments(c.arguments)

# the variable of a target, if there is one
# variables_of_target : Option NamedVariableData → List NamedVariableData  [taskscript/specs/Numbering.antt:64]
def variables_of_target(v):
    match v:
        case None: return []
        case Some(v): return [v]
        case _: raise NoCase('variables_of_target')

# the variables among some arguments, from left to right
# variables_of_arguments : List NamedArgumentData → List NamedVariableData  [taskscript/specs/Numbering.antt:69]
def variables_of_arguments(items):
    match items:
        case []: return []
        case [NamedArgumentData.number(n), *others]: return variables_of_arguments(others)
        case [NamedArgumentData.variable(v), *others]: return [v, *variables_of_arguments(others)]
        case [NamedArgumentData.label(n), *others]: return variables_of_arguments(others)
        case [NamedArgumentData.quoted(n), *others]: return variables_of_arguments(others)
        case _: raise NoCase('variables_of_arguments')

# a variable is within the limits: a body has at most 32 private variables, and a file at most 64 shared ones
# keeps_variable_limits : Variable → Bool  [taskscript/specs/Numbering.antt:57]
def keeps_variable_limits(variable):
    match variable:
        case Variable.Private(n): return n < 32
        case Variable.Shared(n): return n < 64
        case _: raise NoCase('keeps_variable_limits')

# a variable by its number: its place among the names in order of first sight
# variable_in : Names → NamedVariableData → Variable  [taskscript/specs/Numbering.antt:41]
def variable_in(names, v):
    if v.is_shared: return Variable.Shared(place_of_name(names.shared, v.name))
    return Variable.Private(place_of_name(names.private, v.name))

# the place of a name among those that were seen; after them, if it is new
# place_of_name : List (List ℕ) → List ℕ → ℕ  [taskscript/specs/Numbering.antt:19]
def place_of_name(seen, name):
    return position_or_len(partial(bytes_eq, name), seen)

# the names of variables, with those of some more variables that are new
# names_after : Names → List NamedVariableData → Names  [taskscript/specs/Numbering.antt:35]
def names_after(names, variables):
    return fold(names_with, names, variables)

# the names of the variables, with one more if it is new
# names_with : Names → NamedVariableData → Names  [taskscript/specs/Numbering.antt:29]
def names_with(names, v):
    if v.is_shared: return Names(private=names.private, shared=seen_after(names.shared, v.name))
    return Names(private=seen_after(names.private, v.name), shared=names.shared)

# the names that were seen, after one more
# seen_after : List (List ℕ) → List ℕ → List (List ℕ)  [taskscript/specs/Numbering.antt:15]
def seen_after(seen, name):
    return seen if any(name == each for each in seen) else seen + [name]

# the labels among some arguments: those that the command jumps to
# labels_of_arguments : List NamedArgumentData → List (List ℕ)  [taskscript/specs/Numbering.antt:81]
def labels_of_arguments(items):
    match items:
        case []: return []
        case [NamedArgumentData.number(n), *others]: return labels_of_arguments(others)
        case [NamedArgumentData.variable(v), *others]: return labels_of_arguments(others)
        case [NamedArgumentData.label(n), *others]: return [n, *labels_of_arguments(others)]
        case [NamedArgumentData.quoted(n), *others]: return labels_of_arguments(others)
        case _: raise NoCase('labels_of_arguments')

# a command with numbers and places for its names
# command_in : Names → (List ℕ → ℕ) → NamedCommandData → CommandData  [taskscript/specs/Numbering.antt:52]
def command_in(names, places, c):
    return CommandData(
        word=c.word,
        target=option_map(partial(variable_in, names), c.target),
        arguments=[argument_in(names, places, each) for each in c.arguments],
    )

# an argument with the number of its variable, or the place that its label has
# argument_in : Names → (List ℕ → ℕ) → NamedArgumentData → ArgumentData  [taskscript/specs/Numbering.antt:45]
def argument_in(names, places, named_argument_data):
    match named_argument_data:
        case NamedArgumentData.number(n): return ArgumentData.number(n)
        case NamedArgumentData.variable(v): return ArgumentData.variable(variable_in(names, v))
        case NamedArgumentData.label(n): return ArgumentData.place(places(n))
        case NamedArgumentData.quoted(n): return ArgumentData.quoted(n)
        case _: raise NoCase('argument_in')


# ---- One line of a body: its fields, and what it can say, a label or a command with names for variables and labels.
# [taskscript/specs/Lines.antt]

# a variable by its name, the `@` of a shared one left out
# [taskscript/specs/Lines.antt:17]
NamedVariableData = record('NamedVariableData', 'is_shared', 'name')

# an argument of a line: a number, a variable, a label or a name, as it is written
# [taskscript/specs/Lines.antt:24]
NamedArgumentData = data('NamedArgumentData', number='a0', variable='a0', label='a0', quoted='a0')

# a word, the variable that its answer goes to, or none, and its arguments from left to right
# [taskscript/specs/Lines.antt:33]
NamedCommandData = record('NamedCommandData', 'word', 'target', 'arguments')

# what a line says: it is a label, or a command
# [taskscript/specs/Lines.antt:41]
LineData = data('LineData', label_line='a0', command_line='a0')

# the parts of a line between single spaces
# fields : List ℕ → List (List ℕ)  [taskscript/specs/Lines.antt:11]
def fields(line):
    return slice_split(lambda b: b == 32, line)


# ---- A line is one label or one command, and not both. [taskscript/specs/Reader.antt]

# the function that reads the fields of a line; in the original, with the proof that it is right
# reader : Meaning  [taskscript/specs/Reader.antt:128]
@once
def reader():
    return Meaning(answer=line_of)


# ---- Which words the body of a software interrupt or of a server may have (project rule).
# [script/specs/Interrupting.antt]

# a word that the body of an interrupt may have
# is_word_of_interrupt : Word → Bool  [script/specs/Interrupting.antt:28]
def is_word_of_interrupt(this_word):
    match this_word:
        case Word.Plain(word): return is_plain_of_interrupt(word)
        case Word.Signals(word): return is_signal_of_interrupt(word)
        case Word.Ports(word): return is_port_of_interrupt(word)
        case Word.Interrupts(word): return True
        case _: return False

# a body of an interrupt may have the plain word: all but the jumps
# is_plain_of_interrupt : PlainWord → Bool  [script/specs/Interrupting.antt:9]
def is_plain_of_interrupt(plain_word):
    match plain_word:
        case PlainWord.Jump: return False
        case PlainWord.JumpZ: return False
        case PlainWord.JumpNZ: return False
        case _: return True

# a body of an interrupt may have the word on signals: Signal alone
# is_signal_of_interrupt : SignalWord → Bool  [script/specs/Interrupting.antt:16]
def is_signal_of_interrupt(signal_word):
    match signal_word:
        case SignalWord.Signal: return True
        case _: return False

# a body of an interrupt may have the word on ports: PutMsg, GetMsg and ReplyMsg
# is_port_of_interrupt : PortWord → Bool  [script/specs/Interrupting.antt:21]
def is_port_of_interrupt(port_word):
    match port_word:
        case PortWord.PutMsg: return True
        case PortWord.GetMsg: return True
        case PortWord.ReplyMsg: return True
        case _: return False


# ---- How the program reads the fields of a line, step by step. What a line says is the relation `Says`, and it is
# proved that this reads exactly that. [taskscript/specs/Parsing.antt]

# the label or the command of the fields, if they are one
# line_of : List (List ℕ) → Option LineData  [taskscript/specs/Parsing.antt:96]
def line_of(fields):
    return option_or(
        option_map(LineData.label_line, label_of(fields)), option_map(LineData.command_line, command_of(fields))
    )

# the label of a line, which has one field
# label_of : List (List ℕ) → Option (List ℕ)  [taskscript/specs/Parsing.antt:89]
def label_of(items):
    match items:
        case [field]: return label_in(field)
        case _: return None

# the name before `:`, if the field is a label
# label_in : List ℕ → Option (List ℕ)  [taskscript/specs/Parsing.antt:83]
@kept
def label_in(field):
    if 1 <= len(field) and slice_index(field, monus(len(field), 1)) == 58:
        return identifier_in(take(monus(len(field), 1), field))
    return None

# the command of a line's fields, if they are one
# command_of : List (List ℕ) → Option NamedCommandData  [taskscript/specs/Parsing.antt:77]
def command_of(fields):
    return with_word(cut_target(fields)[0], cut_target(fields)[1])

# the command with this target, or with none, and the fields from its word on, if they are a command
# with_word : Option (List ℕ) → List (List ℕ) → Option NamedCommandData  [taskscript/specs/Parsing.antt:63]
def with_word(target, items):
    match items:
        case []: return None
        case [text, *after]:
            return bind(
                word_of(text),
                lambda word: bind(
                    target_of(answers(word), target),
                    lambda variable: bind(
                        arguments_of(kinds(word), after),
                        lambda arguments: Some(NamedCommandData(word=word, target=variable, arguments=arguments)),
                    ),
                ),
            )
        case _: raise NoCase('with_word')

# what f makes of a value, if there is a value
# ◌>>=◌ : {A B : Type 0} → Option A → (A → Option B) → Option B  [taskscript/specs/Parsing.antt:43]
def bind(x, f):
    match x:
        case None: return None
        case Some(x): return f(x)
        case _: raise NoCase('bind')

# the target of a command, or that it has none; there is a fault if a target is before a word that does not answer
# target_of : Bool → Option (List ℕ) → Option (Option NamedVariableData)  [taskscript/specs/Parsing.antt:57]
def target_of(may, field):
    match may, field:
        case may, None: return Some(None)
        case False, Some(field): return None
        case True, Some(field): return option_map(Some, variable_of(field))
        case _: raise NoCase('target_of')

# the variable of a field: `name` is private to its body, `@name` is shared
# variable_of : List ℕ → Option NamedVariableData  [taskscript/specs/Parsing.antt:16]
@kept
def variable_of(items):
    match items:
        case []: return None
        case [b, *bs]: return named(True, bs) if b == 64 else named(False, [b, *bs])
        case _: raise NoCase('variable_of')

# the variable of that name, shared or private, if the text is an identifier
# named : Bool → List ℕ → Option NamedVariableData  [taskscript/specs/Parsing.antt:12]
def named(is_shared, text):
    return option_map(lambda name: NamedVariableData(is_shared=is_shared, name=name), identifier_in(text))

# the arguments of some fields, if there is one field of each kind, and no more
# arguments_of : List Kind → List (List ℕ) → Option (List NamedArgumentData)  [taskscript/specs/Parsing.antt:48]
def arguments_of(items, other_items):
    match items, other_items:
        case [], []: return Some([])
        case [], [field, *after]: return None
        case [kind, *kinds2], []: return None
        case [kind, *kinds2], [field, *after]:
            return bind(
                argument_of(kind, field),
                lambda a: bind(arguments_of(kinds2, after), lambda others: Some([a, *others])),
            )
        case _: raise NoCase('arguments_of')

# the argument of a kind that a field is, if it is one
# argument_of : Kind → List ℕ → Option NamedArgumentData  [taskscript/specs/Parsing.antt:34]
def argument_of(kind, field):
    match kind:
        case Kind.Value:
            return option_or(
                option_map(NamedArgumentData.variable, variable_of(field)),
                option_map(NamedArgumentData.number, number_written(field)),
            )
        case Kind.Label: return option_map(NamedArgumentData.label, identifier_in(field))
        case Kind.Name: return option_map(NamedArgumentData.quoted, quoted_in(field))
        case Kind.Softint: return option_map(NamedArgumentData.quoted, quoted_in(field))
        case Kind.NameOrNone:
            if field == codes('0'): return Some(NamedArgumentData.number(0))
            return option_map(NamedArgumentData.quoted, quoted_in(field))
        case _: raise NoCase('argument_of')

# the name of a field that has it between double quotes
# quoted_in : List ℕ → Option (List ℕ)  [taskscript/specs/Parsing.antt:27]
@kept
def quoted_in(field):
    if 2 <= len(field) and slice_index(field, 0) == 34 and slice_index(field, monus(len(field), 1)) == 34:
        return Some(inside(field)) if is_name(inside(field)) else None
    return None

# what is between the first and the last byte
# inside : List ℕ → List ℕ  [taskscript/specs/Parsing.antt:23]
def inside(field):
    return take(monus(len(field), 2), drop(1, field))

# the field before `=`, if there is one, and the fields after that; else all fields
# cut_target : List (List ℕ) → Option (List ℕ) × List (List ℕ)  [taskscript/specs/Parsing.antt:72]
def cut_target(whole):
    match whole:
        case [target, equals, *after]:
            if equals == codes('='): return (Some(target), after)
            return (None, [target, equals, *after])
        case whole: return (None, whole)


# ---- Names of variables and labels. [taskscript/specs/Identifiers.antt]

# the text, if it is an identifier
# identifier_in : List ℕ → Option (List ℕ)  [taskscript/specs/Identifiers.antt:16]
@kept
def identifier_in(text):
    return Some(text) if is_identifier(text) else None

# an identifier: 1 to 16 bytes, first a lower-case letter, and then lower-case letters, digits and `_`
# is_identifier : List ℕ → Bool  [taskscript/specs/Identifiers.antt:10]
def is_identifier(n):
    return (
        1 <= len(n)
        and len(n) <= 16
        and 97 <= slice_index(n, 0)
        and slice_index(n, 0) <= 122
        and all(is_identifier_byte(each) for each in n)
    )

# a byte of an identifier: `a` to `z`, `0` to `9` or `_`
# is_identifier_byte : ℕ → Bool  [taskscript/specs/Identifiers.antt:6]
def is_identifier_byte(b):
    return (97 <= b and b <= 122) or (48 <= b and b <= 57) or b == 95


# ---- Types of the code in place.rt [taskscript/src/place.rt]

# An array of the top table.
# [taskscript/src/place.rt:7]
Array = data('Array', Region='', Library='', Softint='', Server='', Task='')

# A key of a table that holds a value.
# [taskscript/src/place.rt:52]
Key = data(
    'Key',
    Quantum='',
    TickMicros='',
    Pool='',
    Base='',
    Size='',
    Attrs='',
    Pri='',
    Name='',
    Version='',
    Source='',
    Claim='',
    Start='',
    Code='',
)

# A table of a machine file.
# [taskscript/src/place.rt:93]
TablePlace = data('TablePlace',
    # The top table.
    Top='',
    # The item of an array, by its number from 0.
    Item='a0 a1',
)

# A place of the tree of a machine file.
# [taskscript/src/place.rt:102]
TreePlace = data('TreePlace',
    # The first key of a table that the table may not have.
    UnknownKey='a0',
    # What a key of a table holds, or that it is absent.
    Key='a0 a1',
    # An array as a whole.
    Array='a0',
    # The item of an array, by its number from 0, which is not a table.
    Item='a0 a1',
)

# What has a body.
# [taskscript/src/place.rt:115]
Owner = data('Owner', Softint='', Server='', Task='')

# A line of a body.
# [taskscript/src/place.rt:123]
LinePlace = record('LinePlace',
    # What has the body.
    'owner',
    # Its number among all that are of its kind, from 0.
    'item',
    # The number of the line, from 0.
    'line',
)

# A place of a machine file.
# [taskscript/src/place.rt:134]
Place = data('Place',
    # The file as a whole: it is not a TOML document, or memory was refused while it was read.
    File='',
    # A place of the tree.
    Tree='a0',
    # A line of a body.
    Line='a0',
)


# ---- Types of the code in fault.rt [taskscript/src/fault.rt]

# The fault of a machine file: the first one, in the order in which its places are judged. It is printed by its name.
# The faults are numbered from 1, in the order in which they are here (project rule).
# [taskscript/src/fault.rt:13]
FileFault = data('FileFault',
    # The bytes are not text in UTF-8, or the text is not a TOML document.
    NotToml='',
    # A table has a key that is not listed for it.
    UnknownKey='',
    # A table lacks a key that it must have.
    MissingKey='',
    # A value is of another kind than its key asks for, or out of its range.
    BadValue='',
    # A name was used before.
    NameTwice='',
    # The regions of memory overlap, are misaligned or too large.
    BadRegions='',
    # A line of a body is neither a label nor a command, or it names a software interrupt that the file lacks.
    BadCommand='',
    # A label is twice in a body, or a jump names a label that is not in its body.
    BadLabel='',
    # A line that is right in a task is in the body of a software interrupt or of a server, where it is not allowed.
    NotInInterrupt='',
    # There are more regions, libraries, software interrupts, servers, tasks, lines or variables than the limits allow.
    TooMany='',
    # Memory was refused while the file was read.
    OutOfMemory='',
)

# The fault of an event text: that of its first faulty line. It is printed by its name, and BadLine with the number of
# that line. The faults are numbered 1, 2 and 3, in the order in which they are here (project rule).
# [taskscript/src/fault.rt:97]
EventFault = data('EventFault',
    # The line of this number is not an event. Lines are counted from 1, and those that are skipped are counted too.
    BadLine='a0',
    # A line takes the sum of the steps or that of the ticks past 1,000,000, or the number of the events past 100,000.
    TooMany='',
    # Memory was refused while the text was read.
    OutOfMemory='',
)


# ---- Types of the code in refused.rt [taskscript/src/refused.rt]

# The first fault of a machine file, with its place.
# [taskscript/src/refused.rt:13]
Refused = record('Refused', 'fault', 'place')


# ======================================================================================================================
# Laws that are asked of each run
# ======================================================================================================================


# ---- Who came to a queue, who was served at it, and who left it unserved: what the laws of ports and of semaphores
# speak of. [execmodel/specs/Queues.antt]

# one thing that happened at a queue: someone came, was served, or left unserved
# [execmodel/specs/Queues.antt:5]
Turn = data('Turn', Came='who', Served='who', Left='who')

# First come, first served. Those who were in the queue at first and then those who came, without those who left
# unserved, are those who were served, in that order, followed by those who are in the queue at last.
# IsInOrder : List ℕ → List Turn → List ℕ → Type 0  [execmodel/specs/Queues.antt:37]
def IsInOrder(first, turns, last):
    return staying(turns, first) + comers(turns) == served(turns) + last

# of those who are in the queue, the ones that do not leave it unserved
# staying : List Turn → List ℕ → List ℕ  [execmodel/specs/Queues.antt:18]
def staying(turns, queue):
    return [who for who in queue if not is_to_leave(who, turns)]

# the next thing that happens to someone in the queue is that they leave it unserved
# is_to_leave : ℕ → List Turn → Bool  [execmodel/specs/Queues.antt:11]
def is_to_leave(who, items):
    match items:
        case []: return False
        case [Turn.Came(other), *turns]: return is_to_leave(who, turns)
        case [Turn.Served(other), *turns]: return False if who == other else is_to_leave(who, turns)
        case [Turn.Left(other), *turns]: return True if who == other else is_to_leave(who, turns)
        case _: raise NoCase('is_to_leave')

# those who came and did not leave unserved, in the order in which they came
# comers : List Turn → List ℕ  [execmodel/specs/Queues.antt:22]
def comers(items):
    match items:
        case []: return []
        case [Turn.Came(who), *turns]: return comers(turns) if is_to_leave(who, turns) else [who, *comers(turns)]
        case [Turn.Served(who), *turns]: return comers(turns)
        case [Turn.Left(who), *turns]: return comers(turns)
        case _: raise NoCase('comers')

# those who were served, in order
# served : List Turn → List ℕ  [execmodel/specs/Queues.antt:29]
def served(items):
    match items:
        case []: return []
        case [Turn.Came(who), *turns]: return served(turns)
        case [Turn.Served(who), *turns]: return [who, *served(turns)]
        case [Turn.Left(who), *turns]: return served(turns)
        case _: raise NoCase('served')


# ---- What the marks of a run say of one port, and of one semaphore. [execmodel/specs/Marks.antt]

# what the marks say of the port at an address, in order
# turns_at_port : ℕ → List Mark → List Turn  [execmodel/specs/Marks.antt:26]
def turns_at_port(port, marks):
    return flat_map(partial(port_turn, port), marks)

# what a mark says of the port at an address: a message comes when it is put there, is served by GetMsg, and leaves when
# WaitIO or DoIO takes it out
# port_turn : ℕ → Mark → List Turn  [execmodel/specs/Marks.antt:11]
def port_turn(address, this_mark):
    match this_mark:
        case Mark.put(port, message): return turn_at(address, port, Turn.Came(message))
        case Mark.got(port, message): return turn_at(address, port, Turn.Served(message))
        case Mark.out(port, message): return turn_at(address, port, Turn.Left(message))
        case _: return []

# a turn, if it is at that address
# turn_at : ℕ → ℕ → Turn → List Turn  [execmodel/specs/Marks.antt:6]
def turn_at(address, other, turn):
    return [turn] if address == other else []

# what the marks say of the semaphore at an address, in order
# turns_at_semaphore : ℕ → List Mark → List Turn  [execmodel/specs/Marks.antt:30]
def turns_at_semaphore(semaphore, marks):
    return flat_map(partial(semaphore_turn, semaphore), marks)

# what a mark says of the semaphore at an address: a task comes when it has to wait, is served when a release makes it
# the owner, and leaves when it is removed
# semaphore_turn : ℕ → Mark → List Turn  [execmodel/specs/Marks.antt:19]
def semaphore_turn(address, this_mark):
    match this_mark:
        case Mark.asked(semaphore, task): return turn_at(address, semaphore, Turn.Came(task))
        case Mark.passed(semaphore, task): return turn_at(address, semaphore, Turn.Served(task))
        case Mark.left(semaphore, task): return turn_at(address, semaphore, Turn.Left(task))
        case _: return []


# ---- Laws of every run: of each machine that a file may state, and each list of events. [execmodel/specs/Laws.antt]

# The clock has counted the ticks of the events, and nothing else; after an alert it has gained no more than these.
# [execmodel/specs/Laws.antt:381]
def CountsTicks(machine, list_, s):
    return (
        s.memory.timer.tick_micros == machine.tick_micros
        and (s.stopped or s.memory.timer.clock == sum(event_ticks(each) for each in list_) * machine.tick_micros)
        and s.memory.timer.clock <= sum(event_ticks(each) for each in list_) * machine.tick_micros
    )

# If no task runs, none is ready. If switching is allowed, no ready task has a higher priority than the running one. And
# a request of an interrupt is left only if interrupts are not allowed.
# [execmodel/specs/Laws.antt:166]
def IsSettled(s):
    return (
        (not s.schedule.running == None or s.schedule.queue.ready == [])
        and all(
            not is_switching_allowed(Some(r), s.schedule)
            or all(priority_of(s.schedule, t) <= priority_of(s.schedule, r) for t in s.schedule.queue.ready)
            for r in option_to_list(s.schedule.running)
        )
        and all(
            not is_latched(asks, s.pending.latches) or not allows_interrupts(s.schedule)
            for asks in [Source.Ports, Source.Vertb, Source.Exter]
        )
    )


# ---- Blocks and gaps side by side: what the laws of memory say. [memlist/specs/Pieces.antt]

# Each block lies in a region, and no two blocks overlap.
# [memlist/specs/Pieces.antt:37]
def AreDisjoint(regions, blocks):
    return (
        all(any(LiesIn(block, each) for each in regions) for block in blocks)
        and all(block[0] + block[1][0] <= next_[0] for block, next_ in pairs(blocks))
    )

# a block lies whole in a region
# LiesIn : ℕ × (ℕ × ℕ) → Region → Type 0  [memlist/specs/Pieces.antt:33]
def LiesIn(block, region):
    return region.base <= block[0] and block[0] + block[1][0] <= region_end(region)


# ---- What a line says, as a relation between its fields and a label or a command. [taskscript/specs/Says.antt]

# A function that gives what fields say, if they say something, and none else. Any two such functions are equal, since
# fields say at most one thing.
# [taskscript/specs/Says.antt:71]
Meaning = record('Meaning', 'answer')

# fields say a label, or a command
# Says : List (List ℕ) → LineData → Type 0  [taskscript/specs/Says.antt:58]
def Says(fields, line_data):
    match line_data:
        case LineData.label_line(name): return IsLabel(fields, name)
        case LineData.command_line(c): return IsLine(fields, c)
        case _: raise NoCase('Says')

# the one field is a name and `:`
# [taskscript/specs/Says.antt:53]
def IsLabel(fields, name):
    return fields == [name + codes(':')] and is_identifier(name)

# the fields are a target or none, the text of the word, and its arguments
# [taskscript/specs/Says.antt:45]
def IsLine(fields, c):
    return any(
        fields == before + [word_text(c.word), *after]
        and IsTarget(answers(c.word), before, c.target)
        and AreArguments(kinds(c.word), after, c.arguments)
        for before, after in splits(fields)
    )

# there is no field; or, if the word answers, there are a variable and `=`
# IsTarget : Bool → List (List ℕ) → Option NamedVariableData → Type 0  [taskscript/specs/Says.antt:39]
def IsTarget(may, items, v):
    match may, items, v:
        case may, [], None: return True
        case True, [target, equals], Some(v): return equals == codes('=') and IsVariable(target, v)
        case _, _, _: return False

# a field is the name of a private variable, or that of a shared one after @
# [taskscript/specs/Says.antt:16]
def IsVariable(field, v):
    return field == variable_text(v) and is_identifier(v.name)

# the text of a variable: its name, with `@` before it if the variable is shared
# variable_text : NamedVariableData → List ℕ  [taskscript/specs/Says.antt:12]
def variable_text(v):
    return [64, *v.name] if v.is_shared else v.name

# there is one field for each kind, and it is the argument
# AreArguments : List Kind → List (List ℕ) → List NamedArgumentData → Type 0  [taskscript/specs/Says.antt:33]
def AreArguments(items, other_items, other_items2):
    match items, other_items, other_items2:
        case [], [], []: return True
        case [kind, *kinds2], [field, *fields], [a, *others]:
            return IsArgument(kind, field, a) and AreArguments(kinds2, fields, others)
        case _, _, _: return False

# A field is an argument of a kind. A value is a variable or a number, and a label is the field itself. A name is
# between double quotes; where there may be no name, `0` alone means that.
# IsArgument : Kind → List ℕ → NamedArgumentData → Type 0  [taskscript/specs/Says.antt:22]
def IsArgument(kind, field, named_argument_data):
    match kind, named_argument_data:
        case Kind.Value, NamedArgumentData.variable(v): return IsVariable(field, v)
        case Kind.Value, NamedArgumentData.number(n): return number_written(field) == Some(n)
        case Kind.Label, NamedArgumentData.label(n): return field == n and is_identifier(n)
        case Kind.Name, NamedArgumentData.quoted(n): return field == quote() + n + quote() and is_name(n)
        case Kind.NameOrNone, NamedArgumentData.quoted(n): return field == quote() + n + quote() and is_name(n)
        case Kind.NameOrNone, NamedArgumentData.number(n): return field == codes('0') and n == 0
        case Kind.Softint, NamedArgumentData.quoted(n): return field == quote() + n + quote() and is_name(n)
        case _, _: return False

# a double quote, `"`
# quote : List ℕ  [taskscript/specs/Says.antt:8]
@once
def quote():
    return [34]


# ======================================================================================================================
# The words of the standard library
# ======================================================================================================================

def quotient(a, b): return a // b if b else 0  # to divide by 0 gives 0
def remainder(a, b): return a % b if b else a  # and leaves the number
def max_(a, b): return a if a > b else b  # the greater of two
def nat_eq(a, b): return a == b  # whether two numbers are the same
def bit_not(width, a): return ((1 << width) - 1) ^ a  # of a number of that many bits
def cast_signed(width, n): return n - (1 << width) if n >> (width - 1) else n  # a word that is read as one with a sign
def cast_unsigned(width, n): return n % (1 << width)  # and back
def unsigned_abs(n): return abs(n)  # the number without its sign
def neg(n): return -n  # the number with the other sign
def suc(n): return n + 1  # the number after
def take(n, items): return items[:n]  # the first n items
def drop(n, items): return items[n:]  # the items after these
def find(test, items): return next((Some(it) for it in items if test(it)), None)  # the first item that meets a test
def flat_map(f, items): return [it for each in items for it in f(each)]  # what f gives of each item, in a row
def filter_map(f, items): return [it.value for it in map(f, items) if it is not None]  # what f gives, if it does
def replicate(n, item): return [item] * n  # an item n times
def range_with_len(start, n): return list(range(start, start + n))  # n numbers from that one on
def slice_get(items, place): return Some(items[place]) if place < len(items) else None  # the item at a place from 0
def slice_index(items, place): return items[place] if place < len(items) else 0  # that number, or 0
def slice_set(items, n, it): return [*items[:n], it, *items[n + 1:]] if n < len(items) else items  # item n is another
def position_or_len(test, items): return next((n for n, it in enumerate(items) if test(it)), len(items))  # its place
def position_from(test, start, items):
    """The number of the first item that meets a test, if one does, where the first of all has the number `start`."""
    return next((Some(start + n) for n, it in enumerate(items) if test(it)), None)
def before_first(test, items): return items[:position_or_len(test, items)]  # the items before one that meets a test
def pointwise(same, a, b): return len(a) == len(b) and all(same(x, y) for x, y in zip(a, b))  # whether two are the same
def bytes_eq(a, b): return a == b  # whether two texts are the same
def splits(items): return [(items[:n], items[n + 1:]) for n in range(len(items))]  # what is before and after each item
def pairs(items): return [(one, two) for n, one in enumerate(items) for two in items[n + 1:]]  # each with each after it
def option_and_then(f, option): return None if option is None else f(option.value)  # f may give none too
def option_map_or(f, option, other): return other if option is None else f(option.value)  # f of it, or another value
def option_or(option, other): return other if option is None else option  # the first that is there
def option_to_list(option): return [] if option is None else [option.value]  # the list of what is there, or none
def cons_option(option, items): return items if option is None else [option.value, *items]  # before the items
def is_none(option): return option is None  # whether nothing is
def nat_cmp(a, b): return (a > b) - (a < b)  # an order is -1, 0 or 1
def slice_cmp(order, a, b): return (a > b) - (a < b)  # that of the first items that differ; a beginning comes first
def finmap_find(order, key, pairs): return next((Some(value) for it, value in pairs if it == key), None)  # in a map
def finmap_where_key(order, test, pairs): return [it for it in pairs if test(it[0])]  # a part of a map
def digits_value(radix, digits): return int(bytes(digits).decode(), radix)  # the number that digits are

def fold(f, start, items):
    """What f makes of the items, one after another."""
    for it in items:
        start = f(start, it)
    return start

def slice_split(test, items):
    """The parts of a list between the items that meet a test."""
    found = [[]]
    for it in items:
        if test(it):
            found.append([])
        else:
            found[-1].append(it)
    return found

def finmap_put(order, key, value, pairs):
    """A map, which is a list of pairs in the order of their keys, with another value at a key."""
    return sorted([it for it in pairs if it[0] != key] + [(key, value)], key=lambda it: it[0])


# ======================================================================================================================
# What the theorem speaks of, and is not above
# ======================================================================================================================

# file_of: only statements speak of it [taskscript/specs/File.antt:346]
# Simulates: a statement [execsim/specs/Headline.antt:102]
# without_place: only statements speak of it [taskscript/specs/Places.antt:76]
# placed_file_of: only statements speak of it [taskscript/specs/File.antt:342]
# Tape: only statements speak of it [exectrace/specs/Sink.antt:8]
# RunsWhole: a statement [execsim/specs/Headline.antt:64]
# RefusesFile: a statement [execsim/specs/Headline.antt:81]
# RefusesEvents: a statement [execsim/specs/Headline.antt:86]
# LacksMemory: a statement [execsim/specs/Headline.antt:93]
# RunsShort: a statement [execsim/specs/Headline.antt:73]
# document_of: only statements speak of it [taskscript/specs/Tree.antt:12]
# TakesAll: a statement [exectrace/specs/Sink.antt:31]
# end_of: only statements speak of it [execsim/specs/Headline.antt:50]
# Breaks: a statement [exectrace/specs/Sink.antt:37]
# IsMeaning: a statement [taskscript/specs/Says.antt:65]


# ======================================================================================================================
# How this file is run
# ======================================================================================================================

COMBINATORS = [
    'andthen',
    'on_schedule',
    'unless_stopped',
    'on_pending',
    'on_memory',
    'on_timer',
    'unless_by',
    'unless',
    'on_scripts',
]
# Nothing above is changed by this, but that calls are watched for --check, --show and --why.
import argparse
import difflib
import itertools
import os
import pathlib
import re
import sys
import tarfile
import textwrap
import threading
import time
import tomllib
from functools import reduce

LIMIT = 4_194_304

class _Told(Exception):
    """What is said instead of an answer, and the status."""

def _shown(text):
    """A text as a terminal can show it in one line: each character that does not print is written as an escape."""
    return "".join(it if it.isprintable() else repr(it)[1:-1] for it in str(text))

# ---- the texts

def _data_of(value, deep=0):
    """The data of a TOML value, within the limits of the project's reader."""
    if deep > 80 and isinstance(value, (list, dict)) or isinstance(value, int) and not -2**63 <= value < 2**63:
        raise ValueError("a number or a depth is past the limits")
    match value:
        case bool(): return Data.boolean(value)
        case int(): return Data.integer(value)
        case float(): return Data.float_(value)
        case str(): return Data.string(codes(value))
        case list():
            items = [_data_of(it, deep + 1) for it in value]
            return Data.array(reduce(lambda rest, it: Items.item(it, rest), reversed(items), Items.no_items))
        case dict():
            pairs = [(codes(it), _data_of(value[it], deep + 1)) for it in sorted(value, key=str.encode, reverse=True)]
            return Data.table(reduce(lambda rest, it: Members.member(*it, rest), pairs, Members.no_members))
    return Data.datetime(value)

def _float_of(digits):
    """The number that digits are, unless it is too large for one."""
    number = float(digits)
    if abs(number) == float("inf") and "inf" not in digits:
        raise ValueError("a number is too large")
    return number

def _tree_of(text):
    """The tree of the bytes of a machine file, or none, and why there is none."""
    try:
        tree = tomllib.loads(text.removeprefix(b"\xef\xbb\xbf").decode(), parse_float=_float_of)
        return Some(_data_of(tree).a0), ""
    except (ValueError, RecursionError) as why:
        return None, _shown(why)

def _place_of(place):
    """Where a fault of a machine file is."""
    def name(key): return re.sub(r"(?<=[a-z])(?=[A-Z])", "_", type(key).__name__).lower()
    def item(it): return "the top table" if it is TablePlace.Top else f"{name(it.a0)} {it.a1 + 1}"
    match place:
        case Place.Line(it): return f"line {it.line + 1} of the code of {name(it.owner)} {it.item + 1}"
        case Place.Tree(TreePlace.UnknownKey(it)): return f"a key of {item(it)}"
        case Place.Tree(TreePlace.Key(it, key)): return f"key {name(key)} of {item(it)}"
        case Place.Tree(TreePlace.Array(array)): return f"array {name(array)}"
        case Place.Tree(it): return item(it)
    return "the file as a whole"

def _outcome(machine, events):
    """The status of a run, what is printed, the line of a refusal and its place, and all that came of it."""
    tree, why = _tree_of(machine)
    file = placed_file_of_document(tree)
    if isinstance(file, Err):
        said = f"execsim: machine: {type(file.fault.fault).__name__}"
        return 1, b"", said, f"in the machine: {why or _place_of(file.fault.place)}", None
    script = script_of(list(events))
    if isinstance(script, Err):
        numbers = [f" {getattr(script.fault, it)}" for it in script.fault.__slots__]
        return 1, b"", f"execsim: events: {type(script.fault).__name__}{''.join(numbers)}", "", None
    done = run(file.value, script.value)
    return 3 if done.state.stopped else 0, bytes(printed(done.lines)), "", "", (file.value, script.value, done)

def _read(path):
    """The bytes of a file, if it is not too large."""
    try:
        with open(path, "rb") as file:
            text = file.read(LIMIT + 1)
    except OSError:
        text = None
    if text is None or len(text) > LIMIT:
        raise _Told(f"execsim: cannot read {_shown(path)}", 4)
    return text

def _watch(name, before):
    """Has a function called before each call of a definition."""
    inner = globals()[name]

    @wraps(inner)
    def watched(*arguments):
        before(*arguments)
        return inner(*arguments)

    globals()[name] = watched

def _show_progress():
    """Says on a terminal, once a second, how often the machine has settled."""
    counts, last = itertools.count(1), [time.monotonic()]

    def before(*_):
        count, now = next(counts), time.monotonic()
        if now >= last[0] + 1:
            last[0] = now
            print(f"\r{count} steps, ticks and requests", end="", file=sys.stderr, flush=True)

    _watch("settle", before)

def _run_files(machine, events):
    """Prints the trace of a run."""
    if sys.stderr.isatty():
        _show_progress()
    status, trace, *said, _ = _outcome(_read(machine), _read(events))
    try:
        sys.stdout.buffer.write(trace)
        sys.stdout.flush()
    except OSError:
        raise _Told("execsim: write failed", 4) from None
    if said[0]:
        raise _Told("\n".join(filter(None, said)), status)
    return status

# ---- --check

def _stored_runs(project):
    """The runs of the tables, and the recordings of a real exec: (name, machine, events, status, trace, refusal)."""
    sys.path.insert(0, os.path.join(project, "tools", "python"))
    import tables
    data = os.path.join(project, "crates", "runs", "data")
    for it in tables.all_runs(pathlib.Path(data)):
        said = (it.fault or "").strip() if it.status == 1 else ""
        yield f"{it.name} ({it.title})", it.machine.encode(), it.events.encode(), it.status, it.trace.encode(), said
    with tarfile.open(os.path.join(data, "real-exec", "recordings.tar.xz")) as archive:
        texts = {it.name: archive.extractfile(it).read() for it in archive if it.isfile()}
    for path in sorted(texts):
        stem, _, end = path.rpartition(".")
        if end == "trace":
            machine, events = texts[stem + ".toml"], texts[stem + ".events"]
            yield f"recordings/{stem} (a real exec)", machine, events, None, texts[path], ""

def _difference(got, wanted):
    """What differs between an outcome and the stored one: status, trace and refusal."""
    if wanted[0] not in (None, got[0]) or got[2] != wanted[2]:
        return f"status {got[0]} {got[2]}, and stored is {wanted[0]} {wanted[2]}"
    if got[1] == wanted[1]:
        return ""
    at = len(os.path.commonprefix([got[1], wanted[1]]))
    start = got[1].rfind(b"\n", 0, at) + 1
    lines = [it[start:].partition(b"\n")[0].decode(errors="replace") for it in (got[1], wanted[1])]
    return f"byte {at + 1}, in line {got[1].count(10, 0, at) + 1}: {lines[0]!r}, and stored is {lines[1]!r}"

def _check(project, first, seconds, part, only):
    """Runs all that is stored, or each Nth of it, or the runs of some names. Laws are asked of each too, unless the
    first is sought that differs."""
    counts, wrong, begun, (place, parts) = [0, 0], 0, time.monotonic(), map(int, part.split("/"))
    if not first:
        _check_lines()
    runs = [it for it in _stored_runs(project) if it[0].startswith(tuple(only.split()) or "")]
    if first:  # the first ones of each table before others, and long ones last
        runs.sort(key=lambda it: (len(it[1]) + len(it[4]) > 10_000, it[0].partition("/")[2]))
    for name, machine, events, status, trace, said in runs[place::parts]:
        try:
            *got, _, whole = _outcome(machine, events)
            told = _difference(got, (status, trace, said)) or (_broken_law(*whole) if whole and not first else "")
        except Exception as why:
            told = f"{type(why).__name__}: {why}"
        counts[name.startswith("recordings/")] += 1
        wrong += bool(told)
        if told:
            print(f"{_shown(name)}: {_shown(told)}", flush=True)
            if first:
                return 1
        if sys.stderr.isatty():
            print(f"\r{sum(counts)} runs", end="\r", file=sys.stderr, flush=True)
        if seconds and time.process_time() > seconds:
            break
    same = "all the same" if not wrong else f"{wrong} differ"
    print(f"{counts[0]} stored runs, {counts[1]} recordings of a real exec: {same} ({time.monotonic() - begun:.0f} s)")
    return 1 if wrong or not sum(counts) else 0

@cache
def _check_lines():
    """From now on each line that is read has to be in the relation with what it is said to say."""
    inner = line_meaning

    @kept
    def checked(line):
        found = inner(line)
        if found is not None and not Says(fields(line), found.value):
            raise NoCase(f"{bytes(line)} does not say {found.value}")
        return found

    globals()["line_meaning"] = checked

def _broken_law(file, script, done):
    """The law of every run that a run breaks, if it breaks one."""
    memory = done.state.memory
    addresses = {getattr(it, it.__slots__[0]) for it in done.marks} | {it[0] for it in memory.heap}
    for it in addresses if len(done.marks) <= 300 else ():  # (what these compute takes long for many marks)
        if not IsInOrder([], turns_at_port(it, done.marks), messages_of(it, memory.heap)):
            return f"the messages of port {it} are out of order"
        if not IsInOrder([], turns_at_semaphore(it, done.marks), waiters_of(it, memory.heap)):
            return f"the tasks that wait for semaphore {it} are out of order"
    if not CountsTicks(file, script, done.state):
        return "the clock does not count the ticks"
    if not AreDisjoint(memory.regions, extents(memory.heap)):
        return "two blocks meet, or one lies in no region"
    if not done.state.stopped and not IsSettled(done.state):
        return "a task of higher priority is ready, or a request is left"
    return "a line is longer than 160 bytes" if any(len(printed([it])) > 160 for it in done.lines[:1000]) else ""

# ---- --show

@cache
def _texts():
    """Each definition by its name: the number of its line, and its lines with the comment above it."""
    found, source = {}, pathlib.Path(__file__).read_text(encoding="utf-8").split("\n")
    for number, line in enumerate(source[:source.index("# How this file is run")]):
        if head := re.match(r"(?:def|class) (\w+)\(|(\w+) = ", line):
            start, end = number, number + 1
            while source[end].startswith((" ", ")")) or not source[end] and source[end + 1].startswith(" "):
                end += 1
            while source[start - 1].startswith(("#", "@")):
                start -= 1
            found[head[1] or head[2]] = number + 1, source[start:end]
    return found

def _is_action(name):
    """Whether a name is that of a definition that is called: its comment says where the original stands."""
    return re.search(r"(?m)^# .*:\d+\]\n(@|def )", "\n".join(_texts()[name][1])) is not None

def _uses(lines):
    """The definitions that some lines name, in the order in which they do."""
    code = "\n".join(it for it in lines if not it.lstrip().startswith("#"))
    return [it for it in dict.fromkeys(re.findall(r"(?<![.\w'])[A-Za-z_]\w*", code)) if it in _texts()]

def _users(name):
    return [it for it, (_, lines) in _texts().items() if it != name and name in _uses(lines)]

def _rows(name):
    """The rows of tables for a constructor of that name: (the definition that a row is of, its lines)."""
    row = re.compile(rf"( +)(case .*\b[A-Z]\w*\.{re.escape(name)}\b.*|{re.escape(name)}='.*)")
    for owner, (_, lines) in _texts().items():
        for number, line in enumerate(lines):
            if found := row.fullmatch(line):
                start, end = number, number + 1
                while lines[start - 1].startswith(found[1] + "#"):
                    start -= 1
                while end < len(lines) and lines[end].startswith(found[1] + " "):
                    end += 1
                yield owner, lines[start:end]

def _serving(rows):
    """What serves some rows alone: all that uses it is among these, and is reached from there."""
    owners, found, open_ = {it for it, _ in rows}, [], [it for _, lines in rows for it in _uses(lines)]
    for it in open_:  # which grows on the way
        if it not in found and _is_action(it) and set(_users(it)) <= owners | set(found):
            found.append(it)
            open_ += _uses(_texts()[it][1])
    return found

def _show(name, project):
    """A definition, or the rows of one of Exec's words and what serves these alone; what it uses; and a run."""
    rows = list(_rows(name)) if name not in _texts() else []
    if not rows and name not in _texts():
        return _propose(name)
    for owner, lines in rows:
        print(f"# in {owner}, line {_texts()[owner][0]}", *lines, "", sep="\n")
    shown = _serving(rows) if rows else [name]
    for it in shown:
        print(*_texts()[it][1], "", sep="\n")
    texts = [*(lines for _, lines in rows), *(_texts()[it][1] for it in shown)]
    uses = [it for it in _uses([line for lines in texts for line in lines]) if it not in shown]
    print(f"It uses: {', '.join(uses) or 'nothing'}")
    if not rows:
        print(f"It is used by: {', '.join(_users(name)) or 'nothing'}")
    if rows or _is_action(name):
        _show_run(name, project)
    return 0

def _propose(name):
    """Says which names are near to one that is not known, and which definitions speak of it."""
    texts = {it: "\n".join(lines) for it, (_, lines) in _texts().items()}
    rows = re.findall(r"(?m)^    (\w+)='", "\n".join(texts.values()))
    known = {it.lower(): it for it in (*rows, *texts)}
    near = [known[it] for it in difflib.get_close_matches(name.lower(), known, 5, 0.5)]
    speaking = [it for it, text in texts.items() if re.search(rf"(?m)^ *#.*\b{re.escape(name)}\b", text)][:20]
    said = [f"no definition and no word is named {_shown(name)}", f"near it are {', '.join(near)}"][:1 + bool(near)]
    raise _Told("; ".join(said + [f"of it speak {', '.join(speaking)}"] * bool(speaking)), 2)

def _show_run(name, project):
    """Prints a stored run that uses a definition or a word."""
    if not os.path.isdir(os.path.join(project, "crates", "runs", "data")):
        print(f"A run that shows it is looked for in PROJECT/crates/runs/data: {_shown(project)} has none")
        return
    calls, is_called = [], name in _texts()
    if is_called:
        _watch(name, lambda *_: calls.append(1))
    for title, machine, events, status, *_ in _stored_runs(project):
        if is_called:
            _outcome(machine, events)
        if calls or not is_called and status == 0 and re.search(rb"\b%b\b" % name.encode(), machine):
            texts = ["\n".join(map(_shown, it.decode(errors="replace").split("\n"))) for it in (machine, events)]
            print(f"A run that uses it: {_shown(title)}\n", *texts, sep="\n")
            return
    print("No stored run uses it.")

# ---- --why

class _Call:
    """A call of a definition: what it gave, and the calls that it made that have ended, the last one of each name."""

    def __init__(self, name):
        self.name, self.value, self.asked = name, None, {}

class _Made(Exception):
    """The line that is asked for was made."""

def _calls_for(number, file, script):
    """The calls that are at work as a line of the trace is made, outermost first."""
    stack, left = [_Call("")], [number]
    actions = {it for it in _texts() if _is_action(it)}

    def profile(frame, event, value):
        name = frame.f_code.co_name
        if event not in ("call", "return") or name not in actions or frame.f_globals is not globals():
            return
        if event == "call":
            stack.append(_Call(name))
            left[0] -= name == "prints_line"
            if not left[0]:
                sys.setprofile(None)
                raise _Made
        else:
            ended = stack.pop()
            ended.value = value
            stack[-1].asked.pop(name, None)
            stack[-1].asked[name] = ended

    sys.setprofile(profile)
    try:
        run(file, script)
    except _Made:
        return stack[1:]

def _why(number, machine, events):
    """A line of the trace, and the definitions that made it, outermost first, each once: those that are at work as it
    is made, and beneath each those that it asked, as far as they decide and make no state."""
    status, _, *said, whole = _outcome(_read(machine), _read(events))
    if said[0]:
        raise _Told("\n".join(filter(None, said)), status)
    file, script, done = whole
    if not 1 <= number <= len(done.lines):
        raise _Told(f"line {number} is asked for, and the trace has {len(done.lines)} lines", 2)
    print(bytes(printed(done.lines[number - 1:number])).decode(errors="replace"), end="")
    state, shown = done.state, set(COMBINATORS)
    states = {type(it) for it in (done, state, state.schedule, state.memory, state.scripts, state.pending)}

    def show(call, deep):
        if call.name not in shown:
            shown.add(call.name)
            said = " ".join(it[2:] for it in _texts()[call.name][1] if it.startswith("# "))
            head = f"{'  ' * deep}{call.name}  ".ljust(34)
            said = said.partition(f"{call.name} : ")[0] or "(no comment)"
            print(textwrap.fill(said, 120, initial_indent=head, subsequent_indent=" " * 34))
        for it in call.asked.values() if deep < 3 else ():
            if type(it.value) not in states:
                show(it, deep + 1)

    for it in _calls_for(number, file, script):
        show(it, 1)
    return 0

# ---- the command line

class _Parser(argparse.ArgumentParser):
    """A parser that shows the words that it refuses as a terminal can show them."""

    def error(self, message):
        super().error(_shown(message))

def _words():
    """What the command line asks for."""
    usage = "definitions.py [--why N] MACHINE EVENTS | --show NAME [PROJECT] | --check PROJECT"
    parser = _Parser("definitions.py", usage)
    parser.add_argument("texts", nargs="*", help="MACHINE EVENTS: the trace of a run, as execsim prints it")
    parser.add_argument("--why", type=int, metavar="N", help="line N of the trace, and what made and decided it")
    parser.add_argument("--show", metavar="NAME", help="a definition, or what is done for a word as DoIO; and a run")
    parser.add_argument("--check", metavar="PROJECT", help="all stored runs of the project, and those of a real exec")
    parser.add_argument("--first", action="store_true", help="end at the first that differs, and ask no laws")
    parser.add_argument("--seconds", type=int, default=0, help="end after so many seconds of the processor")
    parser.add_argument("--part", default="0/1", help="K/N: each Nth run from K on")
    parser.add_argument("--only", default="", help="the runs whose names begin so")
    given = parser.parse_args()
    place, _, parts = given.part.partition("/")
    if not (place.isdecimal() and parts.isdecimal() and int(place) < int(parts)):
        parser.error(f"--part {given.part}: K/N is wanted, with K from 0 and below N")
    if len(given.texts) not in ((0, 1) if given.show else (0,) if given.check else (2,)):
        parser.error(f"{len(given.texts)} files are named")
    return given

def _main():
    """Does what the command line asks for."""
    given = _words()
    if given.check:
        if not os.path.isdir(os.path.join(given.check, "crates", "runs", "data")):
            raise _Told(f"execsim: {_shown(given.check)} has no folder crates/runs/data", 4)
        return _check(given.check, given.first, given.seconds, given.part, given.only)
    if given.show:
        return _show(given.show, *(given.texts or [os.path.dirname(os.path.dirname(os.path.abspath(__file__)))]))
    return _run_files(*given.texts) if given.why is None else _why(given.why, *given.texts)

def _begin():
    """Runs in a thread whose calls may go deep. Ctrl-C ends it, and a pipe that is closed at its other end."""
    ended = [4]

    def inside():
        try:
            ended[0] = _main()
            sys.stdout.flush()
        except SystemExit as why:
            ended[0] = why.code
        except _Told as why:
            ended[0] = why.args[1]
            print(why.args[0], file=sys.stderr)
        except BrokenPipeError:
            pass
        except OSError:
            print("execsim: write failed", file=sys.stderr)
        except (MemoryError, RecursionError):
            print("execsim: no memory", file=sys.stderr)

    sys.setrecursionlimit(10_000_000)
    threading.stack_size(1 << 29)
    thread = threading.Thread(target=inside, daemon=True)
    thread.start()
    try:
        while thread.is_alive():
            thread.join(0.5)
    except KeyboardInterrupt:
        print("execsim: ended before the run did", file=sys.stderr)
        os._exit(130)
    os._exit(ended[0])

if __name__ == "__main__":
    _begin()
