"""Runs of what the recordings of a real exec left out: for each kind of it some random machines, by a fixed seed."""
import random
import json

COUNT = 20  # runs of each kind
TAKEN = ["n = Set 31", "l:", "AllocSignal n", "n = Sub n 1", "k = Sub n 16", "JumpNZ k l"]  # all signals but 16, so that a port has that one


def table(kind, **keys):
    """A table of a machine file."""
    return f"[[{kind}]]\n" + "".join(f"{key} = {json.dumps(value)}\n" for key, value in keys.items())


def machine(*tables):
    return table("region", base=4096, size=4096) + "".join(tables)


def task(name, pri, *code):
    return table("task", name=name, pri=pri, code=list(code))


def server(name, source, pri, claim, *code):
    return table("server", name=name, source=source, pri=pri, claim=claim, code=list(code))


def events(*lines):
    return "".join(f"{line}\n" for line in lines)


def claims(choose):
    """Servers of which any may claim."""
    source = choose.choice(["PORTS", "EXTER"])
    count = choose.randint(2, 4)
    servers = [server(f"s{n}", source, choose.randint(-5, 5), choose.random() < 0.5, f"Print {n}") for n in range(count)]
    return machine(*servers, task("a", 0, "Wait $1000")), events("run 1", *[f"irq {source}"] * choose.randint(1, 3), "run 1")


def stray_signals(choose):
    """A signal without a message at a WaitPort."""
    sends = ["Signal 1 $10000"] * choose.randint(1, 3) + ["PutMsg @p m"]
    choose.shuffle(sends)
    first = task("a", 1, *TAKEN, "@p = CreateMsgPort", "WaitPort @p", "GetMsg @p", "WaitPort @p")
    return machine(first, task("b", 0, f"m = NewMsg 0 {choose.randint(1, 9)}", *sends)), events("run 150")


def removed_waiters(choose):
    """A task that waits for a semaphore is removed."""
    count = choose.randint(2, 4)
    gone = choose.randint(2, count + 1)
    owner = task("a", 5, "@s = NewSem", "ObtainSemaphore @s", "Wait $1000", f"RemTask {gone}", "ReleaseSemaphore @s", "Print 1")
    waiters = [task(f"w{n}", 4 - n, "ObtainSemaphore @s", f"Print {n}", "ReleaseSemaphore @s") for n in range(count)]
    return machine(owner, *waiters, task("z", -5, "Signal 1 $1000")), events(f"run {choose.randint(20, 40)}")


def full_ports(choose):
    """A port with messages is made public."""
    count = choose.randint(1, 4)
    puts = [line for n in range(count) for line in (f"m = NewMsg 0 {n}", "PutMsg p m")]
    pris = choose.randint(-9, 9)
    return machine(task("a", 0, "p = CreateMsgPort", *puts, f'AddPort p "x" {pris}', 'FindPort "x"', *["GetMsg p"] * (count + 1))), events("run 30")


def foreign_deletes(choose):
    """A port is deleted by another task than its own, which may wait there."""
    waits = choose.choice(["Wait $1000", "WaitPort @p"])
    other = choose.randint(-3, -1)
    deletes = task("b", other, "DeleteMsgPort @p", "AvailMem 1", "AllocSignal 16", "Signal 1 $1000")
    return machine(task("a", 0, *TAKEN, "@p = CreateMsgPort", waits, "AllocSignal 16"), deletes), events("run 150")


def far_priorities(choose):
    """Priorities below -120 and above 120."""
    def far():
        return choose.choice([choose.randint(-128, -121), choose.randint(121, 127)])

    tasks = [task(f"t{n}", far(), f"Print {n}", f"SetTaskPri {choose.randint(1, 3)} {far()}", f"Print 1{n}") for n in range(3)]
    return machine(*tasks), events(f"run {choose.randint(5, 20)}", "tick 5", "run 10")


def disabled_requests(choose):
    """Requests while the running task holds Disable."""
    servers = [server("p", "PORTS", 0, False, "Print 1"), server("v", "VERTB", 0, False, "Signal 2 $1000"), server("e", "EXTER", 0, False, "Print 3")]
    asked = choose.choices(["irq PORTS", "irq EXTER", "tick 1"], k=choose.randint(1, 5))
    tasks = task("a", 0, "Disable", "Print 1", "Print 2", "Enable", "Print 3"), task("b", 1, "Wait $1000", "Print 4")
    return machine(*servers, *tasks), events(f"run {choose.randint(2, 4)}", *asked, "run 20")


def retried_waits(choose):
    """Requests while the running task has a waiting call to try again."""
    waker = server("p", "PORTS", 0, False, "Signal 1 $1000")
    more = choose.choices(["irq PORTS", "irq EXTER", "tick 1"], k=choose.randint(1, 4))
    tasks = task("a", 0, "Wait $1000", "Wait $1000", "Print 1"), task("b", choose.randint(-1, 0), "Print 2", "Print 3")
    return machine(waker, *tasks), events("run 2", "irq PORTS", *more, f"run {choose.randint(1, 9)}")


def queued_interrupts(choose):
    """Requests, switches and idling while a software interrupt is queued."""
    soft = table("softint", name="s", pri=choose.choice([-32, 0, 32]), code=["Signal 1 $1000", "Print 9"])
    cause = server("p", "PORTS", 0, False, 'Cause "s"', f"Signal {choose.randint(1, 2)} $2000")
    more = choose.choices(["irq PORTS", "irq EXTER", "tick 1", "run 1"], k=choose.randint(1, 4))
    tasks = task("a", 1, "Wait $3000", "Print 1", "Wait $1000"), task("b", 0, "Print 2", "Wait $2000", "Print 3")
    return machine(soft, cause, *tasks), events(f"run {choose.randint(2, 4)}", "irq PORTS", *more, "run 9")


KINDS = {
    "a claim by any server of a chain": claims,
    "a signal without a message at a WaitPort": stray_signals,
    "RemTask of a task that waits for a semaphore": removed_waiters,
    "AddPort of a port that has messages": full_ports,
    "DeleteMsgPort by another task than the port's": foreign_deletes,
    "priorities below -120 and above 120": far_priorities,
    "a request while the running task holds Disable": disabled_requests,
    "a request while a waiting call is to be tried again": retried_waits,
    "a request, a switch or idling while a software interrupt is queued": queued_interrupts,
}


def runs():
    """Each run: its name, which is that of its kind with a number, its kind, and its two texts."""
    for kind, make in KINDS.items():
        for number in range(COUNT):
            choose = random.Random(f"{make.__name__} {number}")
            yield f"{make.__name__.replace('_', '-')}/{number:02}", kind, *make(choose)
