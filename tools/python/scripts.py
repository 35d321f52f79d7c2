"""Random lines of a body: words with arguments of the right meanings, over variables that hold objects."""
import addresses

NAMES = ("one", "two", "three")
LIBRARIES = ("draw.library", "math.library", "icon.library")
MAKERS = {
    "list": "NewList", "node": "NewNode", "port": "CreateMsgPort", "message": "NewMsg", "semaphore": "NewSem", "library": "OpenLibrary",
    "request": "CreateIORequest", "block": "AllocMem",
}
# The first letters of the variables that hold objects of a kind.
LETTERS = {"list": "l", "node": "n", "port": "p", "message": "m", "semaphore": "s", "library": "b", "request": "r", "block": "a"}
MASKS = ("$1000", "$2000", "$4000", "$8000", "$3000", "$F000", "$10000", "$80000000", "$C0001000")
REQUIREMENTS = ("0", "1", "2", "3", "4", "5", "$10001", "$20000", "$80000", "$20001")


class Body:
    """The lines of a body while they are made. A task's variables are its own or shared, an interrupt's are shared."""

    def __init__(self, world, tasks, words, name, is_interrupt):
        self.world, self.tasks, self.words, self.name, self.is_interrupt = world, tasks, words, name, is_interrupt
        self.lines, self.own, self.labels = [], {}, 0

    def variable(self, kind):
        """A new variable for an object, or one that there is."""
        letter = LETTERS[kind]
        if self.is_interrupt or self.world.chance(0.3):
            return "@" + letter + str(self.world.below(2))
        return letter + str(self.world.below(3))

    def holders(self, kind):
        """The variables that may hold an object of a kind."""
        found = list(self.world.shared.get(kind, ())) + ([] if self.is_interrupt else list(self.own.get(kind, ())))
        return sorted(found)

    def note(self, variable, kind):
        """Notes that a variable may hold an object of a kind."""
        holders = self.world.shared if variable.startswith("@") else self.own
        holders.setdefault(kind, set()).add(variable)

    def object(self, meaning):
        """An argument that is an object of one of the kinds of a meaning. One is made before if there is none."""
        kind = self.world.choice([one for one in meaning.split("/")])
        if self.world.chance(0.02):
            return self.world.choice(["0", "4096", "$1004", "$1028", "@" + LETTERS[self.world.choice(sorted(LETTERS))] + "0"])
        if not self.holders(kind) and not self.is_interrupt:
            self.make(kind)
        found = self.holders(kind)
        return self.world.choice(found) if found else "@" + LETTERS[kind] + "0"

    def make(self, kind):
        """A line that makes an object of a kind."""
        variable = self.variable(kind)
        self.call(MAKERS[kind], variable)
        self.note(variable, kind)

    def name_for(self, word):
        """A name as an argument of a word, between double quotes."""
        if word == "OpenDevice":
            return '"timer.device"' if self.world.chance(0.95) else '"none.device"'
        if word == "OpenLibrary":
            return f'"{self.world.choice(LIBRARIES)}"'
        return f'"{self.world.choice(self.tasks if word == "FindTask" else NAMES)}"'

    def number(self, meaning):
        """A number of a meaning, mostly one that is allowed."""
        world = self.world
        pick = {
            "mask": lambda: world.choice(MASKS) if world.chance(0.97) else "$1",
            "task": lambda: str(1 + world.below(len(self.tasks) + (1 if world.chance(0.03) else 0))),
            "signal": lambda: "-1" if world.chance(0.6) else str(16 + world.below(16)),
            "priority": lambda: str(world.below(11) - 5) if world.chance(0.97) else "128",
            "size": lambda: str(8 + world.below(120)),
            "requirements": lambda: world.choice(REQUIREMENTS),
            "version": lambda: world.choice(["0", "36", "37", "40"]),
            "unit": lambda: world.choice(["0", "1", "3", "3", "2"]),
            "command": lambda: world.choice(["9", "9", "9", "10", "11", "2"]),
            "seconds": lambda: "0" if world.chance(0.9) else "1",
            "microseconds": lambda: str(world.below(6) * 15000),
        }
        return pick.get(meaning, lambda: str(world.below(100)))()

    def argument(self, word, one):
        """An argument of a word."""
        if one["kind"] == "softint":
            return f'"{self.world.choice(self.world.softints)}"'
        if one["kind"] in ("name", "name-or-none"):
            return "0" if one["kind"] == "name-or-none" and self.world.chance(0.3) else self.name_for(word)
        if one["is"] in addresses.OBJECTS:
            return "0" if "or 0" in one["text"] and self.world.chance(0.2) else self.object(one["is"])
        if one["is"] == "any" and self.world.chance(0.4):
            return "@x" if self.is_interrupt else self.world.choice(["x", "@x", "y"])
        return self.number(one["is"])

    def call(self, name, target=None):
        """A line with a word, its arguments and a target, which holds its answer."""
        word = self.words[name]
        if name in ("AllocMem", "FreeMem"):
            self.lines.append(self.memory_line(name, target))
            return
        arguments = [self.argument(name, one) for one in word["arguments"] if one["kind"] != "label"]
        answer = word["answer"]
        if answer and target is None and self.world.chance(0.7):
            kinds = [kind for kind in answer["is"].split("/") if kind in LETTERS]
            target = self.variable(kinds[0]) if kinds else ("@x" if self.is_interrupt else self.world.choice(["x", "y", "@x"]))
            if kinds:
                self.note(target, kinds[0])
        self.lines.append(" ".join([f"{target} =" if target and answer else "", name, *arguments]).strip())

    def memory_line(self, name, target):
        """AllocMem and FreeMem of one size for each variable, so that most blocks can be freed."""
        if name == "FreeMem" and self.holders("block"):
            variable = self.world.choice(self.holders("block"))
            return f"FreeMem {variable} {8 * (1 + int(variable[-1]))}"
        variable = target or self.variable("block")
        self.note(variable, "block")
        return f"{variable} = AllocMem {8 * (1 + int(variable[-1]))} {self.world.choice(['0', '1', '1', '$10001'])}"

    def label(self):
        self.labels += 1
        return f"l{self.labels}"


def paired(body, first, last, inner):
    """A word, some lines, and the word that takes it back."""
    body.lines.append(first)
    for name in inner:
        body.call(name)
    body.lines.append(last)


def take_message(body):
    """Waits for a message, takes it and replies it, if there is one."""
    port, skip = body.object("port"), body.label()
    body.lines += [f"WaitPort {port}", f"m = GetMsg {port}", f"JumpZ m {skip}", "x = MsgWord m", "ReplyMsg m", f"{skip}:"]


def send_message(body):
    """Makes a message with a reply port, and puts it to a public port, if there is one."""
    reply, skip = body.object("port"), body.label()
    found = f'q = FindPort "{body.world.choice(NAMES)}"'
    body.lines += [f"w = NewMsg {reply} {body.world.below(50)}", found, f"JumpZ q {skip}", "PutMsg q w", f"{skip}:"]


def repeat(body, inner):
    """Some lines, two or three times."""
    again = body.label()
    body.lines += [f"i = Set {2 + body.world.below(2)}", f"{again}:"]
    for name in inner:
        body.call(name)
    body.lines += ["i = Sub i 1", f"JumpNZ i {again}"]


def use_timer(body):
    """Makes a request, opens it, and begins it in one of several ways."""
    body.make("port")
    port = body.lines[-1].split(" ")[0]
    micros = body.number("microseconds")
    body.lines += [f"r = CreateIORequest {port}", f'OpenDevice "timer.device" {body.world.choice(["0", "1", "3"])} r']
    body.lines += [f"SetIO r {body.number('command')} 0 {micros}", body.world.choice(["DoIO r", "SendIO r", "SendIO r"])]
    body.note("r", "request")
    for name in body.world.some(["WaitIO", "CheckIO", "AbortIO", "IOError", "IOSecs", "IOFlags", "DoIO"], 3):
        body.lines.append(f"{name} r")


def use_memory(body):
    """Takes a block, looks what is free, and frees the block."""
    size, skip = 8 * (1 + body.world.below(12)), body.label()
    body.lines += [f"v = AllocMem {size} {body.world.choice(['0', '1', '$10000'])}", f"AvailMem {body.world.choice(REQUIREMENTS)}"]
    body.lines += [f"JumpZ v {skip}", f"FreeMem v {size}", f"{skip}:"]


def use_list(body):
    """Fills a list with two nodes, and walks over it or takes from it."""
    put = [body.world.choice(["AddHead", "AddTail", "Enqueue"]) for _ in range(2)]
    body.lines += ["l = NewList", f"f = NewNode {body.number('priority')} {body.name_for('NewNode')}"]
    body.lines += [f"g = NewNode {body.number('priority')} 0", f"{put[0]} l f", f"{put[1]} l g"]
    looks = ["Succ f", "Pred g", "First l", "Last l", "Pred f", "Succ g", f"FindName l {body.name_for('FindName')}"]
    body.lines += body.world.some(looks, 4)
    body.lines += body.world.choice([["RemHead l", "RemTail l", "FreeList l"], ["Remove f", "Insert l f g"], ["RemTail l"]])


def use_library(body):
    """Opens a library, and closes or removes it if it was opened."""
    skip = body.label()
    body.lines += [f'b = OpenLibrary "{body.world.choice(LIBRARIES)}" {body.number("version")}', f"JumpZ b {skip}", "LibOpenCnt b"]
    body.lines += [*body.world.some(["RemLibrary b"], 1), "CloseLibrary b", f"{skip}:"]


def publish(body):
    """Makes a port public for a while."""
    port = body.object("port")
    body.lines += [f'AddPort {port} "{body.world.choice(NAMES)}" {body.number("priority")}']
    body.lines += body.world.some([f"RemPort {port}"], 1)


# The idioms, each with the words that it needs; an idiom is used if all of them may be.
IDIOMS = (
    ("Forbid Permit", lambda body, some: paired(body, "Forbid", "Permit", some)),
    ("Disable Enable", lambda body, some: paired(body, "Disable", "Enable", some)),
    ("ObtainSemaphore ReleaseSemaphore", lambda body, some: obtain(body, some)),
    ("WaitPort GetMsg MsgWord ReplyMsg", lambda body, some: take_message(body)),
    ("NewMsg FindPort PutMsg", lambda body, some: send_message(body)),
    ("CreateIORequest OpenDevice SetIO DoIO SendIO WaitIO CheckIO AbortIO IOError IOSecs IOFlags", lambda body, some: use_timer(body)),
    ("AllocMem AvailMem FreeMem", lambda body, some: use_memory(body)),
    (
        "NewList NewNode AddHead AddTail Enqueue Insert Remove RemHead RemTail First Last Succ Pred FindName FreeList",
        lambda body, some: use_list(body),
    ),
    ("OpenLibrary LibOpenCnt RemLibrary CloseLibrary", lambda body, some: use_library(body)),
    ("CreateMsgPort AddPort RemPort", lambda body, some: publish(body)),
    ("Sub JumpNZ", lambda body, some: repeat(body, some)),
)


def obtain(body, some):
    """Obtains a semaphore, does some things, and releases it."""
    semaphore = body.object("semaphore")
    paired(body, f"ObtainSemaphore {semaphore}", f"ReleaseSemaphore {semaphore}", some)


def fill_task(body, allowed, length):
    """Fills the body of a task with about that number of lines."""
    rare = [] if body.world.chance(0.15) else ["RemTask"]
    plain = [name for name in allowed if name not in ("Jump", "JumpZ", "JumpNZ", *rare)]
    idioms = [idiom for words, idiom in IDIOMS if set(words.split()) <= set(allowed)]
    while len(body.lines) < length:
        if idioms and body.world.chance(0.3):
            body.world.choice(idioms)(body, body.world.some(plain, 2))
        elif plain:
            body.call(body.world.choice(plain))
        else:
            body.lines.append("Print 1")


def fill_interrupt(body, allowed, length):
    """Fills the body of a server or a software interrupt."""
    words = [name for name in allowed if body.words[name]["in_interrupts"]] or ["Print"]
    for _ in range(length):
        body.call(body.world.choice(words))
