"""Random machine files and event texts, made from what the pages of reference say (docs/WORDS.md, docs/MACHINE-FILE.md) and nothing else, and two texts cut
down to what still shows a difference."""
import pathlib
import random
import re

DOCS = pathlib.Path(__file__).resolve().parents[2] / "docs"
NUMBERS = ("0", "1", "2", "7", "8", "16", "31", "255", "-1", "-128", "127", "128", "4095", "$10000", "$7FFFFFFF", "$80000000", "$FFFFFFFF", "-2147483648")
MASKS = ("$1000", "$2000", "$4000", "$8000", "$10000", "$F000", "$80000000", "$F0000000", "$C0001000", "0", "$800", "1")
# What a kind of argument is, as the tables of words call it: numbers that fit, and the kind of object whose variable does.
KINDS = {
    "value": NUMBERS, "word": NUMBERS, "new": MASKS, "mask": MASKS, "signal, or -1": ("-1", "-1", "16", "17", "20", "31", "15", "32"),
    "priority": ("0", "1", "-1", "5", "-128", "127", "128", "-129"), "size": ("8", "16", "40", "100", "256", "1000", "0", "$100000"),
    "requirements": ("0", "1", "1", "1", "1", "2", "5", "$10001", "$10001", "$20001", "8"), "version": ("0", "1", "39", "40"),
    "unit": ("0", "1", "3", "2"), "command": ("9", "9", "10", "11", "11", "0", "8", "65535", "65536"), "seconds": ("0", "0", "1", "2", "4294967295"),
    "microseconds": ("0", "20000", "40000", "100000", "999999", "4000000"), "task": ("1", "2", "3", "4", "9", "0"), "task, or 0 for the caller": ("0", "1", "2", "3"),
    "predecessor or 0": ("0", "node"), "list or node": ("list", "node"), "port or 0": ("port", "port", "0"), "reply port or 0 for none": ("port", "port", "0"),
    "reply port, or 0": ("port", "port", "port", "0"), "request or 0": ("request", "0"), "base or 0": ("base", "base", "0"),
}
MAKERS = {"NewList": "list", "NewNode": "node", "CreateMsgPort": "port", "NewMsg": "message", "NewSem": "semaphore", "CreateIORequest": "request",
          "OpenLibrary": "base", "AllocMem": "address", "GetMsg": "message", "FindPort": "port"}
# What a task does that has some sense: rows of lines with {kind} for a number, a mask, a task and so on. Of a row that begins with | or asks for an x
# there are some, in any order, and of another all.
SENSE = (
    ("| Signal {task} {mask} | x = SetSignal 0 0 | x = SetSignal 0 {mask} | x = SetSignal 0 0 | x = SetSignal {mask} {mask} | x = Wait {mask} | s = AllocSignal -1 | SetTaskPri {task} {pri} | Print x",),
    ("n = NewNode {pri} {name} | o = NewNode {pri} {name} | q = NewNode {pri} {name}", "{link} @list n | {link} @list o | {link} @list q",
     "x = First @list | x = Last @list | x = Succ n | x = Pred n | x = FindName @list {name}", "x = RemHead @list | x = RemTail @list | x = RemHead @list | Remove n"),
    ("a = AllocMem {size} {attrs} | b = AllocMem 40 1 | c = AllocMem {size} 1", "x = AvailMem {most} | x = AvailMem 1",
     "FreeMem b 40 | x = AllocMem {size} {attrs} | x = AvailMem $20001"),
    ("p = CreateMsgPort | m = NewMsg p {number} | o = NewMsg p {number} | r = NewMsg 0 7", "PutMsg {port} m | PutMsg {port} o | PutMsg {port} r",
     "x = GetMsg {port} | x = MsgType m | x = WaitPort p",
     "x = GetMsg {port} | x = GetMsg p | x = MsgWord o"),
    ("p = CreateMsgPort", "m = NewMsg p {number}", "ReplyMsg m", "x = GetMsg p | x = MsgType m | AddPort p {name} {pri}", "x = FindPort {name}"),
    ("ObtainSemaphore @semaphore", "x = Wait $F000", "ReleaseSemaphore @semaphore"),
    ("ObtainSemaphore @semaphore", "| Print 1 | Print 2 | Signal {task} {mask} | ObtainSemaphore @semaphore | x = Wait $1000", "ReleaseSemaphore @semaphore"),
    ("p = CreateMsgPort", "q = CreateIORequest p", 'x = OpenDevice "timer.device" {unit} q', "SetIO q {timer} {secs} {micros}", "x = DoIO q | SendIO q | SendIO q",
     "x = CheckIO q | x = AbortIO q | x = WaitIO q | x = IOError q | x = IOSecs q | x = IOFlags q | x = IOMicros q | x = GetMsg p"),
    ("b = OpenLibrary {library} 39", "x = LibOpenCnt b | RemLibrary b | a = AllocMem 200 1", "CloseLibrary b", "x = OpenLibrary {library} {number}"),
    ("Forbid", "| Signal {task} {mask} | Print 3", "Disable", "| Print 4 | Cause {softint} | Signal {task} {mask}", "Enable", "Print 5", "Permit"),
    ("x = FindTask {name} | x = AddTask {task} | SetTaskPri {task} {pri} | Print x",),
    ("x = Set {number}", "x = Add x {number} | x = Sub x 3 | x = And x 7 | x = Or x 8", "Print x"),
)
CHOICES = {
    "task": ("1", "2", "3", "2", "1"), "mask": MASKS[:6], "pri": ("0", "0", "1", "-1", "5"), "name": ('"alpha"', '"b"', '"c"'), "library": ('"alpha"', '"beta"'), "size": ("8", "16", "40", "100", "64"),
    "attrs": ("1", "1", "1", "3", "$10001"), "most": ("1", "$20001", "$80001", "0"), "number": ("0", "1", "7", "39", "$FFFFFFFF"), "port": ("@port", "p"), "unit": ("0", "1", "3"),
    "timer": ("9", "9", "9", "10", "11", "0"), "secs": ("0", "0", "1"), "micros": ("0", "20000", "40000", "100000"), "link": ("AddHead", "AddTail", "Enqueue", "AddTail"),
}
INTERRUPTS = ("Signal {task} {mask}", "Signal {task} {mask}", "@x = Add @x 1", "Print @x", "@y = Set {number}")
SHARED = ("@list = NewList", "@port = CreateMsgPort", "@semaphore = NewSem", "@message = NewMsg 0 5", "@request = CreateIORequest @port", "@address = AllocMem 16 1")
NAMES = ("alpha", "beta", "gamma", "A.b-c_d", "x")
ENDS = {"Wait", "ObtainSemaphore", "WaitPort", "WaitIO", "DoIO", "RemTask", "Forbid", "Disable"}


def read_words():
    """Each word of the reference, with the kinds of its arguments and whether it answers; and those that bodies of interrupts may have."""
    text, bodies = ((DOCS / it).read_text(encoding="utf-8") for it in ("WORDS.md", "MACHINE-FILE.md"))
    tables = "".join(re.findall(r"<!-- made by tools/make-pages: (?:plain words|calls) -->(.*?)<!-- end of", text, re.S))
    rows = re.findall(r"^\| `(\w+)` \| ([^|]*)\| ([^|]*)\|", tables, re.M)
    words = {word: ([it for it in re.split(r", (?!or )", kinds.strip()) if it], bool(answers.strip())) for word, kinds, answers in rows}
    return words, re.findall(r"`(\w+)`", re.search(r"- its words are (.*?);", bodies, re.S)[1])


class Texts:
    """The two texts of a machine, by a seed."""

    def __init__(self, seed):
        self.random = random.Random(seed)
        self.words, self.few = read_words()
        self.softints = [f"s{it}" for it in range(self.random.choice((0, 1, 1, 2, 3)))]
        self.has_sense, self.theme = self.random.random() < 0.75, self.pick(SENSE)
        self.machine, self.events = self.machine_text(), self.events_text()
        if self.random.random() < 0.15:
            for _ in range(self.random.choice((1, 1, 2))):
                self.spoil()

    def pick(self, items):
        return self.random.choice(items)

    def variable(self, kind, is_shared):
        return f"@{kind}" if is_shared or self.random.random() < 0.5 else kind

    def argument(self, kind, is_shared, labels):
        if kind == "label":
            return self.pick(labels or ("none",))
        if kind == "name of a software interrupt":
            return f'"{self.pick(self.softints or ["none"])}"'
        if kind in ("name", "name or 0"):
            return '"timer.device"' if kind == "device" else "0" if kind[-1] == "0" and self.random.random() < 0.3 else f'"{self.pick(NAMES)}"'
        if self.random.random() < 0.02:
            return self.pick(NUMBERS)
        found = self.pick(KINDS.get(kind, (kind,)))
        return self.variable(found, is_shared) if found[0].isalpha() else found

    def command(self, word, is_shared, labels):
        kinds, answers = self.words[word]
        shown = [self.argument(it, is_shared, labels) for it in kinds]
        if word == "OpenDevice" and self.random.random() < 0.9:
            shown[0] = '"timer.device"'
        if word == "FreeMem" and self.random.random() < 0.7:
            shown[1] = "16"
        target = self.variable(MAKERS.get(word, self.pick(("value", "value", "node", "mask"))), is_shared) + " = "
        return (target if answers and (word in MAKERS or self.random.random() < 0.6) else "") + " ".join([word, *shown])

    def sense(self):
        """Some lines that belong together."""
        lines = []
        found = self.theme if self.random.random() < 0.6 else self.pick(SENSE)
        for row in found:
            ways = [it.strip() for it in row.split("|") if it.strip()]
            is_free = row.startswith("|") or "x = " in row  # some of them, in any order; else all of them
            if is_free or "@list" in row:
                self.random.shuffle(ways)
            ways = ways[:self.random.randrange(1, len(ways) + 1)] if is_free else ways
            lines += self.filled(ways)
        return lines

    def filled(self, lines):
        softint = f'"{self.pick(self.softints)}"' if self.softints else ""
        return [re.sub(r"\{(\w+)\}", lambda it: softint if it[1] == "softint" else self.pick(CHOICES[it[1]]), it) for it in lines if softint or "{softint}" not in it]

    def sensible(self, is_first):
        """The lines of a task that does things that belong together, with little else among them."""
        lines = [it for it in SHARED if self.random.random() < 0.97] if is_first else []
        for _ in range(self.pick((1, 2, 3, 4))):
            lines += self.sense()
        for _ in range(self.pick((0, 0, 0, 1, 2))):
            word = self.pick([it for it, (kinds, _) in self.words.items() if "label" not in kinds and "name of a software interrupt" not in kinds])
            lines.insert(self.random.randrange(len(lines) + 1), self.command(word, False, []))
        return lines

    def body(self, is_shared):
        """The lines of a body: what makes objects first, then words at random, with labels among them for a task."""
        words = self.few if is_shared else list(self.words)
        lines, labels = [], [] if is_shared else [f"l{it}" for it in range(self.pick((0, 1, 2)))]
        lacking = ({"label"} if not labels else set()) | ({"name of a software interrupt"} if not self.softints else set())
        words = [it for it in words if not lacking & {*self.words[it][0]} or self.random.random() < 0.02]
        favourites = [self.pick(words) for _ in range(8)]
        if not is_shared:
            lines = [self.command(it, False, labels) for it in MAKERS if it not in ("GetMsg", "FindPort") and self.random.random() < 0.7]
            self.random.shuffle(lines)
            lines += ["@port = CreateMsgPort", "@request = CreateIORequest @port", 'OpenDevice "timer.device" 0 @request'] * (self.random.random() < 0.3)
        for _ in range(self.pick((0, 1, 2, 4)) if is_shared else self.pick((1, 5, 10, 20))):
            word = self.pick(favourites) if self.random.random() < 0.7 else self.pick(words)
            lines += [self.command(word, is_shared, labels)]
        for it in labels:
            lines.insert(self.random.randrange(len(lines) + 1), f"{it}:")
        return lines

    def table(self, kind, keys):
        return f"[[{kind}]]\n" + "".join(f"{key} = {value}\n" for key, value in keys)

    def code(self, is_shared, is_first=False):
        if self.has_sense and self.random.random() < 0.95:
            lines = self.filled(self.random.sample(INTERRUPTS, self.pick((1, 2, 3)))) if is_shared else self.sensible(is_first)
        else:
            lines = self.body(is_shared)
        return "[" + ", ".join(f"'{it}'" for it in lines) + "]"

    def machine_text(self):
        version = self.pick((1, 2))
        found = f"version = {version}\nquantum = {self.pick((1, 2, 4, 255))}\npool = {self.pick((3, 64, 64, 1024) if self.has_sense else (1, 2, 64))}\ntick_micros = {self.pick((1, 20000, 1000000))}\n"
        base = 4096
        for _ in range(self.pick((1, 1, 2, 3)) if self.has_sense else self.pick((0, 1, 2))):
            size = self.pick((512, 4096, 4096, 65536)) if self.has_sense else self.pick((64, 128, 256, 4096))
            found += self.table("region", (("base", base), ("size", size), ("attrs", self.pick((1, 1, 3, 5, 7) if self.has_sense else (1, 3, 5, 0))), ("pri", self.pick((0, 0, 5, -5)))))
            base += size + self.pick((0, 8, 4096))
        for it in NAMES[:self.pick((2, 3) if self.has_sense else (0, 0, 1, 2, 3))]:
            found += self.table("library", (("name", f'"{it}"'), ("version", self.pick((39, 65535))), ("size", self.pick((8, 64, 100, 1000)))))
        for it in self.softints:
            found += self.table("softint", (("name", f'"{it}"'), ("pri", self.pick((-32, -16, 0, 16, 32))), ("code", self.code(True))))
        for it in range(self.pick((1, 2, 3) if self.has_sense else (0, 1, 3))):
            source = self.pick(("PORTS", "VERTB", "EXTER"))
            keys = (("name", f'"v{it}"'), ("source", f'"{source}"'), ("pri", self.pick((0, 0, 3, -3))), ("claim", self.pick(("false", "false", "true"))), ("code", self.code(True)))
            found += self.table("server", keys)
        for it in ("alpha", "b", "c", "d")[:self.pick((3, 3, 4) if self.has_sense else (1, 2, 2, 3, 4))]:
            keys = (("name", f'"{it}"'), ("pri", 6 if self.has_sense and it == "alpha" else self.pick((0, 0, 1, -1) if self.has_sense else (0, 0, 1, -1, 127))),
                    ("start", "true" if it in "alphabc" and self.has_sense else self.pick(("true", "true", "true", "false"))), ("code", self.code(False, it == "alpha")))
            found += self.table("task", keys)
        return found

    def events_text(self):
        some = (3, 8, 15, 30) if self.has_sense else (1, 1, 2, 5, 20)
        events = (lambda: f"run {self.pick(some)}", lambda: f"run {self.pick((1, 3, 30))}", lambda: f"tick {self.pick((1, 1, 2, 5))}", lambda: "irq PORTS",
                  lambda: "irq EXTER", lambda: "# a comment", lambda: "")
        return "".join(f"{self.pick(events[:2] * 4 + events[2:5] * 2 + events[5:])()}\n" for _ in range(self.pick((6, 10, 15) if self.has_sense else (1, 4, 10, 25)))) + self.pick(("", "run 9"))

    def spoil(self):
        """A mistake, in one text or the other."""
        is_machine = self.random.random() < 0.75
        text = self.machine if is_machine else self.events
        at = self.random.randrange(len(text) + 1)
        lines = text.split("\n")
        line = self.random.randrange(len(lines))
        ways = (lambda: text[:at] + text[at + 1:], lambda: text[:at] + self.pick("0aZ @$\"'=[]:-#\r\té") + text[at:], lambda: text[:at] + text[at:at + 9] + text[at:],
                lambda: "\n".join(lines[:line] + lines[line + 1:]), lambda: "\n".join(lines[:line] + [lines[line]] * 2 + lines[line + 1:]),
                lambda: re.sub(r"\d+", lambda it: it[0] if self.random.random() < 0.9 else self.pick(("0", "-1", "32", "65537", "4294967296", "1.5", "007")), text),
                lambda: re.sub(r"[A-Z]\w+", lambda it: it[0] if self.random.random() < 0.95 else self.pick(list(self.words)), text))
        text = self.pick(ways)()
        self.machine, self.events = (text, self.events) if is_machine else (self.machine, text)


# The parts that a text is cut into, each of which may be needless: its tables, and then its lines and the commands in them.
CUTS = (r"(?m)^(?=\[\[)|(?<=\n)(?=run|tick|irq)", r"(?<=\n)|(?<=', )|(?<=\[)(?=')")


def cut_down(texts, differs):
    """Two texts without all tables, lines and commands that need not be there for the two to differ."""
    texts, before = list(texts), None
    while before != texts:
        before = list(texts)
        for cut in CUTS:
            for place in (0, 1):
                texts[place] = cut_text(re.split(cut, texts[place]), lambda text: differs(*(text if it == place else texts[it] for it in (0, 1))))
    return tuple(texts)


def cut_text(units, differs):
    """A text without the units that it does not need, some at a time and at last one by one."""
    size = max(1, len(units) // 2)
    while size:
        at = 0
        while at < len(units):
            less = units[:at] + units[at + size:]
            if differs("".join(less)):
                units = less
            else:
                at += size
        size //= 2
    return "".join(units)
