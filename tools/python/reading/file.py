"""The file of definitions as a whole: its head, its order, and what is left out."""
import collections
import pathlib
import re
import textwrap

from reading.language import Definition, Module, Refused, Type
from reading.layout import WIDTH, comment, statement
from reading.python import Python, py

HERE = pathlib.Path(__file__).parent
MARK = "# ---- the words of the standard library\n"
HEAD = '''"""The definitions of execsim: what a run of a machine file over an event text is, and what is printed of it.

This file was made by tools/reading from the definitions that the project's theorem speaks of, name for name. It is
no program of the project: it computes what they say. Read it from the top. Above each definition is its comment, with
its source in the manual (RKM: the Amiga ROM Kernel Reference Manual) or "project rule"; then its type, and file and
line of the original. Nothing is changed in place: an action takes a State and gives an Outcome: the next state, the
lines that are printed on the way, and marks, of which only laws speak.

    python3 definitions.py MACHINE EVENTS             prints the trace of a run
    python3 definitions.py --show DoIO                prints what is done for a call, or any definition by its name
    python3 definitions.py --why 4 MACHINE EVENTS     says which definitions made line 4 of the trace
    python3 definitions.py --check PROJECT            makes the stored runs, and the recordings of a real Exec

An example. The machine file

{machine}

and the event text

{events}

come to this trace:

{trace}

In the types, which stand above the definitions, ℕ are the whole numbers from 0, and ℤ those with a sign: both are
Python's int, and have no width. A value of a script is a word of 32 bits: what calculates one, as Add and Sub do, says
% 2 ** 32. A × B is a pair; A → B → C is a function of an A and a B that gives a C; Type 0 is a statement, here True or
False. Texts are List ℕ, their bytes. An Option is None or Some(value), and a Result Ok(value) or Err(fault).

Names are those of the originals, but for these:
{renamed}

The tree of a TOML text is made by Python's tomllib, of TOML 1.0, within the limits of the project's reader (64 bits for
integers, 80 levels, no infinite number by its digits), which reads TOML 1.1: what only that has is NotToml here. All
that is read from the tree is in the definitions.

Contents, by line; of each part the longer sections:

{contents}
"""
'''
MACHINE = """[[task]]
name = "server"
pri = 5
code = ["m = Wait $10000", "Print m"]

[[task]]
name = "client"
code = ["Signal 1 $10000"]
"""
EVENTS = "run 5\n"
ROOTS = ("run", "printed", "script_of", "placed_file_of_document")
# What laws of every run speak of, as the file of that law sees them: --check asks them of each run.
LAW = "FirstInFirstOut"
LAWS = ("IsInOrder", "turns_at_port", "turns_at_semaphore", "CountsTicks", "AreDisjoint", "IsSettled", "extents",
        "messages_of", "waiters_of", "status_of")
THEOREM = ("file_of", "script_of", "Simulates")
PARTS = ("A run", "Services beneath it", "The state and the objects", "The trace", "The texts",
         "Laws that are asked of each run")
EVERYWHERE = "What is used everywhere"


class File:
    """All definitions that the roots rest on, in the order in which they are read."""

    def __init__(self, project, statements=()):
        self.project, self.roots = project, [project.named(it) for it in ROOTS]
        law, said = project.named(LAW).module, project.named("meaning").module
        # what a line says: the relation, and the function that it determines
        says = next(it for it in said.definitions.values() if it.name != "meaning")
        relation = project.find(project.named("IsMeaning").module, "Says")
        self.laws = [*(project.find(law, it) for it in LAWS), says, relation, project.find(said, "fields"), *statements]
        self.python = Python(project, [*self.roots, *self.laws])
        self.types = {}
        while missing := [it for it in self.python.types if it not in self.types]:  # a type may name others
            self.types |= {it: self.python.type_lines(it) for it in missing}
        self.states = self.states_of()
        self.combinators = [it for it in self.python.written if self.is_combinator(it)]
        self.order = self.in_order()
        reached = self.reached()
        self.count = len(reached)
        everything = dict.fromkeys([*reached, *self.python.written, *self.types])
        self.bare = [f"{place_of(it)} {it.name}" for it in everything if not it.comment and self.is_own(it)]
        self.left_out = [it for it in reached if it not in self.python.written and it not in self.types]

    def is_own(self, entity):
        """Whether a definition is of a file of the project, and not of the kit."""
        return isinstance(entity.module, Module) and entity.module.path.is_relative_to(self.project.top)

    def reached(self):
        """All definitions of the project that the theorem rests on: what its statement cites. Of one that is shut to
        others only the type counts."""
        found = [self.project.named(it) for it in THEOREM]
        for it in found:
            cited = dict.fromkeys(self.project.cites(it, isinstance(it, Definition) and not it.is_open))
            found += [x for x in cited if self.is_own(x) and x not in found]
        return found

    def why(self, entity):
        """Why a definition is not in the file."""
        is_record = isinstance(entity, Type) and (entity.parameters or self.project.states(entity))
        return "a statement" if is_record or self.project.is_type(entity) else "only statements speak of it"

    # ---- the order

    def states_of(self):
        """What a run comes to, and the types that this and its parts hold."""
        found = [self.project.record_of(self.project.arrows(self.roots[0].type)[1])]
        for it in found:
            found += [x for x in self.project.cites(it) if isinstance(x, Type) and x not in found]
        return found

    def is_combinator(self, entity):
        """Whether a definition makes an action of others: it gives a state or an outcome, and takes a function to that,
        or from a thing to its like."""
        types, result = self.python.parameters(entity)
        functions = [self.project.arrows(it) for it in types if it and self.project.arrows(it)[0]]
        is_of_state = self.project.record_of(result) in self.states
        return is_of_state and any(given in (result, taken[-1]) for taken, given in functions)

    def often(self):
        """What is used everywhere: combinators in more than two files, and what many definitions use, in more than
        three."""
        users = collections.defaultdict(list)
        for it, written in self.python.written.items():
            for other in written.rests:
                users[other].append(it.module)
        return [it for it, found in users.items()
                if len(set(found)) > 2 and it in self.combinators or len(set(found)) > 3 and len(found) > 11]

    def parts_of(self):
        """The part of the file that each module is in, and the modules in order of first use."""
        run, printed, *_ = self.roots
        holders, modules = {it.module for it in self.states} - {run.module}, {}
        for roots, place in (([run], 1), ([printed], 3), (self.roots, 4), (self.laws, 5)):
            for module in (it.module for it in self.sequence(roots)):
                own = place
                if place < 5 and module.crate == printed.module.crate:
                    own = 3
                elif place < 5 and module.crate == run.module.crate:
                    own = 2 if module in holders else 0
                modules.setdefault(module, own)
        return modules

    def sequence(self, roots):
        """All definitions, each module's together in the order of first use from its top, and modules in the order in
        which they are first used."""
        done, waiting = {}, collections.OrderedDict()
        for root in roots:
            waiting.setdefault(root.module, []).append(root)
            while waiting:
                module, stack = waiting.popitem(last=False)
                stack = stack[::-1]
                while stack:
                    it = stack.pop()
                    if it not in done:
                        done[it] = None
                        for other in self.python.written[it].rests:
                            if other.module is not module:
                                waiting.setdefault(other.module, []).append(other)
                        stack += [x for x in reversed(self.python.written[it].rests) if x.module is module]
        return list(done)

    def in_order(self):
        """The definitions and types of each module: (part, module, types, definitions)."""
        modules, sequence, often = self.parts_of(), self.sequence([*self.roots, *self.laws]), self.often()
        for module in (it.module for it in self.types):
            of_crate = (part for it, part in modules.items() if it.crate == module.crate)
            modules.setdefault(module, next(of_crate, 4))
        types, own = collections.defaultdict(list), collections.defaultdict(list)
        for it in sorted(self.types, key=lambda it: it.line):
            types[it.module].append(it)
        for it in sequence:
            own[it.module, it in often].append(it)
        rows = [(EVERYWHERE, it, [], own[it, True]) for it in modules]
        rows += [(PARTS[modules[it]], it, types[it], own[it, False]) for it in sorted(modules, key=modules.get)]
        return [it for it in rows if it[2] or it[3]]

    # ---- the text

    def lines(self):
        """All lines below the head."""
        prelude, words = (HERE / "words.py").read_text(encoding="utf-8").split(MARK)
        texts = ["\n".join(it.lines) for it in self.python.written.values()]
        used = collections.Counter(it for text in texts for it in set(re.findall(r"\w+", text)))
        first = [it[0] for it in re.finditer(r"(?m)^def (\w+)\(.*: return .*\n", words) if used[it[1]] >= 10]
        lines, part = ["", *prelude.strip("\n").split("\n")], None
        for name, module, types, definitions in self.order:
            lines += title(name) if name != part else []
            lines += ["", *"".join(first).split("\n")[:-1]] if name == EVERYWHERE != part else []
            part, said = name, " ".join(module.comment) or f"Types of the code in {module.path.name}"
            lines += ["", "", *comment(f"---- {said} [{module.place.removeprefix('crates/')}]")]
            for it in types:
                lines += ["", *self.types[it]]
            for it in definitions:
                lines += ["", *self.python.above(it), *self.python.written[it].lines]
        for it in first:
            words = words.replace(it, "")
        lines += [*title("The words of the standard library"), *words.rstrip("\n").split("\n")]
        lines += [*title("What the theorem speaks of, and is not above"), ""]
        for it in self.left_out:
            lines += comment(f"{it.name}: {self.why(it)} [{place_of(it).removeprefix('crates/')}]")
        names = ", ".join(repr(self.python.name(it)) for it in self.combinators)
        lines += [*title("How this file is run"), "", *statement("COMBINATORS = ", f"[{names}]", 0)]
        lines += (HERE / "running.py").read_text(encoding="utf-8").strip("\n").split("\n")
        return re.sub(r"\n{4,}", "\n\n\n", "\n".join(it.rstrip() for it in lines)).split("\n")

    def text(self, trace=None):
        """The whole file. Its example has the trace that the definitions give, unless that is said to be another one."""
        lines, contents = self.lines(), []
        for number, line in enumerate(lines):
            if line == RULE and lines[number - 1] == "":
                contents.append((number + 1, lines[number + 1][2:]))
            elif line.startswith("# ---- ") and is_long(lines, number):
                contents.append((number, "    " + re.split(r" \[|[:(]|\.(?: |$)", line[7:])[0].strip()))
        texts = {"machine": MACHINE, "events": EVENTS, "trace": trace_of(lines) if trace is None else trace}
        words = {name: textwrap.indent(text.rstrip("\n"), "    ") for name, text in texts.items()}
        words["renamed"] = self.renamed()
        above = HEAD.format(contents="\n" * (len(contents) - 1), **words).count("\n")
        rows = "\n".join(f"{above + number + 1:8}  {it}" for number, it in contents)
        return HEAD.format(contents=rows, **words) + "\n".join(lines) + "\n"

    def renamed(self):
        """What the head says of names that are changed."""
        names = [it.name for it in self.python.written]
        for it in self.types:
            names += [it.name, *(x[0] for x in getattr(it, "members", ()))]
        kept = ", ".join(sorted({py(it) for it in names if py(it) == it + "_"} | self.python.kept))
        others = "".join(f"{it} is {py(it)}. " for it in names if not it.replace("'", "_").isidentifier())
        return textwrap.fill(
            f"One that Python keeps for itself has `_` at its end: {kept}. {others}`'` in a name is `_`. A variable "
            "that would hide another one has a number at its end. A parameter that is only matched in the original has "
            "the name of its type.", WIDTH)


RULE = "# " + "=" * 118


def title(text):
    """The lines of a title of a part."""
    return ["", "", RULE, f"# {text}", RULE]


def place_of(entity):
    return f"{entity.module.place}:{entity.line}"


def is_long(lines, number):
    """Whether a section has more than four definitions."""
    ends = (it for it in range(number + 1, len(lines)) if lines[it].startswith(("# ---- ", "# ====")))
    return sum(it.startswith(("def ", "@once")) for it in lines[number:next(ends, None)]) > 4


def trace_of(lines):
    """The trace of the example, by the definitions themselves."""
    found = {"__name__": "definitions", "__file__": __file__}
    exec("\n".join(lines), found)
    try:
        return found["_outcome"](MACHINE.encode(), EVENTS.encode())[1].decode()
    except Exception as why:
        raise Refused(f"the example does not run: {type(why).__name__}: {why}") from None
