"""Reads the language of definitions: the imports, types, signatures and clauses of an `.antt` file. Proofs share the
files and are passed over: the text of a definition is read when it is asked for."""
import dataclasses
import functools
import itertools
import re
from typing import Any


class Refused(Exception):
    """What cannot be read or written, and why: with its file and line, if it has a place."""
    is_placed = False


def refusal(place, what):
    """A refusal of what has a module and a line."""
    found = Refused(f"{place.module.place}:{place.line}: {what}")
    found.is_placed = True
    return found


# ---- the tree

class Node:
    """A part of a text. Where it stands makes no difference to what it is."""


def node(name, fields):
    place = [(it, Any, dataclasses.field(default=None, compare=False, repr=False)) for it in ("module", "line")]
    return dataclasses.make_dataclass(name, [*fields.split(), *place], bases=(Node,))


Name, Literal, Field = node("Name", "text"), node("Literal", "value"), node("Field", "of field")
Apply, Operator = node("Apply", "head arguments"), node("Operator", "sign left right")  # a pair has the sign `,`
Lambda, Let, If = node("Lambda", "parameters body"), node("Let", "pattern value body"), node("If", "test yes no")
Elim, Record = node("Elim", "subject cases"), node("Record", "base fields")
Typed = node("Typed", "names type")     # `(x y : T)`: parameters with their type
Implicit = node("Implicit", "")         # what stands between braces
Given = node("Given", "text")      # what stands for itself in the text that is written


def parts(tree):
    """A tree and all that is in it."""
    if isinstance(tree, Node):
        yield tree
    if isinstance(tree, (Node, list, tuple)):
        for it in vars(tree).values() if isinstance(tree, Node) else tree:
            yield from parts(it)


def changed(tree, change):
    """A tree with something else for each part of which `change` is not None."""
    if isinstance(tree, (list, tuple)):
        return type(tree)(changed(it, change) for it in tree)
    if not isinstance(tree, Node):
        return tree
    found = change(tree)
    return type(tree)(*(changed(it, change) for it in vars(tree).values())) if found is None else found


def spine(tree):
    """What is applied, and to what."""
    return (tree.head, tree.arguments) if isinstance(tree, Apply) else (tree, [])


def applied(tree, arguments):
    head, first = spine(tree)
    return Apply(head, first + arguments, head.module, head.line)


def substituted(tree, values):
    """A tree with trees in the place of names."""
    def change(it):
        match it:
            case Apply(Name(text), arguments) if text in values:
                return applied(values[text], changed(arguments, change))
            case Name(text) if text.partition(".")[0] in values:
                first, *fields = text.split(".")
                return functools.reduce(Field, fields, values[first])
        return None

    return changed(tree, change)


# ---- words and expressions

WORD = re.compile(r'(\s+)|"(?:\\.|[^"\\])*"|[(){};,λ"]|\.(?=[\s(){};,]|$)|[^\s(){};,"]+?(?=\.?(?:[\s(){};,"]|$))')
SIGNS = {10: ">>=", 9: "∘ ^", 8: "* *ℤ / %", 7: "+ - +ℤ -ℤ", 5: "∷ ++", 4: "== ≤ < <ℤ ≤ℤ", 3: "&&", 2: "||", 1: "≡ ≢",
         0: "× ⊎ ↔", -1: "→"}
LEVELS = {sign: level for level, signs in SIGNS.items() for sign in signs.split()}
TO_THE_RIGHT = (9, 5, 3, 2, 0, -1)  # levels at which the second of two signs is taken first
NUMERAL = re.compile(r"\d+|0x[0-9a-fA-F]+")
ENDS = {"|", "]", "↦", "as", "[", ")", "}", ";", ",", "then", "else", "in", "=", ".", "where", ":", '"', None, *LEVELS}


class Parser:
    """Reads an expression, a pattern or a type from the words of a text: each with whether it follows the one before
    without a space, and its line."""

    def __init__(self, text, module, line):
        self.module, self.words, self.at = module, [], 0
        for match in WORD.finditer(text):
            if not match[1]:
                self.words.append((match[0], text[:match.start()][-1:] not in tuple(" \t\n({,;") + ("",), line))
            line += match[0].count("\n")
        self.words.append((None, False, line))

    def peek(self):
        return self.words[self.at][0]

    def make(self, kind, *fields, line=None):
        return kind(*fields, self.module, line or self.words[self.at][2])

    def next(self, wanted=None):
        """The next word, which has to be the one that is wanted."""
        word = self.peek()
        if word is None or wanted not in (None, word):
            near = " ".join(str(it) for it, _, _ in self.words[max(0, self.at - 5):self.at + 5])
            raise refusal(self.make(Name, ""), f"{wanted or 'a word'!r} is expected where {word!r} stands: {near}")
        self.at += 1
        return word

    def has(self, word):
        """Whether a word is next, which is then passed."""
        self.at += (is_next := self.peek() == word)
        return is_next

    def after(self, word):
        """The expression after a word."""
        self.next(word)
        return self.expression()

    def whole(self):
        """The expression that all the words are."""
        found = self.expression()
        if self.peek() is not None:
            raise refusal(self.make(Name, ""), f"{self.peek()!r} stands where the expression has ended")
        return found

    def expression(self, level=-2):
        left = self.application()
        while LEVELS.get(self.peek(), -3) >= level:
            line, sign = self.words[self.at][2], self.next()
            own = LEVELS[sign]
            left = self.make(Operator, sign, left, self.expression(own + (own not in TO_THE_RIGHT)), line=line)
        return left

    def application(self):
        head, arguments = self.atom(), self.atoms(ENDS)
        return self.make(Apply, head, arguments, line=head.line) if arguments else head

    def atoms(self, ends):
        found = []
        while self.peek() not in ends:
            found.append(self.atom())
        return [it for it in found if not isinstance(it, Implicit)]

    def atom(self):
        line, word = self.words[self.at][2], self.next()
        if word in SPECIAL:
            found = SPECIAL[word](self)
        elif word[0] == '"' and len(word) > 1:
            found = self.make(Literal, re.sub(r"\\(.)", lambda it: {"n": "\n"}.get(it[1], it[1]), word[1:-1]))
        elif NUMERAL.fullmatch(word):
            found = self.make(Literal, int(word, 0))
        elif word in ENDS:
            raise refusal(self.make(Name, "", line=line), f"no expression begins with {word!r}")
        else:
            found = self.make(Name, word)
        found.line = line
        while self.words[self.at][1] and re.match(r"\..", self.peek() or ""):
            for it in self.next()[1:].split("."):
                found = self.make(Field, found, it, line=line)
        return found

    def function(self):
        parameters = []
        for it in self.atoms("."):
            parameters += [self.make(Typed, [name], it.type) for name in it.names] if isinstance(it, Typed) else [it]
        body = self.after(".")
        more, body = (body.parameters, body.body) if isinstance(body, Lambda) else ([], body)
        return self.make(Lambda, parameters + more, body)

    def elim(self):
        subject, cases = self.atom(), []
        if self.has("as"):
            self.atom()
        self.next("[")
        while not self.has("]"):
            self.has("|")
            cases.append((self.application(), self.after("↦")))
        return self.make(Elim, subject, cases)

    def braces(self):
        """What stands between braces is implicit."""
        deep = 1
        while deep:
            deep += {"{": 1, "}": -1}.get(self.next(), 0)
        return self.make(Implicit)

    def between(self):
        """What is in parentheses: parameters with their type, a pair, or an expression."""
        items = [self.expression()]
        while self.has(","):
            items.append(self.expression())
        if self.peek() == ":":
            head, more = spine(items[0])
            items = [self.make(Typed, [it.text for it in (head, *more)], self.after(":"))]
        self.next(")")
        return functools.reduce(lambda rest, it: self.make(Operator, ",", it, rest), reversed(items))

    def record(self):
        base, fields = None if self.peek() == "{" else self.atom(), []
        self.next("{")
        while not self.has("}"):
            fields.append((self.next(), self.after("=")))
            self.peek() == "}" or self.next(";")
        return self.make(Record, base, fields)


SPECIAL = {"(": Parser.between, "{": Parser.braces, "record": Parser.record, "λ": Parser.function, "elim": Parser.elim,
           "let": lambda it: it.make(Let, it.atom(), it.after("="), it.after("in")),
           "if": lambda it: it.make(If, it.expression(), it.after("then"), it.after("else"))}


# ---- a file

@dataclasses.dataclass
class Item:
    """What begins at the margin: the comment above it, its first line, and its lines."""
    comment: list
    line: int
    lines: list

    def text(self):
        return "\n".join("" if it.lstrip().startswith("--") else re.sub(r"\s+-- .*$", "", it) for it in self.lines)


def items_of(lines, first):
    """The items of some lines, whose margin is that of the first one."""
    found, comment, margin = [], [], None
    for number, line in enumerate(lines, first):
        stripped, deep = line.strip(), len(line) - len(line.lstrip())
        margin = deep if stripped and margin is None else margin
        if not stripped:
            comment = []
        elif stripped.startswith("--") and (deep <= margin or not found):
            comment = [] if stripped.startswith("-- ----") else [*comment, stripped[2:].strip()]
        elif deep <= margin and stripped[0] not in "})":
            found.append(Item(comment, number, [line[margin:]]))
            comment = []
        elif found:
            found[-1].lines.append(line[margin:])
    return found


@dataclasses.dataclass(eq=False)
class Definition:
    """A definition. What of it is text is read when it is asked for."""
    module: Any
    name: str
    line: int
    comment: list
    item: Item     # its signature
    is_open: bool  # `abbrev` or `unfoldable`: others see its body
    items: list = dataclasses.field(default_factory=list)  # its clauses, and the text of each

    @functools.cached_property
    def type(self):
        return Parser(self.item.text().partition(" :")[2], self.module, self.line).whole()

    @functools.cached_property
    def clauses(self):
        """The comment above each clause, its patterns, and its expression."""
        found = []
        for item, text in self.items:
            parser = Parser(text, self.module, item.line)
            left = parser.expression()
            parser.next("=")
            patterns = [left.left, left.right] if isinstance(left, Operator) else spine(left)[1]
            found.append((item.comment, patterns, parser.whole()))
        if not found:
            raise refusal(self, f"`{self.name}` has no clause")
        return found


@dataclasses.dataclass(eq=False)
class Type:
    """A record, its members (field, type, comment), or data, with (constructor, its arguments, comment)."""
    module: Any
    name: str
    line: int
    comment: list
    item: Any
    kind: str
    parameters: list
    members: list


FLAGS = "(?:(?:abbrev|unfoldable|pub) )*"
HEAD, TYPE = re.compile(rf"({FLAGS})(\S+) :(?: |$)"), re.compile(rf"{FLAGS}(record|data) (\S+)")
USE = re.compile(r"(?:unfoldable )?(?:pub )?use Rattle\.([\w.]+?)(?:\.\{([^}]*)\})?(?: as (\w+))?$")


class Module:
    """A file of definitions: what it imports, its definitions and its types."""

    def __init__(self, name, path, place, text):
        self.name, self.path, self.place, self.crate = name, path, place, name.split(".")[0]
        self.imports, self.aliases = {}, {}        # a name to (path, name), a name to a path
        self.definitions, self.types, self.constructors = {}, {}, {}
        lines = text.split("\n")
        self.comment = [it[2:].strip() for it in itertools.takewhile(lambda it: it.startswith("--"), lines)]
        self.take(items_of(lines, 1))

    def take(self, items):
        for item in items:
            head = item.lines[0]
            if re.match(r"(unfoldable )?(pub )?use ", head):
                self.use(" ".join(it.strip() for it in item.lines))
            elif re.match(r"mutual\b|module _ .* where$", head):
                self.take(items_of(item.lines[1:], item.line + 1))
            elif found := TYPE.match(head):
                self.type(item, *found.groups())
            elif found := HEAD.match(head):
                is_open = "abbrev" in found[1] or "unfoldable" in found[1]
                self.definitions[found[2]] = Definition(self, found[2], item.line, item.comment, item, is_open)
            elif not re.match(r"(pub )?mod |unfolding |infix|#!", head):
                self.clause(item)

    def use(self, text):
        path, names, alias = found.groups() if (found := USE.match(text)) else ("", "", None)
        if alias:
            self.aliases[alias] = path
        for it in filter(None, (it.strip() for it in (names or "").split(","))):
            there, _, here = it.partition(" as ")
            *below, there = there.split(".")
            self.imports[here or there] = ".".join([path, *below]), there

    def clause(self, item):
        """A clause belongs to the definition of its name; that of an operator has its sign in the second place."""
        ends = (number for number, it in enumerate(item.lines) if re.search(r"(^|\s)where$", it))
        at = next(ends, len(item.lines))
        text = "\n".join(item.text().split("\n")[:at + 1]).removesuffix("where")
        words = text.split()
        owners = [words[0], *(it for it in self.definitions if it[0] == "◌" and it[1:-1] in words)]
        if owner := next((self.definitions[it] for it in owners if it in self.definitions), None):
            owner.items.append((item, text))
            if owner.is_open:
                self.take(items_of(item.lines[at + 1:], item.line + at + 1))

    def type(self, item, kind, name):
        head = item.text().partition(" where")[0]
        parser, below = Parser(head.partition(name)[2], self, item.line), len(head.split("\n"))
        found = self.types[name] = Type(self, name, item.line, item.comment, item, kind, parser.atoms((":", None)), [])
        for it in items_of(item.lines[below:], item.line + below):
            if match := re.match(r"(?:pub )?(\S+) : (.*)", it.text(), re.S):
                type = Parser(match[2], self, it.line).whole()
                found.members.append((match[1], type if kind == "record" else arguments_of(type), it.comment))
        self.constructors |= {it[0]: found for it in found.members if kind == "data"}


def before_arrow(tree):
    """The names and types of the arguments that stand before an arrow; what is implicit is none."""
    head, rest = spine(tree)
    found = []
    for it in [head, *rest] if isinstance(head, (Typed, Implicit)) else [tree]:
        if isinstance(it, Typed):
            found += [(name, it.type) for name in it.names]
        elif not isinstance(it, Implicit):
            found.append(("", it))
    return found


def arguments_of(type):
    """The names and types of a constructor's arguments."""
    match type:
        case Operator("→", left, right): return before_arrow(left) + arguments_of(right)
    return []
