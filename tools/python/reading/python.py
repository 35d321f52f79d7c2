"""Writes definitions as Python."""
import builtins
import contextlib
import functools
import inspect
import itertools
import keyword
import re

from reading import words
from reading.language import (NUMERAL, Apply, Definition, Elim, Field, Given, If, Lambda, Let, Literal, Name, Operator,
                              Record, Refused, Type, Typed, applied, before_arrow, changed, parts, refusal, spine,
                              substituted)
from reading.layout import ATOM, WIDTH, Code, chain, choice, comment, negated, statement, within
from reading.project import Constructor, Library

CONSTANTS = {"true": "True", "false": "False", "zero": "0", "[]": "[]", "None": "None", "tt": "()", "⊥": "False",
             "⊤": "True", "Unit": "True", "w8": "8", "w16": "16", "w32": "32", "w64": "64"}
# Signs and words that are a sign of Python between two operands.
INFIX = {"+": "+", "*": "*", "++": "+", "==": "==", "&&": "and", "||": "or", "+ℤ": "+", "-ℤ": "-", "*ℤ": "*", "^": "**",
         "≡": "==", "≢": "!=", "≤": "<=", "<": "<", "≤ℤ": "<=", "<ℤ": "<", "×": "and", "⊎": "or", "nat_eq": "==",
         "nat_lt": "<", "nat_le": "<=", "int_eq": "==", "int_lt": "<", "int_le": "<=", "bytes_eq": "==", "eqb": "==",
         "bit_and": "&", "bit_or": "|", "bit_xor": "^"}
DIVISIONS = {"/": "//", "%": "%"}  # by what is above 0


def itself(code):
    return code


def ordering(order, less, same, more):
    return choice(chain("<", order, "0"), less, choice(chain("==", order, "0"), same, more))


# What is written otherwise than as a call of its name, with that many arguments.
INLINE = {("not", 1): negated, ("length", 1): "len({})".format, ("pos", 1): itself, ("to_nat", 1): itself,
          ("id", 1): itself, ("cond", 3): choice, ("match_ordering", 4): ordering, (",", 2): "({}, {})".format,
          ("-", 2): "monus({}, {})".format, ("/", 2): "quotient({}, {})".format, ("%", 2): "remainder({}, {})".format,
          (">>=", 2): "option_and_then({1}, {0})".format, ("fst", 1): lambda pair: within(pair, ATOM) + "[0]",
          ("snd", 1): lambda pair: within(pair, ATOM) + "[1]",
          **{(word, 2): functools.partial(chain, sign) for word, sign in INFIX.items()}}
# What is asked of each item of a list: {0} is what is asked, {1} the item, {2} the list.
EACH = {"map": "[{0} for {1} in {2}]", "filter": "[{1} for {1} in {2} if {0}]", "sum_by": "sum({0} for {1} in {2})",
        "AllPairs": "all({0} for {1} in pairs({2}))", **dict.fromkeys(("list_all", "All"), "all({0} for {1} in {2})"),
        **dict.fromkeys(("list_any", "Any"), "any({0} for {1} in {2})")}
NUMERIC = ("zero", "suc", "pos", "negsuc")
# No variable has the name of one of these.
OFTEN = {"Some", "Ok", "Err", "NoCase", "codes", "partial", "replace", "monus", "quotient", "remainder", "splits",
         "option_and_then", "option_to_list", "pairs", "all", "any", "len"}


def py(name):
    """A name as Python may have it: one that it keeps for itself gets `_`."""
    name = {"◌>>=◌": "bind"}.get(name, name).replace("'", "_").replace("-", "_")
    if not name.isidentifier():
        raise Refused(f"the name `{name}` is none in Python")
    return name + "_" if keyword.iskeyword(name) or hasattr(builtins, name) or name in ("match", "case") else name


def word_of(library):
    """The name of a word of the standard library in words.py, if it has one there."""
    name = {"◌==◌": "nat_eq"}.get(library.name, library.name)
    names = [f"finmap_{name}"] if "FinMap" in library.path else [name, f"{name}_", name.replace("_ℤ", "")]
    return next((it for it in names if hasattr(words, it)), None)


class Python:
    """All that some definitions rest on, as Python."""

    def __init__(self, project, roots):
        self.project, self.names, self.types, self.written, self.kept = project, {}, {}, {}, set()
        self.defined, open_ = {name for it in project.modules() for name in it.definitions}, list(roots)
        for it in open_:  # which grows on the way
            if it not in self.written:
                self.written[it] = Written(self, it)
                open_ += self.written[it].rests
        for it in self.written:
            if isinstance(it, Definition):
                self.signature(it)

    def name(self, entity):
        """The name of a definition or a type. Two of one name are refused."""
        name = py(entity.name)
        other = self.names.setdefault(name, entity)
        if other is not entity or hasattr(words, name):
            place = f"{other.module.place}:{other.line}" if other is not entity else "words.py"
            raise refusal(entity, f"`{entity.name}` means another thing in {place}")
        is_of_data = isinstance(entity, Type) or entity not in self.written and self.project.is_type(entity)
        if is_of_data and not self.project.states(entity):
            self.types[entity] = None
        return name

    @functools.cache
    def parameters(self, entity):
        """The types of a definition's arguments, and that of its result."""
        if isinstance(entity, Type):
            return [type for row in entity.parameters for _, type in before_arrow(row)], None
        types, result = self.project.arrows(entity.type)
        return types + [None] * (len(entity.clauses[0][1]) - len(types)), result

    def type_lines(self, entity):
        """A record or data, with a line for each field or constructor that has a comment."""
        head = f"{self.name(entity)} = "
        if isinstance(entity, Definition):  # another name of a type
            text = " ".join(entity.items[0][1].partition("=")[2].split())
            return [*self.above(entity), head + repr(self.type_text(text, entity.module))]
        if entity.kind == "record":
            members = [(repr(py(it)), said) for it, _, said in self.project.fields(entity)]
        else:
            members = [(f"{py(it)}={' '.join(py(x) if x else f'a{n}' for n, (x, _) in enumerate(arguments))!r}", said)
                       for it, arguments, said in entity.members]
        start, rows = f"{entity.kind}({entity.name!r}", [it for it, _ in members]
        if any(said for _, said in members):
            rows = [line for it, said in members for line in [*comment(" ".join(said), 4), f"    {it},"]]
            return self.above(entity) + [f"{head}{start},", *rows, ")"]
        return self.above(entity) + statement(head, ", ".join([start, *rows]) + ")", 0)

    def above(self, entity):
        """The comment, and where the original stands, with its type."""
        place = f"[{entity.module.place.removeprefix('crates/')}:{entity.line}]"
        text = f"{self.signature(entity)}  " if entity in self.written and isinstance(entity, Definition) else ""
        return comment(" ".join(entity.comment)) + comment(text + place)

    @functools.cache
    def signature(self, entity):
        """The name and the type of a definition, by the names that are in the file."""
        text = re.sub(r"^((abbrev|unfoldable|pub) )+", "", " ".join(entity.item.text().split()))
        return self.type_text(text, entity.module)

    def type_text(self, text, module):
        """A type by the names that are in the file."""
        def named(match):
            found = self.project.find(module, match[0])
            is_short = isinstance(found, Definition) and self.project.is_type(found) and not self.project.states(found)
            return self.name(found) if is_short or isinstance(found, Type) else match[0]

        return re.sub(r"[A-Za-z_][\w.']*", named, text)


class Written:
    """A definition as a function of Python, and what it rests on. A scope says what each variable is in Python."""

    def __init__(self, python, entity):
        self.python, self.project, self.entity, self.at = python, python.project, entity, entity
        self.lines, self.indent, self.rests, self.inners = [], 0, {}, 0
        try:
            self.write()
        except Refused as why:
            raise why if why.is_placed else refusal(self.at, f"`{entity.name}`: {why}") from None

    # ---- names and lines

    def fresh(self, name, scope):
        """A name for a variable, which nothing else has there."""
        base = py(name) if name != "_" else "x"
        self.python.kept |= {base} & {f"{name}_"}
        taken = self.banned | set(scope.values())
        return next(it for it in (base + str(number or "") for number in (0, *range(2, 99))) if it not in taken)

    def bind(self, pattern, scope, hides=True):
        """A variable: its name in Python, and the scope with it. It may have the name of what it hides in a function of
        its own, but not in one that goes on, nor of a function, of which the type is known."""
        source = source_of(pattern)
        hides = hides and not self.taken_by(scope.get(source))
        name = self.fresh(source, {it: x for it, x in scope.items() if it != source} if hides else scope)
        return name, {**scope, source: name}

    def bind_all(self, parameters, scope):
        """The variables of a function: their names, and the scope with them."""
        if not are_names(parameters):
            raise Refused("a function of a pattern")
        names = []
        for it in parameters:
            name, scope = self.bind(it, scope)
            names.append(name)
        return names, scope

    def emit(self, word, value="", end=""):
        self.lines += statement(word, value, self.indent, end)

    @contextlib.contextmanager
    def block(self, word, value="", may_join=False):
        """What stands beneath a line; in one line with it, if both are one and fit."""
        start = len(self.lines)
        self.emit(word, value, ":")
        mark, self.indent = len(self.lines), self.indent + 4
        yield
        self.indent -= 4
        joined = f"{self.lines[start]} {self.lines[-1].strip()}"
        if may_join and [start + 1, mark + 1] == [mark, len(self.lines)] and len(joined) <= WIDTH:
            self.lines[start:] = [joined]

    def find(self, tree):
        """What a tree names, if it is a name."""
        return self.project.find(tree.module, tree.text) if isinstance(tree, Name) else None

    # ---- a definition

    def write(self):
        entity, project = self.entity, self.project
        (types, result), name = self.python.parameters(entity), self.python.name(entity)
        self.result = result
        texts = [it.text for it in parts(project.trees(entity)) if isinstance(it, Name)]
        self.banned = {name, *OFTEN, *(py(it.name) for it in project.cites(entity) if not project.is_type(it)),
                       *(it for text in texts for it in (text, text + "_") if hasattr(words, it))}
        clauses = [] if isinstance(entity, Type) else entity.clauses
        sources = clauses[0][1] if clauses else [Name(it) for row in entity.parameters for it in row.names]
        self.types = {}  # of the parameters
        for number, type in enumerate(types):
            patterns = [patterns[number] for _, patterns, _ in clauses if number < len(patterns)] or sources[number:]
            wanted = self.parameter_name(patterns, type)
            wanted = wanted if py(wanted) not in self.types else f"other_{wanted}"
            self.types[self.fresh(wanted, dict(zip(self.types, self.types)))] = type
        names = list(self.types)
        if not types or self.is_of_text(types, result):
            self.emit("@kept" if types else "@once")
        with self.block(f"def {name}({', '.join(names)})"):
            if isinstance(entity, Type):
                self.emit("return ", self.truth_of_record({it.text: name for it, name in zip(sources, names)}))
            elif not self.loop(names):
                more = [Given(it) for it in names[len(sources):]]
                cases = [(it, applied(body, more) if more else body, said) for said, it, body in clauses]
                self.match(names[:len(sources)], cases, {})

    def is_of_text(self, types, result):
        """Whether this is what a text says, if it says something: that is asked of one line again and again."""
        heads = [it and spine(it)[0] for it in (*types, result)]
        return heads == [Name("List"), Name("Option")] and spine(types[0])[1] == [Name("ℕ")]

    def parameter_name(self, patterns, type):
        """A name for a parameter: that of a variable in the definition, or else that of its type."""
        for it in patterns:
            match it:
                case Name(name) | Typed([name, *_]) if name != "_" and not self.is_constant(it): return name
        inner = {it.arguments[0].text for it in patterns if isinstance(it, Apply) and it.head == Name("Some")
                 and isinstance(it.arguments[0], Name) and re.fullmatch("[a-z_]+", it.arguments[0].text)}
        if len(inner) == 1:
            return inner.pop()
        match type:
            case Apply(Name("List")): return "items"
            case Apply(Name("Option"), [tree]) | Apply(tree): pass
            case tree: pass
        name = re.sub(r"(?<!^)(?=[A-Z])", "_", tree.text.split(".")[-1]).lower() if isinstance(tree, Name) else ""
        name = f"this_{name}" if name in self.python.defined else name
        return name if name.isidentifier() and len(name) > 1 else {"ℕ": "number", "ℤ": "number"}.get(name, "value")

    def is_constant(self, name):
        found = self.find(name)
        is_word = isinstance(found, Library) and found.name in CONSTANTS
        return name.text in CONSTANTS or is_word or isinstance(found, Constructor) or bool(NUMERAL.fullmatch(name.text))

    def loop(self, names):
        """A definition by zero and suc that calls itself below with all else the same is a loop from zero on: Python's
        calls end where they are deep."""
        match [it[1:] for it in self.entity.clauses]:
            case [(first, base), (second, body)] if Name("zero") in first: at = first.index(Name("zero"))
            case _: return False
        variables, own = [*second[:at], *spine(second[at])[1], *second[at + 1:]], Name(self.entity.name)
        call = Apply(own, variables)
        ways = [it for it in (body, self.inlined(body)) if [x for x in parts(it) if x in (call, own)] == [call, own]]
        if not ways or len(variables) != len(first):
            return False
        scope = {it.text: name for it, name in zip(first, names) if it != Name("zero")}
        so_far = self.fresh("so_far", scope)
        self.emit(f"{so_far} = ", self.value(base, scope))
        scope = {"=": so_far, **{it.text: name for it, name in zip(variables, names) if it != variables[at]}}
        count, scope = self.bind(variables[at], scope)
        body = changed(ways[0], lambda it: Given(so_far) if it == call else None)
        with self.block(f"for {count if variables[at] in list(parts(body)) else '_'} in range({names[at]})"):
            while isinstance(body, Let):
                body, scope = body.body, self.let(body, scope)
            self.emit(f"{so_far} = ", self.value(body, scope))
        self.emit(f"return {so_far}")
        return True

    def inlined(self, body):
        """A body whose head is a definition by one clause: what that clause says."""
        head, arguments = spine(body)
        found = self.find(head)
        if isinstance(found, Definition) and found is not self.entity:
            (_, patterns, inner), *more = found.clauses
            if not more and len(patterns) == len(arguments) and are_names(patterns):
                return substituted(inner, {it.text: x for it, x in zip(patterns, arguments)})
        return body

    # ---- statements of Python

    def let(self, tree, scope):
        """Binds what `let` binds: the scope there is then."""
        if not are_names([tree.pattern]):
            raise Refused("a pattern of `let` that is no name")
        value = self.value(tree.value, scope)
        name, scope = self.bind(tree.pattern, scope, hides=False)
        self.emit(f"{name} = ", value)
        return scope

    def tail(self, tree, scope):
        """What a function returns."""
        match tree:
            case Let(_, _, body): self.tail(body, self.let(tree, scope))
            case Elim(subject, cases):
                self.match([self.value(subject, scope)], [([it], body, []) for it, body in cases], scope)
            case If(test, yes, no):
                if is_plain([test, yes, no]) and not isinstance(no, If):
                    whole = self.value(tree, scope)
                    if len(whole) + self.indent <= 90:
                        return self.emit("return ", whole)
                with self.block("if ", self.value(test, scope), may_join=True):
                    self.tail(yes, scope)
                self.tail(no, scope)
            case _: self.emit("return ", self.value(tree, scope))
        return None

    def match(self, subjects, cases, scope):
        """A definition by clauses, or an `elim`. A column that has variables alone needs no pattern."""
        numbers = range(len(subjects))
        plain = [it for it in numbers if subjects[it].isidentifier()
                 and all(self.is_variable(patterns[it]) for patterns, _, _ in cases)]
        columns = [it for it in numbers if it not in plain]
        numeric = [subjects[it] for it in columns if any(is_numeric(patterns[it]) for patterns, _, _ in cases)]
        rows = []
        for patterns, body, said in cases:
            own = {source_of(patterns[it]): subjects[it] for it in plain if source_of(patterns[it]) != "_"}
            rows.append((patterns, body, " ".join(said), {**scope, **{f"={it}": it for it in numeric}, **own}))
        if not columns:
            self.lines += comment(rows[0][2], self.indent) if len(cases) > 1 else []
            return self.tail(rows[0][1], rows[0][3])
        with self.block(f"match {', '.join(subjects[it] for it in columns)}"):
            for patterns, body, said, scope in rows:
                self.guards, self.binds = [], []
                shown = ", ".join(self.pattern(patterns[it], scope, subjects[it]) for it in columns)
                is_open = self.guards or not all(self.is_total(patterns[it]) for it in columns)
                self.lines += comment(said, self.indent)
                guard = f" if {' and '.join(self.guards)}" if self.guards else ""
                with self.block(f"case {shown}{guard}", may_join=True):
                    for name, value in self.binds:
                        self.emit(f"{name} = {value}")
                    self.tail(body, scope)
            if is_open:
                self.emit(f"case _: raise NoCase({self.python.name(self.entity)!r})")
        return None

    # ---- statements of the definitions, which are true or false

    def for_all(self, variable, type, rest, scope):
        """A statement of all values: of the one that an option has, or of each constructor of a kind of data."""
        shown, inner = self.bind(variable, scope, hides=False)
        match rest:
            case Operator("→", Operator("≡", option, Apply(_, [it])), then) if it == variable:
                return f"all({self.value(then, inner)} for {shown} in option_to_list({self.value(option, scope)}))"
        found = self.project.entity(type)
        if isinstance(found, Type) and found.kind == "data" and not any(it[1] for it in found.members):
            values = ", ".join(f"{self.python.name(found)}.{py(it[0])}" for it in found.members)
            return f"all({self.value(rest, inner)} for {shown} in [{values}])"
        raise Refused("a statement of all values of a type")

    def truth_of_record(self, scope):
        """The statements of a record together. One that says of two lists, which the record has, that they stand around
        an item is of each way to split the whole."""
        names = [it for it, _, _ in self.project.fields(self.entity)]
        told, start, end = [it for name, it, _ in self.entity.members if name not in names], "", ""
        for it in told if names else ():
            match it:
                case Operator("≡", whole, Operator("++", Name(before), Operator("∷", _, Name(after)))):
                    if [before, after] != names:
                        continue
                    whole = self.value(whole, scope)
                    before, scope = self.bind(Name(before), scope)
                    after, scope = self.bind(Name(after), scope)
                    start, end = "any(", f" for {before}, {after} in splits({whole}))"
        if names and not start:
            raise Refused("a statement that something is there, which is not computed")
        holds = functools.reduce(functools.partial(chain, "and"), [self.value(it, scope) for it in told])
        return f"{start}{holds}{end}" if start else holds

    # ---- patterns

    def is_variable(self, pattern):
        return isinstance(pattern, Typed) or isinstance(pattern, Name) and not self.is_constant(pattern)

    def is_total(self, pattern):
        match pattern:
            case Operator(",", left, right): return self.is_total(left) and self.is_total(right)
        return self.is_variable(pattern)

    def pattern(self, tree, scope, subject=None):
        """A pattern. What it binds gets into the scope, what else it asks into the guards."""
        head, arguments = spine(tree)
        match tree:
            case Literal(int(value)): return str(value)
            case Operator(",", left, right): return f"({self.pattern(left, scope)}, {self.pattern(right, scope)})"
            case Operator("∷", left, right):
                item, rest = self.pattern(left, scope), self.pattern(right, scope)
                return f"[{item}]" if rest == "[]" else f"[{item}, {rest[1:-1] if rest[0] == '[' else '*' + rest}]"
            case Name("_"): return "_"
            case Typed([name], _): return self.variable(Name(name, tree.module, tree.line), scope)
        if not isinstance(head, Name):
            raise Refused("a pattern of a kind that is not known")
        if head.text in NUMERIC:
            return self.numeric(tree, scope, subject)
        found = self.find(head)
        word = found.name if isinstance(found, Library) else head.text
        if word in CONSTANTS and (isinstance(found, Library) or word in ("[]", "tt")):
            return CONSTANTS[word]
        shown = ", ".join(self.pattern(it, scope) for it in arguments)
        if isinstance(found, Library) and word in ("Some", "Ok", "Err"):
            return f"{word}({shown})"
        if isinstance(found, Constructor):
            if len(arguments) != len(found.arguments):
                raise Refused(f"`{found.name}` has {len(found.arguments)} arguments, and its pattern {len(arguments)}")
            return f"{self.python.name(found.type)}.{py(found.name)}" + (f"({shown})" if shown else "")
        return self.variable(tree, scope)

    def variable(self, tree, scope):
        self.at = spine(tree)[0]
        if not isinstance(tree, Name) or not tree.text[0].islower() or "." in tree.text:
            raise Refused(f"`{self.at.text}` is no constructor that is known")
        name, inner = self.bind(tree, scope, hides=False)
        scope |= inner
        return name

    def numeric(self, tree, scope, subject):
        """A number by zero and suc, or by pos and negsuc: one that is known, or one of which a variable is a part."""
        heads = []
        while isinstance(tree, Apply):
            heads.append(tree.head.text)
            (tree,) = tree.arguments
        add, is_negative = heads.count("suc"), "negsuc" in heads
        if isinstance(tree, Literal) or tree == Name("zero"):
            known = add + (tree.value if isinstance(tree, Literal) else 0)
            return str(-known - 1 if is_negative else known)
        if not (subject or "").isidentifier():
            raise Refused("a number by its parts in a pattern of something else")
        if is_negative:
            guard, rest = f"{subject} < {-add}", f"-{subject} - {add + 1}"
        else:
            guard, rest = (f"{subject} > {add - 1}", f"{subject} - {add}") if add else (f"{subject} >= 0", subject)
        self.guards.append(guard)
        if tree != Name("_"):
            self.binds.append((self.variable(tree, scope), rest))
        return "_"

    # ---- expressions

    def values(self, trees, scope, types=()):
        return [self.value(it, scope, type) for it, type in itertools.zip_longest(trees, types[:len(trees)])]

    def value(self, tree, scope, expected=None):
        """An expression. The type that is expected tells one record from another."""
        match tree:
            case Given(text): return text
            case Literal(value): return repr(value) if isinstance(value, str) or value < 65536 else f"{value:_}"
            case Field(of, field): return within(self.value(of, scope), ATOM) + field_text(field)
            case Name() | Apply(): return self.call(*spine(tree), scope)
            case Operator("∷"): return self.listed(tree, scope, expected)
            case Operator(): return self.operator(tree, scope)
            case If(test, yes, no): return choice(*self.values([test, yes, no], scope))
            case Record(None, _): return self.record(tree, scope, expected)
            case Record(base, fields):
                found = self.find(base)
                record = self.project.record_of(found.type) if isinstance(found, Definition) else None
                return f"replace({self.value(base, scope)}, {self.named(fields, scope, record)})"
            case Lambda(parameters, body): return self.function(parameters, body, scope)
            case Let() | Elim(): return self.inner([], lambda: self.tail(tree, scope)) + "()"
        raise Refused(f"{type(tree).__name__} in an expression")

    def inner(self, parameters, write):
        """An inner function, before the statement that needs it."""
        self.inners += 1
        name = f"inner{self.inners if self.inners > 1 else ''}"
        with self.block(f"def {name}({', '.join(parameters)})"):
            write()
        return name

    def operator(self, tree, scope):
        sign, self.at = tree.sign, tree
        own = Name(f"◌{sign}◌", tree.module, tree.line)
        if isinstance(self.find(own), Definition):
            return self.call(own, [tree.left, tree.right], scope)
        match tree:
            case Operator("≡", left, Name("true")): return self.value(left, scope)
            case Operator("≡", left, Name("false")): return negated(self.value(left, scope))
            case Operator("→", Typed([name], type), rest): return self.for_all(Name(name), type, rest, scope)
        values = self.values([tree.left, tree.right], scope)
        if sign == "→":
            return chain("or", negated(values[0]), values[1])
        if sign in DIVISIONS and is_above_zero(tree.right):
            return chain(DIVISIONS[sign], *values)
        if (sign, 2) not in INLINE:
            raise Refused(f"the operator {sign} is not known")
        return INLINE[sign, 2](*values)

    def listed(self, tree, scope, expected):
        items, item = [], spine(self.project.opened(expected))[1][0] if isinstance(expected, Apply) else None
        while isinstance(tree, Operator) and tree.sign == "∷":
            items.append(self.value(tree.left, scope, item))
            tree = tree.right
        rest = self.value(tree, scope)
        return f"[{', '.join(items + ([] if rest == '[]' else ['*' + within(rest, 5)]))}]"

    def call(self, head, arguments, scope):
        first, *fields = head.text.split(".") if isinstance(head, Name) else [None]
        if first is None or first in scope:
            text = scope[first] if first in scope else self.value(head, scope)
            types = self.taken_by(text) if not fields else []
            return self.applied(text + "".join(map(field_text, fields)), types, arguments, scope)
        self.at, found = head, self.find(head)
        if found is None and fields:
            place = head.module, head.line
            inner = functools.reduce(lambda of, it: Field(of, it, *place), fields, Name(first, *place))
            return self.call(inner, arguments, scope)
        word = head.text if found is None else found.name if isinstance(found, Library) else None
        if word in CONSTANTS and not arguments:
            return CONSTANTS[word]
        match found or self.project.meaning(head):
            case Library(): return self.of_library(found, arguments, scope)
            case Type() if not self.project.states(found):
                raise Refused(f"the type `{found.name}` stands where a value is expected")
            case Constructor(type_, name, taken):
                return self.applied(f"{self.python.name(type_)}.{py(name)}", [it for _, it in taken], arguments, scope)
        self.rests[found] = None
        types, _ = self.python.parameters(found)
        return self.applied(self.python.name(found) + ("" if types else "()"), types, arguments, scope)

    def taken_by(self, name):
        """The types of what a parameter takes, if it is a function."""
        return self.project.arrows(self.types[name])[0] if self.types.get(name) else []

    def applied(self, head, types, arguments, scope):
        """A call: a value that gets fewer arguments than it takes waits for the others."""
        values, head = self.values(arguments, scope, types), within(head, ATOM) if arguments else head
        if 0 < len(values) < len(types):
            return f"partial({', '.join([head, *values])})"
        count = len(types) or len(values)
        return head + "".join(f"({', '.join(some)})" for some in (values[:count], values[count:]) if some)

    def of_library(self, found, arguments, scope):
        name = found.name
        if write := INLINE.get((name, len(arguments))):
            return write(*self.values(arguments, scope))
        if name == "negsuc" and isinstance(arguments[0], Literal):
            return str(-arguments[0].value - 1)
        if name in EACH and len(arguments) == 2 and "FinMap" not in found.path:
            return self.each(name, *arguments, scope)
        word = word_of(found)
        if word is None:
            raise Refused(f"the word `{name}` of the standard library ({found.path}) is not among those of words.py")
        return self.applied(word, [None] * len(inspect.signature(getattr(words, word)).parameters), arguments, scope)

    def each(self, name, function, items, scope):
        """What `map` and its like do, as a comprehension."""
        items = within(self.value(items, scope), 1)
        match function:
            case Lambda(parameters, body) if is_plain(body):
                names, inner = self.bind_all(parameters, scope)
                shown, value = ", ".join(names), self.value(body, inner)
            case _:
                shown = self.fresh("each", scope)
                value = self.value(applied(function, [Given(shown)]), {**scope, "=each": shown})
        return EACH[name].format(within(value, 1) if name == "filter" else value, shown, items)

    def function(self, parameters, body, scope):
        names, inner = self.bind_all(parameters, scope)
        if is_plain(body):
            return Code("lambda", f"lambda{' ' if names else ''}{', '.join(names)}: {self.value(body, inner)}")
        return self.inner(names, lambda: self.tail(body, inner))

    def named(self, fields, scope, record):
        types = {it: type for it, type, _ in record.members} if record else {}
        return ", ".join(f"{py(it)}={self.value(value, scope, types.get(it))}" for it, value in fields)

    def record(self, tree, scope, expected):
        """A record: it is told by what is expected, by the result of the definition, or by what its file knows."""
        self.at, names = tree, {it for it, _ in tree.fields}
        known = [*(self.project.at(*it) for it in tree.module.imports.values()), *tree.module.types.values()]
        pools = [self.project.record_of(expected)], [self.project.record_of(self.result)], known
        fits = ([it for it in pool if isinstance(it, Type) and {x[0] for x in it.members} == names] for pool in pools)
        found, said = [*dict.fromkeys(next(filter(None, fits), []))], ", ".join(sorted(names))
        if len(found) != 1:
            names = " or ".join(it.name for it in found) or "none that is known here"
            raise Refused(f"a record with the fields {said} may be {names}")
        kept = {it for it, _, _ in self.project.fields(found[0])}
        fields = [it for it in tree.fields if it[0] in kept]
        return f"{self.python.name(found[0])}({self.named(fields, scope, found[0])})"


def field_text(field):
    return f"[{field}]" if field in ("0", "1") else f".{py(field)}"


def source_of(pattern):
    """The name of a variable in the original."""
    return pattern.names[0] if isinstance(pattern, Typed) else pattern.text


def is_plain(tree):
    """Whether an expression needs no statements of its own."""
    return not any(isinstance(it, (Let, Elim)) for it in parts(tree))


def are_names(patterns):
    return all(isinstance(it, (Name, Typed)) for it in patterns)


def is_numeric(pattern):
    return any(isinstance(it, Name) and it.text in NUMERIC[1:] for it in parts(pattern))


def is_above_zero(tree):
    match tree:
        case Literal(value): return value > 0
        case Operator("^", left, _): return is_above_zero(left)
    return False
