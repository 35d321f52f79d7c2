"""What the names in definitions mean: the files of a project and of the kit beneath it, their types and signatures."""
import dataclasses
import functools
import os
import pathlib
import re
import shutil

from reading.language import (Definition, Module, Name, Operator, Type, Typed, before_arrow, parts, refusal, spine,
                              substituted, Refused)


@dataclasses.dataclass(frozen=True)
class Library:
    """A word of the standard library of the logic."""
    path: str
    name: str


@dataclasses.dataclass(frozen=True)
class Constructor:
    type: Type
    name: str
    arguments: list


@dataclasses.dataclass(eq=False)
class RustFile:
    """Where the code declares types that definitions speak of: `below` are the names of its module below the crate."""
    crate: str
    path: pathlib.Path
    place: str
    below: tuple
    text: str
    comment = ()


LIBRARY = ("std.", "core.")
DATA = {"ℕ", "ℤ", "Bool", "List", "Option", "Result", "Float", "FinMap", "Ordering", "Char", "Type"}
RUST = r"(?m)((?:^[ \t]*///[^\n]*\n)*)(?:[ \t]*#\[[^\n]*\n)*pub (enum|struct) {}\b(?:<[^>]*>)? *\{{(?s:(.*?))\n\}}"
MEMBER = re.compile(r"((?:[ \t]*///[^\n]*\n)*)[ \t]*(?:pub )?(\w+)(?:: ([^\n]+?)|\(([^)]*)\)| \{([^}]*)\})?"
                    r"(?: = \d+)?,?[ \t]*\n")
FIELD = re.compile(r"(?m)^(?!\s*//)[^:\n]*: ([^,\n]+)")


class Project:
    def __init__(self, top, changed=()):
        self.top, self.changed, command = pathlib.Path(top) / "crates", dict(changed), shutil.which("rt")
        self.tops = [self.top, *([pathlib.Path(os.path.realpath(command)).parent.parent / "rattle"] if command else [])]
        self.found, self.stated = {}, {}

    # ---- files

    def modules(self):
        """The files of definitions of the project."""
        for path in sorted(self.top.glob("*/specs/**/*.antt")):
            yield self.module(".".join(path.relative_to(self.top).with_suffix("").parts))

    @functools.cache
    def module(self, name):
        crate, *below = name.split(".")
        paths = [top / crate / ("/".join(below) + ".antt") for top in self.tops if below]
        path = next((it for it in paths if it.is_file()), None)
        return path and Module(name, path, self.place(path), self.changed.get(path) or path.read_text(encoding="utf-8"))

    def place(self, path):
        return str(path.relative_to(next(it.parent for it in self.tops if path.is_relative_to(it))))

    def named(self, name):
        """The one definition of a name in the project."""
        every = [it.definitions | it.types for it in self.modules()]
        found = [it[name] for it in every if name in it]
        if len(found) != 1:
            places = ", ".join(f"{it.module.place}:{it.line}" for it in found) or "no file"
            raise Refused(f"`{name}` has to be defined once, and is in {places}")
        return found[0]

    # ---- names

    def meaning(self, name):
        """What a name means where it stands."""
        found = self.find(name.module, name.text)
        if found is None:
            raise refusal(name, f"`{name.text}` is not known")
        return found

    def find(self, module, name):
        if (module, name) not in self.found:
            self.found[module, name] = None  # while it is looked for
            self.found[module, name] = self.look(module, name)
        return self.found[module, name]

    def look(self, module, name):
        if not isinstance(module, Module):
            return self.rust(module.crate, None, name) if module else None
        if found := module.definitions.get(name) or module.types.get(name):
            return found
        if name in module.constructors:
            return constructor_of(module.constructors[name], name)
        for imported in (name, f"◌{name}◌"):
            if imported in module.imports:
                return self.at(*module.imports[imported])
        head, _, rest = name.partition(".")
        return self.at(module.aliases[head], rest) if rest and head in module.aliases else None

    def at(self, path, name):
        """What has a name at a path."""
        if path.startswith(LIBRARY):
            return Library(path, name)
        crate, *below = path.split(".")
        if "declared" not in below:
            module = self.module(path)
            return module and self.find(module, name)
        below = below[below.index("declared") + 1:]
        if below[-1:] == ["TheVariants"]:
            return constructor_of(self.rust(crate, tuple(below[:-2]), below[-2]), name)
        return self.rust(crate, tuple(below[:-1] if below[-1:] == [name] else below), name)

    @functools.cache
    def rust_files(self, crate):
        """The files of the code of a crate."""
        source = next((it / crate / "src" for it in self.tops if (it / crate / "src").is_dir()), None)
        paths = sorted(source.rglob("*.r[ts]")) if source else []
        below = [it.relative_to(source).with_suffix("").parts for it in paths]
        below = [tuple(x for x in it if x not in ("lib", "mod")) for it in below]
        return [RustFile(crate, it, self.place(it), at, it.read_text("utf-8")) for it, at in zip(paths, below)]

    def rust(self, crate, below, name):
        """The type that the code declares: in the file of its module, or else in the first of its crate that does."""
        found = (self.rust_type(it, name) for it in self.rust_files(crate) if below in (None, it.below))
        return next(filter(None, found), None)

    @functools.cache
    def rust_type(self, file, name):
        """The type of a name that a file of the code declares, if it does."""
        match = re.search(RUST.format(re.escape(name)), file.text)
        if not match:
            return None

        def type_of(text):
            word = re.sub(r"^&('\w+ )?", "", text.strip())
            return Name(word if word.isidentifier() else "?", file)

        above, kind, body = match.groups()
        body = re.sub(r"(?m)^[ \t]*(#\[|//(?!/)).*\n", "", body.lstrip("\n") + "\n")
        line, kind = file.text.count("\n", 0, match.start(2)) + 1, "record" if kind == "struct" else "data"
        found = Type(file, name, line, said_above(above), None, kind, [], [])
        for above, member, field, row, fields in MEMBER.findall(body):  # fields with names are arguments
            words = FIELD.findall(fields) if fields else filter(str.strip, row.split(","))
            type = type_of(field) if kind == "record" else [("", type_of(it)) for it in words]
            found.members.append((member, type, said_above(above)))
        if left := MEMBER.sub("", body).strip():
            raise refusal(found, f"`{name}` has a member that is not read: {left}")
        return found

    # ---- types

    def entity(self, tree):
        """What stands at the head of a type, if it is a name."""
        head, _ = spine(tree)
        return self.find(head.module, head.text) if isinstance(head, Name) else None

    def opened(self, tree):
        """A type as it is once abbreviations of types at its head are replaced by what they are."""
        found = self.entity(tree)
        if isinstance(found, Definition) and found.items:
            (_, patterns, body), *more = found.clauses
            if not more and len(patterns) == len(spine(tree)[1]):
                return self.opened(substituted(body, {it.text: x for it, x in zip(patterns, spine(tree)[1])}))
        return tree

    def arrows(self, tree):
        """The types of the arguments that a value of a type takes, and the type of what it then is."""
        found = []
        while isinstance(tree := self.opened(tree), Operator) and tree.sign == "→":
            found += [it for _, it in before_arrow(tree.left)]
            tree = tree.right
        return found, tree

    def record_of(self, tree):
        """The record that a type is, if it is one."""
        found = self.entity(self.opened(tree)) if tree else None
        return found if isinstance(found, Type) and found.kind == "record" else None

    def is_statement(self, tree):
        """Whether a type is a statement, whose values are proofs, and holds no data."""
        _, tree = self.arrows(tree)
        match tree:
            case Operator("×", left, right):
                return all(self.is_statement(of_parameter(it)) for it in (left, right))
            case Operator(): return True
        found = self.entity(tree)
        if isinstance(found, (Definition, Type)):
            if found not in self.stated:
                self.stated[found] = True  # as it speaks of itself
                self.stated[found] = self.states(found)
            return self.stated[found]
        head, _ = spine(tree)
        is_word = isinstance(head, Name) and head.text in ("¬", "⊥", "⊤", "Unit")
        return is_word or isinstance(found, Library) and found.name not in DATA

    def states(self, entity):
        """Whether a definition of a type, or a record, is a statement. One that holds data too is if it speaks of
        others."""
        if isinstance(entity, Definition):
            return all(self.is_statement(body) for _, _, body in entity.clauses) if entity.items else True
        said = [self.is_statement(it) for _, it, _ in entity.members] if entity.kind == "record" else []
        return bool(said) and (all(said) or any(said) and bool(entity.parameters))

    def fields(self, record):
        """The fields of a record that hold data."""
        return [it for it in record.members if not self.is_statement(it[1])]

    def is_type(self, entity):
        """Whether a definition is a type or a statement, and no value."""
        return isinstance(entity, Definition) and spine(self.arrows(entity.type)[1])[0] == Name("Type")

    def trees(self, entity, types_alone=False):
        """The texts of a definition or a type."""
        if isinstance(entity, Type):
            return [[it for _, it, _ in entity.members], entity.parameters]
        return [entity.type, *([patterns, body] for _, patterns, body in ([] if types_alone else entity.clauses))]

    def cites(self, entity, types_alone=False):
        """The definitions and types that one names, in the order of its text."""
        for it in parts(self.trees(entity, types_alone)):
            match it:
                case Name(name): names = [name, name.split(".")[0]]
                case Operator(sign): names = [f"◌{sign}◌"]
                case _: names = []
            for found in (self.find(it.module, name) for name in names):
                found = found.type if isinstance(found, Constructor) else found
                if isinstance(found, (Definition, Type)):
                    yield found


def constructor_of(type, name):
    return next((Constructor(type, name, it[1]) for it in type.members if it[0] == name), None) if type else None


def of_parameter(tree):
    return tree.type if isinstance(tree, Typed) else tree


def said_above(text):
    """The comment that stands above something in the code."""
    return [it.strip()[3:].strip() for it in text.strip().split("\n") if it.strip()]
