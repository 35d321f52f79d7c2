"""Matches over a group of words that have no way for all others: a `match` of the code, or the equations of a function
of a definition or a proof, of which each names a word. A word of that group without a way there is refused by the
compiler or the prover, one match after another; here all are found at once, by reading."""
import collections
import dataclasses
import re

import wordgroups

TOP = wordgroups.TOP
MATCH = re.compile(r"^( *)(?!//)\S.*\bmatch\b.*\{$|^( *)match\b.*\{$")
OTHER_ARM = re.compile(r"(?:_|[a-z]\w*)(?: if .*)? =>")
EQUATION = re.compile(r"^( *)([a-z][\w'-]*) (.*?) =(?: |$)")
OTHER = re.compile(r"_|[a-z]\w*")


@dataclasses.dataclass(frozen=True)
class Match:
    """A match over a group: its file, the line of its last way, its function, the group, and the words in it."""

    file: str
    line: int
    name: str
    group: wordgroups.Group
    words: frozenset

    def lacks(self):
        """The words of its group that have no way, in their order."""
        return [word for word in self.group.words if word not in self.words]


def arms_of(lines, at, indent):
    """The arms of the match that begins at a line: their numbers and what is before the arrow."""
    for number in range(at + 1, len(lines)):
        line = lines[number]
        if line.startswith(" " * indent + "}"):
            return
        if line[: indent + 4].isspace() and line[indent + 4 : indent + 5] not in (" ", "", "/", "}"):
            yield number + 1, line[indent + 4 :]


def code_matches(text, by_enum):
    """The matches of a source file that have no way for all others: a name, the last line, a group, and the words."""
    lines = text.split("\n")
    name = ""
    for at, line in enumerate(lines):
        head = re.search(r"\bfn (\w+)", line)
        name = head[1] if head else name
        begun = MATCH.match(line)
        if not begun:
            continue
        arms = list(arms_of(lines, at, len(line) - len(line.lstrip())))
        if any(OTHER_ARM.match(arm) for _, arm in arms):
            continue
        found = collections.defaultdict(list)
        for number, arm in arms:
            for enum, word in re.findall(r"\b(\w+)::(\w+)", arm.split(" =>")[0]):
                if enum in by_enum:
                    found[enum].append((number, word))
        yield from ((name, named[-1][0], by_enum[enum], {word for _, word in named}) for enum, named in found.items())


def arguments_of(pattern):
    """The arguments of an equation, each as it is written."""
    depth, found = 0, [""]
    for sign in pattern:
        depth += {"(": 1, "[": 1, "{": 1, ")": -1, "]": -1, "}": -1}.get(sign, 0)
        if sign == " " and not depth:
            found.append("")
        else:
            found[-1] += sign
    return [it for it in found if it]


def functions_of(text):
    """The equations of each function of a definition or a proof: their lines and their arguments, by its name and
    how far it is indented."""
    found = collections.defaultdict(list)
    for number, line in enumerate(text.split("\n"), 1):
        equation = EQUATION.match(line)
        if equation:
            found[equation[1], equation[2]].append((number, arguments_of(equation[3])))
    return found


def equation_matches(text, by_word):
    """The functions of a definition or a proof that go over words and have no way for all others: as in `code_matches`.
    """
    for (_, name), equations in functions_of(text).items():
        for place in range(max(len(arguments) for _, arguments in equations)):
            ways = [(number, arguments[place]) for number, arguments in equations if place < len(arguments)]
            if any(OTHER.fullmatch(way) for _, way in ways):
                continue
            found = collections.defaultdict(list)
            for number, way in ways:
                word = re.fullmatch(r"(?:\w+\.)?([A-Z]\w*)", way)
                if word and word[1] in by_word:
                    found[by_word[word[1]].name].append((number, word[1]))
            for named in found.values():
                yield name, named[-1][0], by_word[named[0][1]], {word for _, word in named}


def sources():
    """The sources of all crates."""
    parts = (("src", "*.rt"), ("specs", "*.antt"), ("proofs", "*.antt"))
    return sorted(file for part, ending in parts for file in TOP.glob(f"crates/*/{part}/**/{ending}"))


def matches():
    """All matches over a group. One that names less than half of it is of something else that has such names."""
    groups = wordgroups.groups()
    by_enum = {group.enum: group for group in groups}
    by_word = {word: group for group in groups for word in group.words}
    for file in sources():
        text = file.read_text(encoding="utf-8")
        is_code = file.suffix == ".rt"
        for name, line, group, words in code_matches(text, by_enum) if is_code else equation_matches(text, by_word):
            if len(words) > 1 and 2 * len(words) >= len(group.words):
                yield Match(str(file.relative_to(TOP)), line, name, group, frozenset(words))
