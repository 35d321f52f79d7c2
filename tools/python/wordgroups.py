"""The words that the reader knows, by group, as the sources of `script` have them: crates/script/src/word/GROUP.rt has
a group's rows."""
import dataclasses
import functools
import re

import tables

TOP = tables.TOP
ENUM = re.compile(r"(?m)^pub enum (\w+Word) \{")
ROW = re.compile(r'Row::(answering|without_answer)\(\s*"(\w+)",\s*&\[([^\]]*)\]')
# A part of a word's name, as Alloc and Mem of AllocMem.
PART = re.compile(r"[A-Z]+(?![a-z])|[A-Z][a-z]*")


@dataclasses.dataclass(frozen=True)
class Group:
    """A group of words: its name, which its file has, the enum of its words, and these."""

    name: str
    enum: str
    words: tuple


def row_files():
    """The files with the rows of the reader, a group of words each."""
    return [it for it in sorted(TOP.glob("crates/*/src/word/*.rt")) if ENUM.search(it.read_text(encoding="utf-8"))]


def group_of(file):
    """The group of a file."""
    text = file.read_text(encoding="utf-8")
    return Group(file.stem, ENUM.search(text)[1], tuple(name for _, name, _ in ROW.findall(text)))


@functools.cache
def groups():
    """All groups."""
    return tuple(group_of(file) for file in row_files())


def all_words():
    """The words that the reader knows."""
    return [word for group in groups() for word in group.words]


def kind_name(variant):
    """The name of a kind of argument in docs/words.json: `name-or-none` for NameOrNone."""
    return "-".join(PART.findall(variant)).lower()


def rows():
    """Each word's row: whether it answers, and the kinds of its arguments."""
    found = {}
    for file in row_files():
        for how, name, kinds in ROW.findall(file.read_text(encoding="utf-8")):
            found[name] = how == "answering", [kind_name(it) for it in re.findall(r"Kind::(\w+)", kinds)]
    return found


def function_name(word):
    """The name of a word's function: alloc_mem for AllocMem."""
    return "_".join(PART.findall(word)).lower()


def spellings(group):
    """How names of files spell a group's name: `lists`, `Lists` and `List`; `Signals` for task_signals; `Causing` for
    the word Cause."""
    if group.name == "interrupts":
        return {"interrupts", "Interrupt", "Causing", "causing"}
    last = group.name.rpartition("_")[2]
    one = {"ies": last[:-3] + "y"}.get(last[-3:], last.removesuffix("s"))
    return {group.name, last, one, last.capitalize(), one.capitalize()}
