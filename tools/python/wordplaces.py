"""Where each word of the reader has to be written by hand: tables, matches, tests and stored answers. `.ci/quick` says
what lacks a word, and what still says that it is none; `.ci/adding` compares these places with docs/ADDING.md, which
says how each is written. `wordplaces.py` prints them as JSON."""
import collections
import dataclasses
import functools
import json
import re
import tomllib

import pages
import runcounts
import tables
import wordgroups
import wordmatches

TOP = tables.TOP
# Files of which one at least has to name each word, with what it has of it.
NAMED = (
    ("its row in the definitions", "crates/script/specs/*Words.antt"),
    ("its rule", "crates/execmodel/specs/*.antt"),
    ("its step", "crates/execsim/src/**/*.rt"),
)
# What must not name a word: what says that it is none.
NOT_NAMED = (
    ("a run says that it is no command", "crates/runs/data/not-simulated.runs", r"^== {} is no command$"),
)
# A stored answer that says of a name that it is no word.
UNKNOWN = re.compile(r"\[BadCommand\]: (?:unknown word (\w+)|(\w+) is not one of the calls here)")
# A word and its alert, of which a stored answer is.
ENDING = re.compile(r"(?m)^== (\w+) ([A-Z]+)\b")
COUNTED = re.compile(r"\bthere are (\d+) words\b")


@dataclasses.dataclass(frozen=True)
class Place:
    """A place that lacks a word, or says that it is none: the word, its file, its line, and what is there."""

    word: str
    file: str
    line: int
    what: str

    def __str__(self):
        return f"{self.file}:{self.line}: {self.word}: {self.what}"


@functools.cache
def read(file):
    """The text of a file."""
    return file.read_text(encoding="utf-8", errors="replace")


def name_of(file):
    """A file's path from the top."""
    return str(file.relative_to(TOP))


def line_at(text, at):
    """The line of a place in a text."""
    return text.count("\n", 0, at) + 1


def files_of(pattern):
    """The files of a pattern."""
    return [it for it in sorted(TOP.glob(pattern)) if it.is_file()]


def last_line(text, words):
    """The last line that names one of some words, in a title or a row of its own if there is one; or 1."""
    names = "|".join(words)
    for form in (rf'(?m)^(?:== |name = ")(?:{names})\b', rf"\b(?:{names})\b"):
        found = [it.end() for it in re.finditer(form, text)] if words else []
        if found:
            return line_at(text, max(found))
    return 1


def beside(files, word, group):
    """Where a word would be written: of some files the one that names most of its group, and the last line there."""
    others = [it for it in group.words if it != word]
    file = max(files, key=lambda it: (len({*others} & {*re.findall(r"\w+", read(it))}), it.stem == group.name))
    return name_of(file), last_line(read(file), others)


# ---- what lacks a word

def unmatched():
    """Matches over a group in which a word has no way."""
    for match in wordmatches.matches():
        for word in match.lacks():
            yield Place(word, match.file, match.line, f"`{match.name}` has no way for it")


def listed(group):
    """The two lists of a group's words: the file of each, its line, and its text."""
    source = TOP / "crates" / "script" / "src" / "word" / f"{group.name}.rt"
    lists = [(source, re.search(r"const ALL: [^=]*= \[(.*?)\];", read(source), re.S))]
    for file in files_of("crates/script/specs/*Words.antt"):
        if group.enum in read(file):
            lists.append((file, re.search(rf"\w+_words : List {group.enum}\n\w+ = (.*)", read(file))))
    return [(name_of(file), line_at(read(file), found.end()), found[1]) for file, found in lists if found]


def unlisted():
    """Lists of a group's words that lack one."""
    for group in wordgroups.groups():
        for file, line, text in listed(group):
            lacked = [it for it in group.words if it not in re.findall(r"\w+", text)]
            yield from (Place(word, file, line, "the list of words lacks it") for word in lacked)


def folded():
    """Rules of a group that the list at the end of its definitions does not unfold."""
    for file in files_of("crates/execmodel/specs/*.antt"):
        rules = re.search(r"(?m)^unfoldable pub (\w+_rules) : ⊤\nunfolding (.*)$", read(file))
        for found in re.finditer(r"(?m)^unfoldable pub (does_\w+) :", read(file)) if rules else ():
            if found[1] not in rules[2].split():
                line = line_at(read(file), rules.start())
                yield Place(found[1], name_of(file), line, f"`{rules[1]}` does not unfold it")


def unnamed(found):
    """Files of a pattern of which none names a word, but for those of which it was found already that they lack it."""
    for what, pattern in NAMED:
        files = files_of(pattern)
        named = {it for file in files for it in re.findall(r"\w+", read(file))}
        known = {it.word for it in found if TOP / it.file in files}
        for group in wordgroups.groups():
            for word in group.words:
                if word not in named and word not in known:
                    yield Place(word, *beside(files, word, group), f"it lacks it ({what})")


def without_a_run():
    """Words that no run of a table has, and the number of runs that would change."""
    words = {*wordgroups.all_words()}
    have = {word for run in tables.all_runs() if run.status != 1 for word in run.words(words)}
    numbers = read(runcounts.STDOUT)
    for group in wordgroups.groups():
        for word in group.words:
            if word not in have:
                file, line = beside(files_of("crates/runs/data/*.runs"), word, group)
                yield Place(word, file, line, "no run has it")
                line = line_at(numbers, re.search(rf"(?m)^{file.rpartition('/')[2]}: ", numbers).start())
                yield Place(word, name_of(runcounts.STDOUT), line, "the number of its runs is not there")


def meanings():
    """The rows of tools/words.toml."""
    return {it["name"]: it for it in tomllib.loads(read(TOP / "tools" / "words.toml"))["word"]}


def unexplained():
    """Words of which no stored answer says what `execcheck` says of an alert; of a word without a row, that there is
    none."""
    file, rows = TOP / "crates" / "runs" / "data" / "mistakes" / "alerts.endings", meanings()
    said = {*ENDING.findall(read(file))}
    for group in wordgroups.groups():
        for word in group.words:
            alerts = rows[word].get("alerts", []) if word in rows else []
            lacked = [f"alert {code}" for code in (it.partition(":")[0] for it in alerts) if (word, code) not in said]
            if word not in rows and any(one in group.words for one, _ in said):
                lacked = ["alerts, each by itself,"]
            where = beside([file], word, group)
            yield from (Place(word, *where, f"what is said of its {it} is not there") for it in lacked)


def without_meaning():
    """Words that tools/words.toml lacks, or has and the reader has not."""
    file, names = TOP / "tools" / "words.toml", [*meanings()]
    words = wordgroups.all_words()
    for group in wordgroups.groups():
        for word in group.words:
            if word not in names:
                yield Place(word, *beside([file], word, group), "it lacks it (what it means)")
    for word in names:
        if word not in words:
            yield Place(word, name_of(file), last_line(read(file), [word]), "it has it, and the reader does not")


def lacking():
    """All places that lack a word."""
    found = [*unmatched(), *unlisted()]
    return [*found, *folded(), *unnamed(found), *without_a_run(), *unexplained(), *without_meaning()]


# ---- what says that a word is none

def twice_named(words):
    """The names of Exec, of other systems and of other languages that are words or have two rows, in one table or in
    two: in whatever case, as they are looked for."""
    rows = [(name, file) for table, file in pages.FOREIGN.items() for name, _ in pages.foreign_rows(table)]
    counted = collections.Counter(name.lower() for name, _ in rows)
    known = {word.lower(): word for word in words}
    for name, file in rows:
        if name in words:
            said = "it is a foreign name"
        elif counted[name.lower()] > 1:
            said = "it has two rows"
        elif name.lower() in known:
            said = f"it is {known[name.lower()]} in other letters"
        else:
            continue
        yield Place(name, name_of(file), line_at(read(file), read(file).index(f'"{name}"')), said)


def refused(words):
    """Runs and pages that say of a word that it is none, and stored answers to it."""
    for what, pattern, form in NOT_NAMED:
        for file in files_of(pattern):
            for word in words:
                for found in re.finditer(form.format(word), read(file), re.M):
                    yield Place(word, name_of(file), line_at(read(file), found.start()), what)
    for file in files_of("crates/runs/data/mistakes/*"):
        for found in UNKNOWN.finditer(read(file)):
            word = found[1] or found[2]
            if word in words:
                line = line_at(read(file), found.start())
                yield Place(word, name_of(file), line, "a stored answer says that it is unknown")


def miscounted(words):
    """Tests that count the words, and numbers of runs, that are others."""
    for file in files_of("crates/*/src/**/*.rt"):
        for found in COUNTED.finditer(read(file)):
            if int(found[1]) != len(words):
                said = f"it says that there are {found[1]}, and there are {len(words)}"
                yield Place("all words", name_of(file), line_at(read(file), found.start()), said)
    for line, table, number, counted in runcounts.differing():
        yield Place(table, name_of(runcounts.STDOUT), line, f"it says {number}, and there are {counted}")


def contradicting():
    """All places that say of a word that it is none, or count the words or their runs wrongly."""
    words = wordgroups.all_words()
    return [*twice_named(words), *refused(words), *miscounted(words)]


if __name__ == "__main__":
    print(json.dumps([dataclasses.astuple(it) for it in (*lacking(), *contradicting())]))
