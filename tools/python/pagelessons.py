"""The lessons of the page. web/lessons has of each a text, a machine file, an event text, and an exercise with its rule; order.json names them in order.

A text begins with its title, and has parts, each with a title, which may name the step of the run that it is about. The last one is the exercise."""
import json
import pathlib
import re

FOLDER = pathlib.Path(__file__).resolve().parent.parent.parent / "web/lessons"
# How many words a lesson may have.
MOST_WORDS = 400
# What a name in the page begins with, as some examples have the same ones.
PREFIX = "lesson-"
# The kinds of interrupts of a rule, as the command names them.
KINDS = {2: "tick", 1: "PORTS", 4: "EXTER"}


def names():
    """The names of the lessons, in their order."""
    return json.loads((FOLDER / "order.json").read_text(encoding="utf-8"))


def paragraphs(text):
    """The paragraphs of a text, each in one line; an item of a list is one, and begins with a dash."""
    found = re.split(r"\n\n|\n(?=- )", text.strip("\n"))
    return [" ".join(it.split()) for it in found if it.strip()]


def parts_of(text):
    """The title of a lesson, and its parts: each a title, the step that it names or none, and its paragraphs."""
    first, *others = re.split(r"^## ", text, flags=re.M)
    title, _, opening = first.removeprefix("# ").partition("\n")
    parts = [{"title": "", "step": 0, "text": paragraphs(opening)}]
    for it in others:
        head, _, rest = it.partition("\n")
        named = re.match(r"Step (\d+): ", head)
        parts.append({"title": head, "step": int(named[1]) if named else None, "text": paragraphs(rest)})
    return title, parts


def read(name):
    """A lesson: its name in the page, its title, its parts, its two texts and its rule; and its words, which are counted."""
    text, machine, events, rule = ((FOLDER / f"{name}{it}").read_text(encoding="utf-8") for it in (".md", ".toml", ".events", ".json"))
    title, parts = parts_of(text)
    exercise = json.loads(rule)
    return {"name": PREFIX + name, "title": title, "parts": parts, "texts": [machine, events], "rule": exercise, "words": len(f"{text} {exercise['says']}".split())}


def lessons():
    """All lessons, in their order."""
    return [read(it) for it in names()]


def kinds_of(rule):
    """The interrupts of a rule, for a command line."""
    return ",".join(name for bit, name in KINDS.items() if rule["kinds"] & bit)


def is_broken_by(rule, text):
    """Whether what is seen of a way breaks a rule."""
    is_there = lambda pattern: re.search(pattern, text, re.M)
    return bool(is_there("^alert [A-Z]+ ") or any(map(is_there, rule["never"])) or not all(map(is_there, rule["always"])))


def broken_ways(native, rule, machine, events):
    """How many ways break a rule, and how many there are, by the report of the program."""
    _, report = native.run("execexplore", machine.encode(), events.encode(), "--extra", rule["extra"], "--of", kinds_of(rule))
    # (the last part is the checksum of what is above it)
    head, *outcomes, _ = report.decode().rstrip("\n").split("\n\n")
    broken = 0
    for outcome in outcomes:
        first, *lines = outcome.split("\n")
        if is_broken_by(rule, "\n".join(line[2:] for line in lines)):
            broken += int(re.search(r": (\d+) way", first)[1])
    return broken, int(re.search(r": (\d+) way", head)[1])


def changed(text, changes):
    """A text with some parts replaced; each is to be there once, else the answer is None."""
    for old, new in changes:
        if text.count(old) != 1:
            return None
        text = text.replace(old, new)
    return text


def attempts(rule):
    """What is tried of an exercise: as it is, solved, and half solved, each with its changes."""
    return [("as it is", []), ("solved", rule["solution"]), *((f"half solved, {i}", it) for i, it in enumerate(rule["halves"], 1))]


def faults(native, lesson):
    """What is wrong with a lesson: its length, its parts, the steps that they name, and what its rule says of each attempt."""
    rule, (machine, events), wrong = lesson["rule"], lesson["texts"], []
    if lesson["words"] > MOST_WORDS:
        wrong.append(f"it has {lesson['words']} words")
    if lesson["parts"][-1]["title"] != "Exercise":
        wrong.append("its last part is not its exercise")
    if len(rule["halves"]) < 2:
        wrong.append("it has not two half-solutions")
    end = last_step(events)
    wrong += [f"there is no step {it['step']}" for it in lesson["parts"] if it["step"] and it["step"] > end]
    for title, changes in attempts(rule):
        text = changed(machine, changes)
        if text is None:
            wrong.append(f"{title}: a part that it replaces is not there once")
        elif native and (broken_ways(native, rule, text, events)[0] == 0) != (title == "solved"):
            wrong.append(f"{title}: the rule is {'broken' if title == 'solved' else 'kept'}")
    return wrong


def last_step(events):
    """The number of the last step of a run over these events."""
    return sum(1 if word[0] == "irq" else int(word[1]) for word in (line.split(" ") for line in events.splitlines() if line and not line.startswith("#")))
