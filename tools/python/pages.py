"""The parts of pages that are made: tables between two marks, and the index of the examples."""
import re
import tomllib

import tables

DOCS = tables.TOP / "docs"
EXAMPLES = tables.DATA / "examples"


class BadPage(Exception):
    """A page without the marks of a part, or an example that is not in the index."""


def with_part(text, part, made, page):
    """The text of a page with what was made between the marks of a part."""
    begin, end = f"<!-- made by tools/make-pages: {part} -->\n", f"<!-- end of {part} -->\n"
    if text.count(begin) != 1 or text.count(end) != 1:
        raise BadPage(f"{page}: no marks for the part {part}")
    before, rest = text.split(begin)
    return before + begin + "\n" + made + "\n\n" + end + rest.split(end)[1]


def arguments_of(word):
    """How a table names the arguments of a word."""
    return ", ".join(one["text"] for one in word["arguments"])


def answer_of(word):
    """How a table names the answer of a word."""
    return word["answer"]["text"] if word["answer"] else ""


# The most words of a cell of the table of calls: what is beyond comes below the table.
MOST_WORDS = 30


def divided(text):
    """A text in two: as many of its parts as a cell has room for, and the rest."""
    parts = re.split(r"(?<=[;.:]) ", text)
    kept = []
    for part in parts:
        if len(" ".join([*kept, part]).split()) > MOST_WORDS - 1:
            break
        kept.append(part)
    if len(kept) == len(parts):
        return text, ""
    if not kept:
        raise BadPage(f"a cell has a part of more than {MOST_WORDS} words: {text}")
    return " ".join(kept).rstrip(";.:") + " ..", " ".join(parts[len(kept) :])


def more_on_calls(words):
    """What the cells of WORDS's table of calls have no room for."""
    items = []
    for word in words:
        for title, text in (("Its alerts", alerts_of(word)), ("Its effect", word["effect"])):
            rest = divided(text)[1]
            if word["prints"] and rest:
                items.append(f"- `{word['name']}`. {title}: .. {rest}")
    return "\n".join(items)


def alerts_of(word):
    return "; ".join(map(alert_text, word["alerts"]))


def alert_text(alert):
    return alert["code"] + (f": {alert['when']}" if alert["when"] else "")


def plain_words(words):
    """WORDS's table of the words that print nothing."""
    silent = (word for word in words if not word["prints"])
    rows = [(f"`{word['name']}`", arguments_of(word), answer_of(word), word["effect"]) for word in silent]
    return as_table(("Word", "Arguments", "Returns", "Effect"), rows)


def calls(words):
    """WORDS's table of the words that print a line."""
    rows = []
    for word in words:
        if word["prints"]:
            shown = [divided(it)[0] for it in (alerts_of(word), word["effect"])]
            rows.append((f"`{word['name']}`", arguments_of(word), answer_of(word), *shown))
    return as_table(("Word", "Arguments", "Returns", "Alerts, in their order", "Effect"), rows)


ADVICE = tables.TOP / "crates" / "execadvice" / "src"
# The tables of names that are no words, each with its file.
FOREIGN = {table: ADVICE / f"{file}.rt" for file, row in (("foreign", ("NAMES", "ABSENT")), ("elsewhere", ("CALLS", "LOCKS", "SIGNS", "LACKED", "LACKED_SIGNS"))) for table in row}


def foreign_rows(table):
    """The rows of a table of names that are no words, as `execcheck` has them: each name, and what is said of it."""
    text = FOREIGN[table].read_text()
    said = dict(re.findall(r'const (\w+): &str =\s*"((?:[^"\\]|\\.)*)";', text))
    rows = re.search(rf"const {table}: [^=]*= \[\n(.*?)\n\];", text, re.S)[1]
    found = re.findall(r'\(\s*"([^"]+)",\s*(?:"((?:[^"\\]|\\.)*)"|(\w+)),?\s*\)', rows)
    return [(name, (quoted or said[constant]).replace('\\"', '"')) for name, quoted, constant in found]


# The functions of exec.library V37, in the order of its table of functions.
EXEC = """
Supervisor InitCode InitStruct MakeLibrary MakeFunctions FindResident InitResident Alert Debug Disable Enable Forbid Permit SetSR SuperState UserState
SetIntVector AddIntServer RemIntServer Cause Allocate Deallocate AllocMem AllocAbs FreeMem AvailMem AllocEntry FreeEntry Insert AddHead AddTail Remove
RemHead RemTail Enqueue FindName AddTask RemTask FindTask SetTaskPri SetSignal SetExcept Wait Signal AllocSignal FreeSignal AllocTrap FreeTrap AddPort
RemPort PutMsg GetMsg ReplyMsg WaitPort FindPort AddLibrary RemLibrary OldOpenLibrary CloseLibrary SetFunction SumLibrary AddDevice RemDevice OpenDevice
CloseDevice DoIO SendIO CheckIO WaitIO AbortIO AddResource RemResource OpenResource RawDoFmt GetCC TypeOfMem Procure Vacate OpenLibrary InitSemaphore
ObtainSemaphore ReleaseSemaphore AttemptSemaphore ObtainSemaphoreList ReleaseSemaphoreList FindSemaphore AddSemaphore RemSemaphore SumKickData
AddMemList CopyMem CopyMemQuick CacheClearU CacheClearE CacheControl CreateIORequest DeleteIORequest CreateMsgPort DeleteMsgPort
ObtainSemaphoreShared AllocVec FreeVec AttemptSemaphoreShared ColdReboot StackSwap CachePreDMA CachePostDMA
""".split()


def from_c_absent(words):
    """FROM-C's table of the functions of Exec that are no words, those with one reason in one row: each one that is not here, and then each one that
    is written otherwise."""
    rows = [*foreign_rows("ABSENT"), *(row for row in foreign_rows("NAMES") if row[0] in EXEC)]
    lacking = set(EXEC) - {word["name"] for word in words} - {name for name, _ in rows}
    if lacking:
        raise BadPage(f"crates/execadvice/src/foreign.rt: nothing is said of {', '.join(sorted(lacking))}, which exec.library has")
    names = {}
    for name, reason in rows:
        names.setdefault(reason, []).append(f"`{name}`")
    return as_table(("Not here", "Why, or what serves"), [(", ".join(found), reason) for reason, found in names.items()])


def as_table(head, rows):
    """A table of a page; an empty cell is one space."""
    lines = ["| " + " | ".join(head) + " |", "|" + "---|" * len(head)]
    return "\n".join(lines + ["|" + "|".join(f" {cell} " if cell else " " for cell in row) + "|" for row in rows])


def number_text(value, base):
    return f"`${value:X}`" if base == 16 else f"`{value}`"


def numbers(groups):
    """The table of Exec's numbers."""
    rows = []
    for group in groups:
        shown = ", ".join(f"{name} {number_text(value, group['base'])}" for name, value in group["of"])
        rows.append((group["title"], f"`{group['header']}`", shown, group["says"]))
    return as_table(("What", "Header file", "Numbers", "Use"), rows)


def from_c(words):
    """FROM-C's table: what a C program writes, and the line for it."""
    rows = []
    for word in words:
        rows.append((f"`{word['c'].replace('|', chr(92) + '|')}`", f"`{word['here']}`"))
    return as_table(("In C", "Here"), rows)


def first_comment(path):
    """The sentence that an example begins with."""
    for line in path.read_text().splitlines():
        if line.startswith("# "):
            return line[2:]
    raise BadPage(f"{path}: no comment says what the example shows")


def index_of_examples(words):
    """The index of the examples, by topic, with the words that each uses."""
    topics = tomllib.loads((tables.TOP / "tools" / "topics.toml").read_text())["topic"]
    listed = [name for topic in topics for name in topic["examples"]]
    there = sorted(path.stem for path in EXAMPLES.glob("*.toml"))
    if sorted(listed) != there:
        raise BadPage(f"tools/topics.toml: not each example once: {sorted(set(listed).symmetric_difference(there)) or 'one is there twice'}")
    parts = []
    for topic in topics:
        rows = [example_row(name, words) for name in topic["examples"]]
        parts.append(f"## {topic['title']}\n\n" + as_table(("Example", "What it shows", "Calls"), rows))
    return "\n\n".join(parts)


def count_of_runs():
    """What EXAMPLES says of the tables of runs."""
    count = sum(1 for _ in tables.all_runs())
    return f"The tables in [crates/runs/data](../crates/runs/data) have {count:,} runs more, in a form that only a program of this repository reads."


def example_row(name, words):
    path = EXAMPLES / f"{name}.toml"
    run = tables.Run(name, "examples", "", path.read_text(), "", 0, "", None)
    used = [f"`{word}`" for word in run.words(words) if words[word]["prints"] and word != "Print"]
    folder = EXAMPLES.relative_to(tables.TOP)
    return f"[{name}](../{folder}/{name}.toml)", re.sub(r"\|", r"\\|", first_comment(path)), ", ".join(used)
