"""conform/words.h: what the Amiga side knows of the words, from docs/words.json."""
import addresses

HEAD = """/* Made by tools/make-pages from docs/words.json: the words by their numbers, as compiled runs have them. Change it there. */
#ifndef CONFORM_WORDS_H
#define CONFORM_WORDS_H
"""


def text_sum(data):
    """The sum that compiled files and traces have, over items from 0 on: each step takes 31 times the sum and adds the next item."""
    total = 0
    for item in data:
        total = (total * 31 + item) & 0xFFFFFFFF
    return total


def words_sum(words):
    """The sum of the words' names, each with a line feed: a compiled file and the program that reads it have to have the same."""
    return text_sum("".join(f"{name}\n" for name in words).encode())


def is_shown(meaning):
    """Whether a value of this meaning may be an address of a region, which a trace shows as the file has it."""
    return meaning in addresses.OBJECTS or meaning == "any"


def bits(word, kind):
    """Which arguments have a meaning of this kind, as bits."""
    return sum(1 << index for index, one in enumerate(word["arguments"]) if kind(one["is"]))


def answer_kind(word):
    """0 if a word answers nothing, 2 if its answer may be an address, 1 if it is another number."""
    return 0 if word["answer"] is None else 1 + is_shown(word["answer"]["is"])


def row(name, word):
    """The row of a word."""
    numbers = answer_kind(word), int(word["waits"]), bits(word, addresses.OBJECTS.__contains__), bits(word, is_shown)
    return f'{{"{name}", {", ".join(map(str, numbers))}}}'


def header(words):
    """The text of words.h. `words` has each word's description by its name, in their order."""
    names = ",\n    ".join(f"WORD_{name}" for name in words)
    rows = ",\n    ".join(row(name, word) for name, word in words.items())
    layout = "struct word_row { const char *name; unsigned char answers, waits, addresses, shown; };"
    return (
        f"{HEAD}#define WORDS_SUM 0x{words_sum(words):08X}UL\n\nenum {{\n    {names},\n    WORD_COUNT\n}};\n\n"
        f"/* Its name; whether it answers, 2 for what may be an address; whether it may wait; a bit for each argument that is an address, so that a number\n"
        f"   there is one of the file; and for each that may be one, so that a trace shows it as the file has it. */\n{layout}\n"
        f"static const struct word_row word_rows[WORD_COUNT] __attribute__((unused)) = {{\n    {rows}\n}};\n\n#endif\n"
    )
