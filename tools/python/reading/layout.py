"""Lays out Python: expressions in lines of at most 120 columns."""
import re
import textwrap

WIDTH = 120
PIECE = re.compile(r"""'(?:\\.|[^'\\])*'|"(?:\\.|[^"\\])*"|.""")
# Where an expression is broken that stands in brackets, from what binds least on.
BREAKS = [re.compile(f" (?={it} )") for it in ("for", "(?:if|else)", "or", "and", "(?:[=!]=|<=?)", "[+|-]")]
LEVELS = {"lambda": 0, "if": 0, "or": 1, "and": 2, "not": 3, "==": 4, "!=": 4, "<": 4, "<=": 4, "|": 5, "^": 6, "&": 7,
          "+": 8, "-": 8, "*": 9, "//": 9, "%": 9, "**": 11}
ATOM = 20


class Code(str):
    """An expression with the sign that joins its parts. What is a plain text binds most tightly."""

    def __new__(cls, sign, text, item=None):
        found = super().__new__(cls, text)
        found.sign, found.item = sign, item
        return found


def within(code, level):
    """An expression, in parentheses if it binds less tightly."""
    return code if LEVELS.get(getattr(code, "sign", None), ATOM) >= level else f"({code})"


def chain(sign, first, second):
    """Two operands with a sign between them. Where it makes no difference which are taken first they stand in a row."""
    own, is_one_way = LEVELS[sign], sign in ("**", "==", "!=", "<", "<=")
    is_same = sign in ("and", "or", "+", "*", "|", "&") and getattr(second, "sign", None) == sign
    mixed = [f"({it})" if sign == "or" and getattr(it, "sign", None) == "and" else it for it in (first, second)]
    return Code(sign, f"{within(mixed[0], own + is_one_way)} {sign} {within(mixed[1], own + (not is_same))}")


def choice(test, yes, no):
    return Code("if", f"{within(yes, 1)} if {within(test, 1)} else {no}")


def negated(code):
    return code.item if getattr(code, "sign", None) == "not" else Code("not", f"not {within(code, 3)}", within(code, 3))


def masked(text):
    """A text with `_` in the place of all that is in brackets or quotes."""
    found, deep = [], 0
    for it in PIECE.findall(text):
        deep -= it in ")]"
        found.append(it if deep == 0 and len(it) == 1 else "_" * len(it))
        deep += it in "(["
    return "".join(found)


def split(pattern, text, mask):
    """The parts of a text between those places that a pattern finds outside brackets."""
    cuts = [it.start() for it in re.finditer(pattern, mask)]
    return [text[start:end].strip(", ") for start, end in zip([0, *cuts], [*cuts, len(text)])]


def lay(text, indent, before=0, after=0):
    """The lines of an expression in brackets: the first goes on where it stands, `before` columns after the margin;
    `after` columns follow the last."""
    if indent + before + len(text) + after <= WIDTH:
        return [text]
    mask, margin = masked(text), " " * indent
    if mask.startswith("lambda"):
        cut = mask.index(": ") + 2
        first, *more = lay(bracketed(text[cut:]), indent, before + cut, after)
        return [text[:cut] + first, *more]
    for pattern in BREAKS:
        if pattern.search(mask):
            first, *more = [line for it in split(pattern, text, mask) for line in under(it, indent)]
            return [first.strip(), *more]
    groups = list(re.finditer(r"[(\[](_*)[)\]]", mask))
    if not groups:
        return [text]
    start, end = max((it.span(1) for it in groups), key=lambda it: it[1] - it[0])
    inside = text[start:end]
    inner = masked(inside)
    items = [inside] if " for " in inner else split(", ", inside, inner)
    is_lone = len(items) == 1 and (text[:start] == "(" or " for " in inner)
    comma = "" if is_lone else ","
    is_row = len(items) > 1 and len(margin) + 4 + len(inside) < WIDTH and not re.search(r"=|\blambda .*, ", inner)
    rows = [f"{margin}    {inside}"] if is_row else [it for x in items for it in under(x, indent + 4, "", comma)]
    return [text[:start], *rows, margin + text[end:]]


def under(text, indent, word="", end=""):
    """The lines of an expression with what stands before and after it."""
    first, *more = lay(text, indent, len(word), len(end))
    found = [" " * indent + word + first, *more]
    return [*found[:-1], found[-1] + end]


def bracketed(text):
    """An expression that may be broken: in parentheses, if it has no brackets of its own around it."""
    mask = masked(text)
    return f"({text})" if not mask.startswith("lambda") and any(it.search(mask) for it in BREAKS) else text


def statement(word, text, indent, end=""):
    """The lines of a statement that ends with an expression."""
    return under(text if indent + len(word + text + end) <= WIDTH else bracketed(text), indent, word, end)


def comment(text, indent=0):
    """A comment in lines."""
    margin = " " * indent + "# "
    return textwrap.wrap(text, WIDTH, initial_indent=margin, subsequent_indent=margin, break_long_words=False,
                         break_on_hyphens=False)
