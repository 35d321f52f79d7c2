"""Writes docs/DEFINITIONS.md: the definitions as they stand in their files, in the order of the Python file."""
from reading.language import Definition

HEAD = """# Definitions

What a reader has to believe: the definitions that the headline rests on, each below its comment, with its source.
"RKM" is the Amiga ROM Kernel Reference Manual: Libraries; an autodoc is that of the named call; what has no source, or
"project rule", is a choice of this project ([DECISIONS.md](DECISIONS.md)). The files are below `crates/`. That the
definitions say what the manual says is for a reader of the field to judge; nothing proves it.

[dist/definitions.py](../dist/definitions.py) has the same in the same order, as Python that runs. `tools/reading` makes
both.

"""


def source_of(entity):
    """A definition as it stands in its file."""
    lines = [*(f"-- {it}" for it in entity.comment), *entity.item.lines]
    for item, _ in entity.items if isinstance(entity, Definition) else ():
        lines += ["-- " + it for it in item.comment] + item.lines
    return [it.rstrip() for it in lines]


def section(module, entities):
    said = " ".join(module.comment)
    title = said.split(". ")[0].rstrip(".:")
    place = "/".join(module.path.parts[-3:]) if module.path.parts[-2] == "specs" else module.path.name
    lines = [line for it in entities for line in [*source_of(it), ""]]
    more = [said, ""] if len(said) > len(title) + 1 else []
    return [f"### {title}", "", *more, f"`{place}`", "", "```", *lines[:-1], "```", ""]


def page_of(file):
    parts = [(name, module, [it for it in types + own if file.is_own(it)]) for name, module, types, own in file.order]
    parts = [it for it in parts if it[2]]
    for module in dict.fromkeys(it.module for it in file.left_out):
        them = sorted((it for it in file.left_out if it.module is module), key=lambda it: it.line)
        parts.append(("Agreement and the headline", module, them))
    names = list(dict.fromkeys(it[0] for it in parts))
    lines = [f"- [{it}](#{it.lower().replace(' ', '-')})" for it in names] + [""]
    for name in names:
        lines += [f"## {name}", ""]
        for _, module, entities in [it for it in parts if it[0] == name]:
            lines += section(module, entities)
    return HEAD + "\n".join(lines).rstrip("\n") + "\n"
