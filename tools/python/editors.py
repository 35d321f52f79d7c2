"""Highlighting for editors, from the tables of keys and words: a syntax file for Vim and Neovim, and a grammar in the form of TextMate, of machine files and of
event texts."""
import json

import keys
import tables

EDITORS = tables.TOP / "editors"
# What an event text may request; the vertical blank comes with ticks.
SOURCES = ("EXTER", "PORTS")
MADE = "made by tools/make-pages of tools/machine-keys.toml and docs/words.json"
# A variable, a label, and a number of a line, as both kinds of files have them.
NAME = "[a-z][a-z0-9_]*"
NUMBER = r"\$[0-9A-F]+|-?[0-9]+"


def named(words, prints):
    """The words that print a line, or those that do not."""
    return [word["name"] for word in words if word["prints"] == prints]


def key_names(all_tables):
    """The keys that are not tables, and the tables."""
    tables_ = [table["name"] for table in all_tables[1:]]
    return sorted({key["name"] for table in all_tables for key in table["key"]} - set(tables_)), tables_


def vim_words(names):
    """Words as branches of a pattern of Vim, the longest first: the first branch that fits is taken."""
    return r"\|".join(sorted(names, key=lambda it: (-len(it), it)))


def vim_machine(all_tables, words):
    """The syntax file of machine files."""
    key_list, table_list = key_names(all_tables)
    start = r"\%(['\"]\|\%(['\"]@\=[a-z][a-z0-9_]*\s=\s\)\)\@<="
    return rf"""" Vim syntax file: a machine file of execsim. {MADE[0].upper()}{MADE[1:]}.
if exists("b:current_syntax")
  finish
endif
syntax case match
syntax sync fromstart

syntax match execsimError "\S" contained
syntax match execsimComment "#.*$" contains=@Spell
syntax match execsimTable "^\s*\[\[\?\%({vim_words(table_list)}\)\]\]\?"
syntax match execsimKey "\%(^\|[{{,]\)\@<=\s*[\"']\?\%({vim_words(key_list + table_list)}\)[\"']\?\ze\s*="
syntax match execsimValue "\%(=\s*\)\@<=[-+]\?\%(0x\x\+\|0o\o\+\|0b[01]\+\|\d[0-9_]*\)\>"
syntax match execsimBoolean "\%(=\s*\)\@<=\%(true\|false\)\>"

" A line of code, in quotes of either kind.
syntax cluster execsimCode contains=execsimLabel,execsimVariable,execsimNumber,execsimName,execsimUnknown,execsimPlain,execsimCall
syntax region execsimLine matchgroup=execsimQuote start=+'+ end=+'+ oneline contains=@execsimCode
syntax region execsimLine matchgroup=execsimQuote start=+"+ skip=+\\\\\|\\"+ end=+"+ oneline contains=@execsimCode
syntax match execsimVariable "@\?\<{NAME}\>" contained
syntax match execsimNumber "\%(\s\)\@<=\%(\$\x\+\|-\?\d\+\)\>" contained
syntax match execsimName +\\\?"[A-Za-z0-9._-]*\\\?"+ contained
syntax match execsimLabel +\%(['"]\)\@<={NAME}:\ze['"]+ contained
syntax match execsimLabel "\%(\<Jump \)\@<={NAME}" contained
syntax match execsimLabel "\%(\<Jump\%(Z\|NZ\) \S\+ \)\@<={NAME}" contained
syntax match execsimUnknown +{start}\u\w*+ contained
syntax match execsimPlain +{start}\%({vim_words(named(words, False))}\)\>+ contained
syntax match execsimCall +{start}\%({vim_words(named(words, True))}\)\>+ contained
" The value of a name is no line of code.
syntax match execsimText +\%(\<name["']\?\s*=\s*\)\@<=\%("[^"]*"\|'[^']*'\)+
syntax match execsimText +\%(\<source["']\?\s*=\s*\)\@<=\%("[^"]*"\|'[^']*'\)+

highlight default link execsimComment Comment
highlight default link execsimTable Structure
highlight default link execsimKey Identifier
highlight default link execsimValue Number
highlight default link execsimBoolean Boolean
highlight default link execsimQuote Delimiter
highlight default link execsimVariable Normal
highlight default link execsimNumber Number
highlight default link execsimName String
highlight default link execsimText String
highlight default link execsimLabel Label
highlight default link execsimPlain Statement
highlight default link execsimCall Function
highlight default link execsimUnknown Error
let b:current_syntax = "execsim"
"""


def vim_events():
    """The syntax file of event texts."""
    return rf"""" Vim syntax file: an event text of execsim. {MADE[0].upper()}{MADE[1:]}.
if exists("b:current_syntax")
  finish
endif
syntax case match
syntax match execsimWrong "^.\+$"
syntax match execsimComment "^#.*$" contains=@Spell
syntax match execsimEvent "^\%(run\|tick\)\ze [1-9]\d*$" nextgroup=execsimNumber skipwhite
syntax match execsimEvent "^irq\ze \%({vim_words(SOURCES)}\)$" nextgroup=execsimSource skipwhite
syntax match execsimNumber "\d\+$" contained
syntax match execsimSource "\u\+$" contained
highlight default link execsimComment Comment
highlight default link execsimEvent Statement
highlight default link execsimNumber Number
highlight default link execsimSource Constant
highlight default link execsimWrong Error
let b:current_syntax = "execsim_events"
"""


def vim_detect(all_tables):
    """How Vim knows the two kinds of files."""
    _, table_list = key_names(all_tables)
    return rf"""" A TOML file that has a table of a machine is a machine file, and a file NAME.events is an event text. {MADE[0].upper()}{MADE[1:]}.
autocmd BufRead,BufNewFile *.toml if search('^\s*\[\[\%({vim_words(table_list)}\)\]\]', 'nw') | set filetype=execsim | endif
autocmd BufRead,BufNewFile *.events set filetype=execsim_events
"""


def any_of(names):
    """Words as branches of a pattern, the longest first."""
    return "|".join(sorted(names, key=lambda it: (-len(it), it)))


def code_patterns(words, quote):
    """The patterns within a line of code between quotes."""
    start = f"(?:(?<={quote})|(?<== ))"
    inner = r'\\"[A-Za-z0-9._-]*\\"' if quote == '"' else r'"[A-Za-z0-9._-]*"'
    return [
        {"name": "entity.name.label.execsim", "match": rf"(?<={quote}){NAME}:(?={quote})"},
        {"match": rf"(?<!\w)(Jump) ({NAME})", "captures": {"1": {"name": "keyword.control.execsim"}, "2": {"name": "entity.name.label.execsim"}}},
        {
            "match": rf"(?<!\w)(JumpN?Z) (\S+) ({NAME})",
            "captures": {
                "1": {"name": "keyword.control.execsim"},
                "2": {"name": "variable.other.execsim"},
                "3": {"name": "entity.name.label.execsim"},
            },
        },
        {"name": "keyword.control.execsim", "match": rf"{start}(?:{any_of(named(words, False))})\b"},
        {"name": "entity.name.function.execsim", "match": rf"{start}(?:{any_of(named(words, True))})\b"},
        {"name": "string.quoted.other.execsim", "match": inner},
        {"name": "constant.numeric.execsim", "match": rf"(?<= )(?:{NUMBER})(?!\w)"},
        {"name": "variable.other.execsim", "match": rf"@?(?<!\w){NAME}"},
    ]


def textmate_machine(all_tables, words):
    """The grammar of machine files."""
    key_list, table_list = key_names(all_tables)
    text = r"""("[^"]*"|'[^']*')"""
    patterns = [
        {"name": "comment.line.number-sign.execsim", "match": "#.*$"},
        {"name": "entity.name.section.execsim", "match": rf"^\s*\[\[?(?:{any_of(table_list)})\]\]?"},
        {
            "match": rf"\b(name|source)([\"']?)\s*=\s*{text}",
            "captures": {"1": {"name": "support.type.property-name.execsim"}, "3": {"name": "string.quoted.execsim"}},
        },
        {"name": "support.type.property-name.execsim", "match": rf"\b(?:{any_of(key_list + table_list)})(?=[\"']?\s*=)"},
        {"name": "constant.language.execsim", "match": r"(?<==)\s*(?:true|false)\b"},
        {"name": "constant.numeric.execsim", "match": r"(?<==)\s*[-+]?(?:0x[0-9A-Fa-f]+|0o[0-7]+|0b[01]+|[0-9][0-9_]*)\b"},
    ]
    for quote, name in (("'", "single"), ('"', "double")):
        end = "'" if quote == "'" else r'(?<!\\)"'
        patterns.append({"name": f"meta.line.{name}.execsim", "begin": quote, "end": end, "patterns": code_patterns(words, quote)})
    return {"name": "execsim machine file", "scopeName": "source.execsim", "fileTypes": ["toml"], "comment": MADE, "patterns": patterns}


def textmate_events():
    """The grammar of event texts."""
    keyword = {"1": {"name": "keyword.control.execsim"}}
    patterns = [
        {"name": "comment.line.number-sign.execsim", "match": "^#.*$"},
        {"match": r"^(run|tick) ([1-9][0-9]*)$", "captures": keyword | {"2": {"name": "constant.numeric.execsim"}}},
        {"match": rf"^(irq) ({any_of(SOURCES)})$", "captures": keyword | {"2": {"name": "constant.language.execsim"}}},
        {"name": "invalid.illegal.execsim", "match": "^.+$"},
    ]
    return {"name": "execsim event text", "scopeName": "source.execsim-events", "fileTypes": ["events"], "comment": MADE, "patterns": patterns}


def extension():
    """What VS Code reads of the folder: two languages, with their grammars."""
    languages = [
        {"id": "execsim", "aliases": ["execsim machine"], "extensions": [".execsim.toml"], "configuration": "./language.json"},
        {"id": "execsim-events", "aliases": ["execsim events"], "extensions": [".events"], "configuration": "./language.json"},
    ]
    grammars = [{"language": it, "scopeName": f"source.{it}", "path": f"./syntaxes/{it}.tmLanguage.json"} for it in ("execsim", "execsim-events")]
    pattern = {"regexp": r"^(.*):(\d+):(\d+): (error|warning|note)\[([\w-]+)\]: (.*)$", "file": 1, "line": 2, "column": 3, "severity": 4, "code": 5, "message": 6}
    matcher = {"name": "execcheck", "owner": "execsim", "fileLocation": ["autoDetect", "${workspaceFolder}"], "pattern": pattern}
    head = {"name": "execsim", "displayName": "execsim", "description": "Machine files and event texts of execsim", "version": "1.0.0", "publisher": "execsim"}
    contributes = {"languages": languages, "grammars": grammars, "problemMatchers": [matcher]}
    return head | {"engines": {"vscode": "^1.60.0"}, "contributes": contributes}


def as_json(value):
    return json.dumps(value, indent=1, ensure_ascii=False) + "\n"


def made_files(all_tables, words):
    """The text of each file for editors, by its path."""
    vim, code = EDITORS / "vim", EDITORS / "vscode"
    return {
        vim / "syntax" / "execsim.vim": vim_machine(all_tables, words),
        vim / "syntax" / "execsim_events.vim": vim_events(),
        vim / "ftdetect" / "execsim.vim": vim_detect(all_tables),
        code / "syntaxes" / "execsim.tmLanguage.json": as_json(textmate_machine(all_tables, words)),
        code / "syntaxes" / "execsim-events.tmLanguage.json": as_json(textmate_events()),
        code / "package.json": as_json(extension()),
        code / "language.json": as_json({"comments": {"lineComment": "#"}, "brackets": [["[", "]"], ["{", "}"]]}),
    }
