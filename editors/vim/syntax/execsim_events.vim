" Vim syntax file: an event text of execsim. Made by tools/make-pages of tools/machine-keys.toml and docs/words.json.
if exists("b:current_syntax")
  finish
endif
syntax case match
syntax match execsimWrong "^.\+$"
syntax match execsimComment "^#.*$" contains=@Spell
syntax match execsimEvent "^\%(run\|tick\)\ze [1-9]\d*$" nextgroup=execsimNumber skipwhite
syntax match execsimEvent "^irq\ze \%(EXTER\|PORTS\)$" nextgroup=execsimSource skipwhite
syntax match execsimNumber "\d\+$" contained
syntax match execsimSource "\u\+$" contained
highlight default link execsimComment Comment
highlight default link execsimEvent Statement
highlight default link execsimNumber Number
highlight default link execsimSource Constant
highlight default link execsimWrong Error
let b:current_syntax = "execsim_events"
