" Vim syntax file: a machine file of execsim. Made by tools/make-pages of tools/machine-keys.toml and docs/words.json.
if exists("b:current_syntax")
  finish
endif
syntax case match
syntax sync fromstart

syntax match execsimError "\S" contained
syntax match execsimComment "#.*$" contains=@Spell
syntax match execsimTable "^\s*\[\[\?\%(library\|softint\|region\|server\|task\)\]\]\?"
syntax match execsimKey "\%(^\|[{,]\)\@<=\s*[\"']\?\%(tick_micros\|library\|quantum\|softint\|version\|region\|server\|source\|attrs\|claim\|start\|base\|code\|name\|pool\|size\|task\|pri\)[\"']\?\ze\s*="
syntax match execsimValue "\%(=\s*\)\@<=[-+]\?\%(0x\x\+\|0o\o\+\|0b[01]\+\|\d[0-9_]*\)\>"
syntax match execsimBoolean "\%(=\s*\)\@<=\%(true\|false\)\>"

" A line of code, in quotes of either kind.
syntax cluster execsimCode contains=execsimLabel,execsimVariable,execsimNumber,execsimName,execsimUnknown,execsimPlain,execsimCall
syntax region execsimLine matchgroup=execsimQuote start=+'+ end=+'+ oneline contains=@execsimCode
syntax region execsimLine matchgroup=execsimQuote start=+"+ skip=+\\\\\|\\"+ end=+"+ oneline contains=@execsimCode
syntax match execsimVariable "@\?\<[a-z][a-z0-9_]*\>" contained
syntax match execsimNumber "\%(\s\)\@<=\%(\$\x\+\|-\?\d\+\)\>" contained
syntax match execsimName +\\\?"[A-Za-z0-9._-]*\\\?"+ contained
syntax match execsimLabel +\%(['"]\)\@<=[a-z][a-z0-9_]*:\ze['"]+ contained
syntax match execsimLabel "\%(\<Jump \)\@<=[a-z][a-z0-9_]*" contained
syntax match execsimLabel "\%(\<Jump\%(Z\|NZ\) \S\+ \)\@<=[a-z][a-z0-9_]*" contained
syntax match execsimUnknown +\%(['\"]\|\%(['\"]@\=[a-z][a-z0-9_]*\s=\s\)\)\@<=\u\w*+ contained
syntax match execsimPlain +\%(['\"]\|\%(['\"]@\=[a-z][a-z0-9_]*\s=\s\)\)\@<=\%(JumpNZ\|JumpZ\|Jump\|Add\|And\|Set\|Sub\|Or\)\>+ contained
syntax match execsimCall +\%(['\"]\|\%(['\"]@\=[a-z][a-z0-9_]*\s=\s\)\)\@<=\%(AttemptSemaphore\|ReleaseSemaphore\|CreateIORequest\|DeleteIORequest\|ObtainSemaphore\|CreateMsgPort\|DeleteMsgPort\|CloseLibrary\|AllocSignal\|CloseDevice\|OpenLibrary\|FreeSignal\|LibOpenCnt\|OpenDevice\|PortIgnore\|PortSignal\|RemLibrary\|SetMsgWord\|SetTaskPri\|PortCause\|SetSignal\|AllocMem\|AvailMem\|FindName\|FindPort\|FindTask\|FreeList\|FreeNode\|IOMicros\|ReplyMsg\|WaitPort\|AbortIO\|AddHead\|AddPort\|AddTail\|AddTask\|CheckIO\|Disable\|Enqueue\|FreeMem\|FreeMsg\|FreeSem\|IOError\|IOFlags\|MsgType\|MsgWord\|NewList\|NewNode\|RemHead\|RemPort\|RemTail\|RemTask\|Enable\|Forbid\|GetMsg\|IOSecs\|Insert\|NewMsg\|NewSem\|Permit\|PutMsg\|Remove\|SendIO\|Signal\|WaitIO\|Cause\|First\|Print\|SetIO\|DoIO\|Last\|Pred\|Succ\|Wait\)\>+ contained
" The value of a name is no line of code.
syntax match execsimText +\%(\<name["']\?\s*=\s*\)\@<=\%("[^"]*"\|'[^']*'\)+
syntax match execsimText +\%(\<source["']\?\s*=\s*\)\@<=\%("[^"]*"\|'[^']*'\)+

highlight default link execsimComment Comment
highlight default link execsimTable Structure
highlight default link execsimKey Identifier
highlight default link execsimValue Number
highlight default link execsimBoolean Boolean
highlight default link execsimQuote Delimiter
highlight default link execsimVariable Normal
highlight default link execsimNumber Number
highlight default link execsimName String
highlight default link execsimText String
highlight default link execsimLabel Label
highlight default link execsimPlain Statement
highlight default link execsimCall Function
highlight default link execsimUnknown Error
let b:current_syntax = "execsim"
