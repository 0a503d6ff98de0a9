" Vim syntax file
" Language: command scripts of the Amiga (AmigaDOS Release 2), as amishell runs them

if exists('b:current_syntax')
  finish
endif
let s:kept = &cpoptions
set cpoptions&vim

syntax case ignore

syntax match amigascriptFirst '\%1l^#!.*'
syntax match amigascriptDirective '^\.\(key\|k\|def\|dot\|bra\|ket\|dol\|dollar\)\>.*' contains=amigascriptSwitch
syntax match amigascriptDirective '^\.\s.*'
syntax match amigascriptSwitch '/[ASKNMF]\>' contained
syntax match amigascriptComment ';.*' contains=amigascriptTodo
syntax keyword amigascriptTodo contained TODO FIXME XXX
syntax match amigascriptEscape '\*\([NEP"*]\|\d\+\)' contained
syntax region amigascriptString start='"' skip='\*"' end='"' oneline contains=amigascriptEscape,amigascriptVariable,amigascriptReference
syntax match amigascriptVariable '\$\({[^}]*}\|[A-Za-z0-9_]\+\)'
syntax region amigascriptTick matchgroup=amigascriptMark start='`' end='`' oneline contains=amigascriptCommand,amigascriptVariable,amigascriptReference
syntax match amigascriptRedirection '\(^\|\s\)\zs[<>]\{1,2}\ze\S'
" (below the redirections, so that <name> at the beginning of a word is none)
syntax match amigascriptReference '<\(\$\$\|\w\+\(\$[^>]*\)\?\)>'
syntax match amigascriptDevice '\(^\|\s\|["=>]\)\zs[A-Za-z0-9_.-]\+:'
syntax keyword amigascriptFlow Ask Else EndIf EndSkip Execute FailAt If Lab Quit Run Skip
syntax keyword amigascriptCommand Alias Assign Break CD Copy Delete Dir Echo Eval Fault Filenote Get GetEnv Join List MakeDir Path
syntax keyword amigascriptCommand Protect Rename Resident Search Set SetEnv Sort Status Type Unalias Unset UnsetEnv Which Why
syntax keyword amigascriptCondition NOT WARN ERROR FAIL EQ GT GE VAL EXISTS

highlight default link amigascriptFirst PreProc
highlight default link amigascriptDirective PreProc
highlight default link amigascriptSwitch Type
highlight default link amigascriptComment Comment
highlight default link amigascriptTodo Todo
highlight default link amigascriptEscape SpecialChar
highlight default link amigascriptString String
highlight default link amigascriptVariable Identifier
highlight default link amigascriptReference Identifier
highlight default link amigascriptMark Delimiter
highlight default link amigascriptRedirection Operator
highlight default link amigascriptDevice Special
highlight default link amigascriptFlow Conditional
highlight default link amigascriptCommand Statement
highlight default link amigascriptCondition Keyword

let b:current_syntax = 'amigascript'
let &cpoptions = s:kept
unlet s:kept
