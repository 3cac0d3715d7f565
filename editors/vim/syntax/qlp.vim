" Vim syntax file
" Language: problems of qyas

if exists("b:current_syntax")
  finish
endif

syntax case ignore
syntax match qlpName "[A-Za-z_][A-Za-z0-9_.\[\](){}#$%&@!~']*"
syntax match qlpLabel "[A-Za-z_][A-Za-z0-9_.\[\](){}#$%&@!~']*\ze\s*:"
syntax match qlpNumber "\<\d\+\%(\.\d*\)\?\%(e[+-]\?\d\+\)\?\|\.\d\+\%(e[+-]\?\d\+\)\?"
syntax match qlpRelation "[<>=]=\?\|=[<>]"
syntax match qlpSign "[-+:]"
syntax keyword qlpSense MAXIMIZE MAX MINIMIZE MIN
syntax keyword qlpSection SUBJECT TO ST UNCERTAINTY BOUNDS GENERALS GENERAL BINARIES BINARY EXISTS ALL ORDER END
syntax keyword qlpInfinite INF INFINITY FREE
syntax match qlpComment "\\.*$"

highlight default link qlpLabel Label
highlight default link qlpNumber Number
highlight default link qlpRelation Operator
highlight default link qlpSign Operator
highlight default link qlpSense Statement
highlight default link qlpSection Statement
highlight default link qlpInfinite Error
highlight default link qlpComment Comment

let b:current_syntax = "qlp"
