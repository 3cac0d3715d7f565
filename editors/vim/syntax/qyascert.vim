" Vim syntax file
" Language: certificates of qyas

if exists("b:current_syntax")
  finish
endif

syntax match certClaim "^\%(optimal\|infeasible\|empty\)\>"
syntax match certPart "^\%(certificate\|legal\|policy\|refute\|end\|leaves\|prefix\|pivot\|at\|spent\)\>"
syntax match certOurs "^\%(choose\|leaf\|over\)\>"
syntax match certTheirs "^\%(answer\|pick\|illegal\|split\)\>"
syntax match certEntry "^[gql]\ze \d"
syntax match certRange "^range\>"
syntax match certClose "^close\>"
syntax match certRow "\<[ru]\d\+\ze="
syntax match certNumber "\%(\s\|=\)\zs-\?\d\+\%(/\d\+\)\?"

highlight default link certClaim Title
highlight default link certPart Statement
highlight default link certOurs Function
highlight default link certTheirs Type
highlight default link certEntry Function
highlight default link certRange Comment
highlight default link certClose Keyword
highlight default link certRow Identifier
highlight default link certNumber Number

let b:current_syntax = "qyascert"
