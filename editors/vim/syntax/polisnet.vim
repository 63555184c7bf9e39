" Network texts of polis.
if exists("b:current_syntax")
  finish
endif

syntax keyword polisDeclaration network version domain event machine priority input output state
syntax keyword polisParty from to env
syntax keyword polisRow when do emit absent in nothing value settle
syntax match polisNumber /\<\(0\|[1-9][0-9]*\)\>/
syntax match polisSign /:=\|\.\.\|[=:,+{}]/
syntax match polisComment /#.*$/

highlight default link polisDeclaration Type
highlight default link polisParty StorageClass
highlight default link polisRow Statement
highlight default link polisNumber Number
highlight default link polisSign Operator
highlight default link polisComment Comment

let b:current_syntax = "polisnet"
