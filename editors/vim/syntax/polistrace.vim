" Trace texts of polis.
if exists("b:current_syntax")
  finish
endif

syntax match polisEvent /^\s*[A-Za-z_][A-Za-z0-9_]*/
syntax match polisSettle /^\s*settle\s*\(#.*\)\?$/ contains=polisComment
syntax match polisNumber /\s\zs\(0\|[1-9][0-9]*\)\>/
syntax match polisComment /#.*$/

highlight default link polisEvent Identifier
highlight default link polisSettle Statement
highlight default link polisNumber Number
highlight default link polisComment Comment

let b:current_syntax = "polistrace"
