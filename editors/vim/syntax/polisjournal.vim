" Journal texts of polis.
if exists("b:current_syntax")
  finish
endif

syntax match polisHeader /^polis journal [12]$/
syntax match polisEnd /^end [0-9]* \(complete\|limit\)$/
syntax match polisStamp /^@[0-9]*/ nextgroup=polisKind skipwhite
syntax match polisKind /\(^\|\s\)\@<=\(dep\|fire\|idle\)\s\@=/
syntax match polisSign / : \| ; \| -> \|=/

highlight default link polisHeader PreProc
highlight default link polisEnd PreProc
highlight default link polisStamp Number
highlight default link polisKind Statement
highlight default link polisSign Operator

let b:current_syntax = "polisjournal"
