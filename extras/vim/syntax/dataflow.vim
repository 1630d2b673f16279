" Syntax of valflow's cell files.
if exists("b:current_syntax")
  finish
endif
syntax case match
syntax match dataflowHeader /\%1l^dataflow \d\+ \d\+$/
syntax match dataflowEnd /^end$/
syntax match dataflowCell /^\d\+/ nextgroup=dataflowKind skipwhite
syntax match dataflowKind /\<[A-Z_]\+\>/ contained
syntax keyword dataflowWord stage loop ports dests
syntax match dataflowArc /@\d\+/
syntax match dataflowLoaded /!\S\+/
syntax match dataflowConstant /=\S\+/
syntax match dataflowDest /\<\d\+\.\d\+\>/
highlight default link dataflowHeader PreProc
highlight default link dataflowEnd PreProc
highlight default link dataflowCell Label
highlight default link dataflowKind Function
highlight default link dataflowWord Keyword
highlight default link dataflowArc Identifier
highlight default link dataflowLoaded Special
highlight default link dataflowConstant Constant
highlight default link dataflowDest Number
let b:current_syntax = "dataflow"
