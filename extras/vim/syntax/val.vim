" Syntax of VAL sources as valflow takes them.
if exists("b:current_syntax")
  finish
endif
syntax case match
syntax keyword valStatement constant range function returns endfun let in endlet for do iter enditer endfor
syntax keyword valStatement forall construct eval endall
syntax keyword valConditional if then elseif else endif
syntax keyword valType integer boolean array
syntax keyword valBoolean true false
syntax keyword valError undef miss_elt pos_over neg_over unknown zero_divide error
syntax keyword valOperator mod min max plus times and or is
syntax keyword valRefused real character null record oneof tagcase endtag abs exp array_fill array_empty array_addh array_addl
syntax keyword valRefused array_remh array_reml array_limh array_liml array_size array_join array_adjust
syntax match valNumber /\<\d\+\>/
syntax match valAssign /:=/
syntax match valComment /%.*$/
highlight default link valStatement Statement
highlight default link valConditional Conditional
highlight default link valType Type
highlight default link valBoolean Boolean
highlight default link valError Constant
highlight default link valOperator Operator
highlight default link valRefused Error
highlight default link valNumber Number
highlight default link valAssign Operator
highlight default link valComment Comment
let b:current_syntax = "val"
