" Sources of quelea, files ending in .ql.
if exists("b:current_syntax")
  finish
endif

syntax keyword queleaDeclaration type state op transaction
syntax keyword queleaClause contract answer emit when apply uses forall
syntax keyword queleaConditional if then else
syntax keyword queleaOperator and or not
syntax keyword queleaKind int bool text set map
syntax keyword queleaConstant true false unit empty
syntax keyword queleaRelation vis so soo sameobj eq hb hbo txn
syntax keyword queleaCurrent cur
syntax match queleaFunction "\<\(has\|size\|add\|remove\|union\|put\|drop\|get\|sum\)\>\ze\s*("
syntax match queleaNumber "\<[0-9]\+\>"
syntax match queleaMark "/\\\|\\/\|=>\|:="
syntax region queleaText start=+"+ end=+"+ oneline
syntax match queleaComment "#.*$" contains=queleaTodo
syntax keyword queleaTodo contained TODO FIXME

highlight default link queleaDeclaration Structure
highlight default link queleaClause Keyword
highlight default link queleaConditional Conditional
highlight default link queleaOperator Operator
highlight default link queleaKind Type
highlight default link queleaConstant Constant
highlight default link queleaRelation Function
highlight default link queleaCurrent Special
highlight default link queleaFunction Function
highlight default link queleaNumber Number
highlight default link queleaMark Operator
highlight default link queleaText String
highlight default link queleaComment Comment
highlight default link queleaTodo Todo

let b:current_syntax = "quelea"
