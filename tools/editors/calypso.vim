" Syntax of Calypso programs (*.csl). Put it into ~/.vim/syntax/ and add to your vimrc:
"   autocmd BufRead,BufNewFile *.csl setfiletype calypso
if exists("b:current_syntax")
  finish
endif
syntax keyword calypsoBlock shared main routine parbegin parend
syntax keyword calypsoType int bool void tally
syntax keyword calypsoStatement if else while for break continue return assert print
syntax keyword calypsoConstant true false
syntax keyword calypsoReserved least greatest
syntax match calypsoNumber /\<\d\+\>/
syntax match calypsoOperator /&&\|||\|[-+*\/%!<>=]=\?/
syntax region calypsoText start=/"/ end=/"/ oneline
syntax region calypsoComment start=/\/\// end=/$/
syntax region calypsoComment start=/\/\*/ end=/\*\//
highlight default link calypsoBlock Structure
highlight default link calypsoType Type
highlight default link calypsoStatement Statement
highlight default link calypsoConstant Constant
highlight default link calypsoReserved Error
highlight default link calypsoNumber Number
highlight default link calypsoText String
highlight default link calypsoComment Comment
highlight default link calypsoOperator Operator
let b:current_syntax = "calypso"
