" Range sessions. Made by extras/editors/make.py: change words.txt.
if exists("b:current_syntax")
  finish
endif
let s:cpo = &cpo
set cpo&vim
syntax case match

syntax match foresightRangesLine "^[ \t]*\%(hold\|free\|do\)\ze\%([ \t\r#]\|$\)"
syntax match foresightRangesOperation "\%([ \t;]\)\@<=\%(get\|put\|swap\|del\|size\|bump\|between\)\ze\%([ \t\r#]\|$\)"
syntax match foresightRangesConstant "\%([ \t;]\)\@<=\%(nil\|any\)\ze\%([ \t\r#]\|$\)"
syntax match foresightRangesNumber "\%([ \t;]\)\@<=-\=\d\+\%(\.\.-\=\d\+\)\=\ze\%([ \t\r#]\|$\)"
syntax match foresightRangesSign ";"
syntax match foresightRangesComment "#.*$"

highlight default link foresightRangesLine Statement
highlight default link foresightRangesOperation Function
highlight default link foresightRangesConstant Constant
highlight default link foresightRangesNumber Number
highlight default link foresightRangesSign Operator
highlight default link foresightRangesComment Comment

let b:current_syntax = "foresightranges"
let &cpo = s:cpo
unlet s:cpo
