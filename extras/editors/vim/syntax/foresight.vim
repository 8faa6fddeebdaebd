" Handlers and sessions. Made by extras/editors/make.py: change words.txt.
if exists("b:current_syntax")
  finish
endif
let s:cpo = &cpo
set cpo&vim
syntax case match
syntax sync fromstart

syntax keyword foresightDeclare map set handler
syntax keyword foresightStatement let if else repeat as reply
syntax keyword foresightConstant nil any nothing
syntax keyword foresightForesight mayuse
syntax keyword foresightOperation get put swap del size bump
syntax keyword foresightOperation has add mark drop count
syntax match foresightSign "[=!<]=\|[=<+*-]"
syntax match foresightNumber "\<\d\+\>"
syntax match foresightSymbol "'[A-Za-z][A-Za-z0-9_.@:-]*"
syntax match foresightHandler "\(\<handler\s\+\)\@<=[A-Za-z]\w*"
syntax match foresightComment "#.*$"

" Behind the first marker line a line is a request or an entry of a table: its first word, then
" values. Behind `%% trace` it is an event, in which operations and `any` are as in handlers.
syntax match foresightValue "-\=\<\d\+\>\ze\%([ \t\r#]\|$\)" contained
syntax match foresightNil "\<nil\>\ze\%([ \t\r#]\|$\)" contained
syntax match foresightSymbol "'[A-Za-z][A-Za-z0-9_.@:-]*" contained
syntax match foresightFirst "^[ \t]*[A-Za-z][A-Za-z0-9_.@:-]*" contained
syntax match foresightEvent "^[ \t]*\%(begin\|done\|delay\|end\)\>" contained
syntax match foresightOperation "\<\%(get\|put\|swap\|del\|size\|bump\|has\|add\|mark\|drop\|count\)\>\ze\%([ \t\r#]\|$\)" contained
syntax match foresightConstant "\<any\>\ze\%([ \t\r#]\|$\)" contained
syntax match foresightMark "^\%(%%\|%% tables\|%% trace\|%% next\)[ \t\r]*$" contained
syntax region foresightLines start="^\%(%%\|%% tables\|%% next\)[ \t\r]*$" end="\%$" end="^\ze%% trace[ \t\r]*$"
  \ keepend contains=foresightMark,foresightFirst,foresightValue,foresightNil,foresightSymbol,
  \foresightComment
syntax region foresightTrace start="^%% trace[ \t\r]*$" end="\%$" keepend
  \ contains=foresightMark,foresightEvent,foresightOperation,foresightConstant,foresightValue,
  \foresightNil,foresightSymbol,foresightComment

highlight default link foresightDeclare Structure
highlight default link foresightStatement Statement
highlight default link foresightConstant Constant
highlight default link foresightForesight PreProc
highlight default link foresightOperation Function
highlight default link foresightSign Operator
highlight default link foresightNumber Number
highlight default link foresightValue Number
highlight default link foresightNil Constant
highlight default link foresightSymbol String
highlight default link foresightHandler Identifier
highlight default link foresightFirst Identifier
highlight default link foresightEvent Statement
highlight default link foresightMark PreProc
highlight default link foresightComment Comment

let b:current_syntax = "foresight"
let &cpo = s:cpo
unlet s:cpo
