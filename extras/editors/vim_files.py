"""Vim's files, made from the list of words: forms, and what is put into them."""
from patterns import MARKS, SYMBOL

VIM_SYNTAX = r"""" Handlers and sessions. Made by extras/editors/make.py: change words.txt.
if exists("b:current_syntax")
  finish
endif
let s:cpo = &cpo
set cpo&vim
syntax case match
syntax sync fromstart

syntax keyword foresightDeclare DECLARE
syntax keyword foresightStatement STATEMENT
syntax keyword foresightConstant CONSTANT
syntax keyword foresightForesight FORESIGHT
syntax keyword foresightOperation ON-MAP
syntax keyword foresightOperation ON-SET
syntax match foresightSign "[=!<]=\|[=<+*-]"
syntax match foresightNumber "\<\d\+\>"
syntax match foresightSymbol "'SYMBOL"
syntax match foresightHandler "\(\<handler\s\+\)\@<=[A-Za-z]\w*"
syntax match foresightComment "#.*$"

" Behind the first marker line a line is a request or an entry of a table: its first word, then
" values. Behind `%% trace` it is an event, in which operations and `any` are as in handlers.
syntax match foresightValue "-\=\<\d\+\>\ze\%([ \t\r#]\|$\)" contained
syntax match foresightNil "\<nil\>\ze\%([ \t\r#]\|$\)" contained
syntax match foresightSymbol "'SYMBOL" contained
syntax match foresightFirst "^[ \t]*SYMBOL" contained
syntax match foresightEvent "^[ \t]*\%(EVENTS\)\>" contained
syntax match foresightOperation "\<\%(OPERATIONS\)\>\ze\%([ \t\r#]\|$\)" contained
syntax match foresightConstant "\<any\>\ze\%([ \t\r#]\|$\)" contained
syntax match foresightMark "^\%(MARKS\)[ \t\r]*$" contained
syntax region foresightLines start="^\%(PARTS\)[ \t\r]*$" end="\%$" end="^\ze%% trace[ \t\r]*$"
  \ keepend contains=foresightMark,foresightFirst,foresightValue,foresightNil,foresightSymbol,
  \foresightComment
syntax region foresightTrace start="^%% trace[ \t\r]*$" end="\%$" keepend
  \ contains=foresightMark,foresightEvent,foresightOperation,foresightConstant,foresightValue,
  \foresightNil,foresightSymbol,foresightComment

highlight default link foresightDeclare Structure
highlight default link foresightStatement Statement
highlight default link foresightConstant Constant
highlight default link foresightForesight PreProc
highlight default link foresightOperation Function
highlight default link foresightSign Operator
highlight default link foresightNumber Number
highlight default link foresightValue Number
highlight default link foresightNil Constant
highlight default link foresightSymbol String
highlight default link foresightHandler Identifier
highlight default link foresightFirst Identifier
highlight default link foresightEvent Statement
highlight default link foresightMark PreProc
highlight default link foresightComment Comment

let b:current_syntax = "foresight"
let &cpo = s:cpo
unlet s:cpo
"""
VIM_RANGES = r"""" Range sessions. Made by extras/editors/make.py: change words.txt.
if exists("b:current_syntax")
  finish
endif
let s:cpo = &cpo
set cpo&vim
syntax case match

syntax match foresightRangesLine "^[ \t]*\%(LINES\)\ze\%([ \t\r#]\|$\)"
syntax match foresightRangesOperation "\%([ \t;]\)\@<=\%(SPANS\)\ze\%([ \t\r#]\|$\)"
syntax match foresightRangesConstant "\%([ \t;]\)\@<=\%(nil\|any\)\ze\%([ \t\r#]\|$\)"
syntax match foresightRangesNumber "\%([ \t;]\)\@<=-\=\d\+\%(\.\.-\=\d\+\)\=\ze\%([ \t\r#]\|$\)"
syntax match foresightRangesSign ";"
syntax match foresightRangesComment "#.*$"

highlight default link foresightRangesLine Statement
highlight default link foresightRangesOperation Function
highlight default link foresightRangesConstant Constant
highlight default link foresightRangesNumber Number
highlight default link foresightRangesSign Operator
highlight default link foresightRangesComment Comment

let b:current_syntax = "foresightranges"
let &cpo = s:cpo
unlet s:cpo
"""
VIM_DETECT = """\
" File types of foresight. Made by extras/editors/make.py.
autocmd BufNewFile,BufRead *.handlers,*.session,*.trace setfiletype foresight
autocmd BufNewFile,BufRead *.ranges setfiletype foresightranges
"""
VIM_PLUGIN = """\
" What a buffer of this type sets. Made by extras/editors/make.py.
if exists("b:did_ftplugin")
  finish
endif
let b:did_ftplugin = 1
setlocal commentstring=#\\ %s comments=:#
compiler foresight
let b:undo_ftplugin = "setlocal cms< com< efm< mp< | unlet! b:current_compiler"
"""
VIM_COMPILER = r"""" What `:make` runs and how its lines are read. Made by extras/editors/make.py.
"
" The program's own line names a byte or a line of its input, and no file: the line is placed in the
" file that was given to it. If foresight_where is installed, it writes file, line and column; what
" it advises, in lines that begin with `= `, is part of the message, and the line of the file isn't.
if exists("current_compiler")
  finish
endif
let current_compiler = "foresight"
let s:cpo = &cpo
set cpo&vim
if exists(":CompilerSet") != 2
  command -nargs=* CompilerSet setlocal <args>
endif

" The command of a file: of handlers alone `check`, of a range session `ranges`, of a session with a
" trace `audit`, with several clients `clients`, else `serve`.
let s:command = {"handlers": "check", "ranges": "ranges"}
let s:word = get(s:command, expand("%:e"), search('^%% trace[ \t\r]*$', "nw") ? "audit"
  \ : search('^%% next[ \t\r]*$', "nw") ? "clients" : "serve")
let s:run = "(foresight " . s:word . " < %:S 2>&1" . (s:word ==# "audit" ? ")" : " >/dev/null)")
if executable("foresight_where")
  let s:run .= " \\| foresight_where %:S"
endif
execute "CompilerSet makeprg=" . escape(s:run, ' \|"')
CompilerSet errorformat=%A%f:%l:%c:\ %m,%C=\ %m,%-C%.%#,
  \%+Erefused\ %\\w%\\+\ line\ %l,
  \%+Erefused\ %\\w%\\+\ at\ %\\d%\\+%.%#,
  \%+Erefused\ %\\w%\\+,
  \%+Erejected\ %\\w%\\+\ line\ %l,
  \%+Erejected\ %\\w%\\+%.%#,
  \%+Gusage:%.%#,%+Gno\ memory,%+G%\\w%\\+\ fault,
  \%f:\ %m,%-G%.%#

" A line of the program names a byte, a line or no place: it is placed in the file that was made.
if !exists("*s:Place")
  function s:Place() abort
    let l:entries = getqflist()
    for l:entry in l:entries
      if l:entry.text !~# '^re\(fused\|jected\) ' || l:entry.bufnr
        continue
      endif
      let l:entry.bufnr = bufnr("%")
      let l:entry.valid = 1
      let l:byte = matchstr(l:entry.text, ' at \zs\d\+')
      if l:byte !=# ""
        let l:entry.lnum = byte2line(l:byte + 1)
        let l:entry.lnum = l:entry.lnum > 0 ? l:entry.lnum : line("$")
        let l:entry.col = l:byte + 2 - line2byte(l:entry.lnum)
      elseif !l:entry.lnum
        let l:entry.lnum = 1
      endif
    endfor
    call setqflist(l:entries, "r")
  endfunction
endif
augroup foresight_compiler
  autocmd!
  autocmd QuickFixCmdPost make if &l:makeprg =~# '^(foresight ' | call s:Place() | endif
augroup END

let &cpo = s:cpo
unlet s:cpo
"""


def vim_syntax(words, text):
    """A syntax file of Vim."""
    for name, row in words.items():
        text = text.replace(" " + name.upper() + "\n", " " + " ".join(row) + "\n")
    lists = {"MARKS": MARKS, "PARTS": [mark for mark in MARKS if "trace" not in mark],
             "EVENTS": words["event"], "OPERATIONS": words["on-map"] + words["on-set"],
             "LINES": words["range-line"], "SPANS": words["range"]}
    for name, row in lists.items():
        text = text.replace(name, r"\|".join(row))
    return text.replace("SYMBOL", SYMBOL)


def files(words):
    """Each file with its text."""
    return {
        "vim/syntax/foresight.vim": vim_syntax(words, VIM_SYNTAX),
        "vim/syntax/foresightranges.vim": vim_syntax(words, VIM_RANGES),
        "vim/compiler/foresight.vim": VIM_COMPILER,
        "vim/ftplugin/foresightranges.vim": VIM_PLUGIN,
        "vim/ftdetect/foresight.vim": VIM_DETECT,
        "vim/ftplugin/foresight.vim": VIM_PLUGIN,
    }
