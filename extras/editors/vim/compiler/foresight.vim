" What `:make` runs and how its lines are read. Made by extras/editors/make.py.
"
" The program's own line names a byte or a line of its input, and no file: the line is placed in the
" file that was given to it. If foresight_where is installed, it writes file, line and column; what
" it advises, in lines that begin with `= `, is part of the message, and the line of the file isn't.
if exists("current_compiler")
  finish
endif
let current_compiler = "foresight"
let s:cpo = &cpo
set cpo&vim
if exists(":CompilerSet") != 2
  command -nargs=* CompilerSet setlocal <args>
endif

" The command of a file: of handlers alone `check`, of a range session `ranges`, of a session with a
" trace `audit`, with several clients `clients`, else `serve`.
let s:command = {"handlers": "check", "ranges": "ranges"}
let s:word = get(s:command, expand("%:e"), search('^%% trace[ \t\r]*$', "nw") ? "audit"
  \ : search('^%% next[ \t\r]*$', "nw") ? "clients" : "serve")
let s:run = "(foresight " . s:word . " < %:S 2>&1" . (s:word ==# "audit" ? ")" : " >/dev/null)")
if executable("foresight_where")
  let s:run .= " \\| foresight_where %:S"
endif
execute "CompilerSet makeprg=" . escape(s:run, ' \|"')
CompilerSet errorformat=%A%f:%l:%c:\ %m,%C=\ %m,%-C%.%#,
  \%+Erefused\ %\\w%\\+\ line\ %l,
  \%+Erefused\ %\\w%\\+\ at\ %\\d%\\+%.%#,
  \%+Erefused\ %\\w%\\+,
  \%+Erejected\ %\\w%\\+\ line\ %l,
  \%+Erejected\ %\\w%\\+%.%#,
  \%+Gusage:%.%#,%+Gno\ memory,%+G%\\w%\\+\ fault,
  \%f:\ %m,%-G%.%#

" A line of the program names a byte, a line or no place: it is placed in the file that was made.
if !exists("*s:Place")
  function s:Place() abort
    let l:entries = getqflist()
    for l:entry in l:entries
      if l:entry.text !~# '^re\(fused\|jected\) ' || l:entry.bufnr
        continue
      endif
      let l:entry.bufnr = bufnr("%")
      let l:entry.valid = 1
      let l:byte = matchstr(l:entry.text, ' at \zs\d\+')
      if l:byte !=# ""
        let l:entry.lnum = byte2line(l:byte + 1)
        let l:entry.lnum = l:entry.lnum > 0 ? l:entry.lnum : line("$")
        let l:entry.col = l:byte + 2 - line2byte(l:entry.lnum)
      elseif !l:entry.lnum
        let l:entry.lnum = 1
      endif
    endfor
    call setqflist(l:entries, "r")
  endfunction
endif
augroup foresight_compiler
  autocmd!
  autocmd QuickFixCmdPost make if &l:makeprg =~# '^(foresight ' | call s:Place() | endif
augroup END

let &cpo = s:cpo
unlet s:cpo
