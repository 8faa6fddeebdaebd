" What a buffer of this type sets. Made by extras/editors/make.py.
if exists("b:did_ftplugin")
  finish
endif
let b:did_ftplugin = 1
setlocal commentstring=#\ %s comments=:#
compiler foresight
let b:undo_ftplugin = "setlocal cms< com< efm< mp< | unlet! b:current_compiler"
