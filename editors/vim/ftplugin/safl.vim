if exists("b:did_ftplugin")
  finish
endif
let b:did_ftplugin = 1
setlocal commentstring=//\ %s comments=:// expandtab shiftwidth=2
" Makes the fault of `safl check` a list: NAME:LINE:COL: RULE TEXT, and what safl-explain tells below it
if executable("safl-explain")
  setlocal makeprg=safl-explain\ check\ %:S
else
  setlocal makeprg=safl\ check\ %:S
endif
setlocal errorformat=%E%f:%l:%c:\ %m,%C%*[\ ]\|\ %*[\ ^-]%m,%-C%*[\ 0-9]\|%.%#,%-C%*[\ ]..,%C%*[\ ]=\ %m,%C%*[\ ]%m
let b:undo_ftplugin = "setlocal commentstring< comments< expandtab< shiftwidth< makeprg< errorformat<"
