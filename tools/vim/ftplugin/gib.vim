" File type plugin for sources of Gib: `:make` checks the file, and the list of faults has each of them with its line and column.
if exists("b:did_ftplugin")
  finish
endif
let b:did_ftplugin = 1

setlocal makeprg=GIB_EXPLAIN=line\ gib\ check\ %:S
setlocal errorformat=%f:%l:%c:\ %m,%-Ggib:%.%#,%-Gok
setlocal commentstring=--\ %s
setlocal comments=:--

let b:undo_ftplugin = "setlocal makeprg< errorformat< commentstring< comments<"
