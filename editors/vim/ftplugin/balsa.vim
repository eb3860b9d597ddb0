" Settings for Balsa sources.
if exists("b:did_ftplugin")
  finish
endif
let b:did_ftplugin = 1

setlocal commentstring=--\ %s comments=s:(--,e:--),:-- iskeyword=48-57,65-90,95,97-122
setlocal formatoptions-=t formatoptions+=croql
let b:undo_ftplugin = "setlocal commentstring< comments< iskeyword< formatoptions<"
