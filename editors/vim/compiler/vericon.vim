" :compiler vericon, then :make checks the program at hand and :cwindow shows where it is refused.
" vericon-places has to be on the path.
let current_compiler = 'vericon'
CompilerSet makeprg=vericon-places\ check\ %:S
CompilerSet errorformat=%f:%l:%c:\ %m,%-G%.%#
