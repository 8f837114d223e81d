" :compiler oberon-check has :make compile the workspace of the current folder from the command line. The folder and
" targets may stand behind :make; g:oberon_check names the script, where the package isn't in a clone.
if exists('current_compiler')
  finish
endif
let current_compiler = 'oberon-check'

let s:script = get(g:, 'oberon_check', fnamemodify(resolve(expand('<sfile>:p')), ':h:h:h:h') . '/tools/oberon-check')
execute 'CompilerSet makeprg=' . escape(escape(s:script, ' \') . ' --bytes $*', ' \|"')
CompilerSet errorformat=%f:%l:%c:\ %trror:\ %m,%f:%l:%c:\ %tarning:\ %m,%+Goberon-check:\ %m
