" Indentation of modules of Oberon-07 by their structure.
if exists('b:did_indent')
  finish
endif
let b:did_indent = 1

setlocal indentexpr=v:lua.require'oberon-bsp.indent'.at(v:lnum)
setlocal indentkeys=o,O,!^F,0=END,0=UNTIL,0=BEGIN,0=RETURN,0=ELSE,0=ELSIF,0\|,0=VAR,0=CONST,0=TYPE,0=PROCEDURE
let b:undo_indent = 'setlocal indentexpr< indentkeys<'
