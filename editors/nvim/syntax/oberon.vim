" Words, comments that nest, strings and numbers of Oberon-07.
if exists('b:current_syntax')
  finish
endif

syntax case match
syntax keyword oberonKeyword ARRAY BEGIN BY CASE CONST DIV DO ELSE ELSIF END FOR IF IMPORT IN IS MOD MODULE
syntax keyword oberonKeyword OF OR POINTER PROCEDURE RECORD REPEAT RETURN THEN TO TYPE UNTIL VAR WHILE
syntax keyword oberonConstant FALSE NIL TRUE
syntax keyword oberonType BOOLEAN BYTE CHAR INTEGER SET
syntax keyword oberonProcedure ABS ASR ASSERT CHR DEC EXCL INC INCL LEN LSL ODD ORD ROR
syntax match oberonNumber /\<\d\+\>\|\<\d\x*H\>/
syntax match oberonString /"[^"]*"\|\<\d\x*X\>/
syntax region oberonComment start=/(\*/ end=/\*)/ contains=oberonComment

highlight default link oberonKeyword Keyword
highlight default link oberonConstant Constant
highlight default link oberonType Type
highlight default link oberonProcedure Function
highlight default link oberonNumber Number
highlight default link oberonString String
highlight default link oberonComment Comment

let b:current_syntax = 'oberon'
