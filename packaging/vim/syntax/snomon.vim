" Vim syntax file: decks of snomon, and programs in SNOBOL4. Words are those of docs/reference/language.md and of snomon-deck(5).
if exists('b:current_syntax')
  finish
endif
syntax case match
syntax match snomonLabel /^[A-Za-z][A-Za-z0-9._]*/
syntax match snomonComment /^\*.*/
syntax match snomonContinued /^[+.]/
syntax match snomonCard /^\$\(ACCOUNTS\|CATALOGUE\|SET\|STREAM\|CREATE\|DELETE\|SETACL\|ENDACL\|SHOWACL\|LIST\|CATALOG\|JOB\|UNIT\|EOJ\|TURN\|DRAIN\|STOP\)\>.*/ contains=snomonNumber
syntax match snomonWrongCard /^\$[A-Za-z]*/
syntax match snomonDollar /^\$\$/
syntax region snomonString start=/'/ end=/'/ oneline
syntax region snomonString start=/"/ end=/"/ oneline
syntax match snomonNumber /\<[0-9]\+\>/
syntax match snomonKeyword /&[A-Z]\+/
syntax match snomonGoto /:\s*[SF]\?([^)]*)\([SF]([^)]*)\)\?/ contains=snomonString
syntax keyword snomonFunction ANY ARBNO BREAK DATATYPE DEFINE DETACH DIFFER DUPL ENDFILE EQ GE GT IDENT INPUT INTEGER LE LEN LGT LT NE NOTANY OUTPUT POS REPLACE REWIND RPOS RTAB SIZE SPAN TAB TABLE TRIM
syntax keyword snomonPattern ABORT ARB BAL FAIL FENCE REM SUCCEED
syntax match snomonEnd /^END\>/
syntax match snomonEntry /^\(user\|group\|mask\|other\|u\|g\|m\|o\):[^ ]*$/
highlight default link snomonLabel Label
highlight default link snomonComment Comment
highlight default link snomonContinued Special
highlight default link snomonCard PreProc
highlight default link snomonDollar Special
highlight default link snomonWrongCard Error
highlight default link snomonString String
highlight default link snomonNumber Number
highlight default link snomonKeyword Identifier
highlight default link snomonGoto Conditional
highlight default link snomonFunction Function
highlight default link snomonPattern Constant
highlight default link snomonEnd Statement
highlight default link snomonEntry Type
let b:current_syntax = 'snomon'
