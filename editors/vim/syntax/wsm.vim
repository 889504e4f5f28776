" Queries of wsm.
if exists("b:current_syntax")
  finish
endif
syntax case match
syntax keyword wsmClause KEYS FIELD SOURCES START SKEW LATENESS RECORDS BUDGET SELECT WHERE HAVING WINDOW EMIT FROM
syntax keyword wsmWord RECORD PANE HELD FIXED SLIDING SESSION EVERY EARLY LATE ACCUMULATING DISCARDING RETRACTING
syntax keyword wsmWord PANES ISTREAM DSTREAM RSTREAM
syntax keyword wsmType INT BOOL ENUM
syntax keyword wsmTruth TRUE FALSE
syntax keyword wsmOperator AND OR NOT
syntax keyword wsmChoice IF THEN ELSE END
syntax keyword wsmFunction COUNT SUM MIN MAX ANY ALL
syntax keyword wsmKey KEY
syntax match wsmNumber "\<\d\+\>"
" What no query has: quotes, comments, numbers with a point or a unit, and the operators of other languages.
syntax match wsmError "['\"`#!&|^:@$?\\]\|==\|\<\d\+\.\d\+\|\<\d\+\h\w*"
highlight default link wsmClause Statement
highlight default link wsmWord Keyword
highlight default link wsmType Type
highlight default link wsmTruth Boolean
highlight default link wsmOperator Operator
highlight default link wsmChoice Conditional
highlight default link wsmFunction Function
highlight default link wsmKey Identifier
highlight default link wsmNumber Number
highlight default link wsmError Error
let b:current_syntax = "wsm"
