" Colours for specifications and migration scripts of scooter.

if exists("b:current_syntax")
  finish
endif
let s:compatible = &cpoptions
set cpoptions&vim

syn case match

" Of two matches that begin at one place the later one counts.
syn match scooterBadByte "[^ \t\r]"

syn match scooterOperator "->\|==\|!=\|<=\|>=\|&&\|||\|<\|>\|!\||\|-\|+"
syn match scooterPunctuation "::\|:\|,\|\.\|@\|(\|)\|\[\|\]\|{\|}"

syn match scooterNumber "\d\+"
syn match scooterBadNumber "0\d\+"

syn match scooterUpper "\u\w*"
syn match scooterLower "\l\w*"

syn match scooterDeclaration "\%(static\|principal\|model\)\w\@!"
syn match scooterRight "\%(create\|delete\|read\|write\)\w\@!"
syn match scooterConstant "\%(public\|none\|some\|true\|false\)\w\@!"
syn match scooterSelf "\%(self\)\w\@!"
syn match scooterControl "\%(if\|then\|else\|match\|with\)\w\@!"
syn match scooterWordOperator "\%(in\|has\)\w\@!"
syn match scooterFunction "\%(Find\|map\|flat_map\)\w\@!"
syn match scooterType "\%(Bool\|Int\|Text\|Id\|Set\|Option\)\w\@!"
syn match scooterCommand "\%(CreateModel\|DeleteModel\|AddField\|RemoveField\|UpdateFieldPolicy\|UpdatePolicy\|AddStatic\|RemoveStatic\|AddPrincipal\)\w\@!"
syn match scooterWeakening "\%(WeakenFieldPolicy\|WeakenPolicy\)\w\@!"

syn match scooterBadCharacter "[\x01-\x08\x0b-\x1f\x7f]\|\t\|\\." contained
syn match scooterEscape +\\\%(["\\nrt]\|x[0-7][0-9a-f]\)+ contained
syn region scooterUnfinished matchgroup=scooterBadQuote start=+"+ end=+$+ contains=scooterEscape,scooterBadCharacter oneline
syn match scooterText +"\%([^"\\]\|\\.\)*"+ contains=scooterEscape,scooterBadCharacter

syn match scooterComment "#.*" contains=@Spell

hi def link scooterBadByte Error
hi def link scooterBadNumber Error
hi def link scooterBadCharacter Error
hi def link scooterBadQuote Error
hi def link scooterOperator Operator
hi def link scooterPunctuation Delimiter
hi def link scooterNumber Number
hi def link scooterUpper Identifier
hi def link scooterLower Normal
hi def link scooterDeclaration Structure
hi def link scooterRight Label
hi def link scooterConstant Constant
hi def link scooterSelf Special
hi def link scooterControl Conditional
hi def link scooterWordOperator Operator
hi def link scooterFunction Function
hi def link scooterType Type
hi def link scooterCommand Statement
hi def link scooterWeakening Todo
hi def link scooterEscape SpecialChar
hi def link scooterUnfinished String
hi def link scooterText String
hi def link scooterComment Comment

let b:current_syntax = "scooter"
let &cpoptions = s:compatible
unlet s:compatible
