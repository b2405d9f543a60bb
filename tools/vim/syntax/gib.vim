" Vim syntax for sources of Gib. `set runtimepath+=PATH/tools/vim` makes Vim find it.
if exists("b:current_syntax")
  finish
endif

syntax keyword gibDeclaration data fun main
syntax keyword gibKeyword let par and in if then else case of
syntax keyword gibBoolean True False
syntax keyword gibBasicType Int Bool
syntax match gibConstructor "\<\u\w*\>"
syntax match gibNumber "\d\+"
syntax match gibOperator "->\|==\|[-+*<=|]"
syntax keyword gibOperator quot rem
syntax match gibFunction "\%(\<fun\s\+\)\@<=\l\w*"
syntax match gibComment "--.*$" contains=gibTodo
syntax keyword gibTodo TODO FIXME contained

highlight default link gibDeclaration Keyword
highlight default link gibKeyword Statement
highlight default link gibBoolean Boolean
highlight default link gibBasicType Type
highlight default link gibConstructor Structure
highlight default link gibNumber Number
highlight default link gibOperator Operator
highlight default link gibFunction Function
highlight default link gibComment Comment
highlight default link gibTodo Todo

let b:current_syntax = "gib"
