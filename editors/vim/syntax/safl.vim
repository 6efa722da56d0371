" Vim syntax file for SAFL
if exists("b:current_syntax")
  finish
endif
syntax case match
syntax keyword saflDefinition fun and nextgroup=saflFunction skipwhite
syntax keyword saflConditional if then else case default
syntax keyword saflBinding let in
syntax keyword saflWord cat bits ext
syntax match saflFunction /\<[A-Za-z_][A-Za-z0-9_]*\>/ contained
syntax match saflCall /\<[A-Za-z_][A-Za-z0-9_]*\>\ze\s*(/
syntax match saflNumber /\<\d\+\>/
syntax match saflNumber /\<\d\+'\%(d\d\+\|h\x\+\|b[01]\+\)/
syntax match saflWidth /:\s*\zs\d\+/
syntax match saflOperator /=>\|==\|!=\|<=\|>=\|<<\|>>\|[-=<>+*&|^~]/
syntax match saflComment +//.*$+ contains=saflTodo,@Spell
syntax keyword saflTodo TODO FIXME contained
highlight default link saflDefinition Keyword
highlight default link saflConditional Conditional
highlight default link saflBinding Keyword
highlight default link saflWord Function
highlight default link saflFunction Function
highlight default link saflCall Identifier
highlight default link saflNumber Number
highlight default link saflWidth Type
highlight default link saflOperator Operator
highlight default link saflComment Comment
highlight default link saflTodo Todo
let b:current_syntax = "safl"
