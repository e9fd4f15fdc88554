" Scripts of tevents.
if exists("b:current_syntax")
  finish
endif

syntax case match

" Where several match at one place, the last one counts.
syntax match teventsName /[A-Za-z][A-Za-z0-9_]*/
syntax match teventsInner /_[A-Za-z0-9_]*/
syntax match teventsSign /[-<{}();,.=+*|]/
syntax match teventsInteger /-\?[0-9]\+/
syntax match teventsArrow /<-/
syntax match teventsComment /#.*/ contains=teventsTodo,@Spell
syntax keyword teventsTodo contained TODO FIXME XXX

syntax match teventsDeclaration /\%(channels\|thread\)[A-Za-z0-9_]\@!/
syntax match teventsStatement /\%(sync\|emit\|repeat\)[A-Za-z0-9_]\@!/
syntax match teventsFlow /\%(do\|choose\|try\|catch\|throw\|if\|else\)[A-Za-z0-9_]\@!/
syntax match teventsEvent /\%(always\|never\|send\|recv\|fresh\)[A-Za-z0-9_]\@!/

highlight default link teventsComment Comment
highlight default link teventsTodo Todo
highlight default link teventsDeclaration Structure
highlight default link teventsStatement Statement
highlight default link teventsFlow Conditional
highlight default link teventsEvent Function
highlight default link teventsName Identifier
highlight default link teventsInner Special
highlight default link teventsInteger Number
highlight default link teventsSign Delimiter
highlight default link teventsArrow Operator

let b:current_syntax = "tevents"
