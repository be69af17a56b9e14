" Vim syntax file for models of ivycheck (docs/LANGUAGE.md).
if exists("b:current_syntax")
  finish
endif

syntax case match
syntax keyword rmlItem rml sort define relation function variable axiom conjecture init action final
syntax keyword rmlCommand skip abort assume assert insert remove put
syntax keyword rmlBranch if else choose or
syntax keyword rmlQuantifier forall exists ite
syntax keyword rmlTruth true false
syntax match rmlNumber /\<[0-9]\{1,9}\>/
syntax match rmlSign /<->\|->\|:=\|\~=\|[=~&|*]/
syntax match rmlComment /#.*$/ contains=@Spell

highlight default link rmlItem Keyword
highlight default link rmlCommand Statement
highlight default link rmlBranch Conditional
highlight default link rmlQuantifier Special
highlight default link rmlTruth Boolean
highlight default link rmlNumber Number
highlight default link rmlSign Operator
highlight default link rmlComment Comment

let b:current_syntax = "rml"
