" Programs of CSDN, as docs/LANGUAGE.md has them.
if exists('b:current_syntax')
  finish
endif

syntax keyword csdnItem static const rel topology safety trans pktIn timeout
syntax keyword csdnCommand skip insert remove install uninstall forward flood
syntax keyword csdnBranch if else pick where
syntax keyword csdnRelation ft sent rcv_this
syntax keyword csdnQuantifier forall exists
syntax keyword csdnConnective not and or
syntax keyword csdnTruth true false
syntax keyword csdnPort prt
syntax keyword csdnSort SW HO PR
syntax match csdnNumber '\<[1-9][0-9]*\>'
syntax match csdnConnective '<->\|->\|='
syntax match csdnComment '//.*$' contains=csdnTodo
syntax keyword csdnTodo TODO FIXME contained

highlight default link csdnItem Keyword
highlight default link csdnCommand Function
highlight default link csdnBranch Conditional
highlight default link csdnRelation Identifier
highlight default link csdnQuantifier Statement
highlight default link csdnConnective Operator
highlight default link csdnTruth Boolean
highlight default link csdnPort Function
highlight default link csdnSort Type
highlight default link csdnNumber Number
highlight default link csdnComment Comment
highlight default link csdnTodo Todo

let b:current_syntax = 'csdn'
