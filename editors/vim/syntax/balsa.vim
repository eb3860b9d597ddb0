" Colours for Balsa, in the profile of balsadbg.
if exists("b:current_syntax")
  finish
endif
let s:saved_cpo = &cpo
set cpo&vim

syntax case match
syntax iskeyword 48-57,65-90,95,97-122

syntax keyword balsaControl arbitrate begin case continue else end halt if is loop of select sync then while
syntax keyword balsaStructure channel enumeration variable
syntax keyword balsaStructure procedure type nextgroup=balsaDeclared skipwhite skipempty
syntax keyword balsaModifier input output shared
syntax keyword balsaWordOperator and as not or xor
syntax keyword balsaBits bits

" The reserved words once more: behind `procedure` none of them is a name, and directly behind a number (`8bits`) each is a
" word, where Vim sees none.
let s:reserved = 'and|arbitrate|as|begin|bits|case|channel|continue|else|end|enumeration|halt|if|input|is|loop|not|of|or|' .
      \ 'output|procedure|select|shared|sync|then|type|variable|while|xor'
let s:word = '%(' . s:reserved . ')[A-Za-z0-9_]@!'

syntax match balsaName /[A-Za-z][A-Za-z0-9_]*/
syntax match balsaCall /[A-Za-z][A-Za-z0-9_]*\ze\_s*(\%(--\)\@!/
execute 'syntax match balsaDeclared /\v%(' . s:word . ')@![A-Za-z][A-Za-z0-9_]*/ contained'
syntax match balsaNumber /[0-9]\+/ nextgroup=balsaBehindNumber
execute 'syntax match balsaBehindNumber /\v' . s:word . '/ contained'
" The longest spelling wins: `<-` goes before the comment that `--` begins.
syntax match balsaSymbol /:=\|<-\|->\|||\||\|<=\|>=\|\/=\|[<>=+;:,()[\]]\|-/
syntax match balsaComment /--.*$/ contains=balsaTodo,@Spell
syntax region balsaComment matchgroup=balsaComment start=/(--/ end=/--)/ contains=balsaNested,balsaTodo,@Spell
syntax region balsaNested matchgroup=balsaComment start=/(--/ end=/--)/ contains=balsaNested,balsaTodo,@Spell contained
syntax keyword balsaTodo TODO FIXME XXX BUG contained
syntax sync fromstart

highlight default link balsaControl Statement
highlight default link balsaStructure Structure
highlight default link balsaModifier StorageClass
highlight default link balsaWordOperator Operator
highlight default link balsaBits Type
highlight default link balsaBehindNumber Statement
highlight default link balsaNumber Number
highlight default link balsaCall Function
highlight default link balsaDeclared Identifier
highlight default link balsaSymbol Delimiter
highlight default link balsaComment Comment
highlight default link balsaNested Comment
highlight default link balsaTodo Todo

let b:current_syntax = "balsa"
let &cpo = s:saved_cpo
unlet s:saved_cpo s:reserved s:word
