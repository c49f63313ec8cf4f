" Vim syntax of REC specifications. Of items that begin at one place the last that is written wins.

if exists('b:current_syntax')
  finish
endif

syntax case match
syntax sync fromstart

" a word, and what may not follow a reserved word
let s:word = '[A-Za-z0-9_]\%([A-Za-z0-9_'']\|-[A-Za-z0-9_]\@=\)*'
let s:end = '\%([A-Za-z0-9_'']\|-[A-Za-z0-9_]\)\@!'
let s:sections = '\%(SORTS\|CONS\|OPNS\|VARS\|RULES\|EVAL\|END-SPEC\)' . s:end

" every byte that is neither layout nor part of a token
syntax match recError /[^ \t\r]/
execute 'syntax match recWord /' . s:word . '/'
execute 'syntax match recSort contained /' . s:word . '/'
execute 'syntax match recDeclared contained /' . s:word . '/'
execute 'syntax match recVariable contained /' . s:word . '/'
execute 'syntax match recApplied contained /' . s:word . '\ze\_s*(/'
execute 'syntax match recConditional /\%(if\|and-if\)' . s:end . '/'
execute 'syntax match recSection /\%(REC-SPEC\|' . s:sections . '\)' . s:end . '/'
syntax match recMark /[:(),]/
syntax match recArrow /->/
syntax match recCondition /->\/\?<-/
syntax match recComment /%.*/ contains=@Spell

syntax cluster recTokens contains=recError,recConditional,recMark,recArrow,recCondition,recComment

" a section goes on to the next one's word
function! s:section(name, words, items)
  execute 'syntax region ' . a:name . ' transparent matchgroup=recSection'
    \ . ' start=/\%(' . a:words . '\)' . s:end . '/ end=/' . s:sections . '/me=s-1'
    \ . ' contains=@recTokens,' . a:items
endfunction
call s:section('recSorts', 'SORTS', 'recSort')
call s:section('recDeclarations', 'CONS\|OPNS', 'recDeclared,recArguments,recResult')
call s:section('recVariables', 'VARS', 'recVariable,recGroup')
call s:section('recTerms', 'RULES\|EVAL', 'recWord,recApplied')

" within declarations: the sorts of arguments, and the one behind the arrow or the colon
execute 'syntax region recArguments contained transparent matchgroup=recMark start=/:/'
  \ . ' matchgroup=NONE end=/->/me=s-1 end=/' . s:sections . '/me=s-1 contains=@recTokens,recSort'
execute 'syntax region recResult contained transparent matchgroup=recArrow start=/->/'
  \ . ' matchgroup=recSort end=/\%(' . s:sections . '\)\@!' . s:word . '/'
  \ . ' matchgroup=NONE end=/' . s:sections . '/me=s-1 contains=@recTokens'
execute 'syntax region recGroup contained transparent matchgroup=recMark start=/:/'
  \ . ' matchgroup=recSort end=/\%(' . s:sections . '\)\@!' . s:word . '/'
  \ . ' matchgroup=NONE end=/' . s:sections . '/me=s-1 contains=@recTokens'

highlight default link recComment Comment
highlight default link recSection Statement
highlight default link recConditional Conditional
highlight default link recArrow Operator
highlight default link recCondition Operator
highlight default link recMark Delimiter
highlight default link recSort Type
highlight default link recDeclared Function
highlight default link recApplied Function
highlight default link recVariable Identifier
highlight default link recError Error

let b:current_syntax = 'rec'
