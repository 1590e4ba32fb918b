" Assembly texts of burr. Each line of the grammar has a rule of its own, and any other line is an error.
if exists('b:current_syntax')
  finish
endif
let s:cpo_save = &cpo
set cpo&vim
syntax case match

" patterns are very magic (\v)
let s:name = '[A-Za-z][A-Za-z0-9_-]{0,31}'
" -64 to 64
let s:coordinate = '%(0|-?%([1-9]|[1-5][0-9]|6[0-4]))'
" the 24 orientations: the number of minus signs is even for the axes xyz, yzx and zxy, and odd for xzy, yxz and zyx
let s:orientation = '%(%([+-]x[+-]y[+-]z |[+-]y[+-]z[+-]x |[+-]z[+-]x[+-]y )@=%(\+.\+.\+.|\+.-.-.|-.\+.-.|-.-.\+.)'
      \ . '|%([+-]x[+-]z[+-]y |[+-]y[+-]x[+-]z |[+-]z[+-]y[+-]x )@=%(-.-.-.|-.\+.\+.|\+.-.\+.|\+.\+.-.))'

syntax match burrassemblyError /^.\+$/
execute 'syntax match burrassemblyAssembly /\v^assembly ' . s:name . '$/ contains=burrassemblyTitle,burrassemblyWord'
execute 'syntax match burrassemblyShape /\v^shape ' . s:name . '$/ contains=burrassemblyShapeName,burrassemblyWord'
syntax match burrassemblyLayer /^layer$/ contains=burrassemblyWord
syntax match burrassemblyRow /\v^[#.]{1,16}$/ contains=burrassemblyWood,burrassemblyAir
syntax match burrassemblyEnd /^end$/ contains=burrassemblyWord
execute 'syntax match burrassemblyPiece /\v^piece ' . s:name . ' ' . s:name . ' ' . s:orientation
      \ . ' ' . s:coordinate . ' ' . s:coordinate . ' ' . s:coordinate . '$/'
      \ . ' contains=burrassemblyNumber,burrassemblyOrientation,burrassemblyShapeName,burrassemblyPieceName'
      \ . ',burrassemblyWord'

" The parts of lines: of two that begin at one place the later one is taken.
syntax match burrassemblyWood /#\+/ contained
syntax match burrassemblyAir /\.\+/ contained
syntax match burrassemblyNumber /\v-?[0-9]+/ contained
syntax match burrassemblyOrientation /\v%([+-][xyz]){3}/ contained
syntax match burrassemblyTitle /\v[A-Za-z][A-Za-z0-9_-]*/ contained
syntax match burrassemblyShapeName /\v[A-Za-z][A-Za-z0-9_-]*/ contained
syntax match burrassemblyPieceName /\v%(^piece )@6<=[A-Za-z][A-Za-z0-9_-]*/ contained
syntax match burrassemblyWord /\v^[a-z]+/ contained

highlight default link burrassemblyError Error
highlight default link burrassemblyWood Structure
highlight default link burrassemblyAir Comment
highlight default link burrassemblyNumber Number
highlight default link burrassemblyOrientation Constant
highlight default link burrassemblyTitle Title
highlight default link burrassemblyShapeName Type
highlight default link burrassemblyPieceName Identifier
highlight default link burrassemblyWord Keyword

unlet s:name s:coordinate s:orientation
let &cpo = s:cpo_save
unlet s:cpo_save
let b:current_syntax = 'burrassembly'
