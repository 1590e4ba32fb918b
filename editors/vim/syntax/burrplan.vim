" Plan texts of burr. Each line of the grammar has a rule of its own, and any other line is an error.
if exists('b:current_syntax')
  finish
endif
let s:cpo_save = &cpo
set cpo&vim
syntax case match

" patterns are very magic (\v)
let s:name = '[A-Za-z][A-Za-z0-9_-]{0,31}'
let s:slot = '[0-7]'
let s:direction = '[+-][xyz]'
" a tray, or a piece
let s:index = '%([12]?[0-9]|3[01])'
" -32767 to 32767
let s:number = '%(0|-?%([1-9][0-9]{0,3}|[12][0-9]{4}|3[01][0-9]{3}|32[0-6][0-9]{2}|327[0-5][0-9]|3276[0-7]))'
let s:form = '%(0|-?[1-9][0-9]*)%([+-][1-9][0-9]*v[0-7])*'
let s:set = s:index . '%(,' . s:index . ')*'
" before a set, whose numbers have to rise: no number with a comma behind it, and then one that is not above it
let s:rising = '(.*[0-9]@1<!%('
      \ . '([123]?)%(0,\2[0]|1,\2[01]|2,\2[0-2]|3,\2[0-3]|4,\2[0-4]|5,\2[0-5]|6,\2[0-6]|7,\2[0-7]|8,\2[0-8]|9,\2[0-9])'
      \ . '|[123][0-9],[0-9]|2[0-9],1[0-9]|3[01],[12][0-9])[0-9]@!)@!'
" before forms, whose slots have to rise
let s:rising_slots = '(.*v%(0[+-][0-9]+v0|1[+-][0-9]+v[01]|2[+-][0-9]+v[0-2]|3[+-][0-9]+v[0-3]|4[+-][0-9]+v[0-4]'
      \ . '|5[+-][0-9]+v[0-5]|6[+-][0-9]+v[0-6]|7[+-]))@!'

" A kind of line, which has these parts.
function! s:Line(kind, pattern, parts) abort
  let l:parts = map(split(a:parts), '"burrplan" . v:val')
  execute 'syntax match burrplan' . a:kind . ' /\v^' . a:pattern . '$/ contains=' . join(l:parts, ',')
endfunction

syntax match burrplanError /^.\+$/
syntax match burrplanComment /^;.*$/

call s:Line('Plan', 'plan2? ' . s:name . ' %([2-9]|[12][0-9]|3[0-2]) %([1-9][0-9]{0,5}|1000000|auto)',
      \ 'Number Title Constant Declaration')
call s:Line('Proc', 'proc ' . s:name . ' [0-4]%( [0-2])?', 'Number Procedure Declaration')
call s:Line('Exit', s:rising . 'exit ' . s:index . ' %(-|' . s:set . ')', 'Number Comma Constant Keyword')
call s:Line('Result', 'result ' . s:number . ' ' . s:number, 'Number Keyword')
call s:Line('Label', 'label ' . s:name, 'LabelName Declaration')
call s:Line('Frame', s:rising . 'frame ' . s:index . ' %(-|' . s:set . ')', 'Number Comma Constant Keyword')
call s:Line('Slot', 'slot ' . s:slot . ' ' . s:number . ' ' . s:number, 'Number Variable Keyword')
call s:Line('Guard', s:rising_slots . 'guard ' . s:form, 'Number Variable Keyword')
call s:Line('Stack', s:rising_slots . 'stack ' . s:form, 'Number Variable Keyword')
call s:Line('Cost', s:rising_slots . 'cost ' . s:form, 'Number Variable Keyword')
call s:Line('At', 'at ' . s:index . ' apart', 'Number Constant Keyword')
call s:Line('At', s:rising_slots . 'at ' . s:index . ' ' . s:index . '%( ' . s:form . '){3}', 'Number Variable Keyword')
call s:Line('Auto', 'auto', 'Constant')

call s:Line('Code', '%(halt|ret)', 'Flow')
call s:Line('Code', '%(add|sub|drop)', 'Operation')
call s:Line('Code', 'push ' . s:number, 'Number Operation')
call s:Line('Code', '%(load|store) ' . s:slot, 'Variable Operation')
call s:Line('Code', s:rising . 'grip ' . s:set, 'Number Comma Operation')
call s:Line('Code', 'step ' . s:direction, 'Direction Operation')
call s:Line('Code', 'aside ' . s:direction . ' ' . s:index, 'Number Direction Operation')
call s:Line('Code', 'tray ' . s:index, 'Number Operation')
call s:Line('Code', 'jump ' . s:name, 'LabelName Flow')
call s:Line('Code', 'down ' . s:slot . ' ' . s:name, 'Variable LabelName Flow')
call s:Line('Code', 'ask ' . s:number . ' ' . s:number, 'Number Operation')
call s:Line('Code', 'pick%( ' . s:name . '){2,8}', 'LabelName Flow')
call s:Line('Code', 'call ' . s:name, 'Procedure Flow')
call s:Line('Code', 'byte [0-9a-f]{2}', 'Byte Operation')

" The parts of lines: of two that begin at one place the later one is taken.
syntax match burrplanNumber /\v[+-]?[0-9]+/ contained
syntax match burrplanByte /\v[0-9a-f]{2}/ contained
syntax match burrplanVariable /\vv[0-7]|%(^%(slot|load|store|down) )@6<=[0-7]/ contained
syntax match burrplanDirection /\v[+-][xyz]/ contained
syntax match burrplanComma /,/ contained
syntax match burrplanTitle /\v[A-Za-z][A-Za-z0-9_-]*/ contained
syntax match burrplanProcedure /\v[A-Za-z][A-Za-z0-9_-]*/ contained
syntax match burrplanLabelName /\v[A-Za-z][A-Za-z0-9_-]*/ contained
syntax match burrplanConstant /\v( )@1<=%(auto|apart|-)$|^auto$/ contained
syntax match burrplanDeclaration /\v^%(plan2?|proc|label)>/ contained
syntax match burrplanKeyword /\v^[a-z]+/ contained
syntax match burrplanFlow /\v^[a-z]+/ contained
syntax match burrplanOperation /\v^[a-z]+/ contained

highlight default link burrplanError Error
highlight default link burrplanComment Comment
highlight default link burrplanNumber Number
highlight default link burrplanByte Number
highlight default link burrplanVariable Identifier
highlight default link burrplanDirection Constant
highlight default link burrplanComma Delimiter
highlight default link burrplanTitle Title
highlight default link burrplanProcedure Function
highlight default link burrplanLabelName Label
highlight default link burrplanConstant Constant
highlight default link burrplanDeclaration Structure
highlight default link burrplanKeyword Keyword
highlight default link burrplanFlow Conditional
highlight default link burrplanOperation Statement

delfunction s:Line
unlet s:name s:slot s:direction s:index s:number s:form s:set s:rising s:rising_slots
let &cpo = s:cpo_save
unlet s:cpo_save
let b:current_syntax = 'burrplan'
