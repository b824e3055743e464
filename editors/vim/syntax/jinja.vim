" Highlights the tags of templates, over HTML.
if exists('b:current_syntax')
  finish
endif
runtime! syntax/html.vim
unlet! b:current_syntax

syntax region jtComment start=/{#/ end=/#}/ containedin=ALLBUT,@jtInside
syntax region jtRaw start=/{%[-+]\?\s*raw\s*[-+]\?%}/ end=/{%[-+]\?\s*endraw\s*[-+]\?%}/ containedin=ALLBUT,@jtInside
syntax region jtBlock matchgroup=jtDelimiter start=/{%[-+]\?/ end=/[-+]\?%}/ contains=@jtTokens containedin=ALLBUT,@jtInside
syntax region jtPrint matchgroup=jtDelimiter start=/{{[-+]\?/ end=/-\?}}/ contains=@jtTokens containedin=ALLBUT,@jtInside

syntax cluster jtInside contains=jtComment,jtRaw,jtBlock,jtPrint,@jtTokens
syntax cluster jtTokens contains=jtStatement,jtOperator,jtConstant,jtString,jtNumber,jtFilter,jtTest,jtBraces

syntax region jtBraces start=/{/ end=/}/ contained contains=@jtTokens
syntax keyword jtStatement contained if elif else endif for endfor set endset with endwith filter
syntax keyword jtStatement contained endfilter autoescape endautoescape macro endmacro block endblock
syntax keyword jtStatement contained extends include import from as ignore missing context without scoped required
syntax keyword jtOperator contained and or not in is
syntax keyword jtConstant contained true false none True False None
syntax region jtString contained start=/"/ skip=/\\./ end=/"/
syntax region jtString contained start=/'/ skip=/\\./ end=/'/
syntax match jtNumber contained /\<\d[0-9a-fA-FxXoObB_]*\>/
syntax match jtFilter contained /|\s*\zs\h\w*/
syntax match jtTest contained /\<is\s\+\(not\s\+\)\?\zs\h\w*/

highlight default link jtComment Comment
highlight default link jtDelimiter PreProc
highlight default link jtStatement Statement
highlight default link jtOperator Operator
highlight default link jtConstant Constant
highlight default link jtString String
highlight default link jtNumber Number
highlight default link jtFilter Function
highlight default link jtTest Function

let b:current_syntax = 'jinja'
