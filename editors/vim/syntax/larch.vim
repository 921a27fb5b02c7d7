" Made by tools/make/make_highlighting.py of editors/words.txt.
if exists('b:current_syntax')
  finish
endif
syntax iskeyword @,48-57,39,_
syntax keyword larchChoice if then else
syntax keyword larchBuiltin true false
syntax keyword larchSort Bool
syntax keyword larchPart trait includes assumes introduces asserts implies converts exempting
syntax keyword larchClause generated partitioned by for enumeration tuple union of
syntax match larchSymbol "\%([!#$&*+<>=?@^|~-]\|/\\\@!\)\+"
syntax match larchSymbol "\\\a\+"
syntax match larchMarker "__"
syntax match larchFixed "\%(\~\|/\\\|\\/\|=>\|<=>\|=\|\~=\|==\|->\)\%(\%([!#$&*+<>=?@^|~-]\|/\\\@!\)\)\@!"
syntax match larchFixed "/\\\|\\/"
syntax match larchQuantifier "\%(\\forall\)\a\@!"
syntax match larchComment "%.*"
highlight default link larchComment Comment
highlight default link larchPart Statement
highlight default link larchClause Keyword
highlight default link larchChoice Conditional
highlight default link larchQuantifier Keyword
highlight default link larchFixed Operator
highlight default link larchBuiltin Constant
highlight default link larchSort Type
highlight default link larchMarker Special
highlight default link larchSymbol Function
let b:current_syntax = 'larch'
