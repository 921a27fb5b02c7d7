" Made by tools/make/make_highlighting.py of editors/words.txt.
if exists('b:current_syntax')
  finish
endif
syntax iskeyword @,48-57,39,_,-
syntax keyword larchChoice if then else
syntax keyword larchBuiltin true false
syntax keyword larchSort Bool
syntax keyword larchCommand duty declare set register prove resume instantiate critical-pairs normalize qed
syntax keyword larchOption variable variables rewriting-limit box-checking on off height status left-to-right right-to-left multiset by cases contradiction induction partition in with
syntax match larchSymbol "\%([!#$&*+<>=?@^|~-]\|/\\\@!\)\+"
syntax match larchSymbol "\\\a\+"
syntax match larchMarker "__"
syntax match larchFixed "\%(\~\|/\\\|\\/\|=>\|<=>\|=\|\~=\|==\|->\)\%(\%([!#$&*+<>=?@^|~-]\|/\\\@!\)\)\@!"
syntax match larchFixed "/\\\|\\/"
syntax match larchQuantifier "\%(\\forall\)\a\@!"
syntax match larchComment "%.*"
syntax match larchMark "\%(^\s*\)\@<=\%(<>\|\[]\)" nextgroup=larchBehindMark
syntax match larchBehindMark ".*" contained
highlight default link larchBehindMark Comment
highlight default link larchComment Comment
highlight default link larchPart Statement
highlight default link larchClause Keyword
highlight default link larchChoice Conditional
highlight default link larchQuantifier Keyword
highlight default link larchFixed Operator
highlight default link larchBuiltin Constant
highlight default link larchSort Type
highlight default link larchMarker Special
highlight default link larchSymbol Function
highlight default link larchCommand Statement
highlight default link larchOption Keyword
highlight default link larchMark Special
let b:current_syntax = 'larchlp'
