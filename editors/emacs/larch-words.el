;;; larch-words.el --- Words of traits and proof scripts  -*- lexical-binding: t -*-
;; Made by tools/make/make_highlighting.py of editors/words.txt.
;;; Code:
(defconst larch-part-words
  '("trait" "includes" "assumes" "introduces" "asserts" "implies" "converts" "exempting"))
(defconst larch-clause-words
  '("generated" "partitioned" "by" "for" "enumeration" "tuple" "union" "of"))
(defconst larch-choice-words
  '("if" "then" "else"))
(defconst larch-quantifier-words
  '("\\forall"))
(defconst larch-fixed-words
  '("~" "/\\" "\\/" "=>" "<=>" "=" "~=" "==" "->"))
(defconst larch-builtin-words
  '("true" "false"))
(defconst larch-sort-words
  '("Bool"))
(defconst larch-command-words
  '("duty" "declare" "set" "register" "prove" "resume" "instantiate" "critical-pairs" "normalize" "qed"))
(defconst larch-option-words
  '("variable" "variables" "rewriting-limit" "box-checking" "on" "off" "height" "status" "left-to-right" "right-to-left" "multiset" "by" "cases" "contradiction" "induction" "partition" "in" "with"))
(defconst larch-mark-words
  '("<>" "[]"))
(defface larch-comment '((t :inherit font-lock-comment-face)) "What is of the kind `comment'." :group 'larch)
(defface larch-part '((t :inherit font-lock-keyword-face)) "What is of the kind `part'." :group 'larch)
(defface larch-clause '((t :inherit font-lock-keyword-face)) "What is of the kind `clause'." :group 'larch)
(defface larch-choice '((t :inherit font-lock-keyword-face)) "What is of the kind `choice'." :group 'larch)
(defface larch-quantifier '((t :inherit font-lock-keyword-face)) "What is of the kind `quantifier'." :group 'larch)
(defface larch-fixed '((t :inherit font-lock-builtin-face)) "What is of the kind `fixed'." :group 'larch)
(defface larch-builtin '((t :inherit font-lock-constant-face)) "What is of the kind `builtin'." :group 'larch)
(defface larch-sort '((t :inherit font-lock-type-face)) "What is of the kind `sort'." :group 'larch)
(defface larch-marker '((t :inherit font-lock-preprocessor-face)) "What is of the kind `marker'." :group 'larch)
(defface larch-symbol '((t :inherit font-lock-function-name-face)) "What is of the kind `symbol'." :group 'larch)
(defface larch-command '((t :inherit font-lock-keyword-face)) "What is of the kind `command'." :group 'larch)
(defface larch-option '((t :inherit font-lock-builtin-face)) "What is of the kind `option'." :group 'larch)
(defface larch-mark '((t :inherit font-lock-preprocessor-face)) "What is of the kind `mark'." :group 'larch)
(provide 'larch-words)
;;; larch-words.el ends here
