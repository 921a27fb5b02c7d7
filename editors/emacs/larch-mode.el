;;; larch-mode.el --- Traits and proof scripts of larch  -*- lexical-binding: t -*-

;;; Commentary:
;; `lsl-mode' for traits and `lp-mode' for scripts: colours, indentation and comments, and the language server where
;; eglot is there; M-x larch-goal shows the goal at the cursor of a script.  (add-to-list 'load-path ".../editors/emacs") (require 'larch-mode)

;;; Code:
(defgroup larch nil "Traits and proof scripts of larch." :group 'languages)
(require 'larch-words)
(require 'seq)

(defvar larch-mode-syntax-table
  (let ((table (make-syntax-table)))
    (modify-syntax-entry ?% "<" table)
    (modify-syntax-entry ?\n ">" table)
    (modify-syntax-entry ?' "_" table)
    (modify-syntax-entry ?_ "_" table)
    (dolist (byte (append "\"\\!#$&*+-/<>=?@^|~" nil) table)
      (modify-syntax-entry byte "." table)))
  "A comment runs from % to the end of its line; there are no strings.")

(defvar larch-script-syntax-table
  (let ((table (make-syntax-table larch-mode-syntax-table)))
    (modify-syntax-entry ?- "_" table)
    table)
  "In scripts words may have dashes.")

(defun larch--symbol (limit)
  "Find the next run, connective or backslash word before LIMIT."
  (when (re-search-forward "/\\\\\\|\\\\/\\|\\\\[A-Za-z]+\\|[!#$&*+/<>=?@^|~-]+" limit t)
    ;; A run ends before a / that a \ follows.
    (when (and (eq (char-before) ?/) (eq (char-after) ?\\) (> (- (point) (match-beginning 0)) 1))
      (set-match-data (list (match-beginning 0) (1- (point))))
      (goto-char (match-end 0)))
    t))

(defun larch--symbol-face ()
  "The face of the symbol that was found."
  (let ((text (match-string-no-properties 0)))
    (cond ((member text larch-fixed-words) 'larch-fixed)
          ((member text larch-quantifier-words) 'larch-quantifier)
          (t 'larch-symbol))))

(defun larch--word (words)
  "A function that finds the next of WORDS outside backslash words."
  (let ((wanted (concat "\\_<" (regexp-opt words) "\\_>")))
    (lambda (limit)
      (let ((found nil))
        (while (and (not found) (re-search-forward wanted limit t))
          (let ((before (char-before (match-beginning 0))))
            (setq found (or (not (eq before ?\\)) (eq (char-before (1- (match-beginning 0))) ?/)))))
        found))))

(defun larch--keywords (kinds)
  "Rules for the words of KINDS, and for symbols and markers."
  (append (mapcar (lambda (kind)
                    (list (larch--word (symbol-value (intern (format "larch-%s-words" kind))))
                          0 `',(intern (format "larch-%s" kind))))
                  kinds)
          '((larch--symbol 0 (larch--symbol-face)) ("__" 0 'larch-marker))))

(defconst larch--mark "^[ \t]*\\(<>\\|\\[\\]\\)\\(.*\\)" "A box mark, and the text behind it, which isn't read.")
(defvar lsl-font-lock-keywords (larch--keywords '(part clause choice builtin sort)))
(defvar lp-font-lock-keywords
  (append `((,larch--mark (1 'larch-mark t) (2 'font-lock-comment-face t)))
          (larch--keywords '(command option choice builtin sort))))

(defconst larch--part
  (concat (regexp-opt (seq-difference larch-part-words '("trait" "exempting")) t) "\\_>")
  "A word that begins a part.")

(defun larch--line-before ()
  "Go to the line before, past blank lines and comments; whether there is one."
  (let ((found nil))
    (while (and (not found) (zerop (forward-line -1)))
      (setq found (not (looking-at-p "[ \t]*\\(%\\|$\\)"))))
    found))

(defun larch--like-line-before ()
  "The indentation of the line before, two more where that one opens something."
  (save-excursion
    (if (not (larch--line-before))
        0
      (+ (current-indentation)
         (if (looking-at-p (concat "[ \t]*\\(\\\\forall\\_>\\|.*:[ \t]*trait\\_>\\|" larch--part "\\)")) 2 0)))))

(defun lsl-indent-line ()
  "Indent a line of a trait.
Parts and shorthands stand at 2, items at 4, equations behind a quantifier at 6."
  (interactive)
  (larch--indent-to
   (save-excursion
     (beginning-of-line)
     (cond ((looking-at-p (concat "[ \t]*" larch--part)) 2)
           ((looking-at-p "[ \t]*[^ \t\n]+[ \t]+\\(enumeration\\|tuple\\|union\\)\\_>") 2)
           ((looking-at-p ".*:[ \t]*trait\\_>") 0)
           ((looking-at-p "[ \t]*\\(\\\\forall\\_>\\|[^ \t\n]+[ \t]+\\(generated\\|partitioned\\)\\_>\\|exempting\\_>\\)") 4)
           (t (larch--like-line-before))))))

(defun lp-indent-line ()
  "Indent a line of a script.
Commands of a block stand at 2, and 2 more for each subgoal open by its marks."
  (interactive)
  (larch--indent-to
   (save-excursion
     (beginning-of-line)
     (let ((opens (looking-at-p "[ \t]*<>")) (edge (looking-at-p "[ \t]*\\(duty\\|qed\\)\\_>")) (depth 0) (block nil))
       (while (and (not block) (larch--line-before))
         (cond ((looking-at-p "[ \t]*<>") (setq depth (1+ depth)))
               ((looking-at-p "[ \t]*\\[\\]") (setq depth (1- depth)))
               ((looking-at-p "duty\\_>") (setq block t))))
       (if (or edge (not block)) 0 (+ 2 (* 2 (+ (max depth 0) (if opens 1 0)))))))))

(defun larch--indent-to (column)
  "Indent the line to COLUMN; a cursor inside the text stays where it is."
  (let ((behind (- (current-column) (current-indentation))))
    (indent-line-to column)
    (when (> behind 0) (forward-char behind))))

(defun larch--set-up (keywords indent)
  "What both modes share, with the KEYWORDS and the function INDENT of one."
  (setq-local font-lock-defaults (list keywords nil nil))
  (setq-local indent-line-function indent)
  (setq-local indent-tabs-mode nil)
  (setq-local comment-start "% ")
  (setq-local comment-end "")
  (setq-local comment-start-skip "%+[ \t]*")
  (setq-local comment-column 40))

;;;###autoload
(define-derived-mode lsl-mode prog-mode "LSL"
  "Traits of the Larch Shared Language."
  :syntax-table larch-mode-syntax-table
  (larch--set-up 'lsl-font-lock-keywords #'lsl-indent-line))

;;;###autoload
(define-derived-mode lp-mode prog-mode "LP"
  "Proof scripts."
  :syntax-table larch-script-syntax-table
  (larch--set-up 'lp-font-lock-keywords #'lp-indent-line))

;;;###autoload
(add-to-list 'auto-mode-alist '("\\.lsl\\'" . lsl-mode))
;;;###autoload
(add-to-list 'auto-mode-alist '("\\.lp\\'" . lp-mode))

(defvar eglot-server-programs)
(defconst larch--server (expand-file-name "../larch-lsp" (file-name-directory (or load-file-name buffer-file-name)))
  "The language server of this checkout.")
(defcustom larch-program nil
  "The program that the server asks; nil for that of the checkout, or of the environment's LARCH."
  :type '(choice (const nil) file))
(defcustom larch-hints t
  "Whether the server shows hints at what is well formed and yet suspect."
  :type 'boolean)
(defun larch--contact (&rest _)
  "The call of the language server."
  (append (list larch--server) (when larch-program (list "--larch" larch-program))
          (unless larch-hints '("--no-hints"))))
(with-eval-after-load 'eglot
  (add-to-list 'eglot-server-programs (cons '(lsl-mode lp-mode) #'larch--contact)))

(declare-function eglot-current-server "eglot")
(declare-function eglot--TextDocumentPositionParams "eglot")
(declare-function eglot--signal-textDocument/didChange "eglot")
(declare-function jsonrpc-async-request "jsonrpc")
(defvar larch--goal-timer nil "The timer that shows the goal once nothing is typed.")

(defun larch--show-goal ()
  "Show in the buffer *larch goal* what is left behind the line of a script."
  (when (and (derived-mode-p 'lp-mode) (get-buffer-window "*larch goal*" t) (fboundp 'eglot-current-server)
             (eglot-current-server))
    (eglot--signal-textDocument/didChange)
    (jsonrpc-async-request
     (eglot-current-server) :larch/goal (eglot--TextDocumentPositionParams)
     :success-fn (lambda (found)
                   (with-current-buffer (get-buffer-create "*larch goal*")
                     (erase-buffer)
                     (insert (mapconcat #'identity (or (plist-get found :lines) '("no block here")) "\n")))))))

;;;###autoload
(defun larch-goal ()
  "Show the goal at the cursor of a script beside it, from now on."
  (interactive)
  (display-buffer (get-buffer-create "*larch goal*"))
  (unless larch--goal-timer
    (setq larch--goal-timer (run-with-idle-timer 0.1 t #'larch--show-goal)))
  (larch--show-goal))

(provide 'larch-mode)
;;; larch-mode.el ends here
