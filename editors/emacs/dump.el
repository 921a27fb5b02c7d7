;;; dump.el --- What stands on each line in which colour, for tools/gate/check_highlighting.py  -*- lexical-binding: t -*-
;;; Commentary:
;; emacs --batch -L editors/emacs -l dump.el FILE..  prints LINE:COLUMN KIND TEXT for each stretch of one kind.
;;; Code:
(require 'larch-mode)
(require 'subr-x)

(defun larch-dump-kind (at)
  "The kind of what stands AT a position, or nil."
  (let ((face (get-text-property at 'face)))
    (cond ((null face) nil)
          ((memq face '(font-lock-comment-face font-lock-comment-delimiter-face)) "comment")
          (t (string-remove-prefix "larch-" (symbol-name face))))))

(dolist (file command-line-args-left)
  (with-current-buffer (find-file-noselect file)
    (font-lock-ensure)
    (princ (format "== %s\n" file))
    (goto-char (point-min))
    (while (not (eobp))
      (let ((start (point)) (kind (larch-dump-kind (point))))
        (while (and (not (eolp)) (equal kind (larch-dump-kind (point))))
          (forward-char))
        (when (and kind (> (point) start))
          (princ (format "%d:%d %s %s\n" (line-number-at-pos start) (1+ (- start (line-beginning-position))) kind
                         (buffer-substring-no-properties start (point)))))
        (when (eolp) (forward-line))))))
(setq command-line-args-left nil)
;;; dump.el ends here
