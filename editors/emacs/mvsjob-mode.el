;;; mvsjob-mode.el --- Scripts of mvsjob  -*- lexical-binding: t; -*-

;; SPDX-License-Identifier: MIT OR Apache-2.0
;; Package-Requires: ((emacs "27.1"))

;;; Commentary:

;; A mode for scripts of mvsjob.  With Eglot, `M-x eglot' starts mvsjob-lsp.

;;; Code:

(defvar mvsjob-mode-syntax-table
  (let ((table (make-syntax-table)))
    (dolist (letter '(?@ ?# ?$) table)
      (modify-syntax-entry letter "w" table)))
  "The syntax of names in scripts of mvsjob.")

(defconst mvsjob-font-lock-keywords
  `(("^\\*.*$" . font-lock-comment-face)
    (" =>.*$" . font-lock-doc-face)
    ("^\\([A-Z@#$][A-Z0-9@#$]\\{0,7\\}\\) " 1 font-lock-variable-name-face)
    (,(concat "^[^ *]+ +" (regexp-opt '("REGION" "GETMAIN" "FREEMAIN" "STORAGE" "CPOOL" "ATTACH" "RETURN" "ABEND" "PUT" "SHOW" "MOVE" "WHERE" "REPORT") t) "\\_>")
     1 font-lock-keyword-face)
    (,(concat "\\_<" (regexp-opt '("BELOW" "ABOVE" "FILL" "RES" "LV" "A" "SP" "BNDRY" "LOC" "STARTBDY" "CONTBDY" "LA" "LENGTH" "ADDR" "COND" "CPID" "CSIZE" "PCELLCT" "SCELLCT" "CELL" "TASK" "GSPV" "GSPL" "SHSPV" "SHSPL" "SZERO") t) "=")
     1 font-lock-builtin-face)
    ("X'[0-9A-F]*'" . font-lock-string-face))
  "The colours of scripts of mvsjob.")

;;;###autoload
(define-derived-mode mvsjob-mode prog-mode "mvsjob"
  "Major mode for scripts of mvsjob."
  (setq-local comment-start "* ")
  (setq-local comment-start-skip "^\\* *")
  (setq-local indent-tabs-mode nil)
  (setq-local font-lock-defaults '(mvsjob-font-lock-keywords nil nil)))

;;;###autoload
(add-to-list 'auto-mode-alist '("\\.mvsjob\\'" . mvsjob-mode))
;;;###autoload
(add-to-list 'magic-mode-alist '("\\`\\(?:\\*.*\n\\| *\n\\)*[A-Z@#$][A-Z0-9@#$]\\{0,7\\} +REGION " . mvsjob-mode))

(defvar eglot-server-programs)
(with-eval-after-load 'eglot
  (add-to-list 'eglot-server-programs '(mvsjob-mode . ("mvsjob-lsp"))))

(provide 'mvsjob-mode)
;;; mvsjob-mode.el ends here
