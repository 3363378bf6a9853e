;;; lsp.el --- What Emacs has of a script  -*- lexical-binding: t; -*-
;; It prints a line for each thing that tests/lsp.py looks for.
(require 'mvsjob-mode)
(setq load-prefer-newer t)
(dolist (folder (file-expand-wildcards "/usr/share/emacs/site-lisp/elpa/*"))
  (add-to-list 'load-path folder))
(require 'eglot)
(require 'flymake)
(setq eglot-sync-connect 10 eglot-autoshutdown t eglot-send-changes-idle-time 0)

(defun notes ()
  "Return the number of diagnostics."
  (accept-process-output nil 0.2)
  (length (flymake-diagnostics)))

(defun await (wanted)
  "Wait until there are WANTED diagnostics, or some seconds are over."
  (let ((tries 50))
    (while (and (> tries 0) (/= (notes) wanted))
      (setq tries (1- tries))
      (flymake-start))
    (notes)))

(with-current-buffer (find-file-noselect "a.job")
  (princ (format "mode %s\n" major-mode))
  (apply #'eglot (eglot--guess-contact))
  (flymake-mode 1)
  (princ (format "diagnostics %s\n" (await 6)))
  (goto-char (point-min))
  (search-forward "GETMIAN")
  (replace-match "GETMAIN" t t)
  (eglot--signal-textDocument/didChange)
  (princ (format "mended %s\n" (await 4)))
  (set-buffer-modified-p nil))
