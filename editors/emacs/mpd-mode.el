;;; mpd-mode.el --- colours for rank scripts of mpdbg -*- lexical-binding: t -*-
;;; Commentary:
;; docs/LANGUAGE.md, "Tokens", has the words.  (load "/path/to/editors/emacs/mpd-mode.el") in the init file is enough.
;;; Code:
(require 'compile)

(defconst mpd-mode-words
  `((,(regexp-opt '("mpd" "ranks" "var" "req") 'words) . font-lock-type-face)
    (,(regexp-opt '("if" "else" "while") 'words) . font-lock-keyword-face)
    (,(regexp-opt '("print" "assert" "send" "ssend" "isend" "issend" "recv" "irecv" "wait" "waitany" "barrier") 'words)
     . font-lock-function-name-face)
    (,(regexp-opt '("to" "from" "tag" "status") 'words) . font-lock-keyword-face)
    (,(regexp-opt '("any" "rank" "size") 'words) . font-lock-constant-face))
  "The reserved words of rank scripts, each with its face.")

;; A fault is told without the name of the file (docs/FORMATS.md, "Faults and statuses"), so `mpd-mode-check' says that first, and the line of
;; the fault is one of the file that was said last.
(defconst mpd-mode-faults
  '((mpdbg-script "^script \\(.+\\)$" 1 nil nil 0)
    (mpdbg "^mpdbg: script refused [0-9]+ [^ ]+ at [0-9]+ line \\([0-9]+\\)$" nil 1 nil 2))
  "How `compile' finds the place of a fault: in which file, and at which line.")
;; The rule that is added last is tried first: that of files, since a line of a fault takes the file that was found before it.
(dolist (it (reverse mpd-mode-faults))
  (setf (alist-get (car it) compilation-error-regexp-alist-alist) (cdr it))
  (add-to-list 'compilation-error-regexp-alist (car it)))

(defun mpd-mode-check ()
  "The command that checks the script of this buffer, for `compile'."
  (when buffer-file-name
    (let ((file (shell-quote-argument (file-name-nondirectory buffer-file-name))))
      (format "echo script %s; mpdbg check %s" file file))))

;;;###autoload
(define-derived-mode mpd-mode prog-mode "mpd"
  "Major mode for rank scripts of mpdbg."
  (modify-syntax-entry ?# "<" mpd-mode-syntax-table)
  (modify-syntax-entry ?\n ">" mpd-mode-syntax-table)
  (modify-syntax-entry ?_ "w" mpd-mode-syntax-table)
  (setq-local comment-start "# ")
  (when (mpd-mode-check) (setq-local compile-command (mpd-mode-check)))
  (setq-local font-lock-defaults '(mpd-mode-words)))

;;;###autoload
(add-to-list 'auto-mode-alist '("\\.mpd\\'" . mpd-mode))

(provide 'mpd-mode)
;;; mpd-mode.el ends here
