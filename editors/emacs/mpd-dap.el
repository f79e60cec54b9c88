;;; mpd-dap.el --- mpdbg as a debugger in dap-mode -*- lexical-binding: t -*-
;;; Commentary:
;; (load "/path/to/editors/emacs/mpd-dap.el") in the init file, then M-x dap-debug in a rank script; docs/ADAPTER.md has what each command does.
;;; Code:
(require 'dap-mode)
(require 'dap-ui)
;; dap-ui 0.7 reads this, which treemacs 2.8 doesn't have; both are those of Debian 12.
(defvar treemacs-text-scale nil)
(defvar mpd-dap-program "mpdbg" "The program, by its name on the path, or by its file.")
(dap-register-debug-provider
 "mpdbg" (lambda (conf)
           (let ((file (or (plist-get conf :program) (buffer-file-name))))
             (dap--put-if-absent (plist-put conf :program file) :dap-server-path (list mpd-dap-program "dap" file)))))
(dap-register-debug-template "mpdbg" (list :type "mpdbg" :request "launch" :name "mpdbg" :program nil))
;; dap-mode 0.7 has no commands for these requests, which go back, and for the targets of a step.
(defun mpd-dap-step-back () "Go back to before the last step of this rank." (interactive) (dap--step "stepBack" (dap--cur-session-or-die)))
(defun mpd-dap-reverse-continue () "Go back to where a run stopped." (interactive) (dap--step "reverseContinue" (dap--cur-session-or-die)))
(defun mpd-dap-choose ()
  "Take one of the candidates of a choice in which this rank takes part."
  (interactive)
  (let* ((session (dap--cur-session-or-die)) (thread (dap--debug-session-thread-id session))
         (targets (append (gethash "targets" (dap-request session "stepInTargets" :frameId thread)) nil))
         (label (completing-read "Take: " (mapcar (lambda (it) (gethash "label" it)) targets) nil t))
         (target (gethash "id" (seq-find (lambda (it) (equal (gethash "label" it) label)) targets))))
    (dap--send-message (dap--make-request "stepIn" (list :threadId thread :targetId target)) (dap--resp-handler) session)
    (dap--resume-application session)))
(provide 'mpd-dap)
;;; mpd-dap.el ends here
