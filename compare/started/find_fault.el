;;; find_fault.el --- checks a rank script by `compile', and prints where its fault is found -*- lexical-binding: t -*-
;; compare/runs/in_emacs.py starts it, with the script and editors/emacs after --.
(load (concat (nth 2 command-line-args-left) "/mpd-mode.el") nil t)
(find-file (nth 1 command-line-args-left))
(setq command-line-args-left nil)
(princ (format "%s; comments %s\n" major-mode comment-start))
;; All that it says comes at once, as it may where a machine has much to do.
(let ((buffer (compilation-start (format "(%s) 2>&1 | (sleep 1; cat)" compile-command))) (end (+ (float-time) 60)))
  (while (and (get-buffer-process buffer) (< (float-time) end)) (accept-process-output nil 0.05))
  (condition-case nil
      (progn (next-error) (princ (format "fault of %s at line %s\n" (buffer-name) (line-number-at-pos))))
    (error (princ "no fault is found\n"))))
