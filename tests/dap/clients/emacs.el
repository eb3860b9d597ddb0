;;; emacs.el --- Drives the debug adapter by dap-mode, in batch  -*- lexical-binding: t -*-

;; emacs -q --batch -L editors/emacs -l tests/dap/clients/emacs.el PROGRAM..
;; Launches examples/adder.balsa, sets a breakpoint, steps, steps back, evaluates, and prints what was seen.

(setq load-prefer-newer t)
(package-initialize)
(require 'dap-mode)
(require 'dap-balsa)

(setq dap-balsa-command command-line-args-left
      command-line-args-left nil
      dap-auto-configure-mode nil
      dap-print-io nil
      dap-auto-show-output nil)

(defvar seen nil "What was seen, the last first.")

(defun see (format-string &rest arguments)
  "Keep in mind, and print."
  (let ((line (apply #'format format-string arguments)))
    (push line seen)
    (princ (concat line "\n"))))

(defun until (condition)
  "Wait until CONDITION holds, ten seconds at most."
  (let ((left 200))
    (while (and (> left 0) (not (funcall condition)))
      (accept-process-output nil 0.05)
      (setq left (1- left)))
    (unless (funcall condition) (see "waited in vain"))))

(defvar stops 0)
(add-hook 'dap-stopped-hook (lambda (_session) (setq stops (1+ stops))))

(defun then-stopped (what)
  "Call WHAT, and wait for the next stop and its frame."
  (let ((before stops))
    (funcall what)
    (until (lambda () (> stops before)))
    (dotimes (_ 6) (accept-process-output nil 0.05))))

(defun where ()
  "The line and the name of the frame that is shown."
  (let* ((session (dap--cur-session)) (frame (and session (dap--debug-session-active-frame session))))
    (if frame (format "line %s, %s" (gethash "line" frame) (gethash "name" frame)) "nowhere")))

(defun ask (expression context)
  "The answer of the adapter to EXPRESSION in CONTEXT."
  (let ((session (dap--cur-session)) (result nil))
    (dap--send-message
     (dap--make-request "evaluate" (list :expression expression :context context))
     (lambda (response) (setq result (or (gethash "result" (or (gethash "body" response) (make-hash-table :test 'equal)))
                                         (gethash "message" response))))
     session)
    (until (lambda () result))
    result))

(let* ((root (file-name-directory (directory-file-name (expand-file-name "../.." (file-name-directory load-file-name)))))
       (file (expand-file-name "examples/adder.balsa" root)))
  (find-file file)
  (fundamental-mode)
  (goto-char (point-min))
  (forward-line 7)
  (dap-breakpoint-add)
  (then-stopped (lambda () (dap-debug (list :type "balsa" :request "launch" :name "adder" :program file :stopOnEntry t))))
  (see "entry: %s" (where))
  (let ((session (dap--cur-session)))
    (then-stopped (lambda () (dap-next session)))
    (see "next: %s" (where))
    (then-stopped (lambda () (dap-continue session (dap--debug-session-thread-id session))))
    (see "continue: %s" (where))
    (see "x: %s" (ask "x" "hover"))
    (then-stopped (lambda () (dap-balsa-step-back session)))
    (see "step back: %s" (where))
    (see "live: %s" (replace-regexp-in-string "\n" ";" (ask "live" "repl")))
    (then-stopped (lambda () (dap-balsa-reverse-continue session)))
    (see "reverse continue: %s" (where))
    (dap-disconnect session)
    (dotimes (_ 10) (accept-process-output nil 0.05))
    (see "over")))
;;; emacs.el ends here
