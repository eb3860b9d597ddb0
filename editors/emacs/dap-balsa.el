;;; dap-balsa.el --- Debug Balsa with balsadbg under dap-mode  -*- lexical-binding: t -*-

;; SPDX-License-Identifier: MIT OR Apache-2.0
;; Version: 0.1.0
;; Package-Requires: ((emacs "27.1") (dap-mode "0.7"))
;; Keywords: languages

;;; Commentary:

;; `M-x dap-debug' offers "Balsa: this file", with the stimulus beside it.
;; dap-mode 0.7 has no command for the requests stepBack and
;; reverseContinue: `dap-balsa-step-back' (C-c C-b in `balsa-mode') and
;; `dap-balsa-reverse-continue' (C-c C-r) send them.

;;; Code:

(require 'dap-mode)
(require 'dap-ui)

;; Some versions of lsp-treemacs read this where their treemacs has none.
(defvar treemacs-text-scale nil)

(defcustom dap-balsa-command '("balsadbg" "dap")
  "The command of the debug adapter."
  :group 'dap-mode :type '(repeat string))

;; dap-mode leaves these categories out: the steps taken and taken back, and why nothing can go on.
(when dap-output-buffer-filter
  (dolist (category '("console" "important"))
    (add-to-list 'dap-output-buffer-filter category t)))

(defun dap-balsa--populate (conf)
  "Fill in what CONF leaves open."
  (setq conf (plist-put conf :dap-server-path dap-balsa-command))
  (unless (plist-get conf :program)
    (setq conf (plist-put conf :program (buffer-file-name))))
  conf)

(dap-register-debug-provider "balsa" #'dap-balsa--populate)
(dap-register-debug-template
 "Balsa: this file"
 (list :type "balsa" :request "launch" :name "Balsa: this file" :stopOnEntry t))

(defun dap-balsa-step-back (session)
  "Take back the newest step of the thread of SESSION."
  (interactive (list (dap--cur-session-or-die)))
  (dap--step "stepBack" session))

(defun dap-balsa-reverse-continue (session)
  "Take back steps of SESSION until a breakpoint or the beginning."
  (interactive (list (dap--cur-session-or-die)))
  (dap--step "reverseContinue" session))

(defvar balsa-mode-map)
(with-eval-after-load 'balsa-mode
  (define-key balsa-mode-map (kbd "C-c C-b") #'dap-balsa-step-back)
  (define-key balsa-mode-map (kbd "C-c C-r") #'dap-balsa-reverse-continue))

;;;###autoload (with-eval-after-load 'dap-mode (require 'dap-balsa))

(provide 'dap-balsa)
;;; dap-balsa.el ends here
