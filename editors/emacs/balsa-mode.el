;;; balsa-mode.el --- Major mode for Balsa sources  -*- lexical-binding: t -*-

;; SPDX-License-Identifier: MIT OR Apache-2.0
;; Version: 0.1.0
;; Package-Requires: ((emacs "26.1"))
;; Keywords: languages

;;; Commentary:

;; Colours and comments for Balsa, the language of asynchronous handshake
;; circuits, in the profile of balsadbg.

;;; Code:

(defconst balsa-mode-reserved-words
  '("and" "arbitrate" "as" "begin" "bits" "case" "channel" "continue" "else" "end" "enumeration" "halt" "if" "input"
    "is" "loop" "not" "of" "or" "output" "procedure" "select" "shared" "sync" "then" "type" "variable" "while" "xor")
  "The words that are no names.")

(defun balsa-mode-face-of (token)
  "The face of TOKEN, a number, a reserved word or a name; nil for a name."
  (cond ((string-match-p "\\`[0-9]" token) 'font-lock-constant-face)
        ((member token balsa-mode-reserved-words) 'font-lock-keyword-face)))

(defconst balsa-mode-font-lock
  '(("[0-9]+\\|[A-Za-z][A-Za-z0-9_]*" 0 (balsa-mode-face-of (match-string 0)))
    ("\\_<procedure[ \t\r\n]+\\([A-Za-z][A-Za-z0-9_]*\\)" 1 'font-lock-function-name-face)
    ("\\_<type[ \t\r\n]+\\([A-Za-z][A-Za-z0-9_]*\\)" 1 'font-lock-type-face)
    (":[ \t\r\n]*\\([A-Za-z][A-Za-z0-9_]*\\)" 1 'font-lock-type-face)
    ("\\_<\\([A-Za-z][A-Za-z0-9_]*\\)[ \t\r\n]*(\\(?:[^-]\\|-[^-]\\)"
     1 'font-lock-function-name-face)
    (":=\\|<-\\|->\\|||\\|<=\\|>=\\|/=\\|[]|;:,()[+=<>-]" 0 'font-lock-builtin-face))
  "What is coloured, the first that fits.
These are numbers and words, declared names, types, calls, symbols.")

(defconst balsa-mode-syntax-table
  (let ((table (make-syntax-table)))
    (modify-syntax-entry ?- ". 12" table)       ; `--' to the end of the line
    (modify-syntax-entry ?\n ">" table)
    (modify-syntax-entry ?_ "_" table)
    (dolist (sign (string-to-list "+*/<>=|&:;,'\""))
      (modify-syntax-entry sign "." table))
    table))

(defun balsa-mode-propertize (start end)
  "Mark the nested comments, `(--' to `--)', from START to END.
A generic comment fence stands at the first and at the last byte of each.
The arrow `<-' goes before a comment that would begin with its last byte."
  (goto-char start)
  (let ((state (syntax-ppss)))
    (when (nth 4 state) (goto-char (nth 8 state))))
  (while (re-search-forward "(--\\|--\\|<-" end t)
    (pcase (match-string 0)
      ("--" (end-of-line))
      ("<-" (put-text-property (1- (point)) (point) 'syntax-table (string-to-syntax ".")))
      (_ (balsa-mode-propertize-nested)))))

(defun balsa-mode-propertize-nested ()
  "Mark the nested comment whose opening has just been passed, and pass it."
  (let ((fence (string-to-syntax "!"))
        (begin (- (point) 3))
        (depth 1))
    (put-text-property begin (1+ begin) 'syntax-table fence)
    (while (and (> depth 0) (re-search-forward "(--\\|--)" nil t))
      (setq depth (+ depth (if (string= (match-string 0) "(--") 1 -1))))
    (if (> depth 0)
        (goto-char (point-max))
      (put-text-property (1- (point)) (point) 'syntax-table fence))))

;;;###autoload
(define-derived-mode balsa-mode prog-mode "Balsa"
  "Major mode for Balsa sources."
  (setq-local font-lock-defaults '(balsa-mode-font-lock))
  (setq-local syntax-propertize-function #'balsa-mode-propertize)
  (setq-local parse-sexp-lookup-properties t)
  (setq-local comment-start "-- ")
  (setq-local comment-start-skip "\\(?:(--\\|--\\)[ \t]*")
  (setq-local comment-end ""))

;;;###autoload
(add-to-list 'auto-mode-alist '("\\.balsa\\'" . balsa-mode))

(provide 'balsa-mode)
;;; balsa-mode.el ends here
