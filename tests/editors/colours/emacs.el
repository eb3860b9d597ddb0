;;; emacs.el --- what balsa-mode colours  -*- lexical-binding: t -*-

;;; Commentary:

;; Writes a letter for each character of $BALSA_SOURCE to $BALSA_COLOURS.

;;; Code:

(defun colours-letter (face)
  "The letter of FACE."
  (pcase face
    ('font-lock-keyword-face "w")
    ('font-lock-constant-face "d")
    ('font-lock-builtin-face "s")
    ((or 'font-lock-comment-face 'font-lock-comment-delimiter-face) "c")
    ((or 'nil 'font-lock-function-name-face 'font-lock-type-face) "n")
    (_ "?")))

(let ((coding-system-for-read 'utf-8-unix)
      (letters nil))
  (find-file (getenv "BALSA_SOURCE"))
  (unless (eq major-mode 'balsa-mode) (error "The mode is %s" major-mode))
  (font-lock-ensure)
  (goto-char (point-min))
  (while (not (eobp))
    (push (if (eolp) "\n" (colours-letter (get-text-property (point) 'face))) letters)
    (forward-char))
  (with-temp-file (getenv "BALSA_COLOURS")
    (insert (apply #'concat (nreverse letters)))))

;;; emacs.el ends here
