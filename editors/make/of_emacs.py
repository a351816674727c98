"""The mode of Emacs."""


def either(names):
    return r"\\(?:" + r"\\|".join(names) + r"\\)"


MODE = r''';;; mta-mode.el --- sources of mta_sim and mta_lab -*- lexical-binding: t -*-

;;; Commentary:
;; Colours and comments of the source texts of mta_sim, and mta_lab check as the compile command. Made by editors/make of
;; the assembler's table of names.

;;; Code:

(defvar mta-mode-syntax-table
  (let ((table (make-syntax-table)))
    (modify-syntax-entry ?\; "<" table)
    (modify-syntax-entry ?\n ">" table)
    (modify-syntax-entry ?_ "w" table)
    (modify-syntax-entry ?. "_" table)
    table)
  "Where comments and words of a source text are.")

(defvar mta-font-lock-keywords
  '(("^[ \t]*\\([A-Za-z_][A-Za-z0-9_]*\\):" 1 font-lock-function-name-face)
    ("\\.%(directives)s\\>" . font-lock-preprocessor-face)
    ("\\<%(asking)s[ \t]+\\(%(conditions)s\\)\\>" 1 font-lock-constant-face)
    ("\\<\\(?:%(memory)s\\(?:\\.[%(access)s]\\)?\\|%(plain)s\\)\\>" . font-lock-type-face)
    ("\\<%(arithmetic)s\\(?:\\.T\\)?\\>" . font-lock-keyword-face)
    ("\\<%(others)s\\>" . font-lock-keyword-face)
    ("\\<\\(?:r\\(?:[0-9]\\|[12][0-9]\\|3[01]\\)\\|t[0-7]\\)\\>" . font-lock-variable-name-face)
    ("-?\\<\\(?:0x[0-9A-Fa-f]+\\|[0-9]+\\)\\>" . font-lock-constant-face))
  "How the parts of a source text are coloured.")

;;;###autoload
(define-derived-mode mta-mode prog-mode "MTA"
  "Major mode for source texts of mta_sim."
  (setq-local comment-start "; ")
  (setq-local comment-start-skip ";+\\s-*")
  (setq-local font-lock-defaults '(mta-font-lock-keywords))
  (when (buffer-file-name)
    (setq-local compile-command (concat "mta_lab check " (shell-quote-argument (buffer-file-name))))))

;;;###autoload
(add-to-list 'auto-mode-alist '("\\.mta\\'" . mta-mode))

(provide 'mta-mode)
;;; mta-mode.el ends here
'''


def mode(names):
    return MODE % {"directives": either(names.directives), "asking": either(names.asking),
                   "conditions": r"\\|".join(names.conditions), "memory": either(names.memory),
                   "access": "".join(names.access), "plain": either(names.plain_memory),
                   "arithmetic": either(names.arithmetic), "others": either([*names.control, *names.wide])}
