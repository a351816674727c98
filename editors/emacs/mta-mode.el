;;; mta-mode.el --- sources of mta_sim and mta_lab -*- lexical-binding: t -*-

;;; Commentary:
;; Colours and comments of the source texts of mta_sim, and mta_lab check as the compile command. Made by editors/make of
;; the assembler's table of names.

;;; Code:

(defvar mta-mode-syntax-table
  (let ((table (make-syntax-table)))
    (modify-syntax-entry ?\; "<" table)
    (modify-syntax-entry ?\n ">" table)
    (modify-syntax-entry ?_ "w" table)
    (modify-syntax-entry ?. "_" table)
    table)
  "Where comments and words of a source text are.")

(defvar mta-font-lock-keywords
  '(("^[ \t]*\\([A-Za-z_][A-Za-z0-9_]*\\):" 1 font-lock-function-name-face)
    ("\\.\\(?:profile\\|slim\\|chain\\|retry\\|trap\\|entry\\|word\\|data\\|fill\\)\\>" . font-lock-preprocessor-face)
    ("\\<\\(?:SKIP\\|JUMP\\)[ \t]+\\(ALWAYS\\|EQ\\|NE\\|LT\\|GE\\|LE\\|GT\\|LTU\\|GEU\\|LEU\\|GTU\\|NEG\\|POS\\|OV\\|NOV\\)\\>" 1 font-lock-constant-face)
    ("\\<\\(?:\\(?:LOAD\\|STORE\\|FADD\\)\\(?:\\.[NFS]\\)?\\|\\(?:TAGGET\\|TAGSET\\|PURGE\\)\\)\\>" . font-lock-type-face)
    ("\\<\\(?:ADD\\|SUB\\|MUL\\|AND\\|OR\\|XOR\\|ANDN\\|SHL\\|SHR\\|SAR\\|TALLY\\|LTS\\|LTU\\|PTR\\)\\(?:\\.T\\)?\\>" . font-lock-keyword-face)
    ("\\<\\(?:NOP\\|JUMP\\|SKIP\\|CALL\\|XCHG\\|TSET\\|TGET\\|XGET\\|RESERVE\\|CREATE\\|QUIT\\|QUITP\\|MASK\\|LIT\\|LITH\\|TLIT\\)\\>" . font-lock-keyword-face)
    ("\\<\\(?:r\\(?:[0-9]\\|[12][0-9]\\|3[01]\\)\\|t[0-7]\\)\\>" . font-lock-variable-name-face)
    ("-?\\<\\(?:0x[0-9A-Fa-f]+\\|[0-9]+\\)\\>" . font-lock-constant-face))
  "How the parts of a source text are coloured.")

;;;###autoload
(define-derived-mode mta-mode prog-mode "MTA"
  "Major mode for source texts of mta_sim."
  (setq-local comment-start "; ")
  (setq-local comment-start-skip ";+\\s-*")
  (setq-local font-lock-defaults '(mta-font-lock-keywords))
  (when (buffer-file-name)
    (setq-local compile-command (concat "mta_lab check " (shell-quote-argument (buffer-file-name))))))

;;;###autoload
(add-to-list 'auto-mode-alist '("\\.mta\\'" . mta-mode))

(provide 'mta-mode)
;;; mta-mode.el ends here
