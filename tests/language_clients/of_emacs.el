;;; of_emacs.el --- what eglot shows of a source text -*- lexical-binding: t -*-

;;; Commentary:
;; What eglot shows of the source text in the environment's FILE, with the server of the environment's LAB. Each answer is a
;; line on standard output, its name, a tab, and its value as JSON.

;;; Code:

(setq make-backup-files nil create-lockfiles nil)
(let ((packages "/usr/share/emacs/site-lisp/elpa"))
  (when (file-directory-p packages)
    (dolist (folder (directory-files packages t "^[a-z]")) (add-to-list 'load-path folder))))
(require 'eglot)
(require 'flymake)
(require 'json)
(load (getenv "MODE") nil t)
(add-to-list 'eglot-server-programs `(mta-mode . (,(getenv "LAB") "lsp")))
(setq eglot-sync-connect 20 eglot-autoshutdown nil eglot-confirm-server-initiated-edits nil)

(defun say (name value)
  "Print an answer's NAME and its VALUE."
  (princ (format "%s\t%s\n" name (json-encode value))))

(defun wait-for (done)
  "Wait until DONE holds."
  (let ((end (+ (float-time) 20)))
    (while (and (not (funcall done)) (< (float-time) end)) (accept-process-output nil 0.02))
    (unless (funcall done) (error "Nothing came"))))

(defun find (word &optional from)
  "Go to WORD, after FROM where that is given."
  (goto-char (point-min))
  (when from (search-forward from))
  (search-forward word)
  (goto-char (match-beginning 0)))

(defun shown ()
  "Each diagnostic's line and column, from 0, and its kind."
  (mapcar (lambda (it)
            (goto-char (flymake-diagnostic-beg it))
            (vector (1- (line-number-at-pos)) (current-column) (symbol-name (flymake-diagnostic-type it))))
          (sort (flymake-diagnostics) (lambda (a b) (< (flymake-diagnostic-beg a) (flymake-diagnostic-beg b))))))

(find-file (getenv "FILE"))
(mta-mode)
(apply #'eglot (eglot--guess-contact))
(flymake-mode 1)
(flymake-start)
(wait-for (lambda () (= (length (flymake-diagnostics)) 2)))
(say "first" (shown))
(find "LIT")
(let (told)
  (eglot-hover-eldoc-function (lambda (words &rest _) (setq told words)))
  (wait-for (lambda () told))
  (say "hover" (car (split-string (substring-no-properties told) "\n"))))
(find "again" "NE, 0")
(say "definition"
     (mapcar (lambda (it) (1- (xref-location-line (xref-item-location it))))
             (xref-backend-definitions 'eglot (xref-backend-identifier-at-point 'eglot))))
(say "references"
     (length (xref-backend-references 'eglot (xref-backend-identifier-at-point 'eglot))))
(goto-char (point-min))
(search-forward "SKIP N")
(let ((table (nth 2 (eglot-completion-at-point))))
  (say "completed" (all-completions "N" table)))
(find "again" "NE, 0")
(say "refused" (condition-case refused (progn (eglot-rename "once") nil) (error (error-message-string refused))))
;; the quick fix of the faulty line, as a user asks for it; and back
(find "QUITE")
(say "fix" (mapcar (lambda (it) (plist-get it :title)) (eglot-code-actions (point) (point) "quickfix")))
(eglot-code-actions (point) (point) "quickfix" t)
(eglot--signal-textDocument/didChange)
(flymake-start)
(wait-for (lambda () (= (length (flymake-diagnostics)) 1)))
(goto-char (point-min))
(forward-line 8)
(say "mended" (buffer-substring-no-properties (line-beginning-position) (line-end-position)))
(find "QUIT")
(insert "x")
(eglot--signal-textDocument/didChange)
(flymake-start)
(wait-for (lambda () (= (length (flymake-diagnostics)) 2)))
(find "xQUIT")
(delete-region (match-beginning 0) (match-end 0))
(insert "QUIT")
(eglot--signal-textDocument/didChange)
(flymake-start)
(wait-for (lambda () (= (length (flymake-diagnostics)) 1)))
(say "then" (shown))
(find "again" "NE, 0")
(eglot-rename "once")
(say "renamed" (count-matches "once" (point-min) (point-max)))
(eglot-format-buffer)
(say "formatted" (split-string (buffer-substring-no-properties (point-min) (point-max)) "\n"))
(set-buffer-modified-p nil)
(eglot-shutdown (eglot-current-server))
(say "stopped" t)

;;; of_emacs.el ends here
