;;; dbc-mode.el --- Mode for CAN databases in Vector's DBC format -*- lexical-binding: t; -*-

;;; Commentary:

;; Highlights DBC files, and registers candesk's language server with eglot: M-x eglot starts it.

;;; Code:

(defvar eglot-server-programs)

(defvar dbc-mode-syntax-table
  (let ((table (make-syntax-table)))
    (modify-syntax-entry ?/ ". 12" table)
    (modify-syntax-entry ?\n ">" table)
    (modify-syntax-entry ?\" "\"" table)
    (modify-syntax-entry ?\\ "\\" table)
    (modify-syntax-entry ?_ "w" table)
    table)
  "Syntax of strings, comments and names in DBC files.")

(defconst dbc-mode-keywords
  '(("\\<\\(?:VERSION\\|[A-Z]+_\\(?:[A-Z]+_\\)*\\)\\>" . font-lock-keyword-face)
    ("\\<\\(?:INT\\|HEX\\|FLOAT\\|STRING\\|ENUM\\)\\>" . font-lock-type-face)
    ("\\<BO_\\s-+[0-9]+\\s-+\\(\\w+\\)" 1 font-lock-function-name-face)
    ("\\<SG_\\s-+\\([A-Za-z_]\\w*\\)" 1 font-lock-variable-name-face)
    ("\\<\\(M\\|m[0-9]+M?\\)\\s-*:" 1 font-lock-builtin-face)
    ("\\<Vector__XXX\\>" . font-lock-constant-face))
  "Highlighting of DBC files, in addition to strings and comments.")

;;;###autoload
(define-derived-mode dbc-mode prog-mode "DBC"
  "Mode for CAN databases in Vector's DBC format."
  (setq-local comment-start "// ")
  (setq-local comment-start-skip "//+\\s-*")
  (setq-local font-lock-defaults '(dbc-mode-keywords)))

;;;###autoload
(add-to-list 'auto-mode-alist '("\\.dbc\\'" . dbc-mode))

(with-eval-after-load 'eglot
  (add-to-list 'eglot-server-programs '(dbc-mode . ("candesk-lsp"))))

(provide 'dbc-mode)

;;; dbc-mode.el ends here
