;; Drives eglot over the language server in batch mode, and writes what it gets as lines of JSON to the file of TRIED_RESULTS.
;; -*- lexical-binding: t; -*-
(package-initialize)
(require 'eglot)
(require 'json)
(require 'dbc-mode)

(defvar results nil)

(defun as-vectors (it)
  "Lists as vectors, as some lists would be written as objects."
  (if (consp it) (vconcat (mapcar #'as-vectors it)) it))

(defun report (name value)
  (push (concat (json-encode (as-vectors (list name value))) "\n") results))

(defun wait-for (test)
  "Let processes and timers run until TEST holds, at most 15 seconds."
  (let ((end (+ (float-time) 15)))
    (while (and (not (funcall test)) (< (float-time) end))
      (accept-process-output nil 0.05))))

(defun connect (file)
  (find-file file)
  (apply #'eglot (eglot--guess-contact))
  (wait-for #'eglot-current-server)
  (flymake-mode 1))

(defun go-to (line column)
  (goto-char (point-min))
  (forward-line line)
  (forward-char column))

(defun diagnostics ()
  "Line, columns and type of each diagnostic, in order."
  (mapcar (lambda (it)
            (save-excursion
              (goto-char (flymake-diagnostic-beg it))
              (let ((begin (- (point) (line-beginning-position))))
                (list (1- (line-number-at-pos)) begin (- (flymake-diagnostic-end it) (line-beginning-position))
                      (symbol-name (flymake-diagnostic-type it))))))
          (sort (flymake-diagnostics) (lambda (a b) (< (flymake-diagnostic-beg a) (flymake-diagnostic-beg b))))))

(defun names-in (menu)
  "The names of a menu and of those in it."
  (mapcan (lambda (it) (cons (substring-no-properties (car it)) (when (consp (cdr it)) (names-in (cdr it))))) menu))

(defun try-locations ()
  (go-to 14 10)
  (let ((hover (jsonrpc-request (eglot-current-server) :textDocument/hover (eglot--TextDocumentPositionParams))))
    (report "hover" (plist-get (plist-get hover :contents) :value)))
  (report "outline" (sort (seq-difference (seq-uniq (names-in (eglot-imenu))) '("Class" "Enum" "Field" "Property")) #'string<))
  (go-to 16 24)
  (let ((found (car (xref-backend-definitions 'eglot (xref-backend-identifier-at-point 'eglot)))))
    (setq found (xref-item-location found))
    (report "definition" (list (xref-location-line found) (xref-file-location-column found))))
  (go-to 14 10)
  (eglot-rename "Pace")
  (report "renamed" (buffer-string)))

(defun face-at (position)
  (go-to (car position) (cadr position))
  (symbol-name (get-text-property (point) 'face)))

(defun try ()
  (connect (getenv "TRIED_FILE"))
  (report "mode" (symbol-name major-mode))
  (font-lock-ensure)
  (report "faces" (mapcar #'face-at '((3 0) (2 20) (3 9))))
  (wait-for #'flymake-diagnostics)
  (report "diagnostics" (diagnostics))
  (go-to 17 5)
  (insert "😀")
  (goto-char (point-max))
  (insert "VAL_ 12 X 0 \"😀ä\"; VAL_ 13 X 0 \"b\" ;\n")
  (eglot--signal-textDocument/didChange)
  (wait-for (lambda () (equal (length (diagnostics)) 3)))
  (report "diagnostics after an edit" (diagnostics))
  (go-to 14 10)
  (report "completion" (all-completions "" (nth 2 (eglot-completion-at-point))))
  (try-locations)
  (set-buffer-modified-p nil)
  (connect (getenv "TRIED_LOOSE"))
  (eglot-format-buffer)
  (report "formatted" (buffer-string))
  (set-buffer-modified-p nil))

(condition-case fault (try) (error (report "fault" (format "%S" fault))))
(let ((coding-system-for-write 'utf-8))
  (with-temp-file (getenv "TRIED_RESULTS") (mapc #'insert (reverse results))))
