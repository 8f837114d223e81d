;;; oberon-mode.el --- Major mode for modules of Oberon-07  -*- lexical-binding: t; -*-

;;; Commentary:

;; Keywords, comments that nest, strings, indentation by the structure of the
;; text, and a list of procedures for `imenu'.

;;; Code:

(require 'prog-mode)
(require 'seq)
(require 'syntax)

(defvar compilation-error-screen-columns)

(defgroup oberon nil
  "Modules of Oberon-07."
  :group 'languages)

(defcustom oberon-indent 2
  "By how many columns a construct's parts stand to its right."
  :type 'natnum)

(defconst oberon--words
  '("ARRAY" "BEGIN" "BY" "CASE" "CONST" "DIV" "DO" "ELSE" "ELSIF" "END" "FALSE"
    "FOR" "IF" "IMPORT" "IN" "IS" "MOD" "MODULE" "NIL" "OF" "OR" "POINTER"
    "PROCEDURE" "RECORD" "REPEAT" "RETURN" "THEN" "TO" "TRUE" "TYPE" "UNTIL"
    "VAR" "WHILE")
  "The reserved words.")

(defconst oberon--types '("BOOLEAN" "BYTE" "CHAR" "INTEGER" "SET")
  "The predeclared types.")

(defconst oberon--procedures
  '("ABS" "ASR" "ASSERT" "CHR" "DEC" "EXCL" "INC" "INCL" "LEN" "LSL" "ODD" "ORD"
    "ROR")
  "The predeclared procedures.")

(defconst oberon--font-lock
  `((,(regexp-opt oberon--words 'symbols) . font-lock-keyword-face)
    (,(regexp-opt oberon--types 'symbols) . font-lock-type-face)
    (,(regexp-opt oberon--procedures 'symbols) . font-lock-builtin-face)
    ("\\_<PROCEDURE[ \t\n]+\\([A-Za-z][A-Za-z0-9]*\\)"
     1 font-lock-function-name-face))
  "What is shown in a face of its own.")

(defvar oberon-mode-syntax-table
  (let ((table (make-syntax-table)))
    (modify-syntax-entry ?\( "()1n" table)
    (modify-syntax-entry ?\) ")(4n" table)
    (modify-syntax-entry ?* ". 23n" table)
    (modify-syntax-entry ?\" "\"" table)
    (modify-syntax-entry ?\\ "." table)
    (modify-syntax-entry ?_ "." table)
    (modify-syntax-entry ?' "." table)
    table)
  "The syntax of modules.")

;;;; Indentation

;; The constructs that are open at a place stand in a list, the innermost
;; first, each as its kind and the column at which it stands.

(defconst oberon--token
  (concat (regexp-opt '("MODULE" "PROCEDURE" "IMPORT" "CONST" "TYPE" "VAR"
                        "BEGIN" "RECORD" "IF" "CASE" "WHILE" "FOR" "REPEAT"
                        "UNTIL" "END")
                      'symbols)
          "\\|[][(){}]")
  "The tokens that open and close constructs.")

(defun oberon--without-section (open)
  "The constructs OPEN, without a section of declarations at their front."
  (if (eq 'section (caar open)) (cdr open) open))

(defun oberon--behind (open token column)
  "The constructs that are open behind TOKEN, where OPEN are before it.
COLUMN is that at which the line of the token begins."
  (pcase token
    ((or "(" "[" "{") (cons (cons 'bracket column) open))
    ((or ")" "]" "}") (if (eq 'bracket (caar open)) (cdr open) open))
    ((guard (eq 'bracket (caar open))) open)
    ((or "IMPORT" "CONST" "TYPE" "VAR")
     (cons (cons 'section column) (oberon--without-section open)))
    ("PROCEDURE" (cons (cons 'block column) (oberon--without-section open)))
    ("MODULE" (cons (cons 'module column) open))
    ("BEGIN" (oberon--begun (oberon--without-section open)))
    ((or "END" "UNTIL") (cdr (oberon--without-section open)))
    (_ (cons (cons 'part column) open))))

(defun oberon--begun (open)
  "The constructs OPEN behind their BEGIN."
  (if (memq (caar open) '(block module))
      (cons (cons 'block (cdar open)) (cdr open))
    open))

(defvar-local oberon--known nil
  "Places of this buffer and the constructs that are open there.
The last place is the first of the list.  Lines that are indented one
after another take one way through the text.")

(defun oberon--forget-behind (begin _end)
  "Forget what is open behind BEGIN, where the text is to change."
  (while (and oberon--known (< begin (caar oberon--known)))
    (pop oberon--known)))

(defun oberon--open-at (end)
  "The constructs that are open at END, where no token is under way."
  (save-excursion
    (save-restriction
      (widen)
      (pcase-let ((`(,place . ,open)
                   (or (seq-find (lambda (known) (<= (car known) end))
                                 oberon--known)
                       (list (point-min)))))
        (goto-char place)
        (setq open (oberon--open-behind open end))
        (when (< (or (caar oberon--known) 0) end)
          (push (cons end open) oberon--known))
        open))))

(defun oberon--open-behind (open end)
  "The constructs that are open at END, where those at point are OPEN."
  (let ((case-fold-search nil))
    (while (re-search-forward oberon--token end t)
      (let ((token (match-string-no-properties 0)))
        (unless (or (nth 8 (save-excursion (syntax-ppss (match-beginning 0))))
                    ;; Behind the front of a comment.
                    (and (equal token "(") (looking-at-p "\\*")))
          (setq open (oberon--behind open token (current-indentation))))))
    open))

(defun oberon--inside (open)
  "The column of the parts of the innermost construct of OPEN.
What a module declares stands at its own column."
  (pcase (car open)
    ('nil 0)
    (`(module . ,column) column)
    (`(,_ . ,column) (+ column oberon-indent))))

(defun oberon--column (open)
  "The column of this line, before which the constructs OPEN are open.
A comment stands as what it is about."
  (let ((case-fold-search nil)
        (outer (oberon--without-section open)))
    (while (and (looking-at-p "(\\*") (forward-comment 1))
      (skip-chars-forward " \t")
      (when (looking-at-p "\n[^\n]")
        (skip-chars-forward " \t\n")))
    (cond
     ((looking-at "\\_<\\(END\\|UNTIL\\|BEGIN\\)\\_>")
      (or (cdar outer) 0))
     ((looking-at "\\_<\\(ELSE\\|ELSIF\\)\\_>\\|[]|)}]") (or (cdar open) 0))
     ((looking-at
       "\\_<\\(IMPORT\\|CONST\\|TYPE\\|VAR\\|PROCEDURE\\|RETURN\\)\\_>")
      (oberon--inside outer))
     (t (oberon--inside open)))))

(defun oberon-indent-line ()
  "Indent this line by the structure of the text."
  (let ((column (save-excursion
                  (back-to-indentation)
                  (unless (nth 8 (syntax-ppss))
                    (oberon--column (oberon--open-at (point)))))))
    (when column
      (if (<= (current-column) (current-indentation))
          (indent-line-to column)
        (save-excursion (indent-line-to column))))))

;;;; The mode

(defconst oberon--imenu
  '((nil "^[ \t]*PROCEDURE[ \t]+\\([A-Za-z][A-Za-z0-9]*\\)" 1))
  "The procedures of a module.")

;;;###autoload
(define-derived-mode oberon-mode prog-mode "Oberon"
  "A mode for modules of Oberon-07."
  (add-hook 'before-change-functions #'oberon--forget-behind nil t)
  (setq-local comment-start "(* "
              comment-end " *)"
              comment-start-skip "(\\*+[ \t]*"
              comment-end-skip "[ \t]*\\*+)"
              indent-line-function #'oberon-indent-line
              imenu-generic-expression oberon--imenu
              imenu-case-fold-search nil
              font-lock-defaults '(oberon--font-lock)
              ;; Columns of tools/oberon-check are counted in characters.
              compilation-error-screen-columns nil))

;;;###autoload
(add-to-list 'auto-mode-alist '("\\.Mod\\'" . oberon-mode))

;;;; Errors of tools/oberon-check

(defvar compilation-error-regexp-alist)
(defvar compilation-error-regexp-alist-alist)

(with-eval-after-load 'compile
  (add-to-list 'compilation-error-regexp-alist-alist
               '(oberon-check
                 "^\\(.+?\\.Mod\\):\\([0-9]+\\):\\([0-9]+\\): \\(?:error\\|\\(warning\\)\\): "
                 1 2 3 (4)))
  (add-to-list 'compilation-error-regexp-alist 'oberon-check))

(provide 'oberon-mode)

;;; oberon-mode.el ends here
