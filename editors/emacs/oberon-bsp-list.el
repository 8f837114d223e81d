;;; oberon-bsp-list.el --- The list of errors of a workspace  -*- lexical-binding: t; -*-

;;; Commentary:

;; The errors of all files of a workspace, open or not, in one list, for
;; `next-error' and for `flymake-show-project-diagnostics'.

;;; Code:

(require 'oberon-bsp-shown)
(require 'project)
(require 'tabulated-list)

(defconst oberon-bsp--list-name "*oberon-bsp errors*")

(defvar oberon-bsp-errors-mode-map
  (let ((map (make-sparse-keymap)))
    (define-key map (kbd "RET") #'oberon-bsp-visit)
    map)
  "The keys of `oberon-bsp-errors-mode'.")

(define-derived-mode oberon-bsp-errors-mode tabulated-list-mode "Oberon errors"
  "A list of errors and warnings of a workspace."
  (setq tabulated-list-format [("File" 20 nil)
                               ("Line" 5 nil :right-align t)
                               ("Column" 6 nil :right-align t)
                               ("Kind" 7 nil)
                               ("Message and code" 0 nil)]
        tabulated-list-entries
        (lambda () (oberon-bsp--entries oberon-bsp--listed))
        tabulated-list-printer #'oberon-bsp--print)
  (setq-local next-error-function #'oberon-bsp--next)
  (tabulated-list-init-header))

(defun oberon-bsp--print (id row)
  "Insert a line with ID and the columns of ROW.
Emacs has a function for this, which takes several times as long."
  (pcase-let ((start (point))
              (`[,file ,line ,column ,kind ,told] row))
    (when (< 20 (string-width file))
      (setq file (truncate-string-to-width file 20 nil nil t)))
    (insert (format "%-20s %5s %6s %-7s %s\n" file line column kind told))
    (add-text-properties
     start (point) (list 'tabulated-list-id id 'tabulated-list-entry row))))

(defun oberon-bsp--list-buffer (session)
  "The buffer that lists the errors of SESSION, which is made if need be."
  (with-current-buffer (get-buffer-create oberon-bsp--list-name)
    (unless (eq session oberon-bsp--listed)
      (oberon-bsp-errors-mode)
      (setq oberon-bsp--listed session
            default-directory (oberon-bsp--session-root session))
      (tabulated-list-print))
    (current-buffer)))

(defun oberon-bsp--list-again (session)
  "Bring the list of errors up to date where it is one of SESSION."
  (when-let ((list (get-buffer oberon-bsp--list-name)))
    (with-current-buffer list
      (when (eq session oberon-bsp--listed)
        (let ((id (tabulated-list-get-id))
              (is-visited (not (oberon-bsp--is-unvisited)))
              (row (count-lines (point-min) (line-beginning-position))))
          (tabulated-list-print t)
          (unless (equal id (tabulated-list-get-id))
            ;; Where an error went the next one stands in its row.
            (goto-char (point-min))
            (forward-line row)
            (setq is-visited nil))
          (oberon-bsp--show-row is-visited))))))

(defun oberon-bsp--show-row (is-visited)
  "Have windows of this list show the line of point.
Where it IS-VISITED it has the arrow, of which there is one in Emacs."
  (cond
   (is-visited
    (setq overlay-arrow-position (copy-marker (line-beginning-position))))
   ((not (oberon-bsp--is-unvisited)) (setq overlay-arrow-position nil)))
  (dolist (window (get-buffer-window-list nil nil t))
    (set-window-point window (point))))

(defun oberon-bsp--entries (session)
  "What SESSION shows, as entries of a list.
Files are named as they stand below the workspace."
  (let ((root (oberon-bsp--session-root session)))
    (seq-mapcat
     (pcase-lambda (`(,file . ,diagnostics))
       (let ((name (file-relative-name file root)))
         (oberon-bsp--in-text
          file
          (lambda () (oberon-bsp--entries-here file name diagnostics)))))
     (oberon-bsp--shown-files session))))

(defun oberon-bsp--in-text (file act)
  "Call ACT where the text of FILE is: in its buffer, where it has one."
  (if-let ((buffer (find-buffer-visiting file)))
      (with-current-buffer buffer
        (save-restriction
          (widen)
          (funcall act)))
    (with-temp-buffer
      ;; A file that isn't there has diagnostics too.
      (ignore-errors
        (insert-file-contents file)
        (setq buffer-file-coding-system last-coding-system-used))
      (funcall act))))

(defun oberon-bsp--entries-here (file name diagnostics)
  "DIAGNOSTICS of FILE, called NAME and with its text here, as entries."
  (let ((walker (oberon-bsp--walker)))
    (mapcar
     (lambda (diagnostic)
       (let ((start (plist-get (plist-get diagnostic :range) :start)))
         (pcase-let ((`(,_ ,line ,column) (funcall walker start)))
           (list (cons file start)
                 (vector name
                         (number-to-string line)
                         (number-to-string column)
                         (if (oberon-bsp--is-error diagnostic)
                             "error" "warning")
                         (oberon-bsp--told diagnostic))))))
     diagnostics)))

(defun oberon-bsp--told (diagnostic)
  "The message of DIAGNOSTIC, and its code where it has one."
  (let ((message (plist-get diagnostic :message))
        (code (plist-get diagnostic :code)))
    (if code (format "%s [%s]" message code) message)))

;;;; Going to an error

(defun oberon-bsp--go (entry)
  "Go to the place of ENTRY, a file and a place of the protocol.
The list stays in its window where it has one."
  (let ((file (find-file-noselect (car entry))))
    (if (eq (window-buffer) (get-buffer oberon-bsp--list-name))
        (pop-to-buffer file)
      (pop-to-buffer-same-window file)))
  (widen)
  (goto-char (funcall (oberon-bsp--positions) (cdr entry))))

(defun oberon-bsp-visit ()
  "Go to the error in this line of the list."
  (interactive)
  (let ((entry (or (tabulated-list-get-id) (user-error "No error here"))))
    (setq next-error-last-buffer (current-buffer))
    (oberon-bsp--go entry)))

(defun oberon-bsp--next (count reset)
  "Go to the error COUNT lines below in this list.
With RESET count from the first one, before which the list begins."
  (when reset
    (goto-char (point-min))
    (setq count (max 0 (1- (or count 1)))))
  (when (and (not reset) (oberon-bsp--is-unvisited))
    (setq count (1- count)))
  (unless (and (zerop (forward-line count)) (tabulated-list-get-id))
    (user-error "No more errors"))
  (oberon-bsp--show-row t)
  (oberon-bsp--go (tabulated-list-get-id)))

(defun oberon-bsp--is-unvisited ()
  "Whether no error of this list was gone to yet."
  (not (and (markerp overlay-arrow-position)
            (eq (current-buffer) (marker-buffer overlay-arrow-position)))))

(defun oberon-bsp--next-here (count reset)
  "Go to the error COUNT below in the list of this buffer's workspace.
With RESET count from the first one."
  (let ((list (oberon-bsp--list-buffer oberon-bsp--session)))
    (setq next-error-last-buffer list)
    (set-buffer list)
    (oberon-bsp--next count reset)))

;;;; Flymake's list of a project

(cl-defmethod project-root ((project (head oberon-bsp)))
  "The root of PROJECT, which is a workspace."
  (cdr project))

(defun oberon-bsp--project (folder)
  "The workspace above FOLDER as a project."
  (when-let ((root (locate-dominating-file folder oberon-bsp--workspace-file)))
    (cons 'oberon-bsp (file-name-as-directory (expand-file-name root)))))

(add-hook 'project-find-functions #'oberon-bsp--project t)

(defun oberon-bsp--tell-flymake (session)
  "Have Flymake list what SESSION shows of files that aren't open."
  (let ((root (oberon-bsp--session-root session)))
    (setq flymake-list-only-diagnostics
          (append
           (delq nil (mapcar #'oberon-bsp--list-only
                             (oberon-bsp--shown-files session)))
           (seq-remove
            (lambda (entry)
              (and (file-in-directory-p (car entry) root)
                   (eq 'oberon-bsp (flymake-diagnostic-data (cadr entry)))))
            flymake-list-only-diagnostics)))))

(defun oberon-bsp--list-only (shown)
  "SHOWN, a file and its diagnostics, for Flymake where the file isn't open."
  (pcase-let ((`(,file . ,diagnostics) shown))
    (unless (find-buffer-visiting file)
      (cons file
            (oberon-bsp--in-text
             file
             (lambda ()
               (let ((walker (oberon-bsp--walker)))
                 (mapcar
                  (lambda (diagnostic)
                    (pcase-let* ((start (plist-get (plist-get diagnostic :range)
                                                   :start))
                                 (`(,_ ,line ,column) (funcall walker start)))
                      (flymake-make-diagnostic
                       file (cons line column) nil
                       (oberon-bsp--type diagnostic)
                       (plist-get diagnostic :message) 'oberon-bsp)))
                  diagnostics))))))))

(add-hook 'oberon-bsp--show-functions #'oberon-bsp--list-again)
(add-hook 'oberon-bsp--show-functions #'oberon-bsp--tell-flymake)

(provide 'oberon-bsp-list)

;;; oberon-bsp-list.el ends here
