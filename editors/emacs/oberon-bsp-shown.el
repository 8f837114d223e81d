;;; oberon-bsp-shown.el --- What the build server has shown  -*- lexical-binding: t; -*-

;;; Commentary:

;; What was published, its marks in buffers for Flymake, and the state in the
;; mode line.

;;; Code:

(require 'flymake)
(require 'oberon-bsp-places)
(require 'oberon-bsp-session)

(defcustom oberon-bsp-mark-limit 1000
  "How many diagnostics are marked in a buffer at the most.
The list of `oberon-bsp-errors' has all of them."
  :type 'natnum
  :group 'oberon-bsp)

(defvar oberon-bsp--show-functions nil
  "What else is called with a session when something new is shown.")

(defun oberon-bsp--publish (session params)
  "Keep for SESSION the list of diagnostics in PARAMS.
It replaces those of its document in its target where it resets, and
else comes behind them."
  (cl-destructuring-bind
      (&key textDocument buildTarget diagnostics reset &allow-other-keys) params
    (let* ((file (oberon-bsp--file-of (plist-get textDocument :uri)))
           (key (cons file (plist-get buildTarget :uri)))
           (shown (oberon-bsp--session-shown session))
           (before (unless (eq reset t) (gethash key shown))))
      (setf (oberon-bsp--session-counts session) nil)
      (puthash key (cons diagnostics before) shown))))

(defun oberon-bsp--shown-files (session)
  "What SESSION shows, by files in the order of their names.
Each is a file and a list of diagnostics.  A file in two targets has a
list for each, and equal lists count once."
  (let ((lists (make-hash-table :test #'equal)) files)
    (maphash (lambda (key pieces)
               (let ((list (apply #'append (reverse (cons nil pieces)))))
                 (when list
                   (cl-pushnew list (gethash (car key) lists) :test #'equal))))
             (oberon-bsp--session-shown session))
    (maphash (lambda (file some)
               (push (cons file (apply #'append some)) files))
             lists)
    (sort files (lambda (one other) (string< (car one) (car other))))))

(defun oberon-bsp--diagnostics (session file)
  "What SESSION shows of FILE."
  (cdr (assoc file (oberon-bsp--shown-files session))))

(defun oberon-bsp--is-error (diagnostic)
  "Whether DIAGNOSTIC is an error, as one without a severity is."
  (eql 1 (or (plist-get diagnostic :severity) 1)))

(defun oberon-bsp--show (session)
  "Bring the buffers of SESSION and all else up to date."
  (let ((files (oberon-bsp--shown-files session)))
    (dolist (buffer (oberon-bsp--buffers session))
      (with-current-buffer buffer
        (oberon-bsp--mark (cdr (assoc (oberon-bsp--file) files))))))
  (run-hook-with-args 'oberon-bsp--show-functions session)
  (force-mode-line-update t))

;;;; Marks

(defvar-local oberon-bsp--report nil
  "The function by which diagnostics of this buffer are told to Flymake.")

(defun oberon-bsp--flymake (report &rest _)
  "Keep REPORT for later, and mark what is known of this buffer's file."
  (setq oberon-bsp--report report)
  (when oberon-bsp--session
    (oberon-bsp--mark
     (oberon-bsp--diagnostics oberon-bsp--session (oberon-bsp--file)))))

(defun oberon-bsp--mark (diagnostics)
  "Mark DIAGNOSTICS of this buffer's file.
A text that was changed since it was saved isn't the one that was
compiled: what is marked in it stays, and moves with the text."
  (when (and flymake-mode oberon-bsp--report)
    (save-restriction
      (widen)
      (funcall oberon-bsp--report
               (if (and diagnostics (buffer-modified-p))
                   (oberon-bsp--moved-marks)
                 (oberon-bsp--marks diagnostics))
               :region (cons (point-min) (point-max))))))

(defun oberon-bsp--moved-marks ()
  "The marks of this package in this buffer, where they are now."
  (let (marks)
    (dolist (overlay (overlays-in (point-min) (point-max)) marks)
      (let ((mark (overlay-get overlay 'flymake-diagnostic)))
        (when (and mark (eq 'oberon-bsp--flymake
                            (flymake-diagnostic-backend mark)))
          (push (flymake-make-diagnostic
                 (current-buffer)
                 (overlay-start overlay) (overlay-end overlay)
                 (flymake-diagnostic-type mark) (flymake-diagnostic-text mark))
                marks))))))

(defun oberon-bsp--type (diagnostic)
  "The type of DIAGNOSTIC for Flymake."
  (pcase (plist-get diagnostic :severity)
    ((or 1 'nil) :error)
    (2 :warning)
    (_ :note)))

(defun oberon-bsp--marks (diagnostics)
  "DIAGNOSTICS of this buffer's file, for Flymake."
  (let ((position (oberon-bsp--positions)))
    (mapcar
     (lambda (diagnostic)
       (let* ((range (plist-get diagnostic :range))
              (begin (funcall position (plist-get range :start)))
              (end (funcall position (plist-get range :end)))
              ;; Flymake marks no empty range.
              (end (if (< begin end) end (min (1+ begin) (point-max))))
              (begin (if (< begin end) begin (max (1- end) (point-min)))))
         (flymake-make-diagnostic
          (current-buffer) begin end
          (oberon-bsp--type diagnostic) (plist-get diagnostic :message))))
     (seq-take diagnostics oberon-bsp-mark-limit))))

;;;; The state

(defun oberon-bsp--counted (number word)
  "NUMBER and WORD, with its ending."
  (format "%d %s%s" number word (if (= number 1) "" "s")))

(defun oberon-bsp--count (session)
  "The numbers of errors and warnings that SESSION shows."
  (let ((errors 0) (warnings 0))
    (pcase-dolist (`(,_ . ,diagnostics) (oberon-bsp--shown-files session))
      (dolist (diagnostic diagnostics)
        (if (oberon-bsp--is-error diagnostic)
            (cl-incf errors)
          (cl-incf warnings))))
    (cons errors warnings)))

(defun oberon-bsp--found (session)
  "What SESSION shows in a few words, or nil where that is nothing."
  (pcase-let ((`(,errors . ,warnings)
               (or (oberon-bsp--session-counts session)
                   (setf (oberon-bsp--session-counts session)
                         (oberon-bsp--count session)))))
    (unless (= 0 errors warnings)
      (string-join
       (append
        (when (< 0 errors) (list (oberon-bsp--counted errors "error")))
        (when (< 0 warnings) (list (oberon-bsp--counted warnings "warning"))))
       " "))))

(defun oberon-bsp--settled (session file)
  "What is known of FILE in SESSION once nothing is under way."
  (cond
   ((oberon-bsp--session-failed session)
    (format "failed (%s)" (oberon-bsp--session-failed session)))
   ((eq 'none (gethash file (oberon-bsp--session-targets session)))
    "in no target")
   ((oberon-bsp--found session))
   ((oberon-bsp--session-is-compiled session) "clean")
   (t "not checked")))

(defun oberon-bsp--state-in (session file)
  "The state of SESSION in a few words, as it is for FILE."
  (pcase (oberon-bsp--session-state session)
    ('opening "starting")
    ('open
     (let ((begun (hash-table-count (oberon-bsp--session-checks session))))
       (cond
        ((not (or (oberon-bsp--session-compile session)
                  (< 0 (oberon-bsp--session-asked session))))
         (oberon-bsp--settled session file))
        ((= begun 0) "checking")
        (t (format "checking %d/%d" (oberon-bsp--session-done session)
                   begun)))))
    (state (format "%s (%s)" state (oberon-bsp--session-why session)))))

(defun oberon-bsp-state ()
  "The state of this buffer's workspace in a few words.
It is one of off, starting, checking 3/5, clean, 2 errors 1 warning, in no
target, refused (..), failed (..) and ended (..)."
  (if oberon-bsp--session
      (oberon-bsp--state-in oberon-bsp--session (oberon-bsp--file))
    "off"))

(provide 'oberon-bsp-shown)

;;; oberon-bsp-shown.el ends here
