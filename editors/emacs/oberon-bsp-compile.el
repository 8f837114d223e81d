;;; oberon-bsp-compile.el --- Compiles by the build server  -*- lexical-binding: t; -*-

;;; Commentary:

;; Of which targets a compile is, how far it is, and what is said of its end.

;;; Code:

(require 'oberon-bsp-session)
(require 'oberon-bsp-shown)

(defun oberon-bsp--ask-targets (session files then)
  "Ask SESSION in which targets FILES are, and call THEN behind all answers."
  (let ((left (length files)))
    (cl-incf (oberon-bsp--session-asked session))
    (let ((answered
           (lambda ()
             (when (<= (cl-decf left) 0)
               (cl-decf (oberon-bsp--session-asked session))
               (funcall then)
               (force-mode-line-update t)))))
      (if (null files)
          (funcall answered)
        (dolist (file files)
          (oberon-bsp--ask-target session file answered))))))

(defun oberon-bsp--ask-target (session file then)
  "Ask SESSION in which targets FILE is, and call THEN behind the answer."
  (oberon-bsp--request
   session :buildTarget/inverseSources
   (list :textDocument (list :uri (oberon-bsp--uri file)))
   (lambda (result)
     (puthash file (or (append (plist-get result :targets) nil) 'none)
              (oberon-bsp--session-targets session))
     (funcall then))
   (lambda (refusal)
     (oberon-bsp--say "%s" (plist-get refusal :message))
     (funcall then))))

(defun oberon-bsp--targets-of (session file)
  "The targets of FILE, as SESSION knows them."
  (let ((targets (gethash file (oberon-bsp--session-targets session))))
    (if (listp targets) targets)))

(defun oberon-bsp--tell-outside (session file)
  "Say so where FILE is in no target of SESSION."
  (when (eq 'none (gethash file (oberon-bsp--session-targets session)))
    (oberon-bsp--say "%s is in no target of %s"
                     (file-name-nondirectory file) oberon-bsp--workspace-file)))

(defun oberon-bsp--compile-open (session)
  "Compile the targets of all modules of SESSION that are open.
A library's users are among them where they are open."
  (when-let ((targets
              (seq-uniq
               (seq-mapcat
                (lambda (file) (oberon-bsp--targets-of session file))
                (oberon-bsp--modules session)))))
    (oberon-bsp--compile session targets)))

(defun oberon-bsp--compile-file (session file)
  "Compile when FILE of SESSION was opened or saved."
  (oberon-bsp--ask-targets
   session (list file)
   (lambda ()
     (if (oberon-bsp--targets-of session file)
         (oberon-bsp--compile-open session)
       (oberon-bsp--tell-outside session file)))))

(defun oberon-bsp--compile-opened (session)
  "Compile when SESSION was opened, or its workspace file read again."
  (clrhash (oberon-bsp--session-targets session))
  (let ((files (oberon-bsp--modules session)))
    (oberon-bsp--ask-targets
     session files
     (lambda ()
       (dolist (file files)
         (oberon-bsp--tell-outside session file))
       (oberon-bsp--compile-open session)))))

(defun oberon-bsp--compile-every (session)
  "Compile every target of SESSION.
Then what is shown are the errors of the workspace."
  (oberon-bsp--request
   session :workspace/buildTargets nil
   (lambda (result)
     (oberon-bsp--compile
      session
      (mapcar (lambda (target) (plist-get target :id))
              (plist-get result :targets))))))

(defun oberon-bsp--compile (session targets)
  "Compile TARGETS of SESSION.
A compile that isn't answered yet is cancelled, and its targets are
compiled too."
  (pcase-let ((`(,earlier . ,others) (oberon-bsp--session-compile session)))
    (when earlier
      (oberon-bsp--notify session :$/cancelRequest (list :id earlier)))
    (let ((compile (cons nil (seq-uniq (append others targets)))))
      (setf (oberon-bsp--session-compile session) compile
            (car compile)
            (oberon-bsp--request
             session :buildTarget/compile
             (list :targets (vconcat (cdr compile)))
             (lambda (_result) (oberon-bsp--compiled session compile nil))
             (lambda (refusal)
               (oberon-bsp--compiled session compile refusal))))
      (force-mode-line-update t))))

(defun oberon-bsp--compiled (session compile refusal)
  "Show what COMPILE of SESSION has published, or tell its REFUSAL.
Nothing is done where another compile has replaced it."
  (when (eq compile (oberon-bsp--session-compile session))
    (setf (oberon-bsp--session-compile session) nil
          (oberon-bsp--session-is-compiled session) t
          (oberon-bsp--session-failed session) (plist-get refusal :message))
    (oberon-bsp--show session)
    (if refusal
        (oberon-bsp--say "compiling failed: %s" (plist-get refusal :message))
      (oberon-bsp--tell-end session (length (cdr compile))))))

(defun oberon-bsp--tell-end (session targets)
  "Say what SESSION shows behind a compile of so many TARGETS."
  (let ((unopened (seq-remove #'find-buffer-visiting
                              (mapcar #'car (oberon-bsp--shown-files session))))
        (found (oberon-bsp--found session)))
    (cond
     (unopened
      (oberon-bsp--say "errors in %s (M-x oberon-bsp-errors lists them)"
                       (mapconcat #'file-name-nondirectory unopened ", ")))
     (found
      (oberon-bsp--say "%s (M-x oberon-bsp-errors lists them)" found))
     (t
      (oberon-bsp--say "no errors (%s)"
                       (oberon-bsp--counted targets "target"))))))

;;;; Tasks

(defun oberon-bsp--task-started (session params)
  "Count the task of PARAMS in SESSION where it is a check.
A check is a task below a target's, and says nothing of its kind."
  (let ((task (plist-get params :taskId)))
    (cond
     ((seq-empty-p (plist-get task :parents))
      (clrhash (oberon-bsp--session-checks session))
      (setf (oberon-bsp--session-done session) 0))
     ((not (plist-get params :dataKind))
      (puthash (plist-get task :id) t (oberon-bsp--session-checks session)))))
  (force-mode-line-update t))

(defun oberon-bsp--task-finished (session params)
  "Count the task of PARAMS in SESSION where it is a check that is done."
  (when (gethash (plist-get (plist-get params :taskId) :id)
                 (oberon-bsp--session-checks session))
    (cl-incf (oberon-bsp--session-done session)))
  (force-mode-line-update t))

(provide 'oberon-bsp-compile)

;;; oberon-bsp-compile.el ends here
