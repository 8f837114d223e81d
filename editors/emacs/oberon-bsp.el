;;; oberon-bsp.el --- Errors of Oberon modules  -*- lexical-binding: t; -*-

;; Version: 1.0.0
;; Package-Requires: ((emacs "28.1"))
;; Keywords: languages, tools

;;; Commentary:

;; Shows in Emacs what the build server oberon-bsp finds in modules of
;; Oberon-07.  Buffers of files below one oberon-build.json share a
;; server, which compiles the targets of all open files when one is opened
;; or saved.  What it publishes stands in the buffers as Flymake
;; diagnostics, and for all files, open or not, in the list of
;; `oberon-bsp-errors'.  The mode line tells the state.
;;
;;   (require 'oberon-bsp)
;;   (oberon-bsp-global-mode)

;;; Code:

(require 'oberon-bsp-list)
(require 'oberon-bsp-server)
(require 'oberon-mode)

;;;; Commands

(defun oberon-bsp--this-session ()
  "The session of this buffer."
  (or oberon-bsp--session
      oberon-bsp--listed
      (user-error "No workspace is open here (M-x oberon-bsp-mode opens it)")))

(defun oberon-bsp-restart ()
  "Start the server of this buffer's workspace anew."
  (interactive)
  (oberon-bsp--restart (oberon-bsp--this-session)))

(defun oberon-bsp-compile ()
  "Compile the targets of all open files, as saving does."
  (interactive)
  (oberon-bsp--compile-in
   (oberon-bsp--this-session)
   (unless (or oberon-bsp--listed (oberon-bsp--is-workspace-file))
     (oberon-bsp--file))))

(defun oberon-bsp-compile-all ()
  "Compile every target of the workspace."
  (interactive)
  (let ((session (oberon-bsp--this-session)))
    (if (eq 'open (oberon-bsp--session-state session))
        (oberon-bsp--compile-every session)
      (setf (oberon-bsp--session-is-every-due session) t)
      (oberon-bsp--compile-in session nil))))

(defun oberon-bsp--compile-in (session file)
  "Do what FILE asks for in the state of SESSION.
FILE is nil where it is no module."
  (pcase (oberon-bsp--session-state session)
    ('open (if file
               (oberon-bsp--compile-file session file)
             (oberon-bsp--compile-opened session)))
    ('refused (oberon-bsp--open session))
    ('ended
     (oberon-bsp--say
      "no server looks at %s (M-x oberon-bsp-restart starts one)"
      (file-name-nondirectory (or file oberon-bsp--workspace-file))))))

(defun oberon-bsp-errors ()
  "List the errors of this buffer's workspace.
Those of files that aren't open are listed too."
  (interactive)
  (pop-to-buffer (oberon-bsp--list-buffer (oberon-bsp--this-session))))

;;;; The mode

(defvar oberon-bsp-mode-map
  (let ((map (make-sparse-keymap)))
    (define-key map (kbd "C-c C-c") #'oberon-bsp-compile)
    (define-key map (kbd "C-c C-a") #'oberon-bsp-compile-all)
    (define-key map (kbd "C-c C-l") #'oberon-bsp-errors)
    (define-key map (kbd "C-c C-r") #'oberon-bsp-restart)
    map)
  "The keys of `oberon-bsp-mode'.")

(easy-menu-define oberon-bsp-menu oberon-bsp-mode-map
  "The menu of `oberon-bsp-mode'."
  '("Oberon"
    ["Compile" oberon-bsp-compile]
    ["Compile all targets" oberon-bsp-compile-all]
    ["List of errors" oberon-bsp-errors]
    ["Next error" next-error]
    "---"
    ["Restart the server" oberon-bsp-restart]))

;; The list of errors has these keys too.
(set-keymap-parent oberon-bsp-errors-mode-map
                   (make-composed-keymap oberon-bsp-mode-map
                                         tabulated-list-mode-map))

;;;###autoload
(define-minor-mode oberon-bsp-mode
  "Show what the build server oberon-bsp finds in this buffer's file.
In a buffer of a workspace file, let the server read it again when it is
saved.  Where there is no workspace file yet, wait for one."
  :lighter (:eval (format " Oberon:%s" (oberon-bsp-state)))
  (if oberon-bsp-mode
      (oberon-bsp--join)
    (oberon-bsp--leave)))

;;;###autoload
(defun oberon-bsp-turn-on ()
  "Turn on `oberon-bsp-mode' in a buffer of a module or a workspace file."
  (when (and buffer-file-name
             (not oberon-bsp-mode)
             (or (string-suffix-p ".Mod" buffer-file-name)
                 (oberon-bsp--is-workspace-file)))
    (oberon-bsp-mode)))

;;;###autoload
(define-minor-mode oberon-bsp-global-mode
  "Turn on `oberon-bsp-mode' in all modules and workspace files."
  :global t
  :group 'oberon-bsp
  (let ((change (if oberon-bsp-global-mode #'add-hook #'remove-hook)))
    (funcall change 'find-file-hook #'oberon-bsp-turn-on)
    (funcall change 'after-save-hook #'oberon-bsp-turn-on)))

(defun oberon-bsp--join ()
  "Let this buffer take part in the session of its workspace."
  (let ((folder (oberon-bsp--folder)))
    (add-hook 'after-save-hook #'oberon-bsp--saved nil t)
    (add-hook 'kill-buffer-hook #'oberon-bsp--leave nil t)
    (add-hook 'change-major-mode-hook #'oberon-bsp--leave nil t)
    (add-hook 'after-set-visited-file-name-hook #'oberon-bsp--renamed nil t)
    (cond
     (folder
      (oberon-bsp--join-session (file-truename folder))
      (when (oberon-bsp--is-workspace-file)
        (oberon-bsp--take-in)))
     ((not (oberon-bsp--is-workspace-file))
      (oberon-bsp--say "there is no %s above %s" oberon-bsp--workspace-file
                       (file-name-nondirectory
                        (or buffer-file-name (buffer-name))))))))

(defun oberon-bsp--join-session (root)
  "Let this buffer take part in the session of ROOT.
It is begun where there is none."
  (let ((session (gethash root oberon-bsp--sessions)))
    (setq oberon-bsp--session
          (or session
              (puthash root (oberon-bsp--make-session root)
                       oberon-bsp--sessions)))
    (unless session
      (oberon-bsp--start oberon-bsp--session))
    (unless (oberon-bsp--is-workspace-file)
      (add-hook 'flymake-diagnostic-functions #'oberon-bsp--flymake nil t)
      (setq-local next-error-function #'oberon-bsp--next-here)
      (flymake-mode 1)
      ;; Flymake waits until the buffer is shown, and the server doesn't.
      (flymake-start)
      (when session
        (oberon-bsp--compile-in session (oberon-bsp--file))))))

(defun oberon-bsp--leave ()
  "Let this buffer leave its session, which ends with its last buffer."
  (remove-hook 'after-save-hook #'oberon-bsp--saved t)
  (remove-hook 'kill-buffer-hook #'oberon-bsp--leave t)
  (remove-hook 'change-major-mode-hook #'oberon-bsp--leave t)
  (remove-hook 'after-set-visited-file-name-hook #'oberon-bsp--renamed t)
  (when-let ((session oberon-bsp--session))
    (setq oberon-bsp--session nil)
    (oberon-bsp--mark nil)
    (remove-hook 'flymake-diagnostic-functions #'oberon-bsp--flymake t)
    (kill-local-variable 'next-error-function)
    ;; A buffer that is read again leaves and comes back.
    (run-with-timer 0 nil #'oberon-bsp--end-unused session)))

(defun oberon-bsp--end-unused (session)
  "End SESSION where it has no buffer."
  (let ((root (oberon-bsp--session-root session)))
    (unless (or (oberon-bsp--buffers session)
                (not (eq session (gethash root oberon-bsp--sessions))))
      (remhash root oberon-bsp--sessions)
      (oberon-bsp--stop session))))

(defun oberon-bsp--renamed ()
  "Leave the session of this buffer, whose file has another name now.
It joins one again when it is saved."
  (oberon-bsp--leave)
  (add-hook 'after-save-hook #'oberon-bsp--saved nil t))

(defun oberon-bsp--is-elsewhere ()
  "Whether this buffer's session isn't that of the workspace it is in."
  (let ((folder (oberon-bsp--folder)))
    (not (and folder
              oberon-bsp--session
              (equal (file-truename folder)
                     (oberon-bsp--session-root oberon-bsp--session))))))

(defun oberon-bsp--saved ()
  "Compile the targets of this buffer's file.
Where it is the workspace file, let the server read it again.  A file
that was saved in another workspace changes its session."
  (cond
   ((oberon-bsp--is-elsewhere)
    (oberon-bsp--leave)
    (oberon-bsp--join))
   ((oberon-bsp--is-workspace-file) (oberon-bsp--reload oberon-bsp--session))
   (t (oberon-bsp--compile-in oberon-bsp--session (oberon-bsp--file)))))

(defun oberon-bsp--take-in ()
  "Let the buffers that this workspace file holds join its session.
They had none, or that of a workspace further up."
  (let ((session oberon-bsp--session))
    (dolist (buffer (buffer-list))
      (with-current-buffer buffer
        (when (and oberon-bsp-mode
                   (oberon-bsp--is-elsewhere)
                   (oberon-bsp--folder)
                   (equal (file-truename (oberon-bsp--folder))
                          (oberon-bsp--session-root session)))
          (oberon-bsp--leave)
          (oberon-bsp--join))))))

(provide 'oberon-bsp)

;;; oberon-bsp.el ends here
