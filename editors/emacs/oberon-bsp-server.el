;;; oberon-bsp-server.el --- The way of a session  -*- lexical-binding: t; -*-

;;; Commentary:

;; A server is started, opens the workspace, reads its file again, and is left.

;;; Code:

(require 'oberon-bsp-compile)
(require 'oberon-bsp-session)
(require 'oberon-bsp-shown)

(defcustom oberon-bsp-program
  (let ((built (expand-file-name
                "../../bin/oberon-bsp"
                (file-name-directory
                 (file-truename (or load-file-name buffer-file-name ""))))))
    (if (file-executable-p built) built "oberon-bsp"))
  "The build server, as a path or as a name to look for in `exec-path'.
Where this file is in a clone in which the program was built, that is it."
  :type 'string
  :group 'oberon-bsp)

(defun oberon-bsp--restart (session)
  "Start a new server for SESSION, in place of the one that runs."
  (oberon-bsp--stop session)
  (oberon-bsp--start session))

(defun oberon-bsp--start (session)
  "Start a server for SESSION, and open its workspace."
  (oberon-bsp--forget session "no program")
  (if (not (executable-find oberon-bsp-program))
      (oberon-bsp--say
       "can't be started, no such program: %s (see oberon-bsp-program)"
       oberon-bsp-program)
    (setf (oberon-bsp--session-connection session)
          (oberon-bsp--connect session))
    (oberon-bsp--open session)))

(defvar oberon-bsp--started 0
  "How many servers were started.")

;; What this was called before made a warning from some version on.
(defconst oberon-bsp--no-events
  (if (slot-exists-p 'jsonrpc-connection '-events-buffer-config)
      '(:events-buffer-config (:size 0 :format full))
    '(:events-buffer-scrollback-size 0))
  "The words by which jsonrpc keeps no list of messages.")

(defun oberon-bsp--connect (session)
  "Start a program that serves the workspace of SESSION.
Return the connection to it."
  (let* ((folder (directory-file-name (oberon-bsp--session-root session)))
         ;; jsonrpc names buffers by it.
         (name (format "oberon-bsp %d" (cl-incf oberon-bsp--started)))
         (process
          (lambda ()
            (make-process
             :name name
             :command (list oberon-bsp-program "serve" folder)
             :connection-type 'pipe
             :coding 'utf-8-emacs-unix
             :noquery t
             ;; jsonrpc looks for a buffer of this name.
             :stderr (get-buffer-create (format "*%s stderr*" name)))))
         (connection
          (apply
           #'make-instance
           'oberon-bsp--connection
           :name name
           :process process
           :notification-dispatcher
           (lambda (connection method params)
             (oberon-bsp--notified session connection method params))
           :on-shutdown
           (lambda (connection) (oberon-bsp--ended session connection))
           oberon-bsp--no-events)))
    (add-function :around (process-filter (jsonrpc--process connection))
                  #'oberon-bsp--filter)
    (add-function :around (process-sentinel (jsonrpc--process connection))
                  #'oberon-bsp--sentinel)
    connection))

(defun oberon-bsp--sentinel (act process change)
  "Have ACT, the sentinel of jsonrpc, act on CHANGE of PROCESS.
What it says itself would stand in place of what this package says."
  (let ((inhibit-message t))
    (funcall act process change)))

(defun oberon-bsp--filter (read process text)
  "Give TEXT of PROCESS to READ, which is the filter of jsonrpc.
READ fails at a message that is none of JSON-RPC, which is then behind
it; it is called again for what follows.  Output that is no message any
more ends the server, since nothing can be read behind it."
  (let ((left most-positive-fixnum))
    (while text
      (setq text
            (condition-case problem
                (progn (funcall read process text) nil)
              (error
               (oberon-bsp--say "a message of the server is passed over: %s"
                                (error-message-string problem))
               (let ((size (buffer-size (process-buffer process))))
                 (when (< 0 size left)
                   (setq left size)
                   "")))))))
  (when (and (process-live-p process) (oberon-bsp--is-damaged process))
    (process-put process 'oberon-bsp-why
                 '("damaged output"
                   . "the server is left, since its output is damaged"))
    (delete-process process)))

(defun oberon-bsp--is-damaged (process)
  "Whether what is left of the output of PROCESS can't begin a message."
  (let ((head "Content-Length: "))
    (with-current-buffer (process-buffer process)
      (let ((end (min (point-max) (+ (point-min) (length head)))))
        (not (string-prefix-p (buffer-substring-no-properties (point-min) end)
                              head))))))

(defun oberon-bsp--notified (session connection method params)
  "Act on a notification of METHOD with PARAMS over CONNECTION for SESSION.
What a server says that was left before isn't this session's any more."
  (when (eq connection (oberon-bsp--session-connection session))
    (pcase method
      ('build/publishDiagnostics (oberon-bsp--publish session params))
      ('build/taskStart (oberon-bsp--task-started session params))
      ('build/taskFinish (oberon-bsp--task-finished session params))
      ('build/showMessage
       (oberon-bsp--say "%s" (plist-get params :message))))))

(defun oberon-bsp--open (session)
  "Open the workspace of SESSION."
  (setf (oberon-bsp--session-state session) 'opening)
  (force-mode-line-update t)
  (let ((folder (directory-file-name (oberon-bsp--session-root session))))
    (oberon-bsp--request
     session :build/initialize
     (list :displayName "Emacs"
           :version emacs-version
           :bspVersion "2.2.0"
           :rootUri (oberon-bsp--uri folder)
           :capabilities '(:languageIds ["oberon"]))
     (lambda (result) (oberon-bsp--opened session result))
     (lambda (refusal)
       (setf (oberon-bsp--session-state session) 'refused
             (oberon-bsp--session-why session) (plist-get refusal :message))
       (force-mode-line-update t)
       (oberon-bsp--say "not opened: %s" (plist-get refusal :message))))))

(defun oberon-bsp--opened (session result)
  "Begin the work of SESSION, which was opened with RESULT."
  (cl-destructuring-bind (&key bspVersion capabilities &allow-other-keys)
      result
    (if (not bspVersion)
        (progn
          (oberon-bsp--stop session)
          (setf (oberon-bsp--session-why session) "no build server")
          (oberon-bsp--say "no build server: %s (see oberon-bsp-program)"
                           oberon-bsp-program))
      (setf (oberon-bsp--session-state session) 'open
            (oberon-bsp--session-can-reload session)
            (eq t (plist-get capabilities :canReload)))
      (oberon-bsp--notify session :build/initialized)
      (oberon-bsp--compile-opened session)
      (when (oberon-bsp--session-is-every-due session)
        (setf (oberon-bsp--session-is-every-due session) nil)
        (oberon-bsp--compile-every session)))))

(defun oberon-bsp--reload (session)
  "Let the server of SESSION have the workspace file as it is now."
  (pcase (oberon-bsp--session-state session)
    ((and 'open (guard (oberon-bsp--session-can-reload session)))
     (oberon-bsp--request
      session :workspace/reload nil
      (lambda (_result) (oberon-bsp--compile-opened session))
      (lambda (refusal)
        (if (eql (plist-get refusal :code) -32601) ; the method isn't known
            (oberon-bsp--restart session)
          (setf (oberon-bsp--session-failed session)
                (plist-get refusal :message))
          (force-mode-line-update t)
          (oberon-bsp--say "not reloaded: %s" (plist-get refusal :message))))))
    ('open (oberon-bsp--restart session))
    ('refused (oberon-bsp--open session))
    ('ended (oberon-bsp--start session))))

(defun oberon-bsp--stop (session)
  "End the server of SESSION in the background, and forget it."
  (let ((connection (oberon-bsp--session-connection session)))
    (when (oberon-bsp--is-running connection)
      (let ((leave
             (lambda (_answer)
               (when (jsonrpc-running-p connection)
                 (jsonrpc-notify connection :build/exit nil)))))
        (oberon-bsp--request session :build/shutdown nil leave leave))
      (run-with-timer
       3 nil
       (lambda ()
         (when (jsonrpc-running-p connection)
           (jsonrpc-shutdown connection)))))
    (oberon-bsp--forget session "stopped")))

(defconst oberon-bsp--statuses
  ["it ended by itself"
   "its input ended"
   "its input was damaged"
   "reading its input failed"
   "writing its output failed"
   "it had no memory"
   "it doesn't know its command line"]
  "What the statuses of the server mean.")

(defun oberon-bsp--how-ended (process)
  "How PROCESS ended, in a few words and in a line."
  (let ((status (process-exit-status process)))
    (cond
     ((process-get process 'oberon-bsp-why))
     ((eq (process-status process) 'signal)
      (cons (format "signal %d" status)
            (format "the server ended by signal %d" status)))
     (t
      (cons (format "status %d" status)
            (format "ended with status %d: %s" status
                    (or (ignore-errors (aref oberon-bsp--statuses status))
                        "an unknown status")))))))

(defun oberon-bsp--ended (session connection)
  "Clean up behind the server of CONNECTION.
Say how it ended, unless SESSION has left it."
  (let* ((process (jsonrpc--process connection))
         (how (oberon-bsp--how-ended process)))
    (mapc #'kill-buffer
          (list (process-buffer process)
                (jsonrpc-stderr-buffer connection)
                (jsonrpc-events-buffer connection)))
    (when (eq connection (oberon-bsp--session-connection session))
      (oberon-bsp--forget session (car how))
      (oberon-bsp--say "%s (M-x oberon-bsp-restart starts it anew)"
                       (cdr how)))))

(defun oberon-bsp--forget (session why)
  "Leave the server of SESSION for WHY, and take back what it has shown."
  (setf (oberon-bsp--session-connection session) nil
        (oberon-bsp--session-state session) 'ended
        (oberon-bsp--session-why session) why
        (oberon-bsp--session-compile session) nil
        (oberon-bsp--session-is-compiled session) nil
        (oberon-bsp--session-failed session) nil
        (oberon-bsp--session-asked session) 0
        (oberon-bsp--session-done session) 0
        (oberon-bsp--session-counts session) nil)
  (clrhash (oberon-bsp--session-checks session))
  (clrhash (oberon-bsp--session-targets session))
  (clrhash (oberon-bsp--session-shown session))
  (oberon-bsp--show session))

(defun oberon-bsp--leave-all ()
  "End all servers, and wait a moment for it.
Nothing is shown any more, and no output is read: an Emacs that ends by a
signal can do neither."
  (let ((connections (seq-filter
                      #'oberon-bsp--is-running
                      (mapcar #'oberon-bsp--session-connection
                              (hash-table-values oberon-bsp--sessions))))
        (rounds 50))
    (dolist (connection connections)
      (ignore-errors
        (jsonrpc-async-request connection :build/shutdown nil :timeout nil)
        (jsonrpc-notify connection :build/exit nil)))
    (while (and (seq-some #'oberon-bsp--is-running connections)
                (< 0 (cl-decf rounds)))
      (call-process "sleep" nil nil nil "0.02"))))

(add-hook 'kill-emacs-hook #'oberon-bsp--leave-all)

(provide 'oberon-bsp-server)

;;; oberon-bsp-server.el ends here
