;;; oberon-bsp-session.el --- Sessions with the build server  -*- lexical-binding: t; -*-

;;; Commentary:

;; A session is a workspace and its server: requests to it, and which buffers
;; and files belong to it.

;;; Code:

(require 'cl-lib)
(require 'jsonrpc)
(require 'seq)
(require 'subr-x)
(require 'url-util)

(defgroup oberon-bsp nil
  "Errors of Oberon modules by a build server."
  :group 'tools)

(defcustom oberon-bsp-timeout 30
  "The seconds after which an answer of the server is missed."
  :type 'number)

(defconst oberon-bsp--workspace-file "oberon-build.json")

(defun oberon-bsp--say (format &rest arguments)
  "Show the person one line, made from FORMAT and ARGUMENTS."
  (let ((inhibit-message nil))
    (message "oberon-bsp: %s" (apply #'format format arguments))))

(cl-defstruct (oberon-bsp--session
               (:constructor oberon-bsp--make-session (root))
               (:conc-name oberon-bsp--session-)
               (:copier nil))
  "A workspace and its server.
STATE is `opening', `open', `refused' or `ended', and WHY says why it is
refused or how it ended.  CAN-RELOAD tells whether the server offers to
read the workspace file again.  SHOWN is a table of what was published:
by file and target, the lists that came, the newest first.  TARGETS is a
table of the targets of each file, as the server told them, and ASKED how
many questions for these are open.  COMPILE is the compile that isn't
answered yet, as its id and its targets; CHECKS is a table of the checks
that it has begun, and DONE how many of these are done.  IS-COMPILED
tells whether one was answered, and FAILED why the last one failed.
COUNTS are the numbers of errors and warnings, where they are known.
IS-EVERY-DUE tells whether every target is to be compiled once the
session is open."
  root connection (state 'ended) why can-reload
  (shown (make-hash-table :test #'equal)) counts
  (targets (make-hash-table :test #'equal)) (asked 0)
  compile (checks (make-hash-table :test #'equal)) (done 0)
  is-compiled failed is-every-due)

(defvar oberon-bsp--sessions (make-hash-table :test #'equal)
  "The sessions by their root, the folder of the workspace file.")

(defvar-local oberon-bsp--session nil
  "The session of this buffer's file.")

(defvar-local oberon-bsp--listed nil
  "The session of which this buffer lists the errors.")

(defclass oberon-bsp--connection (jsonrpc-process-connection)
  ((last-id :initform nil))
  :documentation "A connection that knows the id of its last request.
A cancel has to name it.")

(cl-defmethod jsonrpc-connection-send :before
  ((connection oberon-bsp--connection) &key id method &allow-other-keys)
  "Keep the ID of the request of METHOD that CONNECTION is to send."
  (when (and id method)
    (oset connection last-id id)))

(defun oberon-bsp--is-running (connection)
  "Whether there is a CONNECTION, and its server runs."
  (and connection (jsonrpc-running-p connection)))

(defun oberon-bsp--buffers (session)
  "The buffers of SESSION."
  (seq-filter
   (lambda (buffer)
     (and (buffer-file-name buffer)
          (eq session (buffer-local-value 'oberon-bsp--session buffer))))
   (buffer-list)))

(defun oberon-bsp--notify (session method &optional params)
  "Send the server of SESSION a notification of METHOD with PARAMS."
  (let ((connection (oberon-bsp--session-connection session)))
    (when (oberon-bsp--is-running connection)
      (jsonrpc-notify connection method params))))

(defun oberon-bsp--request (session method params then &optional otherwise)
  "Ask the server of SESSION for METHOD with PARAMS, and return the id.
Call THEN with the result, or OTHERWISE with an error object, which is
told where there is no OTHERWISE."
  (let* ((connection (oberon-bsp--session-connection session))
         (name (substring (symbol-name method) 1))
         (otherwise
          (or otherwise
              (lambda (refusal)
                (oberon-bsp--say "%s: %s" name (plist-get refusal :message))))))
    ;; A server that has just ended is told by `oberon-bsp--ended'.
    (ignore-errors
      (jsonrpc-async-request
       connection method params
       :timeout oberon-bsp-timeout
       :success-fn then
       :error-fn
       (lambda (refusal)
         (when (jsonrpc-running-p connection)
           (funcall otherwise refusal)))
       :timeout-fn
       (lambda ()
         (oberon-bsp--say
          "no answer to %s in %s seconds%s" name oberon-bsp-timeout
          " (M-x oberon-bsp-restart starts the server anew)")))
      (oref connection last-id))))

;;;; Files

(defun oberon-bsp--folder ()
  "The folder of the workspace file above this buffer's file, or nil."
  (when (and buffer-file-name (not (file-remote-p buffer-file-name)))
    (locate-dominating-file
     (file-name-directory buffer-file-name)
     (lambda (folder)
       (file-regular-p
        (expand-file-name oberon-bsp--workspace-file folder))))))

(defun oberon-bsp--file ()
  "The name of this buffer's file as its session has it.
Links above the workspace are followed and those inside aren't, since
the workspace file names the paths inside."
  (let ((root (oberon-bsp--session-root oberon-bsp--session)))
    (expand-file-name
     (file-relative-name buffer-file-name (or (oberon-bsp--folder) root))
     root)))

(defun oberon-bsp--uri (file)
  "The address of FILE."
  (concat "file://" (url-hexify-string file url-path-allowed-chars)))

(defun oberon-bsp--file-of (uri)
  "The file with the address URI."
  (decode-coding-string
   (url-unhex-string (string-remove-prefix "file://" uri)) 'utf-8))

(defun oberon-bsp--is-workspace-file ()
  "Whether this is the buffer of a workspace file."
  (equal oberon-bsp--workspace-file
         (file-name-nondirectory buffer-file-name)))

(defun oberon-bsp--modules (session)
  "The modules of SESSION that are open."
  (delq nil
        (mapcar (lambda (buffer)
                  (with-current-buffer buffer
                    (unless (oberon-bsp--is-workspace-file)
                      (oberon-bsp--file))))
                (oberon-bsp--buffers session))))

(provide 'oberon-bsp-session)

;;; oberon-bsp-session.el ends here
