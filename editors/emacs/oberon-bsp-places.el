;;; oberon-bsp-places.el --- Places of the protocol in buffers  -*- lexical-binding: t; -*-

;;; Commentary:

;; The protocol counts lines that carriage returns end too, and characters in
;; UTF-16 units.

;;; Code:

(defun oberon-bsp--walker ()
  "Return a function from a place to where it is in this buffer.
A place is one of the protocol, a line and a character, which is counted
in UTF-16 units.  What is returned is a list of the position, its line and
its column, which Emacs counts from line feeds.  Places that are asked for
in the order of the text take one way through it."
  ;; A byte order mark is a character of the file, and none of the buffer.
  (let* ((coding (or buffer-file-coding-system 'utf-8))
         (first (if (eq t (coding-system-get coding :bom)) 1 0))
         (line 0) (unit first) (position (point-min))
         (row 1) (row-start (point-min)))
    (lambda (place)
      (let ((to-line (plist-get place :line))
            (to-unit (plist-get place :character)))
        (when (or (< to-line line)
                  (and (= to-line line) (< to-unit unit)))
          (setq line 0 unit first position (point-min)
                row 1 row-start (point-min)))
        (save-excursion
          (goto-char position)
          (while (and (< line to-line)
                      (re-search-forward "\r\n\\|[\r\n]" nil 'move))
            (setq line (1+ line) unit 0)
            (when (eq ?\n (char-before))
              (setq row (1+ row) row-start (point))))
          (while (and (= line to-line)
                      (< unit to-unit)
                      (not (memq (char-after) '(?\r ?\n nil))))
            (setq unit (+ unit (if (< #xffff (char-after)) 2 1)))
            (forward-char))
          (setq position (point)))
        (list position row (1+ (- position row-start)))))))

(defun oberon-bsp--positions ()
  "Return a function from a place to its position in this buffer."
  (let ((walker (oberon-bsp--walker)))
    (lambda (place)
      (car (funcall walker place)))))

(provide 'oberon-bsp-places)

;;; oberon-bsp-places.el ends here
