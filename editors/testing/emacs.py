"""Drives Emacs without a screen: it opens, changes and saves files, and tells what a person would see."""
import contextlib
import json
import subprocess

from .waiting import EDITORS, PATIENCE, Missed, environment, started


class Emacs:
    name, command, package = "Emacs", "emacs", "emacs-nox"
    restart, compile, compile_all = "oberon-bsp-restart", "oberon-bsp-compile", "oberon-bsp-compile-all"

    def __init__(self, home):
        self.home = home
        self.socket = home / "socket"

    def words(self, program, timeout):
        """The command line, with an init file as editors/README.md has it."""
        (self.home / "init.el").write_text(
            f"""(add-to-list 'load-path {self.text(EDITORS / "emacs")})
(require 'oberon-bsp)
(setq oberon-bsp-program {self.text(program)} oberon-bsp-timeout {timeout})
(oberon-bsp-global-mode)
"""
        )
        return ["emacs", "-Q", "-l", str(self.home / "init.el")]

    def start(self, program, timeout):
        return started([*self.words(program, timeout), f"--fg-daemon={self.socket}"], self.home)

    def words_in_terminal(self, program):
        start = f'(setq server-socket-dir {self.text(self.home)} server-name "socket")'
        return [*self.words(program, PATIENCE), "-nw", "--eval", f"(progn (require 'server) {start} (server-start))"]

    @staticmethod
    def text(value):
        return json.dumps(str(value), ensure_ascii=False)

    def ask(self, code):
        """The value of an expression, which is to be one that JSON has."""
        answer = self.home / "answer"
        answer.unlink(missing_ok=True)
        # What is printed is cut where it is long.
        put = f"(write-region (json-serialize {code} :false-object :false) nil {self.text(answer)} nil 'silent)"
        words = ["emacsclient", "-s", str(self.socket), "--eval", f"(let ((coding-system-for-write 'utf-8)) {put})"]
        ran = subprocess.run(words, env=environment(self.home), capture_output=True, text=True, timeout=PATIENCE)
        if not answer.exists():
            raise Missed(f"{code} failed: {ran.stdout}{ran.stderr}")
        return json.loads(answer.read_text())

    def go_to_error(self, path):
        """Goes to the last error of a file in its window, as a person does."""
        code = f"(select-window (get-buffer-window (find-buffer-visiting {self.text(path)})))"
        self.do(f"{code} (goto-char (point-max)) (call-interactively #'flymake-goto-prev-error)")

    def is_ready(self):
        """Whether it answers, and has read its init file. Its socket is there a moment before it listens."""
        with contextlib.suppress(Missed):
            return self.socket.exists() and self.ask("(if (featurep 'oberon-bsp) t :false)")
        return False

    def do(self, code):
        return self.ask(f"(progn {code} t)")

    def inside(self, path, code):
        return f"(with-current-buffer (find-buffer-visiting {self.text(path)}) {code})"

    def open(self, path):
        self.do(f"(switch-to-buffer (find-file-noselect {self.text(path)}))")

    def replace(self, path, old, new):
        code = f"(goto-char (point-min)) (search-forward {self.text(old)}) (replace-match {self.text(new)} t t)"
        self.do(self.inside(path, code))

    def save(self, path):
        self.do(self.inside(path, "(save-buffer)"))

    def close(self, path):
        self.do(self.inside(path, "(set-buffer-modified-p nil) (kill-buffer)"))

    def save_as(self, path, new):
        self.do(self.inside(path, f"(write-file {self.text(new)})"))

    def rename(self, path, new):
        self.do(self.inside(path, f"(set-visited-file-name {self.text(new)} t)"))

    def join(self, path):
        self.do(self.inside(path, "(oberon-bsp-mode)"))

    def state_line(self, path):
        """The line that tells the state, as it is drawn."""
        return self.ask(self.inside(path, "(format-mode-line mode-line-format nil nil (current-buffer))"))

    def indented(self, path):
        """The text of a file behind each of its lines was indented."""
        return self.ask(self.inside(path, "(progn (indent-region (point-min) (point-max)) (buffer-string))"))

    def seconds_to_indent(self, path):
        """The processor seconds in which all lines of a file are indented."""
        self.open(path)
        spent = "(float-time (get-internal-run-time))"
        code = f"(let ((before {spent})) (indent-region (point-min) (point-max)) (- {spent} before))"
        return self.ask(self.inside(path, code))

    def colour(self, path, text):
        """What the first place of a text is shown as."""
        face = "(get-text-property (match-beginning 0) 'face)"
        name = f"(if {face} (string-trim (symbol-name {face}) \"font-lock-\" \"-face\") \"\")"
        find = f"(goto-char (point-min)) (let ((case-fold-search nil)) (search-forward {self.text(text)}))"
        return self.ask(self.inside(path, f"(progn (font-lock-ensure) {find} {name})"))

    def read_again(self, path):
        self.do(self.inside(path, "(revert-buffer t t)"))

    def command_in(self, path, command):
        self.do(self.inside(path, f"({command})"))

    def marks(self, path):
        """Each mark as the text before it in its line, the marked text, and the message."""
        found = """(vconcat (mapcar (lambda (it)
          (save-excursion
            (goto-char (overlay-start it))
            (vector (buffer-substring-no-properties (line-beginning-position) (point))
                    (buffer-substring-no-properties (point) (overlay-end it))
                    (flymake-diagnostic-text (overlay-get it 'flymake-diagnostic)))))
          (sort (seq-filter (lambda (it) (overlay-get it 'flymake-diagnostic)) (overlays-in 1 (1+ (buffer-size))))
                (lambda (one other) (< (overlay-start one) (overlay-start other))))))"""
        return self.ask(self.inside(path, found))

    def kinds(self, path):
        """Whether each mark is an error or a warning."""
        found = """(vconcat (mapcar (lambda (it)
            (if (eq :error (flymake-diagnostic-type it)) "error" "warning"))
          (sort (flymake-diagnostics)
                (lambda (one other) (< (flymake-diagnostic-beg one) (flymake-diagnostic-beg other))))))"""
        return self.ask(self.inside(path, found))

    def lines(self):
        """What was said to the person."""
        return self.ask('(with-current-buffer "*Messages*" (buffer-string))').splitlines()

    def state(self, path):
        return self.ask(self.inside(path, "(oberon-bsp-state)"))

    def listed(self, path):
        """The list of errors, each as its file, line, column, kind, and message with its code."""
        self.command_in(path, "oberon-bsp-errors")
        return self.rows()

    def list_in_window(self, path):
        """Opens the list of errors as a person does, with its window."""
        self.listed(path)

    def rows(self):
        """The lines of the list as they are drawn, which aren't always what it would have if it were drawn now."""
        return self.ask(
            """(with-current-buffer "*oberon-bsp errors*"
                 (save-excursion
                   (goto-char (point-min))
                   (let (rows)
                     (while (not (eobp))
                       (when-let ((row (tabulated-list-get-entry)))
                         (push (vector (aref row 0) (string-to-number (aref row 1)) (string-to-number (aref row 2))
                                       (aref row 3) (aref row 4))
                               rows))
                       (forward-line))
                     (vconcat (nreverse rows)))))"""
        )

    def visit_first(self):
        """Goes to the first error of the list, and gives the file's name and the text from there to the line's end."""
        return self.ask(
            """(with-current-buffer "*oberon-bsp errors*"
                 (goto-char (point-min)) (oberon-bsp-visit)
                 (vector (file-name-nondirectory buffer-file-name)
                         (buffer-substring-no-properties (point) (line-end-position))))"""
        )

    def quit(self):
        subprocess.run(
            ["emacsclient", "-s", str(self.socket), "--eval", "(kill-emacs)"],
            env=environment(self.home), capture_output=True, timeout=PATIENCE,
        )
