"""A terminal of 80 columns, in which an editor runs as a person starts it."""
import contextlib
import fcntl
import os
import pty
import select
import struct
import subprocess
import termios
import threading


class Terminal:
    def __init__(self, words, environment):
        self.master, inner = pty.openpty()
        fcntl.ioctl(inner, termios.TIOCSWINSZ, struct.pack("HHHH", 24, 80, 0, 0))
        self.process = subprocess.Popen(
            words, env=environment, stdin=inner, stdout=inner, stderr=inner, start_new_session=True,
            preexec_fn=lambda: fcntl.ioctl(0, termios.TIOCSCTTY, 0),
        )
        os.close(inner)
        self.written = b""
        self.is_open = True
        self.reader = threading.Thread(target=self.read, daemon=True)
        self.reader.start()

    def read(self):
        """Takes all that is written to the screen."""
        with contextlib.suppress(OSError):
            while self.is_open:
                if select.select([self.master], [], [], 0.1)[0]:
                    self.written += os.read(self.master, 65536)

    def close(self):
        """Closes the terminal, as a window that is closed. Nothing hangs up while it is still read."""
        self.is_open = False
        self.reader.join()
        os.close(self.master)
