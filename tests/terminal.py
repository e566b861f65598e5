"""A pseudo-terminal on which a program runs, and what it leaves on the screen."""
import contextlib
import fcntl
import os
import pathlib
import pty
import re
import signal
import struct
import subprocess
import termios
import time

PATIENCE = 60  # seconds


class Terminal:
    """The program's standard error is the terminal, and its standard output too where `whole` is set."""

    def __init__(self, *words, columns=80, held=False, whole=False, ignored=()):
        self.reading, self.writing = pty.openpty()
        fcntl.ioctl(self.writing, termios.TIOCSWINSZ, struct.pack("HHHH", 25, columns, 0, 0))
        if held:
            # As by Ctrl-S: whoever writes to the terminal waits from now on.
            termios.tcflow(self.writing, termios.TCOOFF)

        def actions():
            # Not those of whoever runs the tests: a shell has what it starts in the background ignore interrupts.
            for number in (signal.SIGINT, signal.SIGTERM):
                signal.signal(number, signal.SIG_IGN if number in ignored else signal.SIG_DFL)

        output = self.writing if whole else subprocess.PIPE
        self.program = subprocess.Popen(
            words, stdin=subprocess.DEVNULL, stdout=output, stderr=self.writing, preexec_fn=actions
        )

    def release(self):
        termios.tcflow(self.writing, termios.TCOON)

    def send(self, number):
        self.program.send_signal(number)

    def handles(self, number):
        """Whether the program has a handler of its own for a signal."""
        status = pathlib.Path(f"/proc/{self.program.pid}/status").read_text()
        mask = re.search(r"^SigCgt:\s*(\w+)$", status, re.MULTILINE).group(1)
        return bool(int(mask, 16) >> (number - 1) & 1)

    def until(self, number, handled=True):
        """Waits until the program has, or has no longer, a handler for a signal."""
        end = time.monotonic() + PATIENCE
        while self.handles(number) != handled and time.monotonic() < end:
            time.sleep(0.001)

    def finish(self):
        """The program's status, its standard output, and all that the terminal was sent."""
        try:
            out, _ = self.program.communicate(timeout=PATIENCE)
        except subprocess.TimeoutExpired:
            self.program.kill()
            out, _ = self.program.communicate()
        os.close(self.writing)
        sent = b""
        # The end is an error here, once nobody has the terminal open for writing.
        with contextlib.suppress(OSError):
            while part := os.read(self.reading, 65536):
                sent += part
        os.close(self.reading)
        return self.program.returncode, (out or b"").decode(), sent.decode()


def screen(sent):
    """The lines that are there to see in the end, without the blanks behind them, on a wide terminal."""
    rows, column = [[]], 0
    for character in sent:
        if character == "\n":
            rows.append([])
        if character in "\r\n":
            column = 0
        else:
            rows[-1][column : column + 1] = [character]
            column += 1
    return ["".join(row).rstrip() for row in rows]
