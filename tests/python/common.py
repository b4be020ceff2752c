"""What the tests of the Python package share.

TABLELAYOUT_PROGRAM names the program; without it the checkout's is taken.
"""
import fcntl
import os
import pty
import shutil
import signal
import struct
import subprocess
import sys
import tempfile
import termios
import unittest
from pathlib import Path

TOP = Path(__file__).resolve().parent.parent.parent
FRONT = TOP / "integrations" / "python" / "front"
# Starts a command of the front.
START = [sys.executable, "-S", str(FRONT.parent / "start.py")]
sys.path.insert(0, str(TOP / "integrations" / "python"))
from tablelayout.faults import MissingPackage  # noqa: E402
from tablelayout.packages import need  # noqa: E402

PROGRAM = os.environ.setdefault("TABLELAYOUT_PROGRAM", str(TOP / "crates" / "tablelayout" / "out" / "tablelayout"))
COMMAND = [PROGRAM]
# So many tables go through one process.
MANY = 1000


def has_parser():
    """Whether there is a parser of HTML."""
    try:
        need("html5lib", "python3-html5lib")
    except MissingPackage:
        return False
    return True


needs_parser = unittest.skipUnless(has_parser(), "there is no html5lib")
needs_pandoc = unittest.skipUnless(shutil.which("pandoc"), "there is no pandoc")


def environment_of_test():
    """The environment, but for what would change a page."""
    return {name: value for name, value in os.environ.items() if name not in ("COLUMNS", "TABLELAYOUT", "TABLELAYOUT_PYTHON", "NO_COLOR")}


def script(room, name, text):
    """A script of a shell, as a program."""
    path = Path(room) / name
    path.write_text("#!/bin/sh\n" + text)
    path.chmod(0o755)
    return str(path)


class OnTerminal:
    """A command that runs on a terminal of so many columns, and what it writes there."""

    def __init__(self, columns, command, **environment):
        self._ours, theirs = pty.openpty()
        fcntl.ioctl(theirs, termios.TIOCSWINSZ, struct.pack("HHHH", 24, columns, 0, 0))
        environment = {**environment_of_test(), "TABLELAYOUT": PROGRAM, "TERM": "xterm", "TABLELAYOUT_OPTIONS": "", **environment}

        def take_terminal():
            # A job in the background of a script is started with interrupts ignored.
            signal.signal(signal.SIGINT, signal.SIG_DFL)
            os.setsid()
            fcntl.ioctl(theirs, termios.TIOCSCTTY, 0)

        self.ran = subprocess.Popen(command, stdin=theirs, stdout=theirs, stderr=theirs, env=environment, preexec_fn=take_terminal)
        os.close(theirs)
        self._came = b""

    def _read_more(self):
        try:
            block = os.read(self._ours, 65536)
        except OSError:
            block = b""  # All who might write have ended.
        self._came += block
        return bool(block)

    def wait_for(self, text):
        """Waits until the text was written."""
        while text.encode() not in self._came:
            if not self._read_more():
                raise AssertionError(f"{text!r} is not in {self._came!r}")

    def type(self, keys):
        """Types keys."""
        os.write(self._ours, keys)

    def end(self):
        """All that was written, once the command has ended."""
        while self._read_more():
            pass
        os.close(self._ours)
        self.ran.wait()
        return self._came.decode().replace("\r\n", "\n")


def run(command, size, data, *options, certificate=None):
    """What the command itself answers: its status, its message, its page and its certificate."""
    with tempfile.TemporaryDirectory() as name:
        room = Path(name)
        (room / "in").write_bytes(data)
        if certificate is not None:
            (room / "cert").write_bytes(certificate)
        names = [room / it for it in (("in", "cert") if command == "check" else ("in", "page", "cert"))]
        ran = subprocess.run([PROGRAM, command, str(size), *names, *options], stdout=subprocess.PIPE, check=False)
        page, cert = (room / it for it in ("page", "cert"))
        return (ran.returncode, ran.stdout.decode().rstrip("\n"), page.read_bytes() if page.exists() else b"",
                cert.read_bytes() if cert.exists() else b"")
