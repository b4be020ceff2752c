"""One process that answers requests."""
from __future__ import annotations

import os
import time
from typing import List, Optional, Tuple

from .error_lines import ErrorLines, Take
from .protocol import Answer, BadAnswer, Ended, read_answer

_BLOCK_BYTES = 1 << 16
_SECONDS_TO_END = 2.0
_FIRST_PAUSE_SECONDS = 0.0005
_KILLED = 9


class CoProcess:
    """A process that answers one request after the other. It is not safe with threads: a Layouter holds a lock.

    It is started without ``subprocess``, which takes as long to load as many tables take to lay out.
    """

    def __init__(self, command: List[str], take_error: Optional[Take] = None) -> None:
        """Starts the command. Raises OSError if it cannot be started.

        ``take_error`` is given each line that it writes on standard error, as it comes; without it that is the one of this
        process.
        """
        self._is_over = True
        self._open: List[int] = []
        self._came = bytearray()
        self._errors: Optional[ErrorLines] = None
        its_input, self._to = self._pipe()
        self._from, its_output = self._pipe()
        its_ends = [its_input, its_output]
        if take_error:
            errors, its_errors = self._pipe()
            its_ends.append(its_errors)
        actions = [(os.POSIX_SPAWN_DUP2, end, number) for number, end in enumerate(its_ends)]
        self.pid = os.posix_spawnp(command[0], command, os.environ, file_actions=actions)
        self._is_over = False
        if take_error:
            self._open.remove(errors)
            self._errors = ErrorLines(errors, take_error)
        for end in its_ends:
            self._open.remove(end)
            os.close(end)

    def _pipe(self) -> Tuple[int, int]:
        ends = os.pipe()
        self._open.extend(ends)
        return ends

    def exchange(self, request: bytes) -> Answer:
        """Sends a request and reads its answer. Raises Ended if the process ends before it answers."""
        try:
            self._send(request)
        except BrokenPipeError:
            pass  # It may have refused the request before it had read all of it: the answer tells.
        try:
            return read_answer(self._read_line, self._read_bytes)
        except BadAnswer as fault:
            raise Ended(str(fault)) from fault
        finally:
            if self._errors:
                self._errors.take_all()

    def _send(self, request: bytes) -> None:
        left = memoryview(request)
        while left:
            most = self._errors.wait_to_write(self._to) if self._errors else len(left)
            left = left[os.write(self._to, left[:most]):]

    def _read_more(self) -> None:
        if self._errors:
            self._errors.wait_to_read(self._from)
        block = os.read(self._from, _BLOCK_BYTES)
        if not block:
            raise Ended("the program ended in the middle of a request")
        self._came += block

    def _read_line(self) -> bytes:
        searched = 0
        while True:
            end = self._came.find(b"\n", searched)
            if end >= 0:
                return self._take(end + 1)[:-1]
            searched = len(self._came)
            self._read_more()

    def _read_bytes(self, count: int) -> bytes:
        while len(self._came) < count:
            self._read_more()
        return self._take(count)

    def _take(self, count: int) -> bytes:
        taken = bytes(self._came[:count])
        del self._came[:count]
        return taken

    def _close_pipes(self) -> None:
        while self._open:
            os.close(self._open.pop())

    def _close_errors(self) -> None:
        if self._errors:
            self._errors.close()
            self._errors = None

    def _wait(self, options: int) -> bool:
        """Whether the process has ended, which is waited for unless the options say WNOHANG."""
        if not self._is_over:
            try:
                self._is_over = os.waitpid(self.pid, options)[0] == self.pid
            except ChildProcessError:
                self._is_over = True  # Somebody else waits for all children.
        return self._is_over

    def end(self) -> None:
        """Ends the process, by the end of its input if it heeds that."""
        self._close_pipes()
        pause, waited = _FIRST_PAUSE_SECONDS, 0.0
        while waited < _SECONDS_TO_END and not self._wait(os.WNOHANG):
            time.sleep(pause)
            waited += pause
            pause *= 2
        self.kill()

    def kill(self) -> None:
        """Ends the process at once."""
        self._close_pipes()
        if not self._wait(os.WNOHANG):
            os.kill(self.pid, _KILLED)
            self._wait(0)
        self._close_errors()

    def forget(self) -> None:
        """Lets go of a process of the parent, after a fork."""
        self._close_pipes()
        if self._errors:
            self._errors.forget()
            self._errors = None
        # It is no child of this process, so there is nothing to wait for.
        self._is_over = True

    def __del__(self) -> None:
        self.end()
