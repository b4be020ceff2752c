"""What a process writes on standard error, line by line."""
from __future__ import annotations

import os
import select
from typing import Callable

_BLOCK_BYTES = 1 << 16

# Is given each line as it comes, with its line feed; the last one may have none.
Take = Callable[[bytes], None]


class ErrorLines:
    """The lines that come from a pipe, which is closed with it."""

    def __init__(self, source: int, take: Take) -> None:
        self._source = source
        self._take = take
        self._begun = b""
        self._is_over = False

    def wait_to_read(self, other: int) -> None:
        """Takes lines as they come, until there is something to read from another pipe, or its end."""
        self._wait_for(other, select.POLLIN)

    def wait_to_write(self, other: int) -> int:
        """Takes lines as they come, until something can be written to another pipe. So many bytes can, without a wait."""
        self._wait_for(other, select.POLLOUT)
        return select.PIPE_BUF

    def _wait_for(self, other: int, event: int) -> None:
        poll = select.poll()
        poll.register(other, event)
        if not self._is_over:
            poll.register(self._source, select.POLLIN)
        while True:
            ready = [descriptor for descriptor, _ in poll.poll()]
            if self._source in ready and not self._read_more():
                poll.unregister(self._source)
            if other in ready:
                return

    def take_all(self) -> None:
        """Takes the lines that have come, of which a pipe holds no more than a block."""
        poll = select.poll()
        poll.register(self._source, select.POLLIN)
        if not self._is_over and poll.poll(0):
            self._read_more()

    def close(self) -> None:
        """Takes the lines that have come, and reads no more."""
        self.take_all()
        if self._begun:
            self._take(self._begun)
        self.forget()

    def forget(self) -> None:
        """Reads no more, and takes nothing."""
        self._is_over = True
        self._begun = b""
        os.close(self._source)

    def _read_more(self) -> bool:
        """Reads a block and takes the lines that end in it. Whether it was not the end."""
        block = os.read(self._source, _BLOCK_BYTES)
        *lines, self._begun = (self._begun + block).split(b"\n")
        for line in lines:
            self._take(line + b"\n")
        self._is_over = not block
        return bool(block)
