"""Reads the file that is shown."""
from __future__ import annotations

from typing import BinaryIO, List

from .faults import LongFile

STANDARD_INPUT = "-"
# What is read takes several times its bytes of memory, and some inputs do not end.
MOST_BYTES = 1 << 28
_BLOCK_BYTES = 1 << 20


def _read_all(file: BinaryIO) -> bytes:
    blocks: List[bytes] = []
    size = 0
    while size <= MOST_BYTES:
        block = file.read(_BLOCK_BYTES)
        if not block:
            return b"".join(blocks)
        blocks.append(block)
        size += len(block)
    raise LongFile(f"limit: input {MOST_BYTES + 1}")


def read_input(name: str) -> bytes:
    """All bytes of a file, or of standard input if its name is ``-``.

    Raises OSError if it cannot be read, and LongFile for more than MOST_BYTES.
    """
    if name == STANDARD_INPUT:
        with open(0, "rb", closefd=False) as file:
            return _read_all(file)
    with open(name, "rb") as file:
        return _read_all(file)
