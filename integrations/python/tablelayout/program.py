"""Where the program is."""
from __future__ import annotations

import os
from typing import Iterator, Optional

# In a checkout, and installed below a PREFIX.
_BESIDE = ("crates/tablelayout/out/tablelayout", "libexec/tablelayout/tablelayout")


def _beside() -> Iterator[str]:
    folder = os.path.dirname(os.path.realpath(__file__))
    while folder != os.path.dirname(folder):
        folder = os.path.dirname(folder)
        for place in _BESIDE:
            yield os.path.join(folder, place)


def find_program() -> Optional[str]:
    """The program's name: what the environment's TABLELAYOUT says, the one beside this package, or the one in the path."""
    given = os.environ.get("TABLELAYOUT")
    if given:
        return given
    for path in _beside():
        if is_runnable(path):
            return path
    import shutil  # It takes its time to load, and is seldom needed.

    return shutil.which("tablelayout")


def is_runnable(program: str) -> bool:
    """Whether a program of this name, with its folder or of the path, can be run."""
    if os.sep in program:
        return os.access(program, os.X_OK) and os.path.isfile(program)
    import shutil

    return shutil.which(program) is not None
