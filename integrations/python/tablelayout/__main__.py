"""``python3 -m tablelayout show|page|lessopen|textconv ..``, which the launcher starts as ``tablelayout show`` and so on."""
from __future__ import annotations

import os
import sys
from typing import List, NoReturn

_STATUS_FAILED, _STATUS_USAGE = 1, 2


def _compile() -> int:
    """Compiles the modules for this Python, so that none is compiled at a start. They name no folder."""
    import compileall

    folder = os.path.dirname(os.path.realpath(__file__))
    return 0 if compileall.compile_dir(folder, maxlevels=0, ddir=os.path.basename(folder), quiet=1) else _STATUS_FAILED


def _end_by_interrupt() -> NoReturn:
    """Ends as a program does that an interrupt ends, so that the loop of a shell ends with it."""
    import signal

    signal.signal(signal.SIGINT, signal.SIG_DFL)
    os.kill(os.getpid(), signal.SIGINT)
    raise KeyboardInterrupt  # It never comes to this.


def _run(command: str, arguments: List[str]) -> int:
    if command == "show":
        from . import show

        return show.main(arguments)
    if command == "page":
        from . import page

        return page.main(arguments)
    if command in ("lessopen", "textconv"):
        from . import viewers

        return viewers.lessopen(arguments) if command == "lessopen" else viewers.textconv(arguments)
    if command == "compile":
        return _compile()
    print("usage\ntablelayout show|page [IN] [OPTION ..]\ntablelayout lessopen|textconv IN", file=sys.stderr)
    return _STATUS_USAGE


def main(arguments: List[str]) -> int:
    """Runs a command of the front, and returns its status. An interrupt ends this process."""
    try:
        return _run(arguments[0] if arguments else "", arguments[1:])
    except KeyboardInterrupt:
        _end_by_interrupt()


if __name__ == "__main__":
    sys.exit(main(sys.argv[1:]))
