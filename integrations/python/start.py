"""Starts a command of the front, `show` or `page`, with whatever Python 3 runs this file.

    python3 -S start.py show|page [FILE] [OPTION ..]

It has no syntax that an older Python does not read, so that one can say what is missing.
"""
import os
import sys

LEAST = (3, 8)

if sys.version_info < LEAST:
    # That of the path may be a later one than the system's. Where it is not, it comes to this with the name set.
    if not os.environ.get("TABLELAYOUT_PYTHON"):
        os.environ["TABLELAYOUT_PYTHON"] = sys.executable
        try:
            os.execvp("python3", ["python3", "-S"] + sys.argv)
        except OSError:
            pass
    sys.stderr.write("tablelayout: this is Python %d.%d, and 3.8 or later is missing: 'apt-get install python3' brings it, "
                     "and TABLELAYOUT_PYTHON names it\n" % sys.version_info[:2])
    sys.exit(1)
sys.path.insert(0, os.path.dirname(os.path.realpath(__file__)))

from tablelayout.__main__ import main  # noqa: E402

sys.exit(main(sys.argv[1:]))
