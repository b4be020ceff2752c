"""Files that pandoc reads."""
from __future__ import annotations

import os
import subprocess
from typing import List, Optional

from .faults import MissingPackage, PandocFault

_PANDOC_IS_MISSING = "pandoc is missing, which reads files of this kind: 'apt-get install pandoc' brings it"


def run_pandoc(arguments: List[str], data: bytes, program: Optional[str] = None) -> bytes:
    """What pandoc writes of a file. ``program`` is the table layout program that its filter runs.

    Raises MissingPackage if there is no pandoc, and PandocFault if it cannot read the file.
    """
    environment = dict(os.environ)
    if program:
        environment["TABLELAYOUT"] = program
    try:
        ran = subprocess.run(["pandoc", *arguments], input=data, stdout=subprocess.PIPE, env=environment, check=False)
    except FileNotFoundError:
        raise MissingPackage(_PANDOC_IS_MISSING) from None
    if ran.returncode:
        # It has said why on standard error.
        raise PandocFault(f"pandoc could not read the file, and ended with {ran.returncode}")
    return ran.stdout


def html_of(data: bytes, form: str) -> bytes:
    """A file of one of pandoc's formats as HTML. Raises what run_pandoc does."""
    # Without this option a table of markdown has widths of columns, which nothing here reads, and long lines.
    return run_pandoc(["-f", form, "-t", "html", "--wrap=none"], data)
