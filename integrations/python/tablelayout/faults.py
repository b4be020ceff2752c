"""Why a file is not read: each text is one line for its user."""
from __future__ import annotations


class MissingPackage(Exception):
    """A package of Python, or pandoc, is missing; the text says what brings it."""


class PandocFault(Exception):
    """pandoc could not read the file."""


class LongFile(Exception):
    """More bytes come than are read."""


class BadFile(Exception):
    """The file is not of its kind, or there is no table in it."""


class BadChoice(Exception):
    """Rows or columns that the file does not have, or a text that names none."""
