"""What kind of file is shown."""
from __future__ import annotations

import os
from typing import NamedTuple, Optional

from .decoding import decode
from .records import DELIMITERS, find_delimiter, fields_of_first

_SAMPLE_BYTES = 16384
_WHITE_SPACE = " \t\r\n\f\ufeff"


class Kind(NamedTuple):
    """A kind of file: ``html``, ``csv``, ``json``, ``jsonl`` or ``pandoc``. ``detail`` is a delimiter, or pandoc's format."""

    name: str
    detail: Optional[str] = None


HTML, CSV, JSON, JSON_LINES = Kind("html"), Kind("csv"), Kind("json"), Kind("jsonl")

_BY_SUFFIX = {
    ".csv": CSV, ".tsv": Kind("csv", "\t"), ".tab": Kind("csv", "\t"),
    ".htm": HTML, ".html": HTML, ".xhtml": HTML,
    ".json": JSON, ".jsonl": JSON_LINES, ".ndjson": JSON_LINES,
    ".docx": Kind("pandoc", "docx"), ".epub": Kind("pandoc", "epub"), ".fb2": Kind("pandoc", "fb2"),
    ".ipynb": Kind("pandoc", "ipynb"), ".latex": Kind("pandoc", "latex"), ".markdown": Kind("pandoc", "markdown"),
    ".md": Kind("pandoc", "markdown"), ".mediawiki": Kind("pandoc", "mediawiki"), ".odt": Kind("pandoc", "odt"),
    ".org": Kind("pandoc", "org"), ".rst": Kind("pandoc", "rst"), ".rtf": Kind("pandoc", "rtf"),
    ".tex": Kind("pandoc", "latex"), ".textile": Kind("pandoc", "textile"),
}


def kind_by_name(name: str) -> Optional[Kind]:
    """The kind that the name of a file says, or None."""
    return _BY_SUFFIX.get(os.path.splitext(name)[1].lower())


def _looks_like_csv(text: str) -> bool:
    """Whether a delimiter divides the first lines alike."""
    counts = fields_of_first(text, find_delimiter(text))
    return len(counts) > 1 and counts[0] > 1 and len(set(counts)) == 1 and any(it in text for it in DELIMITERS)


def kind_by_content(data: bytes) -> Kind:
    """The kind that a file looks like: HTML if it begins with a tag or has a table, or looks like nothing else."""
    text = decode(data[:_SAMPLE_BYTES]).text
    begin = text.lstrip(_WHITE_SPACE)[:1]
    if begin == "<" or b"<table" in data.lower():
        return HTML
    if begin in ("{", "["):
        return JSON
    return CSV if _looks_like_csv(text) else HTML
