"""The lowest page of fixed-width text for a table, by the program ``tablelayout``, which proves that none is lower.

    import tablelayout

    page = tablelayout.lay([["Item", "Left"], ["lamp oil", "3"]], 72, head=True)
    print(page.text, page.height, page.width, page.is_lowest)

``lay``, ``narrow``, ``tidy`` and ``check`` are those of a ``Layouter`` that the module keeps. It starts the program with
the first request, and ends it when Python ends.
"""
from __future__ import annotations

from .errors import (BadCell, BadInput, BadRequest, Error, LimitPassed, NoPageFound, OutOfMemory, Overlap, ProgramFault, Rejected,
                     TooNarrow, TooTall)
from .layouter import Layouter
from .pages import LowPage, NarrowPage, Page, TidyPage, Verdict
from .sources import Options

__all__ = [
    "BadCell", "BadInput", "BadRequest", "Error", "Layouter", "LimitPassed", "LowPage", "NarrowPage", "NoPageFound", "Options",
    "OutOfMemory", "Overlap", "Page", "ProgramFault", "Rejected", "TidyPage", "TooNarrow", "TooTall", "Verdict", "check", "lay",
    "narrow", "tidy",
]

_own = Layouter()
lay = _own.lay
narrow = _own.narrow
tidy = _own.tidy
check = _own.check
