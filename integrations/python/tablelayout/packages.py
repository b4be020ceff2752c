"""Packages that the front needs, and that may stand where another Python looks for them."""
from __future__ import annotations

import importlib
import sys
from types import ModuleType
from typing import Callable, Optional, Sequence

from .faults import MissingPackage

# Debian's packages of Python. What is taken from here is written in Python alone.
_SYSTEM_PACKAGES = "/usr/lib/python3/dist-packages"


def _add_installed() -> None:
    """Adds the packages of this Python, which `-S` leaves out at the start."""
    import site

    if sys.flags.no_site:
        site.main()


def _add_system() -> None:
    if _SYSTEM_PACKAGES not in sys.path:
        sys.path.append(_SYSTEM_PACKAGES)


def _imported(name: str) -> Optional[ModuleType]:
    try:
        return importlib.import_module(name)
    except ImportError:
        return None


def need(name: str, debian: str) -> ModuleType:
    """The module of this name, of this Python or else of the system's. Raises MissingPackage if neither has it."""
    ways: Sequence[Callable[[], None]] = (lambda: None, _add_installed, _add_system)
    for add in ways:
        add()
        module = _imported(name)
        if module:
            return module
    raise MissingPackage(f"the Python package {name} is missing: 'apt-get install {debian}' or "
                         f"'{sys.executable} -m pip install {name}' brings it")
