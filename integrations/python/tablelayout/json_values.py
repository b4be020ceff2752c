"""JSON, and lines of JSON, as records."""
from __future__ import annotations

import json
from typing import Any, Dict, List, NamedTuple

from .faults import BadFile
from .records import Record


class JsonTable(NamedTuple):
    """Records, and whether the first one has the names of the columns."""

    records: List[Record]
    has_head: bool


def _text_of(value: Any) -> str:
    if value is None:
        return ""
    return value if isinstance(value, str) else json.dumps(value, ensure_ascii=False)


def _of_objects(objects: List[Dict[str, Any]]) -> JsonTable:
    names = list(dict.fromkeys(name for it in objects for name in it))
    return JsonTable([names, *([_text_of(it.get(name)) for name in names] for it in objects)], True)


def _of_lists(lists: List[List[Any]]) -> JsonTable:
    longest = max(map(len, lists))
    return JsonTable([[_text_of(it) for it in row] + [""] * (longest - len(row)) for row in lists], False)


def _of_values(values: List[Any]) -> JsonTable:
    if not values:
        raise BadFile("the list is empty, so there is no table in it")
    if all(isinstance(it, dict) for it in values):
        return _of_objects(values)
    if all(isinstance(it, list) for it in values):
        return _of_lists(values)
    return JsonTable([[_text_of(it)] for it in values], False)


def _lines(text: str) -> List[Any]:
    values = []
    for number, line in enumerate(text.split("\n"), 1):
        if line.strip():
            try:
                values.append(json.loads(line))
            except (ValueError, RecursionError) as fault:
                raise BadFile(f"line {number} is no JSON: {fault}") from None
    return values


def read_json(text: str, has_lines: bool = False) -> JsonTable:
    """The table of a list of objects, of a list of lists, of one object, or of a line for each object. Raises BadFile.

    The columns of objects are their names, in the order in which they come first.
    """
    try:
        value = None if has_lines else json.loads(text)
    except (ValueError, RecursionError) as fault:
        if "\n" not in text.strip():
            raise BadFile(f"it is no JSON: {fault}") from None
        has_lines = True
    if has_lines:
        return _of_values(_lines(text))
    if isinstance(value, dict):
        return JsonTable([[name, _text_of(it)] for name, it in value.items()], False)
    if isinstance(value, list):
        return _of_values(value)
    raise BadFile("it is one value, and no list or object")
