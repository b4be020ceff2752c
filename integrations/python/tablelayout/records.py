"""CSV files as they come, as records of the same number of fields."""
from __future__ import annotations

import csv
import io
import re
from itertools import islice
from typing import List, NamedTuple, Optional, Tuple

from .faults import BadChoice, BadFile
from .sizes import MOST_BYTES, MOST_CELLS, MOST_COLUMNS, MOST_ROWS, in_words
from .texts import ends_of_marks, without_controls

DELIMITERS = ",\t;|"
_SAMPLE_CHARACTERS, _SAMPLE_RECORDS = 16384, 40
_MOST_NOTES = 5
_MOST_FIELD_CHARACTERS = 1 << 24
# Names of delimiters, as options have them.
NAMED_DELIMITERS = {"comma": ",", "tab": "\t", "\\t": "\t", "semicolon": ";", "bar": "|"}

Record = List[str]


class Records(NamedTuple):
    """Records of one number of fields, and what was found on the way, a line each."""

    records: List[Record]
    notes: List[str]


def fields_of_first(sample: str, delimiter: str) -> List[int]:
    """How many fields each of the first records has. The last record of the sample may be cut, and is left out."""
    # A zero byte ends the reader of Python 3.8 to 3.10.
    records = csv.reader(io.StringIO(without_controls(sample), newline=""), delimiter=delimiter)
    counts = [len(record) for record in islice(records, _SAMPLE_RECORDS) if record]
    return counts[:-1] if len(counts) > 1 and len(sample) == _SAMPLE_CHARACTERS else counts


def _divides_alike(counts: List[int]) -> bool:
    return bool(counts) and counts[0] > 1 and len(set(counts)) == 1


def _alike(counts: List[int]) -> int:
    """How many records have as many fields as the first, if it has several."""
    return counts.count(counts[0]) if counts and counts[0] > 1 else 0


def find_delimiter(text: str) -> str:
    """The delimiter of a CSV file: a comma if it divides all of the first records alike, else what csv.Sniffer finds.

    Where that finds none, or one that does not divide the first record, it is the one that divides the most of the first
    records as the first one, or else a comma.
    """
    sample = without_controls(text[:_SAMPLE_CHARACTERS])
    if _divides_alike(fields_of_first(sample, ",")):
        return ","
    try:
        found = csv.Sniffer().sniff(sample, DELIMITERS).delimiter
        if found in DELIMITERS and fields_of_first(sample, found)[:1] > [1]:
            return found
    except csv.Error:
        pass
    return max(DELIMITERS, key=lambda it: _alike(fields_of_first(sample, it)))


def read_csv(text: str, delimiter: Optional[str] = None) -> Records:
    """The records of a CSV file. Short records are filled; the line of one that is longer than the first is named.

    Raises BadFile for a field of more than 16 million characters.
    """
    csv.field_size_limit(_MOST_FIELD_CHARACTERS)
    reader = csv.reader(io.StringIO(without_controls(text), newline=""), delimiter=delimiter or find_delimiter(text))
    records, lines, line = [], [], 1
    try:
        for record in reader:
            if record:
                records.append(record)
                lines.append(line)
            line = reader.line_num + 1
    except csv.Error as fault:
        raise BadFile(f"line {line} is no record: {fault}") from None
    return even(records, lines)


def even(records: List[Record], lines: List[int]) -> Records:
    """Records that are filled up to the longest. ``lines`` has the line of each."""
    first, longest = len(records[0]) if records else 0, max(map(len, records), default=0)
    notes = [f"line {line} has {len(record)} fields, and the first record {first}"
             for record, line in zip(records, lines) if len(record) > first]
    if len(notes) > _MOST_NOTES:
        notes[_MOST_NOTES:] = [f"{len(notes) - _MOST_NOTES:,} more lines have more fields than the first record"]
    return Records([record + [""] * (longest - len(record)) for record in records], notes)


class Choice(NamedTuple):
    """Which rows, counted from 1 below the head, and which columns are shown. None is all of them."""

    rows: Optional[Tuple[int, int]] = None
    columns: Optional[str] = None


def rows_chosen(text: str) -> Tuple[int, int]:
    """The rows that ``A-B``, ``A-`` or ``A`` names, as the first and the last. Raises BadChoice."""
    match = re.fullmatch(r"([1-9][0-9]*)(?:(-)([1-9][0-9]*)?)?", text)
    if not match:
        raise BadChoice(f"{text!r} names no rows: 5, 5-9 and 5- do")
    first = int(match[1])
    last = int(match[3]) if match[3] else (1 << 31) if match[2] else first
    if last < first:
        raise BadChoice(f"{text!r} names no rows: the last is before the first")
    return first, last


def _column_number(name: str, names: Record) -> int:
    if name in names:
        return names.index(name)
    if name.isdigit() and 0 < int(name) <= len(names):
        return int(name) - 1
    raise BadChoice(f"there is no column {name!r}: it is one of {', '.join(names)}, or a number from 1 to {len(names)}")


def columns_chosen(text: str, names: Record) -> List[int]:
    """The numbers from 0 of the columns that a list as ``a,c-f`` names, by their names or their numbers from 1. Raises BadChoice."""
    numbers = []
    for part in text.split(","):
        first, dash, last = part.partition("-")
        if part in names or not dash:
            numbers.append(_column_number(part, names))
        else:
            begin, end = _column_number(first, names), _column_number(last, names)
            numbers.extend(range(begin, end + 1) if begin <= end else range(begin, end - 1, -1))
    return numbers


def choose(records: List[Record], has_head: bool, choice: Choice) -> List[Record]:
    """The chosen rows and columns of records; the head is kept. Raises BadChoice."""
    head, rows = (records[:1], records[1:]) if has_head else ([], records)
    if choice.rows:
        rows = rows[choice.rows[0] - 1:choice.rows[1]]
    chosen = head + rows
    if choice.columns is None:
        return chosen
    numbers = columns_chosen(choice.columns, records[0] if records else [])
    return [[record[number] for number in numbers] for record in chosen]


class Part(NamedTuple):
    """The first rows and columns of records, and how many rows and columns more there are."""

    records: List[Record]
    more_rows: int
    more_columns: int

    def rest(self) -> str:
        """How many more there are, in words; empty if none."""
        return in_words(self.more_rows, self.more_columns)


def _bytes_of(record: Record) -> int:
    # Each field may have quotes and a delimiter, and each record has a line end.
    return sum(len(field.encode("utf-8", "replace")) + field.count('"') + 3 for field in record) + 2


def first_part(records: List[Record]) -> Part:
    """As many of the first rows and columns as the program takes."""
    width = len(records[0]) if records else 0
    columns = min(width, MOST_COLUMNS)
    cut = [record[:columns] for record in records[:min(MOST_ROWS, MOST_CELLS // max(columns, 1))]]
    size = 0
    for number, record in enumerate(cut):
        size += _bytes_of(record)
        if size > MOST_BYTES and number:
            del cut[number:]
            break
    return Part(cut, len(records) - len(cut), width - columns)


def cleaned(records: List[Record]) -> List[Record]:
    """Records in texts that the program reads, in which marks that reorder text end with their field."""
    return [[_cleaned_field(field) for field in record] for record in records]


def _cleaned_field(field: str) -> str:
    text = without_controls(field)
    return text + ends_of_marks(text)
