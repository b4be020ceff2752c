"""What the program takes at most: docs/COMMAND.md, limits."""
from __future__ import annotations

MOST_BYTES, MOST_DEPTH, MOST_TABLES = 1 << 20, 8, 200
MOST_CELLS, MOST_COLUMNS, MOST_ROWS = 20_000, 60, 2000


def in_words(more_rows: int, more_columns: int) -> str:
    """How many rows and columns more there are, in words; empty if none."""
    counts = ((more_rows, "row"), (more_columns, "column"))
    return " and ".join(f"{count:,} more {name}{'s' if count > 1 else ''}" for count, name in counts if count)
