#!/usr/bin/env python3
"""Reads pages in styles grid and rule as tables again, and compares these with the tables that were laid out.

    tests/again.py docutils|pandoc FOLDER

`tests/again.sh` calls it. FOLDER has the pages, each in a file whose name begins with that of its table in `again/` and a
full stop. `again/NAME.cells` has the table: the rows of its head, and on a line for each cell its first row and column,
counted from 0, the rows and columns that it covers, and its text. A slot that no cell covers is an empty cell here. Texts are
compared without white space, as lines and broken words part them. pandoc 2.17 reads no grid table with spans, with a head
of more rows or with an empty row or column, so only the others are read by it. A page whose name ends with `.rule` is in style
rule, and read by pandoc alone, as a simple table: such has at least two columns, a head of one row and a line for each row.

If all are the same this prints nothing; otherwise it prints the pages that are not, and ends with 1. It ends with 3 where the
reader is missing.
"""
import importlib
import importlib.util
import json
import shutil
import subprocess
import sys
from pathlib import Path
from typing import Any, Callable, Dict, Iterable, Iterator, List, NamedTuple, Set, Tuple

TABLES = Path(__file__).resolve().parent / "again"
MISSING = 3


class Cell(NamedTuple):
    """A cell: where it begins, what it covers, and its text without white space."""

    row: int
    column: int
    rows: int
    columns: int
    text: str


class Table(NamedTuple):
    """The rows of the head, and all cells."""

    head: int
    cells: List[Cell]


Tables = Dict[str, Table]


def joined(text: str) -> str:
    return "".join(text.split())


def read_table(path: Path) -> Table:
    """The table of a file of cells."""
    first, *lines = path.read_text(encoding="utf-8").splitlines()
    cells = []
    for line in lines:
        row, column, rows, columns, text = (line + " ").split(" ", 4)
        cells.append(Cell(int(row), int(column), int(rows), int(columns), joined(text)))
    return Table(int(first.split()[1]), cells)


def is_simple(table: Table) -> bool:
    """Whether it is a table of the kind that pandoc 2.17 reads."""
    filled = [it for it in table.cells if it.text]
    return (table.head <= 1 and all((it.rows, it.columns) == (1, 1) for it in table.cells)
            and {it.row for it in filled} == {it.row for it in table.cells}
            and {it.column for it in filled} == {it.column for it in table.cells})


def is_ruled(name: str) -> bool:
    """Whether the page is in style rule."""
    return name.endswith(".rule")


def is_simple_page(name: str, page: str, table: Table) -> bool:
    """Whether it is a page of the kind that pandoc 2.17 reads."""
    if not is_simple(table):
        return False
    rows, columns = (1 + max(getattr(it, axis) for it in table.cells) for axis in ("row", "column"))
    return not is_ruled(name) or (table.head == 1 and columns > 1 and len(page.splitlines()) == rows + 1)


def placed(rows: Iterable[List[Tuple[int, int, str]]]) -> Iterator[Cell]:
    """The cells of rows, each given by the rows and columns that it covers and its text."""
    covered: Set[Tuple[int, int]] = set()
    for row, cells in enumerate(rows):
        column = 0
        for height, width, text in cells:
            while (row, column) in covered:
                column += 1
            covered.update((row + down, column + right) for down in range(height) for right in range(width))
            yield Cell(row, column, height, width, joined(text))


def as_document(pages: Dict[str, str]) -> str:
    """A document of all pages, each below its name."""
    return "".join(f"{name}\n\n{page}\n" for name, page in pages.items())


def read_by_docutils(pages: Dict[str, str]) -> Tables:
    """The tables that docutils reads."""
    publish: Any = importlib.import_module("docutils.core").publish_doctree
    # Warnings stand in the document too.
    quiet = {"report_level": 5, "halt_level": 6, "input_encoding": "unicode"}
    found, name = {}, ""
    for node in publish(as_document(pages), settings_overrides=quiet).children:
        if node.tagname == "paragraph":
            name = node.astext()
        elif node.tagname == "table":
            parts = {it.tagname: it.children for it in node.children[0].children if it.tagname in ("thead", "tbody")}
            head = parts.get("thead", [])
            rows = [[(it.get("morerows", 0) + 1, it.get("morecols", 0) + 1, it.astext()) for it in row.children]
                    for row in (*head, *parts["tbody"])]
            found[name] = Table(len(head), list(placed(rows)))
    return found


def text_of(part: Any) -> str:
    """The text of a part of pandoc's document."""
    if isinstance(part, list):
        return " ".join(map(text_of, part))
    if not isinstance(part, dict):
        return ""
    content = part.get("c", [])
    return str(content) if part["t"] == "Str" else text_of(content)


def read_by_pandoc(pages: Dict[str, str]) -> Tables:
    """The tables that pandoc reads as markdown."""
    ran = subprocess.run(["pandoc", "-f", "markdown", "-t", "json"], input=as_document(pages).encode(), stdout=subprocess.PIPE, check=True)
    found, name = {}, ""
    for block in json.loads(ran.stdout)["blocks"]:
        if block["t"] != "Table":
            name = text_of(block["c"])
            continue
        _, _, _, (_, head), bodies, _ = block["c"]
        rows = [[(height, width, text_of(content)) for _, _, height, width, content in cells]
                for _, cells in (*head, *(row for body in bodies for row in (*body[2], *body[3])))]
        found[name] = Table(len(head), list(placed(rows)))
    return found


READERS: Dict[str, Callable[[Dict[str, str]], Tables]] = {"docutils": read_by_docutils, "pandoc": read_by_pandoc}


def has_reader(name: str) -> bool:
    """Whether there is this reader."""
    if name == "pandoc":
        return shutil.which("pandoc") is not None
    sys.path.append("/usr/lib/python3/dist-packages")
    return importlib.util.find_spec("docutils") is not None


def main(reader: str, folder: Path) -> int:
    if not has_reader(reader):
        return MISSING
    tables = {it.stem: read_table(it) for it in sorted(TABLES.glob("*.cells"))}
    pages = {it.name: it.read_text(encoding="utf-8") for it in sorted(folder.iterdir())}
    if reader == "pandoc":
        pages = {name: page for name, page in pages.items() if is_simple_page(name, page, tables[name.split(".")[0]])}
        if not any(map(is_ruled, pages)):
            print("no page in style rule is read again")
            return 1
    else:
        pages = {name: page for name, page in pages.items() if not is_ruled(name)}
    found = READERS[reader](pages)
    failed = 0
    for name, page in pages.items():
        wanted = tables[name.split(".")[0]]
        if found.get(name) != wanted:
            print(f"{reader} reads {name} as {found.get(name)}, and it is {wanted}:\n{page}")
            failed += 1
    return 1 if failed or not pages else 0


if __name__ == "__main__":
    sys.exit(main(sys.argv[1], Path(sys.argv[2])))
