#!/usr/bin/env python3
"""Lays out every table of real pages of HTML; front.sh says what it prints."""
import os
import subprocess
import sys
import time
from collections import Counter
from pathlib import Path

TOP = Path(__file__).resolve().parent.parent
sys.path[:0] = [str(TOP / "integrations" / "python"), str(TOP / "tests" / "python")]
from own_text import characters, lost, own_text, written_text  # noqa: E402
from tablelayout import flow, forming, subset, web, web_items  # noqa: E402

PROGRAM = os.environ.get("TABLELAYOUT_PROGRAM", str(TOP / "crates" / "tablelayout" / "out" / "tablelayout"))
PAGES, WIDTH, MOST_SECONDS = 20, 80, 120
LOWEST, BOUNDED, NARROW = 0, 3, 4
# A page breaks words, and soft hyphens stay.
WANTED_OF_1000 = 995


def evenly(items, most):
    return items if not most or len(items) <= most else [items[i * len(items) // most] for i in range(most)]


def pages_of(folder, most):
    paths = sorted(it for it in Path(folder).rglob("*") if it.suffix in (".html", ".htm") and it.is_file() and not it.is_symlink())
    return evenly(paths, most)


def lay_out(file, width):
    """The status, the page and the message of the program."""
    ran = subprocess.run([PROGRAM, "lay", str(width), "/dev/stdin", "/dev/stdout", "--style", "compact", "--break", "fit"],
                         input=file.data, stdout=subprocess.PIPE, check=False, timeout=MOST_SECONDS)
    page, _, message = ran.stdout.decode(errors="replace").rstrip("\n").rpartition("\n")
    return ran.returncode, file.shown(page), message


def is_read_unchanged(path):
    ran = subprocess.run([PROGRAM, "lay", "500", "/dev/stdin", "/dev/stdout", "--break", "any", "--budget", "0"],
                         stdin=path.open("rb"), stdout=subprocess.PIPE, check=False)
    return ran.returncode in (LOWEST, BOUNDED, NARROW)


def lost_in_cells(table):
    """What is lost of the cells of a table, those of nested tables within their cells."""
    formed = forming.form(table)
    cells = [it.element for group in formed.groups for row in group.rows for it in row]
    for cell in [*formed.captions, *cells]:
        part = lost(characters(own_text(cell)), characters(written_text(subset.flow_html(flow.blocks_of(cell)))))
        if part:
            yield part


def lost_on_page(file, page):
    wanted, found = (Counter(characters(it)) for it in (written_text(file.data.decode().replace(file.blank, "")), page))
    return sum((wanted - found).values())


def first_words(text):
    return " ".join(text.split())[:60]


def show_table(path, number, table, width, count):
    item = web_items.item_of(table)
    file = subset.File(item.source.data, item.blank)
    status, page, message = lay_out(file, width)
    count["tables"] += 1
    for part in lost_in_cells(table):
        count["characters lost"] += 1
        print(f"  {path}: table {number}: lost in a cell: {part!r}")
    if status in (LOWEST, BOUNDED):
        count["laid out"] += 1
        count["lowest"] += status == LOWEST
        count["with broken words"] += " break " in message
        count["cut to the limits"] += bool(item.more)
        missing = lost_on_page(file, page)
        if missing:
            count["characters lost"] += missing
            print(f"  {path}: table {number}: {missing} characters lost on the page")
    else:
        reason = " ".join(message.split()[:2])
        count[f"refused: {reason}"] += 1
        print(f"  {path}: table {number}: {message} ({first_words(own_text(table))})")


def main(folders, pages=PAGES, width=WIDTH):
    total = Counter()
    for folder in folders.split(":"):
        count, begun, parsing = Counter(), time.monotonic(), 0.0
        for path in pages_of(folder, int(pages)):
            count["pages"] += 1
            count["read unchanged"] += is_read_unchanged(path)
            begun_parsing = time.monotonic()
            tables = web.tables_of(web.parse(path.read_bytes()))
            parsing += time.monotonic() - begun_parsing
            count["pages with tables"] += bool(tables)
            for number, table in enumerate(tables, 1):
                show_table(path, number, table, int(width), count)
        print(f"{folder}: " + ", ".join(f"{kind} {it}" for kind, it in count.items())
              + f", {time.monotonic() - begun:.0f} s, of which parsing {parsing:.0f} s", flush=True)
        total += count
    print("all: " + ", ".join(f"{kind} {it}" for kind, it in total.items()))
    return 1 if total["characters lost"] or 1000 * total["laid out"] < WANTED_OF_1000 * total["tables"] else 0


if __name__ == "__main__":
    if not 2 <= len(sys.argv) <= 4:
        sys.exit("front.sh FOLDER[:FOLDER..] [PAGES [WIDTH]]")
    sys.exit(main(*sys.argv[1:]))
