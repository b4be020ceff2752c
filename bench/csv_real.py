#!/usr/bin/env python3
"""Shows real CSV files; csv_real.sh says what it prints."""
import os
import re
import subprocess
import sys
import time
from collections import Counter
from pathlib import Path

TOP = Path(__file__).resolve().parent.parent
sys.path[:0] = [str(TOP / "integrations" / "python"), str(TOP / "tests" / "python")]
from breakings import Breakings, words_of  # noqa: E402
from own_text import characters  # noqa: E402
from tablelayout import decoding, kinds, records, rows  # noqa: E402

PROGRAM = os.environ.get("TABLELAYOUT_PROGRAM", str(TOP / "crates" / "tablelayout" / "out" / "tablelayout"))
FRONT = str(TOP / "integrations" / "python" / "front")
FILES, WIDTH, MOST_SECONDS = 20, 80, 120
SUFFIXES = (".csv", ".tsv")
LOWEST, BOUNDED, NARROW = 0, 3, 4
WANTED_OF_1000 = 995
MARKS = set(records.DELIMITERS + '"')
# The last line of a page that is cut to the limits.
MORE = re.compile(r"^[0-9,]+ more (?:record|row|column)[^\n]*\n\Z", re.M)
# What `show` says of its pages, and how it is counted.
SAYINGS = {" break ": "with broken words", "read as ": "in another encoding", " and the first record ": "with long records",
           " fields than the first record": "with long records"}


def files_of(folder, most):
    paths = sorted(it for it in Path(folder).rglob("*") if it.suffix.lower() in SUFFIXES and it.is_file() and not it.is_symlink())
    return paths if not most or len(paths) <= most else [paths[number * len(paths) // most] for number in range(most)]


def counted(text):
    """How often each character stands in a text, but for what divides fields."""
    return Counter(it for it in characters(text) if it not in MARKS)


def missing(wanted, found):
    """How many characters of one text are not in another."""
    return sum((counted(wanted) - counted(found)).values())


def lost(path, page):
    """How many characters of a file are not in its records, or of those that are shown not on the page."""
    text = decoding.decode(path.read_bytes()).text
    read = records.read_csv(text, kinds.kind_by_name(path.name).detail).records
    shown = records.first_part(read).records
    more = re.search(r"^([0-9,]+) more records[^\n]*\n\Z", page, re.M)
    if more:
        shown = shown[:-int(more[1].replace(",", ""))]
    return missing(text, "".join(map("".join, read))), missing("".join(map("".join, shown)), page)


def run(command, data=b""):
    return subprocess.run(command, input=data, stdout=subprocess.PIPE, stderr=subprocess.PIPE, check=False, timeout=MOST_SECONDS,
                          env={**os.environ, "TABLELAYOUT": PROGRAM, "TABLELAYOUT_OPTIONS": ""})


def is_read_unchanged(path):
    words = ["lay", "500", "/dev/stdin", "/dev/stdout", "--csv", "--break", "any", "--budget", "0"]
    return run([PROGRAM, *words], path.read_bytes()).returncode in (LOWEST, BOUNDED, NARROW)


def compare_breakings(path, breakings):
    """Lays out the records that are shown of a file by each breaking."""
    text = decoding.decode(path.read_bytes()).text
    read = records.read_csv(text, kinds.kind_by_name(path.name).detail).records
    shown = records.cleaned(records.first_part(read).records)
    data, _ = rows.csv_of(shown)

    def ask(width, breaking):
        ran = run([PROGRAM, "lay", str(width), "/dev/stdin", "/dev/stdout", "--csv", "--style", "compact", "--break", breaking], data)
        page, _, message = ran.stdout.decode().rstrip("\n").rpartition("\n")
        return page if ran.returncode in (LOWEST, BOUNDED) else None, message

    try:
        breakings.compare(words_of(" ".join(map(" ".join, shown))), ask)
    except subprocess.TimeoutExpired:
        print(f"  {path}: not by each breaking within {MOST_SECONDS} s")


def show_file(path, width, count):
    """Shows a file, and counts how."""
    count["files"] += 1
    try:
        ran = run([FRONT, "show", str(path), "--width", str(width), "--verbose"])
    except subprocess.TimeoutExpired:
        count["not shown"] += 1
        print(f"  {path}: not within {MOST_SECONDS} s")
        return
    page, said = ran.stdout.decode(), ran.stderr.decode()
    if ran.returncode not in (LOWEST, BOUNDED):
        count["not shown"] += 1
        print(f"  {path}: status {ran.returncode}: {' '.join(said.split())[:160]}")
        return
    count["shown"] += 1
    count["lowest"] += ran.returncode == LOWEST
    count["read unchanged"] += is_read_unchanged(path)
    count["as records"] += page.startswith("[ 1 ]")
    count["in part"] += bool(MORE.search(page))
    for kind in {it for saying, it in SAYINGS.items() if saying in said}:
        count[kind] += 1
    in_records, on_page = lost(path, page)
    if in_records or on_page:
        count["characters lost"] += in_records + on_page
        print(f"  {path}: {in_records} characters lost in its records, {on_page} on the page")


def main(folders, files=FILES, width=WIDTH):
    total, breakings = Counter(), Breakings()
    for folder in folders.split(":"):
        count, begun = Counter(), time.monotonic()
        for path in files_of(folder, int(files)):
            show_file(path, int(width), count)
            compare_breakings(path, breakings)
        print(f"{folder}: " + ", ".join(f"{kind} {it}" for kind, it in count.items()) + f", {time.monotonic() - begun:.0f} s", flush=True)
        total += count
    print("all: " + ", ".join(f"{kind} {it}" for kind, it in total.items()))
    print(f"pages that fit by each breaking, and words that are broken though they are no wider than N:\n{breakings}")
    return 1 if total["characters lost"] or breakings.broken() or 1000 * total["shown"] < WANTED_OF_1000 * total["files"] else 0


if __name__ == "__main__":
    if not 2 <= len(sys.argv) <= 4:
        sys.exit("csv_real.sh FOLDER[:FOLDER..] [FILES [WIDTH]]")
    sys.exit(main(*sys.argv[1:]))
