#!/usr/bin/env python3
"""Lays out the tables of real documents beside w3m and links; real.sh says what it prints."""
import os
import re
import shutil
import subprocess
import sys
import tempfile
import time
import unicodedata
from collections import Counter, defaultdict
from html import unescape
from pathlib import Path

from breakings import WIDTHS, Breakings, words_of

HERE = Path(__file__).resolve().parent
FILTER = HERE.parent / "integrations" / "pandoc" / "tablelayout.lua"
PROGRAM = HERE.parent / "crates" / "tablelayout" / "out" / "tablelayout"
DOCUMENTS, TABLES, DOCUMENT_COLUMNS, MOST_SECONDS = 20, 10, 72, 60
LOWEST, BOUNDED, NARROW = 0, 3, 4
# A space at which no line breaks, as the filter writes it.
BLANK = "\ufdd0"
OTHERS = [it for it in ("w3m", "links") if shutil.which(it)]
SOFT_HYPHEN = "\u00ad"
# What pandoc draws tables with.
RULES = set("-=+|:")
# What pandoc writes in the place of a table that it cannot draw.
UNDRAWN = "[TABLE]"
KEEP = """#!/bin/sh
sed 1d >"$REAL/in.html"
printf '0 0 0 0 0\\n\\n'
"""


class Totals:
    """What is counted of the pages of one program in one width."""

    def __init__(self):
        self.fit = self.broken = self.lost = self.lines = 0
        self.seconds = 0.0


def evenly(items, most):
    """At most so many of the items, at even distances."""
    return items if len(items) <= most else [items[i * len(items) // most] for i in range(most)]


def documents_of(folder, most):
    paths = sorted(it for it in Path(folder).rglob("*") if it.suffix in (".html", ".htm") and it.is_file() and not it.is_symlink())
    return evenly([it for it in paths if b"<table" in it.read_bytes().lower()], most)


def run(command, text=None, **environment):
    """What a command prints, its status, and the seconds that it takes."""
    begun = time.monotonic()
    ran = subprocess.run(command, input=text, stdout=subprocess.PIPE, stderr=subprocess.PIPE, check=False,
                         env={**os.environ, **environment}, timeout=MOST_SECONDS)
    return ran.stdout.decode(errors="replace"), ran.returncode, time.monotonic() - begun, ran.stderr.decode(errors="replace")


def characters(text):
    """How often each character stands in a text, without white space and hyphens that are shown at line ends alone."""
    return Counter({it: count for it, count in Counter(text).items() if not it.isspace() and it != SOFT_HYPHEN})


def without_rules(counts):
    return Counter({it: count for it, count in counts.items() if it not in RULES})


def wanted_of(own, cells, has_nested):
    """The characters of a table: those that pandoc writes of it, and of its cells those that it draws tables with."""
    drawn = Counter() if has_nested else characters(cells)
    return without_rules(characters(own)) | without_rules(characters(cells)) | Counter({it: drawn[it] for it in RULES & set(drawn)})


def line_width(line):
    return sum(0 if unicodedata.combining(it) or unicodedata.category(it) in ("Mn", "Me", "Cf")
               else 2 if unicodedata.east_asian_width(it) in "WF" else 1 for it in line)


def tables_of(document, room, most):
    """Each table that is taken: its file, and the characters that must be on its page."""
    for it in room.glob("[0-9]*"):
        it.unlink()
    run(["pandoc", "-f", "html", "-t", "plain", "--lua-filter", str(HERE / "real.lua"), str(document)],
        REAL=str(room), TABLELAYOUT=str(room / "keep"))
    numbers = sorted((int(it.stem) for it in room.glob("[0-9]*.own")))
    for number in evenly(numbers, most):
        html, own, cells = ((room / f"{number}.{kind}").read_text(encoding="utf-8") for kind in ("html", "own", "cells"))
        yield html, wanted_of(own.replace(UNDRAWN, ""), cells.replace(UNDRAWN, ""), html.count("<table") > 1)


def ask(html, width, breaking):
    """The page of the program, or None, its message, its status, and the seconds that it takes."""
    command = [str(PROGRAM), "lay", str(width), "/dev/stdin", "/dev/stdout", "--style", "compact", "--break", breaking]
    output, status, seconds, _ = run(command, html.encode())
    page, _, message = output.rstrip("\n").rpartition("\n")
    return page if status in (LOWEST, BOUNDED) else None, message, status, seconds


def lay_out(html, width, count):
    """The page of the program, whether it breaks words, and the seconds that it takes."""
    page, message, status, seconds = ask(html, width, "fit")
    count[{LOWEST: "lowest", BOUNDED: "bounded", NARROW: "narrow"}.get(status, message)] += 1
    return None if page is None else page.replace(BLANK, " "), " break " in message, seconds


def browse(program, html, width, room):
    """The page of another program, which reads the same file."""
    file = room / "other.html"
    # They write an empty line between paragraphs, and the program none.
    without_paragraphs = re.sub("</?p>", "", html.replace("</p><p>", "<br>"))
    file.write_text(without_paragraphs.replace(BLANK, "&nbsp;"), encoding="utf-8")
    if program == "w3m":
        command = ["w3m", "-dump", "-cols", str(width), "-T", "text/html", "-I", "UTF-8", "-O", "UTF-8", str(file)]
    else:
        command = ["links", "-dump", "-width", str(width), "-html-margin", "0", "-codepage", "utf-8", "-html-assume-codepage", "utf-8",
                   "-html-hard-assume", "1", str(file)]
    output, _, took, _ = run(command, HOME=str(room))
    return output.strip("\n"), took


def compare(html, wanted, room, totals, count):
    """Lays one table out in each width by each program."""
    for width in WIDTHS:
        page, is_broken, took = lay_out(html, width, count)
        pages, seconds = {"tablelayout": page}, {"tablelayout": took}
        for other in OTHERS:
            pages[other], seconds[other] = browse(other, html, width, room)
        lines, fits = {}, {}
        for program, it in pages.items():
            lines[program] = [] if it is None else it.split("\n")
            fits[program] = it is not None and all(line_width(line.rstrip()) <= width for line in lines[program])
        for program, it in pages.items():
            total = totals[width, program]
            total.fit += fits[program]
            total.broken += program == "tablelayout" and is_broken and fits[program]
            total.lost += 0 if it is None else sum((wanted - characters(it)).values())
            total.lines += len(lines[program]) if all(fits.values()) else 0
            total.seconds += seconds[program]


def filter_document(document, totals):
    """The filter on a whole document, beside pandoc without it."""
    command = ["pandoc", "-f", "html", "-t", "plain", "--columns", str(DOCUMENT_COLUMNS), str(document)]
    own, _, own_seconds, _ = run(command)
    laid, status, seconds, errors = run([*command, "--lua-filter", str(FILTER)], TABLELAYOUT=str(PROGRAM))
    totals["documents"] += 1
    totals["tables that pandoc does not draw"] += own.count(UNDRAWN)
    totals["failed"] += status != 0
    totals["tables that stay"] += errors.count("as pandoc writes")
    lost = sum((without_rules(characters(own.replace(UNDRAWN, ""))) - without_rules(characters(laid))).values())
    totals["characters lost"] += lost
    totals["milliseconds of pandoc"] += round(1000 * own_seconds)
    totals["milliseconds with the filter"] += round(1000 * seconds)
    if lost or status or "as pandoc writes" in errors:
        print(f"  {document}: {lost} characters lost, status {status}\n{errors}".rstrip())


def main(folders, documents=DOCUMENTS, tables=TABLES):
    totals, count, filtered, breakings, taken = defaultdict(Totals), Counter(), Counter(), Breakings(), 0
    with tempfile.TemporaryDirectory() as name:
        room = Path(name)
        (room / "keep").write_text(KEEP, encoding="utf-8")
        (room / "keep").chmod(0o755)
        for folder in folders.split(":"):
            paths, found = documents_of(folder, int(documents)), 0
            for path in paths:
                for html, wanted in tables_of(path, room, int(tables)):
                    compare(html, wanted, room, totals, count)
                    words = words_of(unescape(re.sub("<[^>]*>", " ", html)))
                    breakings.compare(words, lambda width, breaking, html=html: ask(html, width, breaking)[:2])
                    found += 1
                filter_document(path, filtered)
            print(f"{folder}: {found} tables of {len(paths)} documents", flush=True)
            taken += found
    print(f"{taken} tables\nwidth program      fit    broken  lost   lines  seconds")
    for (width, program), it in totals.items():
        print(f"{width:5} {program:11} {it.fit:5} {it.broken:7} {it.lost:6} {it.lines:7} {it.seconds:8.1f}")
    print(f"pages that fit by each breaking, and words that are broken though they are no wider than N:\n{breakings}")
    print("pages: " + ", ".join(f"{kind} {number}" for kind, number in count.most_common()))
    print("filter: " + ", ".join(f"{kind} {number}" for kind, number in filtered.items()))
    laid = count["lowest"] + count["bounded"]
    lost = filtered["characters lost"] + sum(it.lost for (_, program), it in totals.items() if program == "tablelayout")
    return 1 if lost or breakings.broken() or 100 * laid < 99 * (sum(count.values()) - count["narrow"]) else 0


if __name__ == "__main__":
    if not 2 <= len(sys.argv) <= 4:
        sys.exit("real.sh FOLDER[:FOLDER..] [DOCUMENTS [TABLES]]")
    sys.exit(main(*sys.argv[1:]))
