#!/usr/bin/env bash
# Lays out the tables of real documents beside w3m and links: real.sh FOLDER [DOCUMENTS [TABLES]], and more folders if
# FOLDER is a list with a colon between each two.
#
# Of each folder it takes at most DOCUMENTS (20) documents of HTML with tables, and of each of these TABLES (10), both
# at even distances. pandoc reads them, and the filter for pandoc makes of each table a file of the subset of HTML that
# is read. Each is laid out on 40, 60, 80, 120 and 200 columns in the style `compact`, and w3m and links lay out the
# same file, with line breaks between paragraphs, where they would write empty lines. Prints for each folder how many
# tables it took, then for each width and program: the pages that fit, the characters lost, the lines of those pages
# that fit in all, and the seconds of all runs. Where whole words do not fit, `tablelayout` breaks as few as can be
# (`--break fit`), as the filter does, and the pages with broken words are counted too. Then for each width the pages
# that fit by `fit`, `words` and `any`, and the words that do not stand whole on a page by `fit`, though they have at
# most as many columns as its message says, or it names no number.
#
# A character is lost that stands in what pandoc itself writes of the table, or of one of its cells, and not on the
# page; white space and soft hyphens do not count. At last the filter goes over the whole documents on 72 columns.
# Fails if a page loses a character or breaks such a word, or if below 99 of 100 tables of which a layout fits are laid out. Needs pandoc and
# the program, which it does not build; w3m and links are left out where they are missing.
set -euo pipefail
here=$(dirname "$(readlink -f "${BASH_SOURCE[0]}")")
exec python3 "$here/real.py" "$@"
