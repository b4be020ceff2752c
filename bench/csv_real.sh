#!/usr/bin/env bash
# Shows real CSV files, as `tablelayout show FILE` does: csv_real.sh FOLDER [FILES [WIDTH]], and more folders if FOLDER is a
# list with a colon between each two.
#
# Of each folder it takes at most FILES (20) files whose names end with .csv or .tsv, at even distances; 0 takes all. Each
# is shown on WIDTH (80) columns. Prints for each folder how many there were, how many were shown and how: as they are read
# by the program itself, with broken words, as records, with the first rows and columns alone, in another encoding than
# UTF-8. Then for those that were not shown the status and what standard error says. At last the same records are laid
# out by `--break fit`, `words` and `any`: prints for 40, 60, 80, 120 and 200 columns the pages that fit by each, and the
# words that do not stand whole on a page by `fit`, though they have at most as many columns as its message says, or it
# names no number.
#
# A character is lost that stands in the file, and not in the records that are read of it, or in these, and not on the
# page; white space, delimiters and quotation marks do not count. Fails if one is lost, if such a word is broken, or if
# below 99.5 of 100 files are shown. Needs the program, which it does not build; TABLELAYOUT_PROGRAM names another than
# the checkout's.
set -euo pipefail
here=$(dirname "$(readlink -f "${BASH_SOURCE[0]}")")
exec python3 "$here/csv_real.py" "$@"
