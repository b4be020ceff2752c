#!/usr/bin/env bash
# Lays out every table of real pages of HTML as `show` does: front.sh FOLDER [PAGES [WIDTH]], and more folders if FOLDER
# is a list with a colon between each two.
#
# Of each folder it takes at most PAGES (20) pages of HTML, at even distances; 0 takes all. Each is parsed as a browser
# parses it, each of its tables becomes a file of the subset, and the program lays it out on WIDTH (80) columns, with
# as few words broken as can be (`--break fit`). Prints for each folder the pages, the tables, those that were laid out
# and those that were refused with the reasons, and the characters lost.
#
# A character is lost that stands in a cell's text, as the parser has it, and not in the cell that is laid out, or not
# on the page. Fails if one is lost, or if below 99.5 of 100 tables are laid out. Needs html5lib and the program, which
# it does not build; TABLELAYOUT_PROGRAM names another than the checkout's.
set -euo pipefail
here=$(dirname "$(readlink -f "${BASH_SOURCE[0]}")")
exec python3 "$here/front.py" "$@"
