#!/usr/bin/env bash
# Writes the files that the benches lay out into the folder FOLDER: usage: files.sh FOLDER.
#   first       the first example
#   demo        the table of number 0: 30 rows over 6 columns of words of one to eight letters
#   column      2,000 rows of 10 words each in one column
#   rows        2,000 rows of 10 cells of two words
#   columns     333 rows of 60 cells
#   nested      200 tables, each after the first in a cell of the first
#   mebibyte    2,000 rows of two long cells, a file of 1,048,576 bytes
#   refused     the same rows with an element at the end that is not read
set -euo pipefail
here=$(dirname "$(readlink -f "${BASH_SOURCE[0]}")")
files=$1

cp "$here/../examples/first.html" "$files/first.html"
"$here/drawn.sh" 0 >"$files/demo.html"
awk 'BEGIN { printf "<table>"; for (r = 0; r < 2000; r++) { printf "<tr><td>"; for (w = 0; w < 10; w++) printf "word%d ", (r * 7 + w * 13) % 1000 } printf "</table>" }' >"$files/column.html"
awk 'BEGIN { printf "<table>"; for (r = 0; r < 2000; r++) { printf "<tr>"; for (c = 0; c < 10; c++) printf "<td>cell %d", (r * 31 + c * 17) % 10000 } printf "</table>" }' >"$files/rows.html"
awk 'BEGIN { printf "<table>"; for (r = 0; r < 333; r++) { printf "<tr>"; for (c = 0; c < 60; c++) printf "<td>%d b", (r + c) % 10 } printf "</table>" }' >"$files/columns.html"
awk 'BEGIN { printf "<table>"; for (t = 1; t < 200; t++) printf "<tr><td>%d<td><table><tr><td>aa bb %d<td>cc dd</table>", t, t; printf "</table>" }' >"$files/nested.html"
# Rows of 518 bytes, and white space after the table up to the limit of a file.
awk 'BEGIN {
        for (i = 0; i < 24; i++) left = left "aaaaaaaaaa "
        for (i = 0; i < 22; i++) right = right "bbbbbbbbbb "
        printf "<table>"
        for (row = 0; row < 2000; row++) printf "<tr><td>%s<td>%s", left, right
        printf "</table>%12561s", ""
    }' >"$files/mebibyte.html"
sed 's/<.table> *$/<tr><td><img><\/table>/' "$files/mebibyte.html" >"$files/refused.html"
