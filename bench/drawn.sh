#!/usr/bin/env bash
# Prints a table that is drawn from a number: usage: drawn.sh NUMBER [COLUMNS [ROWS]]. Its words have one to eight
# letters, and some cells lie over two columns. With 6 columns and 30 rows, as without them, it is the table of `demo`.
set -euo pipefail
awk -v s="$1" -v columns="${2-6}" -v rows="${3-30}" 'function draw(k) { s = (s * 16838 % m * 65536 % m + s * 20077 + 12345) % m; return int(s / 65536) % k }
    BEGIN {
        m = 2147483648
        printf "<table>"
        for (row = 0; row < rows; row++) {
            printf "<tr>"
            for (x = 0; x < columns; x += span) {
                span = (draw(5) == 0 && x < columns - 1) ? 2 : 1
                printf span == 2 ? "<td colspan=2>" : "<td>"
                words = 1 + draw(6)
                for (word = 0; word < words; word++) {
                    letters = 1 + draw(8)
                    if (word) printf " "
                    for (i = 0; i < letters; i++) printf "a"
                }
            }
        }
        printf "</table>"
    }'
