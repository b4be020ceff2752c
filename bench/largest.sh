#!/usr/bin/env bash
# Lays out the largest inputs that there may be, each at its own limit, and two files that are small for the table that
# they ask for. Builds the program where it is missing. Prints for each the bytes of the file, the seconds of processor
# time of the run from its start to its end, its memory at the most and that of 30 times the file and 4 MB, and its
# message. Fails where a run ends without an answer, or takes 10 seconds, 60 with the largest budget, or 200 MB, and
# where one of the two takes a second.
set -euo pipefail
here=$(dirname "$(readlink -f "${BASH_SOURCE[0]}")")
"$here/../tablelayout" lay 7 "$here/../examples/first.html" /dev/stdout >/dev/null
program=$here/../crates/tablelayout/out/tablelayout
files=$(mktemp -d)
trap 'rm -rf "$files"' EXIT
failed=0

# Prints a text so many times, between a start and an end.
built() {
    awk -v start="$1" -v text="$2" -v times="$3" -v end="$4" \
        'BEGIN { printf "%s", start; for (i = 0; i < times; i++) printf "%s", text; printf "%s", end }'
}

"$here/files.sh" "$files"
for columns in 12 30; do "$here/drawn.sh" 1 "$columns" >"$files/drawn$columns.html"; done
{
    printf '<table>'
    for number in $(seq 199); do printf '<tr><td>'; "$here/drawn.sh" "$number" 3; done
    printf '</table>'
} >"$files/tables.html"
awk 'BEGIN { for (r = 0; r < 2000; r++) for (c = 0; c < 10; c++) printf "cell %d%s", (r * 31 + c * 17) % 10000, c < 9 ? "," : "\n" }' >"$files/fields.csv"
built '' '<table><tr><td>a b<td>' 7 '<table><tr><td>a b<td>c d' >"$files/depth.html"
built '' '</table>' 8 '' >>"$files/depth.html"
built '<table><tr><td>' 'words in ' 116505 '</table>' >"$files/words.html"
built '<table><tr><td>' 'a ' 524276 '</table>' >"$files/letters.html"
built '<table><tr>' '<td colspan=1000>' 20000 '</table>' >"$files/wide.html"
built '<table><tr><td rowspan=0 colspan=1000>a' '<tr>' 100000 '</table>' >"$files/long.html"

# Lays a file out: what is at its limit, the most seconds, the width, the file, and options.
largest() {
    local what=$1 most=$2 width=$3 file=$files/$4 status=0
    shift 4
    /usr/bin/time -f '%U %S %M' -o "$files/used" \
        "$program" lay "$width" "$file" "$files/page" "$files/cert" "$@" >"$files/message" || status=$?
    case $status in 0 | 3 | 4 | 6) ;; *) failed=1 ;; esac
    tail -n 1 "$files/used" | awk -v what="$what" -v bytes="$(wc -c <"$file")" -v most="$most" -v told="$(cat "$files/message")" '{
        printf "%-42s %8d bytes %6.2f s %4d MB of %2d MB  %s\n", what, bytes, $1 + $2, $3 / 1024, (30 * bytes + 4194304) / 1048576, told
        exit $1 + $2 > most || $3 > 204800
    }' || { echo "    FAILED: too long, or too large" && failed=1; }
}

largest '20,000 cells in 2,000 rows, 500 columns' 10 500 rows.html
largest '60 columns of 333 rows, 300 columns' 10 300 columns.html
largest 'a megabyte in 2,000 rows, 80 columns' 10 80 mebibyte.html
largest '200 tables, 500 columns' 10 500 tables.html
largest '200 tables, 80 columns' 10 80 tables.html
largest 'depth 8, 500 columns, the largest budget' 10 500 depth.html --budget 571
largest 'a megabyte of words, 500 columns' 10 500 words.html
largest '524,276 words of one letter, 500 columns' 10 500 letters.html
largest '524,276 words of one letter, 1 column' 10 1 letters.html
largest '20,000 fields of a CSV file, 500 columns' 10 500 fields.csv --csv
largest '12 columns, budget 100,000' 60 160 drawn12.html --budget 100000
largest '12 columns, budget 100,000, --solver plain' 60 160 drawn12.html --budget 100000 --solver plain
largest '30 columns, budget 100,000, --solver plain' 60 400 drawn30.html --budget 100000 --solver plain
largest '20,000 cells over 1,000 columns each' 1 5 wide.html
largest 'a cell over 100,000 rows' 1 5 long.html
exit "$failed"
