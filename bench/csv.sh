#!/usr/bin/env bash
# How long `lay` takes for a CSV file of 2,000 records of 10 fields, beside the same table as HTML: each the
# middle one of eleven runs with the start of the process, one after the other in turn. Builds the program where
# it is missing. Fails where the pages differ, or where the CSV file takes longer by more than 5 %.
set -euo pipefail
here=$(dirname "$(readlink -f "${BASH_SOURCE[0]}")")
"$here/../tablelayout" lay 7 "$here/../examples/first.html" /dev/stdout >/dev/null
program=$here/../crates/tablelayout/out/tablelayout
files=$(mktemp -d)
trap 'rm -rf "$files"' EXIT

"$here/files.sh" "$files"
awk 'BEGIN { for (r = 0; r < 2000; r++) for (c = 0; c < 10; c++) printf "cell %d%s", (r * 31 + c * 17) % 10000, c < 9 ? "," : "\n" }' >"$files/rows.csv"

# Prints the microseconds that a command takes.
elapsed() {
    local begun
    begun=$(date +%s%N)
    "$@" >/dev/null
    echo $((($(date +%s%N) - begun) / 1000))
}

for _ in $(seq 11); do
    elapsed "$program" lay 120 "$files/rows.csv" "$files/csv.txt" --csv >>"$files/csv.times"
    elapsed "$program" lay 120 "$files/rows.html" "$files/html.txt" >>"$files/html.times"
done
cmp "$files/csv.txt" "$files/html.txt"
csv=$(sort -n "$files/csv.times" | sed -n 6p)
html=$(sort -n "$files/html.times" | sed -n 6p)
echo "2,000 rows of 10 cells: CSV $csv us, HTML $html us"
[ $((csv * 100)) -le $((html * 105)) ]
