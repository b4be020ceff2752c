#!/usr/bin/env bash
# How many cuts the best-first search makes. Builds the program where it is missing. Prints for each file of files.sh
# its width, status, sections and cuts, and the same of the plain search. Then for the tables of the numbers 0 to 999
# (`demo`) the ways to give each span a class (least, middle and greatest) and the cuts, and for each table of this
# repository's documents, on 20, 25, .. 200 columns, the cuts. Of cuts it prints the middle one, those that 90 and 99
# of 100 do not pass, and the greatest. Fails where the best-first search leaves a table open.
set -euo pipefail
here=$(dirname "$(readlink -f "${BASH_SOURCE[0]}")")
"$here/../tablelayout" lay 7 "$here/../examples/first.html" /dev/stdout >/dev/null
program=$here/../crates/tablelayout/out/tablelayout
files=$(mktemp -d)
trap 'rm -rf "$files"' EXIT
"$here/files.sh" "$files"

# Lays a file out by a search, and prints the status and what the sections of its certificate say.
count() {
    local name=$1 width=$2 solver=$3
    status=0
    "$program" lay "$width" "$files/$name.html" "$files/page" "$files/cert" --solver "$solver" >/dev/null || status=$?
    printf '  %s: status %d, ' "$solver" "$status"
    awk '$1 == "section" { n++; all += $6 } END { printf "%d sections, %d cuts", n, all }' "$files/cert"
}

# Prints how many numbers there are, the middle one, those that 90 and 99 of 100 do not pass, and the greatest.
spread() {
    sort -n | awk '{ n[NR] = $1 } END { printf "%d cases, cuts %d, %d, %d, %d\n", NR, n[int(NR / 2) + 1], n[int(NR * 9 / 10)], n[int(NR * 99 / 100)], n[NR] }'
}

failed=0
for case in first:7 demo:60 column:80 rows:120 columns:300 nested:80 mebibyte:80; do
    printf '%-9s %3d' "${case%:*}" "${case#*:}"
    count "${case%:*}" "${case#*:}" best
    [ "$status" = 0 ] || failed=1
    count "${case%:*}" "${case#*:}" plain
    echo
done

for number in $(seq 0 999); do
    "$program" demo "$number" || failed=1
done >"$files/demos"
awk '{ print $4 }' "$files/demos" | sort -g | awk '{ n[NR] = $1 } END { printf "demo 0 to 999: count %.1e, %.1e, %.1e, ", n[1], n[500], n[1000] }'
awk '{ print $10 }' "$files/demos" | spread

# Each table of the documents as HTML.
cd "$here/.."
awk -v to="$files" '
    function flush() {
        if (text) {
            file = to "/table" n++ ".html"
            print "<table>" text "</table>" >file
            close(file)
        }
        text = ""
    }
    FNR == 1 || !/^\|/ { flush() }
    /^\|/ && !/^[-| :]+$/ {
        gsub(/&/, "\\&amp;"); gsub(/</, "\\&lt;"); gsub(/\\\|/, "\\&#124;"); gsub(/^\| *| *\|$/, ""); gsub(/ *\| */, "<td>")
        text = text "\n<tr><td>" $0
    }
    END { flush() }' README.md CONTRIBUTING.md docs/*.md crates/*/README.md
for table in "$files"/table*.html; do
    for width in $(seq 20 5 200); do
        status=0
        "$program" lay "$width" "$table" "$files/page" "$files/cert" >/dev/null || status=$?
        case $status in
        0) awk '$1 == "section" { print $6 }' "$files/cert" ;;
        4) ;;
        *) failed=1 ;;
        esac
    done
done >"$files/cuts"
printf '%d tables of the documents: ' "$(find "$files" -name 'table*.html' | wc -l)"
spread <"$files/cuts"
exit "$failed"
