#!/usr/bin/env bash
# How the time and the memory of `lay` grow with the table: rows of 10 cells from 250 to 2,000, and words of
# one column of 1,000 rows from 10,000 to 160,000. Builds the program where it is missing. Prints for each size
# the milliseconds of processor time of the fastest of five runs, how many times as many as at half the size,
# and the megabytes at the most. Fails where a table of twice the size takes more than 2.3 times as long and
# 5 ms more, within which two starts of one process differ.
set -euo pipefail
here=$(dirname "$(readlink -f "${BASH_SOURCE[0]}")")
"$here/../tablelayout" lay 7 "$here/../examples/first.html" /dev/stdout >/dev/null
program=$here/../crates/tablelayout/out/tablelayout
files=$(mktemp -d)
trap 'rm -rf "$files"' EXIT

# A table of so many rows of 10 cells of two words.
rows() {
    awk -v rows="$1" 'BEGIN {
        printf "<table>"
        for (row = 0; row < rows; row++) { printf "<tr>"; for (x = 0; x < 10; x++) printf "<td>cell %d", (row * 31 + x * 17) % 10000 }
        printf "</table>"
    }'
}

# A table of one column with so many words, in 1,000 rows.
words() {
    awk -v words="$1" 'BEGIN {
        printf "<table>"
        for (row = 0; row < 1000; row++) { printf "<tr><td>"; for (i = 0; i < words / 1000; i++) printf "w%d ", (row * 7 + i * 13) % 1000 }
        printf "</table>"
    }'
}

# A table of a kind and a size.
table() {
    case $1 in
    rows) rows "$2" ;;
    words) words "$2" ;;
    esac
}

# Sets `milliseconds` to the processor time of the fastest of five runs of a page of so many columns of a file, and
# `megabytes` to the peak of its memory.
measure() {
    local took user system
    local TIMEFORMAT='%3U %3S'
    milliseconds=''
    for _ in 1 2 3 4 5; do
        took=$({ time "$program" lay "$1" "$2" "$files/page" >"$files/message"; } 2>&1)
        read -r user system <<<"${took//./}"
        took=$((10#$user + 10#$system))
        if [ -z "$milliseconds" ] || [ "$took" -lt "$milliseconds" ]; then milliseconds=$took; fi
    done
    /usr/bin/time -f %M -o "$files/memory" "$program" lay "$1" "$2" "$files/page" >"$files/message"
    megabytes=$(($(cat "$files/memory") / 1024))
}

failed=0
# Lays out tables of a kind on a page of so many columns, each size twice the one before it.
grow() {
    local kind=$1 width=$2 size before='' times
    shift 2
    for size in "$@"; do
        table "$kind" "$size" >"$files/table.html"
        measure "$width" "$files/table.html"
        times='   '
        if [ -n "$before" ]; then
            times=$(awk -v now="$milliseconds" -v before="$before" 'BEGIN { printf "%3.1f", now / (before > 0 ? before : 1) }')
            if [ $((milliseconds * 10)) -gt $((before * 23)) ] && [ "$milliseconds" -gt $((before + 5)) ]; then failed=1; fi
        fi
        printf '%6d %-5s %5d ms   %s times   %3d MB\n' "$size" "$kind" "$milliseconds" "$times" "$megabytes"
        before=$milliseconds
    done
}

grow rows 120 250 500 1000 2000
grow words 80 10000 20000 40000 80000 160000
exit "$failed"
