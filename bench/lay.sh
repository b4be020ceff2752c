#!/usr/bin/env bash
# How long `lay` takes with the start of the process, and how much memory, beside w3m's (Debian package
# `w3m`) in the same run. w3m estimates column widths; it proves nothing. Builds the program where it is
# missing. Prints the machine; for each file its status and lines, the milliseconds of the middle one of five
# runs and the megabytes of one more, those of w3m, and which part of w3m's time and memory they are.
# The files are those of files.sh, at these widths in columns: first 7, demo 60, column 80, rows 120,
# columns 300, nested 80, mebibyte 80, refused 80. At last the slowest of `demo 0` to `demo 19`; fails where
# one of them does not close.
set -euo pipefail
here=$(dirname "$(readlink -f "${BASH_SOURCE[0]}")")
"$here/../tablelayout" lay 7 "$here/../examples/first.html" /dev/stdout >/dev/null
program=$here/../crates/tablelayout/out/tablelayout
files=$(mktemp -d)
trap 'rm -rf "$files"' EXIT

"$here/files.sh" "$files"

# Sets `microseconds` to those of the middle one of five runs of a command, and `status`, `lines` and `kilobytes` to
# those of one more run.
measure() {
    local begun
    for _ in 1 2 3 4 5; do
        begun=${EPOCHREALTIME/[.,]/}
        "$@" >"$files/out" 2>/dev/null || true
        echo $((${EPOCHREALTIME/[.,]/} - begun))
    done >"$files/times"
    microseconds=$(sort -n "$files/times" | sed -n 3p)
    status=0
    /usr/bin/time -f %M -o "$files/memory" "$@" >"$files/out" 2>/dev/null || status=$?
    lines=$(wc -l <"$files/out")
    kilobytes=$(tail -n 1 "$files/memory")
}

# Prints microseconds as milliseconds and kilobytes as megabytes.
in_units() {
    awk -v time="$1" -v memory="$2" 'BEGIN { printf "%7.1f ms %5.1f MB", time / 1000, memory / 1024 }'
}

echo "$(nproc) processors: $(sed -n 's/^model name[^:]*: //p' /proc/cpuinfo | head -n 1); $(w3m -version 2>/dev/null | cut -d, -f1 || echo 'no w3m')"
for case in first:7 demo:60 column:80 rows:120 columns:300 nested:80 mebibyte:80 refused:80; do
    name=${case%:*} width=${case#*:}
    measure "$program" lay "$width" "$files/$name.html" /dev/stdout
    printf '%-9s  status %d %6d lines %s' "$name" "$status" "$lines" "$(in_units "$microseconds" "$kilobytes")"
    if command -v w3m >/dev/null; then
        laid=$microseconds held=$kilobytes
        measure w3m -dump -cols "$width" -T text/html "$files/$name.html"
        printf '   w3m: %s   ' "$(in_units "$microseconds" "$kilobytes")"
        awk -v time="$laid" -v memory="$held" -v of_time="$microseconds" -v of_memory="$kilobytes" \
            'BEGIN { printf "%.2f of its time, %.2f of its memory", time / of_time, memory / of_memory }'
    fi
    echo
done

slowest=0
for number in $(seq 0 19); do
    begun=${EPOCHREALTIME/[.,]/}
    "$program" demo "$number" >/dev/null
    milliseconds=$(((${EPOCHREALTIME/[.,]/} - begun) / 1000))
    [ "$milliseconds" -le "$slowest" ] || slowest=$milliseconds
done
echo "demo 0 to demo 19: $slowest ms at most"
