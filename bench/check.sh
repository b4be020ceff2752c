#!/usr/bin/env bash
# How long `check` takes with the start of the process, beside the `lay` that wrote the certificate. Builds
# the program where it is missing. Prints for each case the bytes of the certificate, the lines of its logs,
# and the milliseconds of processor time of both, which other work on the machine changes little, and which
# part of that of `lay` the check takes. The files are the examples and those of files.sh. Fails where a check
# ends with another status than its `lay`, or takes longer by more than 2 ms, within which two starts of one
# process differ.
#
# At last the log of 100,001 lines that the plain search leaves of the table of number 0 on 120 columns, with
# 50,000 cuts: how long it takes to check, beside the search. The log comes last in a check, so its time is
# that of the whole check less that of one whose first line is bad; the search's is that of `lay` less that
# of one without cuts. Fails where the log takes longer.
set -euo pipefail
here=$(dirname "$(readlink -f "${BASH_SOURCE[0]}")")
"$here/../tablelayout" lay 7 "$here/../examples/first.html" /dev/stdout >/dev/null
program=$here/../crates/tablelayout/out/tablelayout
files=$(mktemp -d)
trap 'rm -rf "$files"' EXIT
"$here/files.sh" "$files"
for name in first spans word; do cp "$here/../examples/$name.html" "$files"; done
for name in nested columns; do cp "$here/../examples/$name.html" "$files/${name}_example.html"; done

# The milliseconds of processor time of the fastest of five runs of a command, and its status.
measure() {
    local took user system least=''
    local TIMEFORMAT='%3U %3S'
    for _ in 1 2 3 4 5; do
        status=0
        took=$( { time "$@" >/dev/null 2>&1; } 2>&1 ) || status=$?
        read -r user system <<<"${took//./}"
        took=$((10#$user + 10#$system))
        [ -z "$least" ] || [ "$took" -lt "$least" ] && least=$took
    done
    milliseconds=$least
}

failed=0
# Lays a file out and checks its certificate: the name and the width.
compare() {
    local name=$1 width=$2 laid first
    measure "$program" lay "$width" "$files/$name.html" "$files/page" "$files/cert"
    laid=$milliseconds
    first=$status
    measure "$program" check "$width" "$files/$name.html" "$files/cert"
    printf '%-15s %4d  status %d %d  %6d bytes %4d lines   lay %4d ms   check %4d ms' "$name" "$width" "$first" "$status" \
        "$(wc -c <"$files/cert")" "$(awk '/(chain|cycle|fired|area)$/ && !/^chain/' "$files/cert" | wc -l)" "$laid" "$milliseconds"
    awk -v check="$milliseconds" -v lay="$laid" 'BEGIN { if (lay) printf ", %.2f of it", check / lay; print "" }'
    if [ "$first" != "$status" ] || [ "$milliseconds" -gt $((laid + 2)) ]; then failed=1; fi
}

for case in first:7 spans:9 nested_example:9 columns_example:12 word:6 demo:60 column:80 rows:120 columns:300 nested:80 mebibyte:80; do
    compare "${case%:*}" "${case#*:}"
done

# The milliseconds that a command takes longer than another, each of words without white space, with the status that is
# wanted.
difference() {
    local wanted=$1 than=$2 longer words
    read -ra words <<<"$3"
    measure "${words[@]}"
    longer=$milliseconds
    if [ "$status" != "$wanted" ]; then failed=1; fi
    read -ra words <<<"$4"
    measure "${words[@]}"
    if [ "$status" != "$than" ]; then failed=1; fi
    milliseconds=$((longer - milliseconds))
}

lay="$program lay 120 $files/demo.html $files/page"
$lay "$files/cert" --solver plain --budget 50000 >/dev/null || true
awk '!changed && /^z[0-9]+ (chain|area)$/ { print $1, "cycle"; changed = 1; next } { print }' "$files/cert" >"$files/changed"
difference 3 3 "$lay --solver plain --budget 50000" "$lay --solver plain --budget 0"
search=$milliseconds
check="$program check 120 $files/demo.html"
[ "$($check "$files/changed" --budget 50000 || true)" = "rejected: line 0 of section 0" ] || failed=1
difference 3 10 "$check $files/cert --budget 50000" "$check $files/changed --budget 50000"
printf 'a log of %d lines: search %d ms, check of the log %d ms\n' \
    "$(awk '/(chain|cycle|fired|area)$/ && !/^chain/' "$files/cert" | wc -l)" "$search" "$milliseconds"
if [ "$milliseconds" -ge "$search" ]; then failed=1; fi
exit "$failed"
