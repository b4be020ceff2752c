#!/usr/bin/env bash
# How long `narrow` takes beside `lay`, with the start of the process. For each file of files.sh `lay` lays it
# out at the width that lay.sh has for it, and `narrow` looks for the narrowest page of as many lines. Builds
# the program where it is missing. Prints for each file both times in milliseconds, each the middle one of five
# runs, and what `narrow` says. Fails where `narrow` takes more than ten times as long as `lay` on `demo` (30
# rows over 6 columns), or a second on any other file.
set -euo pipefail
here=$(dirname "$(readlink -f "${BASH_SOURCE[0]}")")
"$here/../tablelayout" lay 7 "$here/../examples/first.html" /dev/stdout >/dev/null
program=$here/../crates/tablelayout/out/tablelayout
files=$(mktemp -d)
trap 'rm -rf "$files"' EXIT

"$here/files.sh" "$files"

# Prints the milliseconds of the middle one of five runs of a command.
middle() {
    local begun
    for _ in 1 2 3 4 5; do
        begun=$(date +%s%N)
        "$@" >"$files/said" || true
        echo $((($(date +%s%N) - begun) / 1000000))
    done | sort -n | sed -n 3p
}

failed=0
for case in first:7 demo:60 column:80 rows:120 columns:300 nested:80 mebibyte:80; do
    name=${case%:*} width=${case#*:}
    lay=$(middle "$program" lay "$width" "$files/$name.html" "$files/page")
    height=$(sed -n 's/.* height \([0-9]*\).*/\1/p' "$files/said")
    narrow=$(middle "$program" narrow "$height" "$files/$name.html" "$files/page")
    printf '%-9s lay %5d ms, narrow %6d ms: %s\n' "$name" "$lay" "$narrow" "$(cat "$files/said")"
    case $name in
        demo) [ "$narrow" -le $((10 * lay + 5)) ] || failed=1 ;;
        *) [ "$narrow" -le 1000 ] || failed=1 ;;
    esac
done
exit "$failed"
