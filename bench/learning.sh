#!/usr/bin/env bash
# How many cuts the three searches make, and how long `lay` takes by each, with the start of the process, each with a budget
# of 5,000: on the twenty tables of `demo 0` to `demo 19` on 60 columns, on five tables of 30 rows over 8 columns, on 80 and
# on 90, where the budget is spent, and on examples/cuts.html, on 25. Builds the program where it is missing. Prints for each
# table and search the cuts, the milliseconds and what is said. Fails where two searches find different lowest heights, where
# one says that a page is the lowest and another one finds a lower one, or where a search that learns takes more than 5
# seconds.
set -euo pipefail
here=$(dirname "$(readlink -f "${BASH_SOURCE[0]}")")
"$here/../tablelayout" lay 7 "$here/../examples/first.html" /dev/stdout >/dev/null
program=$here/../crates/tablelayout/out/tablelayout
files=$(mktemp -d)
trap 'rm -rf "$files"' EXIT

failed=0
# Lays the table out by each search.
compare() {
    local name=$1 width=$2 solver begun time said lowest=
    printf '%-8s' "$name"
    for solver in plain best learn; do
        begun=$(date +%s%N)
        said=$("$program" lay "$width" "$files/$name.html" "$files/page" "$files/cert" --budget 5000 --solver "$solver") || true
        time=$((($(date +%s%N) - begun) / 1000000))
        printf '  %s %5d cuts %5d ms' "$solver" "$(awk '$1 == "section" { all += $6 } END { print all + 0 }' "$files/cert")" "$time"
        case $said in
        lowest*)
            # The height, which is the same for each search that ends.
            said=${said#lowest height } said=${said%% *}
            [ "${lowest:-$said}" = "$said" ] || failed=1
            lowest=$said
            ;;
        *) printf ' (%s)' "${said% width*}" ;;
        esac
        [ "$solver" != learn ] || [ "$time" -le 5000 ] || failed=1
    done
    echo
}

for number in $(seq 0 19); do
    "$here/drawn.sh" "$number" >"$files/demo$number.html"
    compare "demo$number" 60
done
for number in 1 2 3 4 5; do
    "$here/drawn.sh" "$number" 8 >"$files/eight$number.html"
    compare "eight$number" 80
done
for number in 1 2 3 4 5; do
    "$here/drawn.sh" "$number" 8 >"$files/wide$number.html"
    compare "wide$number" 90
done
cp "$here/../examples/cuts.html" "$files/cuts.html"
compare cuts 25
exit "$failed"
