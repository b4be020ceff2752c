#!/usr/bin/env bash
# How long `lay --solver rounds` takes with 1, 2 and 4 workers, each the middle one of five runs with the start of the
# process: on drawn tables of 40 rows, over 12 columns on 140 and over 16 on 200, with a budget of 5,000. Builds the program
# where it is missing. Prints for each table the milliseconds, and what is said of the height by the search in rounds and by
# the best-first search; then all tables together. The first round has one piece, of the whole zone, with half of the budget:
# so a search that spends it is at most 4/3 times as fast with 2 workers and 8/5 times with 4. Fails where 4 workers are
# slower than one over all tables, and where two searches say of two heights that they are the lowest, or one of a height
# that another one is below.
set -euo pipefail
here=$(dirname "$(readlink -f "${BASH_SOURCE[0]}")")
"$here/../tablelayout" lay 7 "$here/../examples/first.html" /dev/stdout >/dev/null
program=$here/../crates/tablelayout/out/tablelayout
files=$(mktemp -d)
trap 'rm -rf "$files"' EXIT

# Prints the milliseconds of the middle one of five runs of a command.
middle() {
    local begun
    for _ in 1 2 3 4 5; do
        begun=$(date +%s%N)
        "$@" >/dev/null || true
        echo $((($(date +%s%N) - begun) / 1000000))
    done | sort -n | sed -n 3p
}

failed=0
declare -A all=([1]=0 [2]=0 [4]=0)
for columns in 12 16; do
    width=$((columns * 15 - 40))
    for number in 0 1 2; do
        "$here/drawn.sh" "$number" "$columns" 40 >"$files/table.html"
        lay=("$program" lay "$width" "$files/table.html" "$files/page" --budget 5000)
        printf '%d columns, table %d:' "$columns" "$number"
        for workers in 1 2 4; do
            time=$(middle "${lay[@]}" --solver rounds --workers "$workers")
            all[$workers]=$((all[$workers] + time))
            printf ' %d ms by %d' "$time" "$workers"
        done
        lowest='' least=''
        for search in 'rounds --workers 1' 'rounds --workers 4' best; do
            # shellcheck disable=SC2086
            said=$("${lay[@]}" --solver $search) || true
            height=${said#* height } height=${height%% *}
            case $said in
            lowest*)
                [ "${lowest:-$height}" = "$height" ] || failed=1
                lowest=$height
                ;;
            esac
            [ "${least:-$height}" -lt "$height" ] || least=$height
            printf '; %s: %s' "$search" "${said% width*}"
        done
        [ "${lowest:-$least}" = "$least" ] || failed=1
        echo
    done
done
echo "all: ${all[1]} ms by 1, ${all[2]} ms by 2, ${all[4]} ms by 4"
[ "${all[1]}" -ge "${all[4]}" ] || failed=1
exit "$failed"
