#!/usr/bin/env bash
# How long `lay` and `check` take with 1, 2 and 4 workers: on 199 nested tables of 30 rows on 200 columns, and on a
# document of small tables, 199 of one cell of two words. A round takes both commands on both files by each number of
# workers in turn, and compares these, since a machine's speed may change meanwhile. Each number is the middle one of 21
# rounds; times are elapsed, with the start of the process. At last, nine times, four runs by one worker each at one
# time: what the machine gives four threads that share nothing. Builds the program where it is missing. Fails where 2
# workers are not 1.6 times as fast as one on the large tables, or 4 not 2.6 times; and where on the small ones 2 or 4
# take more than 1.1 times as long as one.
set -euo pipefail
here=$(dirname "$(readlink -f "${BASH_SOURCE[0]}")")
"$here/../tablelayout" lay 7 "$here/../examples/first.html" /dev/stdout >/dev/null
program=$here/../crates/tablelayout/out/tablelayout
files=$(mktemp -d)
trap 'rm -rf "$files"' EXIT

awk 'function draw(k) { s = (s * 16838 % m * 65536 % m + s * 20077 + 12345) % m; return int(s / 65536) % k }
    BEGIN {
        s = 0; m = 2147483648
        printf "<table>"
        for (t = 0; t < 199; t++) {
            printf "<tr><td><table>"
            for (row = 0; row < 30; row++) {
                printf "<tr>"
                for (x = 0; x < 3; x++) {
                    printf "<td>"
                    words = 1 + draw(3)
                    for (word = 0; word < words; word++) {
                        letters = 1 + draw(6)
                        for (i = 0; i < letters; i++) printf "a"
                        printf " "
                    }
                }
            }
            printf "</table>"
        }
        printf "</table>"
    }' >"$files/large.html"
awk 'BEGIN { printf "<table>"; for (t = 0; t < 199; t++) printf "<tr><td><table><tr><td>aa bb</table>"; printf "</table>" }' >"$files/small.html"

# Lays out or checks one of the files with so many workers, whatever the status.
run() {
    local command=$1 name=$2 workers=$3 width=200
    [ "$name" = large ] || width=20
    if [ "$command" = lay ]; then
        "$program" lay "$width" "$files/$name.html" "$files/page" "$files/$name.cert" --workers "$workers" >/dev/null || true
    else
        "$program" check "$width" "$files/$name.html" "$files/$name.cert" --workers "$workers" >/dev/null || true
    fi
}

# Four runs by one worker at one time.
run_four() {
    for _ in 1 2 3 4; do "$program" check 200 "$files/large.html" "$files/large.cert" >/dev/null & done
    wait
}

# Sets `begun` to the time, and prints the microseconds since then.
begin() { begun=${EPOCHREALTIME/[.,]/}; }
spent() { echo $((${EPOCHREALTIME/[.,]/} - begun)); }

# Reads rounds, each a line with the times of 1, 2 and 4 workers. Prints the middle time of each, and the middle of how
# many times as fast as one they were in a round. Fails where that is too little.
report() {
    awk -v command="$1" -v name="$2" '
        function middle(list, count,    i, j, kept) {
            for (i = 2; i <= count; i++) {
                kept = list[i]
                for (j = i; j > 1 && list[j - 1] > kept; j--) list[j] = list[j - 1]
                list[j] = kept
            }
            return list[(count + 1) / 2]
        }
        { for (i = 1; i <= 3; i++) { time[i, NR] = $i; gain[i, NR] = $1 / ($i ? $i : 1) } }
        END {
            for (i = 1; i <= 3; i++) {
                for (round = 1; round <= NR; round++) { times[round] = time[i, round]; gains[round] = gain[i, round] }
                took[i] = middle(times, NR)
                gained[i] = middle(gains, NR)
                printf "%-5s %s, %d workers: %6.1f ms", command, name, 2 ^ (i - 1), took[i] / 1000
                if (i > 1) printf ", %.2f times as fast as one", gained[i]
                print ""
            }
            exit name == "large" ? gained[2] < 1.6 || gained[3] < 2.6 : gained[2] < 1 / 1.1 || gained[3] < 1 / 1.1
        }'
}

# The microseconds that one of both commands takes on one of the files by 1, 2 and 4 workers, on a line.
times() {
    local workers
    for workers in 1 2 4; do
        begin
        run "$1" "$2" "$workers"
        echo -n "$(spent) "
    done
    echo
}

for _ in $(seq 21); do
    for command in lay check; do
        for name in large small; do times "$command" "$name" >>"$files/$command.$name"; done
    done
done
failed=0
for command in lay check; do
    for name in large small; do report "$command" "$name" <"$files/$command.$name" || failed=1; done
done

for _ in 1 2 3 4 5 6 7 8 9; do
    begin
    run check large 1
    one=$(spent)
    begin
    run_four
    echo "$one $(spent)"
done | awk '{ printf "%.6f %d %d\n", 4 * $1 / $2, $1, $2 }' | sort -n | sed -n 5p |
    awk '{ printf "four checks by one worker at one time: %d ms, where one takes %d: %.2f times as fast\n", $3 / 1000, $2 / 1000, $1 }'
exit "$failed"
