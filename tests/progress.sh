#!/usr/bin/env bash
# Runs the program with --progress: what it says of searches on standard error, and that nothing else depends on that. If all
# is as it should be this prints nothing.
set -uo pipefail
top=$(dirname "$(dirname "$(readlink -f "${BASH_SOURCE[0]}")")")
# shellcheck source=tests/common.bash
. "$top/tests/common.bash"

cd "${room:?}" || exit 1
# Twenty rows of eight cells, each of one to six words, drawn from a number. No search closes it within some hundred cuts.
awk 'BEGIN {
    print "<table>"
    for (row = number = 1; row <= 20; row++) {
        printf "<tr>"
        for (column = 1; column <= 8; column++) {
            printf "<td>"
            number = (75 * number + 74) % 65537
            for (words = number % 6 + 1; words > 0; words--) {
                number = (75 * number + 74) % 65537
                printf "%s ", substr("abcdefgh", 1, number % 8 + 1)
            }
        }
        print ""
    }
    print "</table>"
}' >in.html

is_wrong() {
    echo "$0: $1" >&2
    touch "$failed"
}
# What a command prints and stores, and the status, without --progress and with it; what it says then goes to `said`.
is_told() {
    mkdir -p alone told
    (cd alone && { "$program" "$@"; echo "status $?"; } >message 2>../said)
    expect_text "" "without --progress" <said
    (cd told && { "$program" --progress "$@"; echo "status $?"; } >message 2>../said)
    diff -r alone told || is_wrong "$*"
}
# At which cuts of a search of the outer table something was said.
cuts_said() {
    sed -nE 's/^progress table 0 cuts ([0-9]+) height [0-9]+ lower [0-9]+$/\1/p' said
}
# Heights only fall, bounds only rise, and no bound is above a height.
is_narrowing() {
    awk 'NR > 1 && ($7 > height || $9 < lower) || $9 > $7 { exit 1 } { height = $7; lower = $9 }' said || is_wrong "$(cat said)"
}

for solver in plain best learn; do
    is_told lay 100 ../in.html page cert --solver "$solver" --budget 130
    cuts_said | expect_text $'64\n128' "of a search $solver"
    is_narrowing
done
# A search in rounds is seen after a round.
is_told lay 100 ../in.html page --solver rounds --workers 2 --budget 130
lines=$(wc -l <said)
if [ "$lines" -lt 1 ] || [ "$lines" -gt 2 ] || [ "$lines" != "$(cuts_said | wc -l)" ]; then is_wrong "$(cat said)"; fi
is_narrowing

# One that ends before is not seen, and neither is what searches nothing.
is_told lay 100 ../in.html page cert --solver plain --budget 63
expect_text "" "of 63 cuts" <said
is_told lay 100 ../in.html page cert --solver plain --budget 64
cuts_said | expect_text 64 "of 64 cuts"
is_told check 100 ../in.html ../alone/cert --budget 64
expect_text "" "of a check" <said
"$program" lay 100 in.html page --progres 2>&1 >/dev/null |
    expect_text "tablelayout: unknown option '--progres': did you mean '--progress'?" "of a wrong word"

# Each page that is searched has its lines.
for command in "narrow 90" "tidy 100"; do
    # shellcheck disable=SC2086
    is_told $command ../in.html page cert --solver plain --budget 64
    cuts_said | sort -u | expect_text 64 "of $command"
done

# With batch the lines are those of all requests.
requests() {
    local bytes
    bytes=$(wc -c <in.html)
    for _ in 1 2; do
        printf 'lay 100 --solver plain --budget 64 %s\n' "$bytes"
        cat in.html
    done
}
requests | "$program" batch >alone/answers
requests | "$program" batch --progress >told/answers 2>said
cmp alone/answers told/answers || is_wrong "other answers"
cuts_said | expect_text $'64\n64' "of two requests"

# Where nothing can be said, the page is the same.
"$program" lay 100 in.html told/page --solver plain --budget 130 --progress >/dev/null 2>/dev/full
echo "status $?" | expect_text "status 3" "on a full device"
"$program" lay 100 in.html alone/page --solver plain --budget 130 >/dev/null
cmp alone/page told/page || is_wrong "another page"

[ ! -e "$failed" ]
