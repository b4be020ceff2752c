#!/usr/bin/env bash
# How long a command takes to start: the program itself, the command that is installed and the launcher of this
# checkout, each for a `lay` of the first example, and the installed `show` of it. Builds the program where it is missing.
# Prints for each the milliseconds of processor time, which other work on the machine changes little, and those that pass,
# of a run: those of the fastest of five times 20 runs. Fails where the processor time of the installed command is more
# than 4 ms above that of the program, that of the launcher more than 10, or that of `show` more than 60.
set -euo pipefail
top=$(dirname "$(dirname "$(readlink -f "${BASH_SOURCE[0]}")")")
room=$(mktemp -d)
trap 'rm -rf "$room"' EXIT
# It builds the program, or tells that it is built, and then lists its sources.
"$top/tablelayout" install "$room/installed"

# Sets `microseconds` to the processor time of a run of a command, and prints it with the time that passes.
measure() {
    local name=$1 took real user system passed=''
    local TIMEFORMAT='%3R %3U %3S'
    shift
    microseconds=''
    for _ in 1 2 3 4 5; do
        took=$({ time for _ in {1..20}; do "$@" >/dev/null; done; } 2>&1)
        read -r real user system <<<"${took//./}"
        took=$(((10#$user + 10#$system) * 50)) real=$((10#$real * 50))
        if [ -z "$microseconds" ] || [ "$took" -lt "$microseconds" ]; then microseconds=$took; fi
        if [ -z "$passed" ] || [ "$real" -lt "$passed" ]; then passed=$real; fi
    done
    awk -v name="$name" -v took="$microseconds" -v passed="$passed" \
        'BEGIN { printf "%-12s %5.1f ms of processor time   %5.1f ms\n", name, took / 1000, passed / 1000 }'
}

failed=0
arguments=(lay 7 "$top/examples/first.html" "$room/page")
measure program "$top/crates/tablelayout/out/tablelayout" "${arguments[@]}"
alone=$microseconds
measure installed "$room/installed/bin/tablelayout" "${arguments[@]}"
[ $((microseconds - alone)) -le 4000 ] || failed=1
measure checkout "$top/tablelayout" "${arguments[@]}"
[ $((microseconds - alone)) -le 10000 ] || failed=1
measure show "$room/installed/bin/tablelayout" show "$top/examples/first.html" --width 7
[ $((microseconds - alone)) -le 60000 ] || failed=1
exit "$failed"
