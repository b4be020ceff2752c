#!/usr/bin/env bash
# How long a table takes by `batch`: 1,000 drawn tables of 5 by 4 cells in one run, as LLVM builds it. Beside it what `lay`
# takes in process, the Python package, a process of the command for each table, and w3m and pandoc (Debian packages `w3m`,
# `pandoc`) for one page of the same tables, pandoc also with the filter. Builds the program where it is missing; proves and
# builds with `rt`, which has to be in the path, a copy of the crates as they are committed, and beside them a crate of the
# test in batch_test.txt. Prints the machine, then the milliseconds a table of the fastest of five runs, and the megabytes of
# one more. Fails where `batch` takes more than 0.15 ms a table above the call in process, or pandoc with the filter more than
# 2.85 times what pandoc alone takes, or where not each request is answered with a lowest page.
set -euo pipefail
here=$(dirname "$(readlink -f "${BASH_SOURCE[0]}")")
top=${here%/*}
"$top/tablelayout" lay 7 "$top/examples/first.html" /dev/stdout >/dev/null
program=$top/crates/tablelayout/out/tablelayout
room=$(mktemp -d)
trap 'rm -rf "$room"' EXIT
cd "$room"
# The microseconds of a table that `batch` may take above the call in process, and what pandoc may take with the filter, in
# hundredths of what it takes alone.
readonly COUNT=1000 WIDTH=72 MOST_OF_BATCH=150 MOST_OF_FILTER=285

# Each table on a line, with words of one to eight letters.
awk -v count="$COUNT" 'function draw(k) { s = s * 16807 % 2147483647; return s % k }
    BEGIN {
        s = 1
        for (t = 0; t < count; t++) {
            printf "%s<table>", t ? "\n" : ""
            for (row = 0; row < 5; row++) {
                printf "<tr>"
                for (column = 0; column < 4; column++) {
                    printf "<td>"
                    words = 1 + draw(4)
                    for (word = 0; word < words; word++)
                        printf "%s%s", word ? " " : "", substr("abcdefgh", 1, 1 + draw(8))
                    printf "</td>"
                }
                printf "</tr>"
            }
            printf "</table>"
        }
    }' >tables
awk -v width="$WIDTH" '{ printf "lay %d --style compact %d\n%s", width, length($0), $0 }' tables >requests
awk '{ print "<p>Table " NR ":</p>" $0 }' tables >page.html
mkdir files
awk '{ file = "files/" NR ".html"; printf "%s", $0 >file; close(file) }' tables

by_batch() {
    "$program" batch <requests >answers
}

by_package() {
    PYTHONPATH=$top/integrations/python python3 - "$program" "$WIDTH" <<'PYTHON'
import sys, tablelayout
with tablelayout.Layouter([sys.argv[1]]) as layouter, open("tables") as tables:
    for table in tables:
        layouter.lay(html=table, width=int(sys.argv[2]), style="compact")
PYTHON
}

by_processes() {
    for file in files/*.html; do
        "$program" lay "$WIDTH" "$file" /dev/stdout --style compact
    done >pages
}

in_process() {
    ./copy/crates/batch_bench/out/batch_bench_tests bench::tables_of_a_file | sed -n 's/.*tables, \([0-9]*\) us$/\1/p'
}

build_bench() {
    mkdir -p copy/crates
    git -C "$top" archive HEAD crates crates.txt HANDLES | tar -x -C copy
    echo "batch_bench tests_may=Threads: tl_lay tl_command tl_read tl_files tl_base" >>copy/crates.txt
    mkdir -p copy/crates/batch_bench/src
    cp "$here/batch_test.txt" copy/crates/batch_bench/src/bench.rt
    printf '#![tactic(auto)]\n\n#[cfg(test)]\nmod bench;\n' >copy/crates/batch_bench/src/lib.rt
    (cd copy/crates/batch_bench && rt test) >log 2>&1 || { cat log && exit 1; }
}

# The least of five numbers that a command prints.
least_of_five() {
    for _ in 1 2 3 4 5; do "$@"; done | sort -n | head -n 1
}

# The microseconds that a command takes.
elapsed() {
    local begun=${EPOCHREALTIME/[.,]/}
    "$@" >/dev/null
    echo $((${EPOCHREALTIME/[.,]/} - begun))
}

# The kilobytes that a command takes at most, the only one of its shell.
memory_of() {
    /usr/bin/time -f %M -o memory "$@" >/dev/null
    tail -n 1 memory
}

# Prints microseconds for all tables as milliseconds of each, with the kilobytes as megabytes.
report() {
    awk -v name="$1" -v time="$2" -v memory="${3-}" -v count="$COUNT" \
        'BEGIN { printf "%-24s %7.3f ms a table%s\n", name, time / 1000 / count, memory ? sprintf(", %5.1f MB", memory / 1024) : "" }'
}

# Reports a program that lays the page of all tables out, and sets `took` to its microseconds.
report_page() {
    took=$(least_of_five elapsed "${@:2}")
    report "$1" "$took" "$(memory_of "${@:2}")"
}

echo "$(nproc) processors: $(sed -n 's/^model name[^:]*: //p' /proc/cpuinfo | head -n 1)"
failed=0
build_bench
called=$(least_of_five in_process)
report "lay in process" "$called"
batch=$(least_of_five elapsed by_batch)
report "batch" "$batch" "$(memory_of "$program" batch <requests)"
[ $((batch - called)) -le $((MOST_OF_BATCH * COUNT)) ] || failed=1
[ "$(grep -c '^0 [0-9]* 0 0 0$' answers)" = "$COUNT" ] || failed=1
report "the Python package" "$(least_of_five elapsed by_package)"
report "a process each" "$(least_of_five elapsed by_processes)" "$(memory_of "$program" lay "$WIDTH" files/1.html /dev/stdout)"
if command -v w3m >/dev/null; then
    report_page "w3m" w3m -dump -cols "$WIDTH" -T text/html page.html
fi
if command -v pandoc >/dev/null; then
    report_page "pandoc" pandoc -f html -t plain --columns "$WIDTH" page.html
    alone=$took
    report_page "pandoc with the filter" pandoc -f html -t plain --columns "$WIDTH" \
        --lua-filter "$top/integrations/pandoc/tablelayout.lua" page.html
    [ $((took * 100)) -le $((alone * MOST_OF_FILTER)) ] || failed=1
fi
[ "$failed" = 0 ]
