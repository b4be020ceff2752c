#!/usr/bin/env bash
# How long tl_token and tl_tree take to read files of 1 MiB of one kind, and how much memory, as LLVM
# builds them. Proves and builds tl_tree_tests with `rt`, which has to be in the path, and then
# runs single tests:
#   rows_that_fill_a_file_are_read                262,140 `<tr>`
#   empty_cells_that_fill_a_file_are_read         116,506 empty cells of one row
#   breaks_that_fill_a_file_are_read              a flow of 262,137 `<br>`
#   words_that_fill_a_file_are_read               a flow of 524,277 words
#   two_hundred_tables_that_fill_a_file_are_read  200 tables, 199 of them of 1,305 cells
# Each test also builds its file, prints the tree into a text and compares that. Fails where one takes
# over 0.5 s.
set -euo pipefail
cd "$(dirname "$0")/../crates/tl_tree_tests"
log=$(mktemp)
trap 'rm -f "$log"' EXIT
rt test >"$log" 2>&1 || { cat "$log"; exit 1; }
failed=0
for test in rows_that_fill_a_file_are_read empty_cells_that_fill_a_file_are_read \
    breaks_that_fill_a_file_are_read words_that_fill_a_file_are_read \
    two_hundred_tables_that_fill_a_file_are_read
do
    begun=$(date +%s%N)
    memory=$({ /usr/bin/time -f %M ./out/tl_tree_tests_tests "tests::$test" >/dev/null; } 2>&1 | tail -1)
    milliseconds=$((($(date +%s%N) - begun) / 1000000))
    echo "$test: $milliseconds ms, $((memory / 1024)) MiB"
    if [ "$milliseconds" -gt 500 ]; then failed=1; fi
done
exit "$failed"
