#!/usr/bin/env bash
# How long tl_table takes to form tables of 20,000 cells and to find their least widths and heaviest
# chains, as LLVM builds it. Proves and builds the tests in
# tl_form_tests with `rt`, which has to be in the path, and then runs single ones:
#   two_thousand_rows_of_ten_cells_have_a_least_width    20,000 cells of two words
#   sixty_columns_of_333_rows_have_a_least_width         19,980 cells of two words
#   a_nested_table_may_have_20000_cells                  20,000 empty cells inside another table, and one more
# Each test also builds its file and reads it. Fails where one takes over 0.5 s.
set -euo pipefail
cd "$(dirname "$0")/../crates/tl_form_tests"
log=$(mktemp)
trap 'rm -f "$log"' EXIT
rt test >"$log" 2>&1 || { cat "$log"; exit 1; }
failed=0
for test in two_thousand_rows_of_ten_cells_have_a_least_width sixty_columns_of_333_rows_have_a_least_width \
    a_nested_table_may_have_20000_cells
do
    begun=$(date +%s%N)
    ./out/tl_form_tests_tests "tests::$test" >/dev/null
    milliseconds=$((($(date +%s%N) - begun) / 1000000))
    echo "$test: $milliseconds ms"
    if [ "$milliseconds" -gt 500 ]; then failed=1; fi
done
exit "$failed"
