#!/usr/bin/env bash
# How long tl_grid takes to form tables that are large in one way, as LLVM builds it. Proves and
# builds tl_grid_tests with `rt`, which has to be in the path, and then times single tests:
#   growing_cells_above_many_empty_rows_are_too_many_columns
#       20,000 cells of rowspan 0 above 192,000 rows without cells
#   long_cells_one_under_the_other_are_too_many_columns
#       20,000 rows of one cell of rowspan 65534 and colspan 1000
#   long_cells_in_a_square_are_too_many_columns
#       141 rows of 141 such cells
# Each test also builds its table and compares what `form` returns. Fails where one takes over 0.1 s.
set -euo pipefail
cd "$(dirname "$0")/../crates/tl_grid_tests"
log=$(mktemp)
trap 'rm -f "$log"' EXIT
rt test >"$log" 2>&1 || { cat "$log"; exit 1; }
failed=0
for test in growing_cells_above_many_empty_rows_are_too_many_columns \
    long_cells_one_under_the_other_are_too_many_columns long_cells_in_a_square_are_too_many_columns
do
    begun=$(date +%s%N)
    ./out/tl_grid_tests_tests "tests::$test" >/dev/null
    milliseconds=$((($(date +%s%N) - begun) / 1000000))
    echo "$test: $milliseconds ms"
    if [ "$milliseconds" -gt 100 ]; then failed=1; fi
done
exit "$failed"
