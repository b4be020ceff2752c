#!/usr/bin/env bash
# How long tl_page takes to write the page of a framed table of 2,000 rows of 10 cells, as LLVM
# builds it. Proves and builds the crate's tests with `rt`, which has to be in the path, and then
# runs a single one, which also builds its file, reads it and tests whether the layout fits. Fails
# where it takes over 0.5 s.
set -euo pipefail
cd "$(dirname "$0")/../crates/tl_page"
log=$(mktemp)
trap 'rm -f "$log"' EXIT
rt test >"$log" 2>&1 || { cat "$log"; exit 1; }
test=two_thousand_rows_of_ten_cells_fill_a_page
begun=$(date +%s%N)
./out/tl_page_tests "worked::$test" >/dev/null
milliseconds=$((($(date +%s%N) - begun) / 1000000))
echo "$test: $milliseconds ms"
[ "$milliseconds" -le 500 ]
