#!/usr/bin/env bash
# How long the plain search takes for 5,000 cuts of a table of 30 rows over six columns, drawn at random,
# on a page of 80 columns, as LLVM builds it. Proves and builds tl_search_tests with `rt`, which has to
# be in the path, and then times a single test. The test also draws the table, decides that it is sound,
# and makes the log of 10,001 lines. Fails where it takes over a second.
set -euo pipefail
cd "$(dirname "$0")/../crates/tl_search_tests"
log=$(mktemp)
trap 'rm -f "$log"' EXIT
rt test >"$log" 2>&1 || { cat "$log"; exit 1; }
begun=$(date +%s%N)
./out/tl_search_tests_tests plain::a_search_of_5000_cuts_spends_its_budget >"$log"
milliseconds=$((($(date +%s%N) - begun) / 1000000))
echo "a_search_of_5000_cuts_spends_its_budget: $milliseconds ms"
[ "$milliseconds" -le 1000 ]
