#!/usr/bin/env bash
# How long the best-first search takes, as LLVM builds it. Proves and builds with `rt`, which has to be in
# the path, a copy of the crates as they are committed, and beside them a crate of the tests in
# best_test.txt. They time themselves: 20 drawn tables of 30 rows over six columns, which have to close with
# 2,000 cuts, and single cuts of 2,000 rows of 10 and of 6 columns, of 333 rows of 60 and of 40 rows of 32. Prints for
# each table its cuts and the time of its search, and for each large problem the time of a search of one cut and that
# of one cut more. Fails where a table takes more than 50 ms, or a cut more than the limits below, in microseconds.
set -euo pipefail
top=$(cd "$(dirname "$0")/.." && pwd)
copy=$(mktemp -d)
trap 'rm -rf "$copy"' EXIT
git -C "$top" archive HEAD crates crates.txt HANDLES | tar -x -C "$copy"
echo "best_bench: tl_astar tl_solve tl_problem tl_base" >>"$copy/crates.txt"
mkdir -p "$copy/crates/best_bench/src" "$copy/crates/best_bench/proofs/bench"
cd "$copy/crates/best_bench"
cp -r ../tl_search_tests/proofs/problems/drawn_row proofs/bench/
sed -i 's/tl_search_tests\.proofs\.problems/best_bench.proofs.bench/' proofs/bench/drawn_row/*.antt
cp "$top/bench/best_test.txt" src/bench.rt
printf '#![tactic(auto)]\n\n#[cfg(test)]\nmod bench;\n' >src/lib.rt
rt test >"$copy/log" 2>&1 || { cat "$copy/log"; exit 1; }
{
    ./out/best_bench_tests bench::twenty_tables
    ./out/best_bench_tests bench::cuts_of_large_problems
} | grep " us" | tee "$copy/log"
awk '
    BEGIN {
        most["table"] = 50000
        most["2000x10"] = 20000; most["333x60"] = 50000; most["2000x6"] = 4000; most["40x32"] = 2500
    }
    { seen++; kind = $1 == "table" ? $1 : $1 "x" $4; if (!(kind in most) || $(NF - 1) > most[kind]) failed = 1 }
    END { exit failed || seen != 24 }
' "$copy/log"
