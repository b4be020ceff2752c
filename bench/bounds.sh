#!/usr/bin/env bash
# How long tl_problem takes for one bound of a whole problem, and beside it to take the problem apart,
# as LLVM builds it. Proves and builds with `rt`, which has to be in the path, a copy of the crates as
# they are committed, in which bounds_test.txt stands for the tests in tl_problem_tests. Its one test times
# itself: 30 rows of 6 cells, 2,000 rows of 10 cells, and 333 rows of 60 columns in which a third of the
# cells cover two. Fails where a bound takes more than 20, 2,000 or 10,000 microseconds.
set -euo pipefail
top=$(cd "$(dirname "$0")/.." && pwd)
copy=$(mktemp -d)
trap 'rm -rf "$copy"' EXIT
git -C "$top" archive HEAD crates crates.txt HANDLES | tar -x -C "$copy"
cd "$copy/crates/tl_problem_tests"
mkdir -p proofs/bench
mv proofs/tests/whole proofs/bench/whole
sed -i 's/proofs\.tests\.whole/proofs.bench.whole/' proofs/bench/whole/Answers.antt
rm -rf src/tests.rt proofs/tests
cp "$top/bench/bounds_test.txt" src/bench.rt
sed -i 's/^mod tests;/mod bench;/' src/lib.rt
rt test >"$copy/log" 2>&1 || { cat "$copy/log"; exit 1; }
./out/tl_problem_tests_tests bench::bounds_of_large_problems | grep " us" | tee "$copy/log"
awk '
    BEGIN { most["30"] = 20; most["2000"] = 2000; most["333"] = 10000 }
    { seen++; if ($(NF - 1) > most[$1]) failed = 1 }
    END { exit failed || seen != 3 }
' "$copy/log"
