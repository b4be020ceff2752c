#!/usr/bin/env bash
# Runs the program on some thousands of files that nobody should send: bench/hostile.py says which, and what no run
# may do. Builds the program where it is missing. Usage: hostile.sh [FIRST [COUNT]], the numbers of the files.
set -euo pipefail
here=$(dirname "$(readlink -f "${BASH_SOURCE[0]}")")
"$here/../tablelayout" lay 7 "$here/../examples/first.html" /dev/stdout >/dev/null
exec python3 "$here/hostile.py" "$@"
