#!/usr/bin/env bash
# Refuses the program its memory and its files, one call a run, for commands of each kind: bench/refused.py says what
# has to stand after each, and prints how many calls were refused with which status. Builds the program where it is
# missing. Needs a C compiler for bench/refusing.c.
set -euo pipefail
here=$(dirname "$(readlink -f "${BASH_SOURCE[0]}")")
"$here/../tablelayout" lay 7 "$here/../examples/first.html" /dev/stdout >/dev/null
files=$(mktemp -d)
trap 'rm -rf "$files"' EXIT
"${CC:-cc}" -O1 -shared -fPIC -o "$files/refusing.so" "$here/refusing.c"
python3 "$here/refused.py" "$here/../crates/tablelayout/out/tablelayout" "$files/refusing.so"
