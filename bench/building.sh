#!/usr/bin/env bash
# How long the first build takes: from a fresh clone of the last commit to the first page, with nothing else
# running. `rt` has to be in the path. Prints a line for each crate, with the seconds since the start, the page,
# the processor seconds of each crate's proof, and the minutes in all. Where checks in other checkouts have kept
# work on this machine, `rt` begins with it: the time is that of a first build only where there is none, and the
# script says so.
set -euo pipefail
top=$(cd "$(dirname "$0")/.." && pwd)
clone=$(mktemp -d)
trap 'rm -rf "$clone"' EXIT
git clone -q "$top" "$clone/tree"
kept=$(dirname "$(dirname "$(rt doc)")")/rattle-kept/work
if [ -n "$(ls -A "$kept" 2>/dev/null)" ]; then
    echo "other checkouts have kept work on this machine: this is no first build"
fi
rt version
begun=$SECONDS
"$top/tools/rattle_seconds.py" "$clone/tree/tablelayout" lay 9 "$clone/tree/examples/spans.html" /dev/stdout 2>&1 |
    while IFS= read -r line; do echo "$((SECONDS - begun)) s  $line"; done
