#!/usr/bin/env bash
# How long the gate takes in a fresh clone of the last commit, and for each crate the processor seconds of its
# proof, its tests and its must-fail edits. `rt` has to be in the path. What earlier runs on this machine passed
# is not proved again: `bench/gate.sh --anew` proves and tries all.
set -euo pipefail
top=$(cd "$(dirname "$0")/.." && pwd)
clone=$(mktemp -d)
trap 'rm -rf "$clone"' EXIT
git clone -q "$top" "$clone/tree"
cd "$clone/tree"
rt version
"$top/tools/rattle_seconds.py" rt ci "$@"
