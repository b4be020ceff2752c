# shellcheck shell=bash
# What the tests of the scripts share. Before this is read, `top` is the folder of the checkout; after it, `room` is an
# empty folder, which is removed at the end.
# shellcheck disable=SC2034,SC2154

program=$top/crates/tablelayout/out/tablelayout
# shellcheck source=tools/building.sh
. "$top/tools/building.sh"
if ! is_built; then
    echo "$0: the program is missing or older than its sources; rt ci, or a command of ./tablelayout, builds it" >&2
    exit 1
fi
unset TABLELAYOUT_OPTIONS TABLELAYOUT_PYTHON
room=$(mktemp -d)
trap 'rm -rf "$room"' EXIT
# A part of a pipe cannot set a variable, so a file says that something differs.
failed=$room/failed

# Compares what is read with what a file holds.
expect() {
    diff -u --label "$1" --label "made ${2-}" "$1" - || touch "$failed"
}

# Compares what is read with a text, whose last line ends without a line feed.
expect_text() {
    diff -u --label "wanted" --label "made $2" <([ -z "$1" ] || printf '%s\n' "$1") - || touch "$failed"
}

# What is printed on both outputs, and the status.
all_of() {
    "$@" 2>&1
    echo "status $?"
}

# The names of all that is in a folder.
names() {
    find "$1" -mindepth 1 -printf '%P\n' | LC_ALL=C sort
}

# Says that something cannot be tried here.
skip() {
    echo "$0: skipped: $1" >&2
}
