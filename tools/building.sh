# shellcheck shell=sh
# How a checkout proves and builds the program, for the launcher and the tests. Before this is read, `top` is the folder
# of the checkout, and `program` the built program.
# shellcheck disable=SC2154

# The program, and the list of its sources, in the checkout.
readonly PROGRAM=crates/tablelayout/out/tablelayout
readonly SOURCES=out/sources

# Does something by find, in the checkout, with each source of the program and each folder of them.
find_sources() {
    find crates.txt crates/*/src crates/*/specs crates/*/proofs -path 'crates/*_tests/*' -prune -o "$@" 2>/dev/null
}

# Each source and each folder of them, and the folders in which a crate or a part of one would be new.
list_sources() {
    find crates -maxdepth 1 -print0 && find_sources -print0
}

# Whether the program is there, and no source is newer. The files of the list, and their folders, are told from all that
# changes since it was written, in a third of the time that a walk takes.
is_built() {
    [ -x "$program" ] || return 1
    [ -n "$(cd "$top" && exec find -files0-from "$SOURCES" -prune \
        \( -type d -cnewer "$SOURCES" -o -type f -newer "$PROGRAM" \) -print -quit 2>&1)" ] || return 0
    (cd "$top" && walk)
}

# Whether no source is newer, by a walk. If so it writes the list of them anew, with the time at which the walk began, if
# the checkout can be written.
walk() {
    { mkdir -p out && touch "$SOURCES.$$.begun"; } 2>/dev/null
    if [ -n "$(find_sources -type f -newer "$PROGRAM" -print -quit)" ]; then
        rm -f "$SOURCES.$$.begun"
        return 1
    fi
    [ ! -e "$SOURCES.$$.begun" ] ||
        { list_sources >"$SOURCES.$$" && touch -r "$SOURCES.$$.begun" "$SOURCES.$$" && mv "$SOURCES.$$" "$SOURCES"; }
    rm -f "$SOURCES.$$" "$SOURCES.$$.begun"
}

# Waits until no other process builds in this checkout, and keeps others waiting until 9 is closed. Where the checkout
# cannot be written, none builds.
lock() {
    { mkdir -p "$top/out" && touch "$top/out/lock"; } 2>/dev/null || [ -r "$top/out/lock" ] || return 0
    exec 9<"$top/out/lock"
    flock -n 9 && return
    echo "tablelayout: another process builds the program in this checkout; this one waits for it" >&2
    flock 9
}

# Says what was not done, with the end of its log.
give_up() {
    tail -n 20 "$2" >&2
    echo "tablelayout: $1; the whole log is $2" >&2
    exit 1
}

# Proves and builds the program, unless another process has done so by then.
build_alone() {
    lock
    is_built || prove_and_build
}

# Proves and builds the program, with the lock.
prove_and_build() {
    echo "tablelayout: proving and building the program; the first time takes about 20 minutes on four processors" >&2
    # A program of older sources is not run where these are not proved.
    rm -f "$program"
    "$top/tools/prove_libraries.py" tablelayout 9 </dev/null || exit 1
    log=$(mktemp)
    echo "tablelayout: the program itself" >&2
    # Without arguments the program prints `usage`, and ends with a status of its own. The lock is not for what `rt` may
    # leave running.
    (cd "$top/crates/tablelayout" && rt run --jobs "$(nproc)" </dev/null 9<&-) >"$log" 2>&1
    [ -x "$program" ] || give_up "the program was not built" "$log"
    touch "$program"
    rm -f "$log"
}

# Prints the bytes of IN. One byte above the limit of a file is as good as all: the program says the same.
read_in() {
    case $in in
    - | /dev/stdin) head -c 1048577 ;;
    *) head -c 1048577 <"$in" ;;
    esac
}

# Prints what `lay` does for these words, by `rt try`, which compiles the sources with checks and proves nothing. The words
# name IN `in`.
preview_unbuilt() {
    room=$(mktemp -d)
    trap 'rm -rf "$room"' EXIT
    trap 'exit 130' INT
    trap 'exit 143' TERM
    if ! read_in >"$room/in"; then
        echo "read fault"
        exit 7
    fi 2>/dev/null
    (cd "$top/crates/tablelayout" && rt try --data "in=$room/in" -- lay "$@" </dev/null) 2>"$room/log"
    status=$?
    grep -q "^run=ended" "$room/log" || { trap - EXIT && give_up "the preview came to no end" "$room/log"; }
    echo "tablelayout: checked for faults while it ran, and not proved; 'lay' proves the program before it runs" >&2
    exit "$status"
}
