#!/usr/bin/env bash
# Runs the launcher in checkouts in which `rt` only says what it is asked for, and makes a program that says its
# arguments. If all is as it should be this prints nothing, but for what is skipped.
set -uo pipefail
top=$(dirname "$(dirname "$(readlink -f "${BASH_SOURCE[0]}")")")
# shellcheck source=tests/common.bash
. "$top/tests/common.bash"
unset DESTDIR

mkdir "${room:?}/bin"
cat >"$room/bin/rt" <<'RT'
#!/bin/sh
echo "$1 ${PWD##*/}" >>"${0%/bin/rt}/asked"
mkdir -p out/rlib
[ "$1" != run ] || { cp "${0%/bin/rt}/program" out/new && mv out/new out/tablelayout; }
[ "$1" != try ] || { echo "tried ${*#*-- }" && echo run=ended >&2; }
RT
# It says its arguments, and of a request its words.
cat >"$room/program" <<'PROGRAM'
#!/bin/sh
[ "$1" != batch ] || { read -r words && printf '1 0 0 0 0\nprogram %s\n' "${words% *}" && exit; }
echo "program $*"
PROGRAM
chmod +x "$room/bin/rt" "$room/program"
export PATH=$room/bin:$PATH

# What is printed on standard output, and the status.
told_by() {
    "$@" 2>/dev/null
    echo "status $?"
}

# What `rt` was asked for since this was called last, in any order.
asked() {
    touch "$room/asked"
    LC_ALL=C sort "$room/asked"
    rm "$room/asked"
}

# A checkout of three crates, a test crate beside them, and what is installed.
make_checkout() {
    checkout=$room/$1
    mkdir -p "$checkout"/crates/{low,high,tablelayout,low_tests}/{src,specs,proofs}
    cp -p "$top/tablelayout" "$checkout"
    cp -pR "$top/tools" "$top/command" "$top/integrations" "$checkout"
    printf 'low: thiserror\nhigh: low\nlow_tests: low\ntablelayout: high low\n' >"$checkout/crates.txt"
    touch "$checkout"/crates/{low,high,tablelayout,low_tests}/{src,specs,proofs}/one.rt
}
readonly PROVED=$'libraries tablelayout 9\nrun tablelayout' ALL=$'lib high\nlib low\nrun tablelayout'

"$top/tablelayout" help | awk 'length > 79' | expect_text "" "lines of the help above 79 columns"
for words in "" --help -h; do
    # shellcheck disable=SC2086
    "$top/tablelayout" $words | cmp - <("$top/tablelayout" help) || touch "$failed"
done

# The version names the commit, with `+` where a file that git knows is changed, and proves nothing.
make_checkout outer/versioned
version="tablelayout $(sed -n 's/^version = "\(.*\)"$/\1/p' "$top/integrations/python/pyproject.toml")"
is_version() {
    all_of "$checkout/tablelayout" --version | expect_text "$1"$'\nstatus 0' "by --version $2"
}
is_version "$version" "without a repository"
if command -v git >/dev/null; then
    export GIT_AUTHOR_NAME=a GIT_AUTHOR_EMAIL=b GIT_COMMITTER_NAME=c GIT_COMMITTER_EMAIL=d
    for folder in "$room/outer" "$checkout"; do
        git init -q -b main "$folder"
        [ "$folder" = "$checkout" ] || git -C "$folder" commit -q --allow-empty -m first
        is_version "$version" "in $folder without a commit of its own"
    done
    git -C "$checkout" add .
    git -C "$checkout" commit -q -m first
    commit=$(git -C "$checkout" rev-parse --short HEAD)
    is_version "$version ($commit)" "in a repository"
    touch "$checkout/page.txt" "$checkout/crates.txt"
    is_version "$version ($commit)" "beside a new file"
    GIT_DIR=$room/outer/.git is_version "$version ($commit)" "in a hook of another repository"
    mkdir "$room/no_git"
    ln -s "$(command -v sed)" "$room/no_git/sed"
    PATH=$room/no_git all_of /bin/sh "$checkout/tablelayout" --version | expect_text "$version"$'\nstatus 0' "by --version without git"
    echo >>"$checkout/crates.txt"
    is_version "$version ($commit+)" "of a changed file"
else
    skip "there is no git, so no version names a commit"
fi
"$checkout/tablelayout" --version >/dev/full 2>/dev/null
echo "status $?" | expect_text "status 8" "by --version on a full device"
asked | expect_text "" "by rt for the version"

# What is no command line ends before anything is proved.
make_checkout judged
# Its libraries are proved by another script that only says what it is asked for.
printf '#!/bin/sh\necho "libraries $*" >>"%s/asked"\n' "$room" >"$checkout/tools/prove_libraries.py"
# The arguments are refused, and standard error says why in one line.
is_refused() {
    local wanted=$1
    shift
    "$checkout/tablelayout" "$@" >"$room/told" 2>"$room/said" </dev/null
    echo "status $?" >>"$room/told"
    expect_text $'usage\nstatus 2' "by $*" <"$room/told"
    expect_text "tablelayout: $wanted" "on standard error by $*" <"$room/said"
}
for words in lay "lay 9" "lay 9 in" "lay 9 in --csv" "lay 9 in --style frame" "--csv lay 9 in" "-- lay 9 in"; do
    # shellcheck disable=SC2086
    is_refused "command 'lay' needs more words: 'tablelayout help' lists them" $words
done
for name in narrow tidy check; do
    is_refused "command '$name' needs more words: 'tablelayout help' lists them" "$name" 9 in
done
for words in demo "demo 1 2"; do
    # shellcheck disable=SC2086
    is_refused "command 'demo' needs one number" $words
done
for words in preview "preview 9" "preview 9 in page" "preview 9 --style in" "--csv preview 9 in"; do
    # shellcheck disable=SC2086
    is_refused "command 'preview' comes first, and needs a number and the name of one file" $words
done
for words in "batch in" "batch --workers 4" "--csv batch"; do
    # shellcheck disable=SC2086
    is_refused "command 'batch' takes no other words" $words
done
is_refused "command 'install' needs the name of one folder" install
is_refused "command 'install' needs the name of one folder" install ""
is_refused "command 'install' needs the name of one folder" install a b
is_refused "command 'uninstall' needs the name of one folder" uninstall
is_refused "command 'show' comes before its options" --csv show in
is_refused "no command: 'tablelayout help' lists them" --
is_refused "no command: 'tablelayout help' lists them" --csv
is_refused "unknown command '9'" --style lay 9 in page
is_refused "unknown command 'in.html'" in.html
is_refused "unknown command 'lya': did you mean 'lay'?" lya
is_refused "unknown command 'shwo': did you mean 'show'?" shwo in
is_refused "unknown command 'pge': did you mean 'page'?" pge in --stlye
is_refused "unknown command 'instal': did you mean 'install'?" instal a
is_refused "unknown command 'tset'" tset
is_refused "unknown option '--stlye': did you mean '--style'?" lay 9 in page --stlye frame
is_refused "unknown option '--ccsv': did you mean '--csv'?" --ccsv lay 9 in page
is_refused "unknown option '--style=frame'" check 9 in cert --style=frame
is_refused "unknown option '--in'" tidy 9 --in page
is_refused "unknown option '--trm': did you mean '--trim'?" lay 9 in page --trm
is_refused "unknown option '--rows'" preview 9 in --rows
for words in lya help; do
    "$checkout/tablelayout" $words >/dev/full 2>/dev/null
    echo "status $?" | expect_text "status 8" "by $words on a full device"
done
mkdir "$room/occupied"
touch "$room/occupied/share"
told_by "$checkout/tablelayout" install "$room/occupied" | expect_text "status 1" "where a file stands for a folder"
asked | expect_text "" "by rt for what is refused"
[ ! -e "$checkout/out/proving" ] || touch "$failed"

# A preview proves nothing, and leaves nothing.
mkdir "$room/temporary"
export TMPDIR=$room/temporary
told_by "$checkout/tablelayout" preview 9 "$top/examples/spans.html" --html |
    expect_text $'tried lay 9 in /dev/stdout --html\nstatus 0' "by preview before the program is built"
asked | expect_text "try tablelayout" "by rt for a preview"
for name in "$room/none" "$room"; do
    all_of "$checkout/tablelayout" preview 9 "$name" </dev/null | expect_text $'read fault\nstatus 7' "by preview of no file"
done
asked | expect_text "" "by rt for no file"
# Options stand anywhere, and `-` is standard input.
for words in "9 IN --html --style frame" "--html 9 --style frame IN" "--html --style frame -- 9 IN" "--style - 9 IN --html"; do
    for name in - /dev/stdin; do
        # shellcheck disable=SC2086
        echo '<table>' | told_by "$checkout/tablelayout" preview ${words/IN/$name} |
            expect_text "tried lay ${words/IN/in /dev/stdout}"$'\nstatus 0' "by preview ${words/IN/$name}"
        asked | expect_text "try tablelayout" "by rt for preview ${words/IN/$name}"
    done
done
names "$TMPDIR" | expect_text "" "and left by previews"

# Who shows a file for another program waits for no proof.
printf 'a,b\nc,d\n' >"$room/in.csv"
all_of "$checkout/tablelayout" lessopen "$room/in.csv" | expect_text "status 0" "by lessopen before the program is built"
all_of "$checkout/tablelayout" textconv "$room/in.csv" | expect_text $'a,b\nc,d\nstatus 0' "by textconv before the program is built"
asked | expect_text "" "by rt for less and git"

# What may be one is for the program.
told_by "$checkout/tablelayout" lay 9 in page | expect_text $'program lay 9 in page\nstatus 0' "by lay"
asked | expect_text "$PROVED" "by rt for a first lay"
for words in "lay 9 in page --style" "narrow 9 in page" "check 9 in cert" "demo x" "tidy 9 -- --in page" "-- demo 1" \
    "--csv --style frame lay 9 in page" "lay --least 5 9 --csv in --stlye page" "lay 9 - -"; do
    # shellcheck disable=SC2086
    all_of "$checkout/tablelayout" $words | expect_text "program $words"$'\nstatus 0' "by $words"
done
all_of "$checkout/tablelayout" preview 9 in --html | expect_text $'program lay 9 in /dev/stdout --html\nstatus 0' "by preview"
all_of "$checkout/tablelayout" preview --style 9 9 --head -- value,--in | expect_text $'program lay --style 9 9 --head -- value,--in /dev/stdout\nstatus 0' "by preview in another order"
# Each option is known before the program is built.
"$checkout/tablelayout" help | sed -n '/^Options stand/,/^With show/s/^  \(--[a-z]*\).*/\1/p' >"$room/options"
[ "$(grep -c -- -- "$room/options")" -ge 9 ] || touch "$failed"
while read -r name; do
    rm "$checkout/crates/tablelayout/out/tablelayout"
    told_by "$checkout/tablelayout" lay 9 in page "$name" value cert </dev/null |
        expect_text "program lay 9 in page $name value cert"$'\nstatus 0' "by lay with $name"
    asked | expect_text "$PROVED" "by rt for lay with $name"
done <"$room/options"
(cd "$checkout" && sh tablelayout demo 1) | expect_text "program demo 1" "without a folder in its name"
ln -s "$checkout/tablelayout" "$room/bin/linked"
linked demo 1 | expect_text "program demo 1" "by a link"
"$checkout/tablelayout" batch <<<"lay 9 0" | expect_text $'1 0 0 0 0\nprogram lay 9' "by batch"
# The front asks the program that is here, and says that this one answers as none does.
readonly ANSWERED="the program answered with status 1: program"
echo '<table>' >"$room/in.html"
COLUMNS=7 "$checkout/tablelayout" show "$room/in.html" 2>&1 |
    expect_text "$ANSWERED lay 7 --style rule --break fit --align auto" "by show with COLUMNS"
TABLELAYOUT=$room/none "$checkout/tablelayout" show "$room/in.html" --width 8 --break any 2>&1 |
    expect_text "$ANSWERED lay 8 --style rule --break any --align auto" "by show where the environment names a command"
asked | expect_text "" "by rt for a program that is built"

# Where nothing changed, one process looks for what is newer.
cat >"$room/bin/find" <<FIND
#!/bin/sh
echo find >>"$room/asked"
exec $(command -v find) "\$@"
FIND
chmod +x "$room/bin/find"
# shellcheck disable=SC2185
if find -files0-from "$checkout/out/sources" -quit 2>/dev/null; then
    rm "$room/asked"
    "$checkout/tablelayout" demo 1 | expect_text "program demo 1" "by demo"
    asked | expect_text "find" "where nothing changed"
else
    skip "this find reads no list of files, so each start walks through the sources"
fi
rm -f "$room/bin/find" "$room/asked"

# A program that is older than a source is not run, whatever became of the source; one of which only something else
# changed is.
is_proved_after() {
    told_by "$checkout/tablelayout" demo 1 | expect_text $'program demo 1\nstatus 0' "after $1"
    asked | expect_text "${2-$PROVED}" "by rt after $1"
}
crates=$checkout/crates
echo >>"$crates/low/proofs/one.rt"
is_proved_after "an edit"
echo >"$crates/low/specs/two.antt"
is_proved_after "a new file"
mkdir "$crates/high/src/inner"
echo >"$crates/high/src/inner/three.rt"
is_proved_after "a new folder"
mv "$crates/high/src/inner/three.rt" "$crates/high/src"
is_proved_after "a move" ""
echo >>"$crates/high/src/three.rt"
is_proved_after "an edit of what was moved"
rm "$crates/high/src/three.rt"
is_proved_after "a removal" ""
mkdir "$crates/new" "$crates/new/src"
echo >"$crates/new/src/lib.rt"
is_proved_after "a new crate"
cp "$crates/low/src/one.rt" "$crates/low/src/four.rt"
touch -r "$crates/new/src/lib.rt" "$crates/low/src"
is_proved_after "a new file in a folder of older time"
echo >>"$checkout/crates.txt"
is_proved_after "an edit of crates.txt"
echo >>"$crates/low_tests/src/one.rt"
is_proved_after "an edit of a test" ""
echo >"$crates/low/README.md"
is_proved_after "a new document" ""
rm "$checkout/out/sources"
is_proved_after "a loss of the list" ""
touch "$crates/low/src/one.rt"
rm "$checkout/out/sources"
is_proved_after "an edit and a loss of the list"

# Of those that begin while another builds each waits and says so, and one of them builds.
readonly WAITS="tablelayout: another process builds the program in this checkout; this one waits for it"
# Begins two commands while the lock is held, and frees it once both wait.
try_together() {
    local tries
    mkdir "$checkout/out"
    exec 8>"$checkout/out/lock"
    flock 8
    $1 >"$room/made_1" 2>"$room/said_1" 8>&- &
    $2 >"$room/made_2" 2>"$room/said_2" 8>&- &
    for ((tries = 0; tries < 20; tries++)); do
        if grep -qsFx "$WAITS" "$room/said_1" && grep -qsFx "$WAITS" "$room/said_2"; then break; fi
        sleep 0.2
    done
    asked | expect_text "" "by rt while another builds"
    exec 8>&-
    wait
    grep -hFx "$WAITS" "$room"/said_[12] | expect_text "$WAITS"$'\n'"$WAITS" "by $1 and $2"
}
if command -v flock >/dev/null; then
    make_checkout twice
    try_together "$checkout/tablelayout demo 1" "$checkout/tablelayout demo 2"
    cat "$room"/made_[12] | expect_text $'program demo 1\nprogram demo 2' "by two at one time"
    asked | expect_text "$ALL" "by rt for two at one time"

    make_checkout beside
    try_together "$checkout/tools/prove_libraries.py tablelayout" "$checkout/tablelayout install $room/beside_to"
    asked | expect_text $'lib high\nlib high\nlib low\nlib low\nrun tablelayout' "by rt for libraries and an install"
    # What the program alone does starts no other process, and where it is built it waits for none.
    PATH=$room/none /bin/sh "$room/beside_to/bin/tablelayout" demo 3 | expect_text "program demo 3" "with nothing in the path"
    PATH=$room/none /bin/sh "$room/beside_to/bin/tablelayout" batch <<<"lay 9 0" | expect_text $'1 0 0 0 0\nprogram lay 9' "by batch with nothing in the path"
    flock "$checkout/out/lock" "$checkout/tablelayout" demo 4 2>&1 | expect_text "program demo 4" "while another builds"
else
    skip "there is no flock, so none waits for another"
fi

[ ! -e "$failed" ]
