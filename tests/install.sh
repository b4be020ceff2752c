#!/usr/bin/env bash
# Installs the command into an empty folder, runs it from there where there is no checkout, and removes it. If all is as
# it should be this prints nothing, but for what is skipped.
set -uo pipefail
top=$(dirname "$(dirname "$(readlink -f "${BASH_SOURCE[0]}")")")
# shellcheck source=tests/common.bash
. "$top/tests/common.bash"

# A checkout of what is installed, which is moved away while that runs.
checkout=${room:?}/checkout
mkdir -p "$checkout/crates/tablelayout/out" "$checkout/tools"
cp -p "$top/tablelayout" "$top/crates.txt" "$checkout"
cp -p "$top/tools/building.sh" "$checkout/tools"
cp -pR "$top/command" "$top/integrations" "$checkout"
cp -p "$program" "$checkout/crates/tablelayout/out"
# Nothing is found that could prove and build.
PATH=/usr/bin:/bin
unset DESTDIR

# What is printed on standard output, and the status.
told_by() {
    "$@" 2>/dev/null
    echo "status $?"
}

to=$room/empty
mkdir "$to"
all_of "$checkout/tablelayout" install "$to" | expect_text "status 0" "by install"
readonly MODULES=libexec/tablelayout/python/tablelayout
# The modules of the package in a folder, without those that Python has compiled.
modules() {
    names "$1" | grep -v '^__pycache__'
}
modules "$checkout/integrations/python/tablelayout" >"$room/modules"
modules "$to/$MODULES" | expect "$room/modules" "as modules"
names "$to/$MODULES/__pycache__" | sed 's/\..*/.py/' | expect <(grep '\.py$' "$room/modules") "compiled"
names "$to" | grep -v "^$MODULES/" | expect_text "bin
bin/tablelayout
libexec
libexec/tablelayout
libexec/tablelayout/folders
libexec/tablelayout/python
libexec/tablelayout/python/front
libexec/tablelayout/python/start.py
libexec/tablelayout/python/tablelayout
libexec/tablelayout/tablelayout
libexec/tablelayout/version
share
share/bash-completion
share/bash-completion/completions
share/bash-completion/completions/tablelayout
share/man
share/man/man1
share/man/man1/tablelayout.1
share/pandoc
share/pandoc/filters
share/pandoc/filters/tablelayout.lua" "in the folder"
"$checkout/tablelayout" --version | expect "$to/libexec/tablelayout/version"
grep -lrF "$room" "$to" | expect_text "$to/libexec/tablelayout/folders" "of files that name a folder"

# From another folder, by a link, as a shell finds it.
mv "$checkout" "$room/away"
mkdir "$room/tables" "$room/bin"
ln -s "$to/bin/tablelayout" "$room/bin"
PATH=$room/bin:$PATH
cd "$room/tables" || exit 1
echo '<table><tr><td>aaa bbb<td>cc dd ee</table>' >in.html
printf '<table>\n<tr><td><img>' >refused.html
PATH=$room/none all_of /bin/sh "$to/bin/tablelayout" --version |
    expect_text "$(cat "$to/libexec/tablelayout/version")"$'\nstatus 0' "by --version with nothing in the path"
tablelayout --version >/dev/full
echo "status $?" | expect_text "status 8" "by --version on a full device"
tablelayout | head -n 1 | expect_text "Lays an HTML table out on a page of fixed-width text, as low as any can be." "without arguments"
all_of tablelayout show in.html --width 12 | expect_text $'aaa cc dd\nbbb ee   \nstatus 0' "by show"
all_of tablelayout show --strict <refused.html | expect_text $'bad input: unknown element at 16\nline 2, column 9:\n<tr><td><img>\n        ^\nstatus 5' "by show of a refusal"
printf 'a,b\nc,"d e"\n' >in.csv
all_of tablelayout lessopen in.csv | expect_text $'a b  \nc d e\nstatus 0' "by lessopen"
all_of tablelayout textconv in.csv | expect_text $'a b\nc d e\nstatus 0' "by textconv"
all_of tablelayout lay 12 in.html page.txt page.cert | expect_text $'lowest height 2 width 10\nstatus 0' "by lay"
expect_text $'aaa  cc dd\nbbb  ee   ' "as the page" <page.txt
all_of tablelayout check 12 in.html page.cert | expect_text $'lowest height 2 width 10\nstatus 0' "by check"
all_of tablelayout narrow 2 in.html page.txt | expect_text $'slimmest width 10 height 2\nstatus 0' "by narrow"
all_of tablelayout tidy 12 in.html page.txt | expect_text $'tidy height 2 width 10\nstatus 0' "by tidy"
{ echo "lay 12 43" && cat in.html; } | all_of tablelayout batch |
    expect_text $'0 22 0 0 0\nlowest height 2 width 10\naaa  cc dd\nbbb  ee   \nstatus 0' "by batch"
all_of tablelayout demo 0 | expect_text $'cells 159 count 185118922800 height 130 lower 130 cuts 7\nstatus 0' "by demo"
all_of tablelayout preview 12 in.html | expect_text $'aaa  cc dd\nbbb  ee   \nlowest height 2 width 10\nstatus 0' "by preview"
if command -v pandoc >/dev/null; then
    all_of tablelayout page in.html --width 12 | expect_text $'aaa cc dd\nbbb ee\nstatus 0' "by page"
    # The filter finds the command beside it, which is not in the path.
    PATH=/usr/bin:/bin all_of pandoc -t plain --columns 12 --data-dir "$to/share/pandoc" --lua-filter tablelayout.lua \
        <<<'<table><tr><td>aaa bbb</td><td>cc dd ee</td></tr></table>' -f html |
        expect_text $'aaa cc dd\nbbb ee\nstatus 0' "by pandoc with the filter"
else
    skip "there is no pandoc, so the installed filter is not tried"
fi
for name in install uninstall; do
    all_of tablelayout "$name" "$to" | expect_text $'usage\n'"tablelayout: command '$name' is there in a checkout alone"$'\nstatus 2' "by $name without a checkout"
done
all_of tablelayout shwo in.html | expect_text $'usage\n'"tablelayout: unknown command 'shwo': did you mean 'show'?"$'\nstatus 2' "by a wrong command"
all_of tablelayout lay in.html | expect_text $'usage\n'"tablelayout: command 'lay' does not take the number 'in.html'"$'\nstatus 2' "by a wrong number"
mv "$room/away" "$checkout"

# Installed a second time, over what an earlier version left, it is still removed with each folder that was made for it.
touch "$to"/libexec/tablelayout/{tl_program,show,place.awk,record.awk} "$to/$MODULES/former.py" "$to/$MODULES/__pycache__/former.pyc"
all_of "$checkout/tablelayout" install "$to/" | expect_text "status 0" "by a second install"
names "$to/libexec/tablelayout" | grep -v / | expect_text "folders
python
tablelayout
version" "over an earlier version"
modules "$to/$MODULES" | expect "$room/modules" "as modules over an earlier version"
names "$to/$MODULES/__pycache__" | sed 's/\..*/.py/' | expect <(grep '\.py$' "$room/modules") "compiled over an earlier version"
all_of "$checkout/tablelayout" uninstall "$to" | expect_text "status 0" "by uninstall"
names "$to" | expect_text "" "and left"
all_of "$checkout/tablelayout" uninstall "$to" | expect_text "tablelayout: it is not installed in $to
status 1" "by a second uninstall"
for words in install uninstall "install $to $to"; do
    # shellcheck disable=SC2086
    told_by "$checkout/tablelayout" $words | expect_text $'usage\nstatus 2' "by $words"
done

# Folders that were there stay, and so does one that holds something else by then.
mkdir -p "$to/bin" "$to/share/man"
names "$to" >"$room/before"
"$checkout/tablelayout" install "$to"
touch "$to/libexec/another"
"$checkout/tablelayout" uninstall "$to"
rm "$to/libexec/another"
rmdir "$to/libexec"
names "$to" | expect "$room/before" "and left of other folders"
rm -r "$to"

# Below DESTDIR, and into a folder whose name has a space; PREFIX may be relative.
mkdir "$to"
DESTDIR=$to "$checkout/tablelayout" install /usr/local
(cd "$to" && find . -name tablelayout -type f) | LC_ALL=C sort | expect_text "./usr/local/bin/tablelayout
./usr/local/libexec/tablelayout/tablelayout
./usr/local/share/bash-completion/completions/tablelayout" "below DESTDIR"
DESTDIR=$to "$checkout/tablelayout" uninstall /usr/local
cd "$to" || exit 1
"$checkout/tablelayout" install "a b/c"
"a b/c/bin/tablelayout" show "$room/tables/in.html" --width 12 | expect_text $'aaa cc dd\nbbb ee   ' "below a relative PREFIX"
"$checkout/tablelayout" uninstall "a b/c"
names "$to" | expect_text "" "and left below DESTDIR"

# A name may have line feeds.
"$checkout/tablelayout" install $'a\nb/c\n'
"$checkout/tablelayout" uninstall $'a\nb/c\n'
names "$to" | expect_text "" "and left below a name with line feeds"

# Nothing is made to remove what is not there.
DESTDIR=$to/none all_of "$checkout/tablelayout" uninstall /usr/local | expect_text "tablelayout: it is not installed in /usr/local
status 1" "by uninstall below no DESTDIR"
names "$to" | expect_text "" "and made by it"

# What cannot be done whole is not done. All that is in a folder, with the times of files, and what they hold:
state() {
    (cd "$1" && find . -type d -printf '%m %p\n' -o -printf '%m %T@ %p\n' -type f -exec cksum {} + | LC_ALL=C sort)
}

# Runs a command that has to fail, and leave all in a folder as it is.
leaves() {
    local folder=$1 status
    shift
    state "$folder" >"$room/before"
    "$@" >"$room/told" 2>"$room/said"
    status=$?
    if [ "$status" = 0 ] || [ ! -s "$room/said" ]; then
        echo "status $status, which it explains by: $(cat "$room/said")" | expect_text "a failure" "by $*"
    fi
    expect_text "" "on standard output by $*" <"$room/told"
    state "$folder" | expect "$room/before" "and left by $*"
}

# Where a file stands for a folder, or a folder for a file; alone, and below DESTDIR.
mkdir -p "$to/file" "$to/folder/share/man/man1/tablelayout.1"
touch "$to/file/share"
for at in file folder; do
    leaves "$to" "$checkout/tablelayout" install "$to/$at"
    leaves "$to" "$checkout/tablelayout" install "$to/file/share/none"
    DESTDIR=$to leaves "$to" "$checkout/tablelayout" install "/$at"
done
rm -r "$to/file" "$to/folder"
# Over another version, of which all stays, where the last of its places is a folder.
"$checkout/tablelayout" install "$to/over"
echo "another version" | tee "$to"/over/libexec/tablelayout/{show,python/front} "$to/over/$MODULES/former.py" >"$to/over/bin/tablelayout"
mkdir "$to/over/libexec/tablelayout/tl_program"
leaves "$to" "$checkout/tablelayout" install "$to/over"
leaves "$to" "$checkout/tablelayout" uninstall "$to/over"
rmdir "$to/over/libexec/tablelayout/tl_program"
# Where it is interrupted, as by a command that it runs.
mkdir "$room/ends"
cat >"$room/ends/install" <<'INSTALL'
#!/bin/sh
[ "${4%.lua.*}" = "$4" ] || { kill "$PPID" && exit 1; }
exec /usr/bin/install "$@"
INSTALL
cat >"$room/ends/mv" <<'MV'
#!/bin/sh
[ "${2%/show.py.*.new}" = "$2" ] || { kill "$PPID" && exit 1; }
exec /usr/bin/mv "$@"
MV
chmod +x "$room/ends/install" "$room/ends/mv"
for name in install mv; do
    PATH=$room/ends:$PATH leaves "$to" "$checkout/tablelayout" install "$to/over"
    PATH=$room/ends:$PATH leaves "$to" "$checkout/tablelayout" install "$to/another/place"
    rm "$room/ends/$name"
done
# Where a folder may not be written by who runs it.
another=()
if [ "$(id -u)" = 0 ]; then
    another=(setpriv --reuid 65534 --regid 65534 --clear-groups)
    chmod 711 "$room"
fi
if [ "$(id -u)" != 0 ] || command -v setpriv >/dev/null; then
    [ ${#another[@]} = 0 ] || chown -R 65534:65534 "$to/over"
    for folder in over/share/man/man1 over/libexec/tablelayout "over/$MODULES" over/bin; do
        chmod 555 "$to/$folder"
        leaves "$to" "${another[@]}" "$checkout/tablelayout" install "$to/over"
        leaves "$to" "${another[@]}" "$checkout/tablelayout" uninstall "$to/over"
        chmod 755 "$to/$folder"
    done
    all_of "${another[@]}" "$checkout/tablelayout" install "$to/over" | expect_text "status 0" "once all may be written"
else
    skip "there is no setpriv, so no folder that may not be written is tried"
fi
"$checkout/tablelayout" uninstall "$to/over"
names "$to" | expect_text "" "and left of what failed"

[ ! -e "$failed" ]
