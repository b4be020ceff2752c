#!/usr/bin/env bash
# Makes the package for Debian, installs it into an empty root, runs what it brings from there, and removes it. If all is as
# it should be this prints nothing, but for what is skipped.
set -uo pipefail
top=$(dirname "$(dirname "$(readlink -f "${BASH_SOURCE[0]}")")")
# shellcheck source=tests/common.bash
. "$top/tests/common.bash"
for tool in dpkg-deb readelf strip git; do
    command -v "$tool" >/dev/null || { skip "there is no $tool, so no package is made" && exit 0; }
done
unset TABLELAYOUT TABLELAYOUT_OPTIONS TABLELAYOUT_PYTHON COLUMNS
# Python compiles what it runs, as root and where nobody forbids it.
unset PYTHONDONTWRITEBYTECODE PYTHONPYCACHEPREFIX

mkdir "${room:?}/first" "$room/second" "$room/root" "$room/tables"
package=$("$top/tools/package.sh" "$room/first") || touch "$failed"
again=$("$top/tools/package.sh" "$room/second")
cmp "$package" "$again" || touch "$failed"
dpkg-deb -f "$package" Package Version Architecture |
    expect_text $'Package: tablelayout\nVersion: 1.0\nArchitecture: amd64' "as fields"

if command -v lintian >/dev/null; then
    # It has its own opinion of who runs it.
    lintian --fail-on error "$package" 2>"$room/said" >"$room/lintian" || { cat "$room/lintian" "$room/said" && touch "$failed"; }
else
    skip "there is no lintian, so nothing looks at the package"
fi

# Installs and removes by dpkg, which gives files to root, or else puts the files there.
root=$room/root
as_root() {
    dpkg --root="$root" --force-depends --force-script-chrootless --log=/dev/null "$@" >"$room/said" 2>&1 || { cat "$room/said" && touch "$failed"; }
}
if [ "$(id -u)" = 0 ]; then
    mkdir -p "$root"/var/lib/dpkg/{info,updates,parts}
    touch "$root/var/lib/dpkg/status"
    as_root -i "$package"
else
    skip "this is not root, so dpkg installs nothing, and the files are put in place"
    dpkg-deb -x "$package" "$root"
fi

cd "$room/tables" || exit 1
echo '<table><tr><td>aaa bbb<td>cc dd ee</table>' >in.html
printf 'a,b\nc,"d e"\n' >in.csv
system=$PATH
PATH=$root/usr/bin:$PATH
all_of tablelayout --version | expect_text "$("$top/tablelayout" --version)"$'\nstatus 0' "by --version"
all_of tablelayout show in.html --width 12 | expect_text $'aaa cc dd\nbbb ee   \nstatus 0' "by show"
all_of tablelayout show in.csv | expect_text $'a b  \nc d e\nstatus 0' "by show of CSV"
all_of tablelayout lessopen in.csv | expect_text $'a b  \nc d e\nstatus 0' "by lessopen"
all_of tablelayout lay 12 in.html page.txt page.cert | expect_text $'lowest height 2 width 10\nstatus 0' "by lay"
all_of tablelayout check 12 in.html page.cert | expect_text $'lowest height 2 width 10\nstatus 0' "by check"
{ echo "lay 12 43" && cat in.html; } | all_of tablelayout batch |
    expect_text $'0 22 0 0 0\nlowest height 2 width 10\naaa  cc dd\nbbb  ee   \nstatus 0' "by batch"
all_of tablelayout install "$room/none" |
    expect_text $'usage\n'"tablelayout: command 'install' is there in a checkout alone"$'\nstatus 2' "by install"
PATH=$system PYTHONPATH=$root/usr/lib/python3/dist-packages all_of python3 -c 'import tablelayout; print(tablelayout.lay([["aaa bbb", "cc dd ee"]], 12))' |
    expect_text $'aaa  cc dd\nbbb  ee   \nstatus 0' "by the Python package"
if command -v pandoc >/dev/null; then
    all_of tablelayout page in.html --width 12 | expect_text $'aaa cc dd\nbbb ee\nstatus 0' "by page"
    # The filter finds the command beside it, which is not in the path.
    PATH=$system all_of pandoc -t plain --columns 12 --data-dir "$root/usr/share/pandoc" --lua-filter tablelayout.lua \
        <<<'<table><tr><td>aaa bbb</td><td>cc dd ee</td></tr></table>' -f html |
        expect_text $'aaa cc dd\nbbb ee\nstatus 0' "by pandoc with the filter"
else
    skip "there is no pandoc, so neither page nor the filter is tried"
fi
(cd "$root/usr/share/doc/tablelayout" && tablelayout lay 9 examples/spans.html /dev/stdout) | head -n 3 |
    expect_text $'aaaa   \nbbbb cc\nx  yy  ' "of an example"
gzip -dc "$root/usr/share/man/man1/tablelayout.1.gz" | expect "$top/command/tablelayout.1" "as the manual page"

# What Python compiled meanwhile goes too.
if [ "$(id -u)" = 0 ]; then
    names "$root" | grep -c '__pycache__/show\.' | expect_text 1 "as show compiled"
    as_root -P tablelayout
    names "$root" | grep -v '^var' | expect_text "" "and left of the package"
fi

[ ! -e "$failed" ]
