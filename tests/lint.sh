#!/usr/bin/env bash
# Looks for mistakes in the scripts, in the filter for pandoc and in the manual page. If there are none it prints nothing,
# but for what is skipped.
set -uo pipefail
cd "$(dirname "$(dirname "$(readlink -f "${BASH_SOURCE[0]}")")")" || exit 1
failed=0

skip() {
    echo "$0: skipped: there is no $1, $2" >&2
}

# Every script of the repository, by its name or its first line, wherever it stands.
shells=() pythons=() luas=()
while read -r -d '' file; do
    first=''
    read -r first <"$file"
    case $file in
    *.py) first='#!python3' ;;
    *.lua) first='#!lua' ;;
    *.sh | *.bash) first='#!sh' ;;
    esac
    case $first in
    '#!'*python3) pythons+=("$file") ;;
    '#!'*lua) luas+=("$file") ;;
    '#!'*sh | '# shellcheck shell='*) shells+=("$file") ;;
    '#!'*) echo "$file is a script that nothing looks at: $first" && failed=1 ;;
    esac
done < <(find . \( -name .git -o -name out -o -name src -o -name specs -o -name proofs -o -name must-fail \) -prune -o -type f -printf '%P\0' | LC_ALL=C sort -z)
# As many as there are at least, so that none is lost by a change of this list.
if [ ${#shells[@]} -lt 45 ] || [ ${#pythons[@]} -lt 60 ] || [ ${#luas[@]} -lt 2 ]; then
    echo "only ${#shells[@]} scripts of shells, ${#pythons[@]} of Python and ${#luas[@]} of Lua are found"
    failed=1
fi

if command -v shellcheck >/dev/null; then
    shellcheck -x "${shells[@]}" || failed=1
else
    skip shellcheck "so the scripts of shells are not looked at"
fi

# What is compiled stands in a folder of its own, which is removed.
compiled=$(mktemp -d)
trap 'rm -rf "$compiled"' EXIT
PYTHONPYCACHEPREFIX=$compiled python3 -W error -m py_compile "${pythons[@]}" || failed=1
if command -v pyflakes3 >/dev/null; then
    pyflakes3 "${pythons[@]}" || failed=1
else
    skip pyflakes3 "so the scripts of Python are only compiled"
fi
if command -v luacheck >/dev/null; then
    said=$(luacheck --no-color "${luas[@]}") || { echo "$said" && failed=1; }
else
    skip luacheck "so the filter for pandoc is not looked at"
fi

if command -v mandoc >/dev/null; then
    mandoc -T lint -W warning command/tablelayout.1 || failed=1
else
    skip mandoc "so the manual page is not looked at by it"
fi

if command -v groff >/dev/null; then
    said=$(groff -ww -z -mdoc -T utf8 command/tablelayout.1 2>&1)
    [ -z "$said" ] || { echo "$said" && failed=1; }
else
    skip groff "so the manual page is not looked at by it"
fi

exit "$failed"
