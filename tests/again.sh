#!/usr/bin/env bash
# Lays tables out in style grid, on pages from 5 to 40 columns wide, and in style rule on 60 columns, and has other programs
# read the pages as tables again: docutils those in style grid as reStructuredText, and pandoc both as markdown. Each has to
# find the cells, the spans and the head of the table that was laid out (again.py). If all is so this prints nothing, but for
# what is skipped.
set -uo pipefail
top=$(dirname "$(dirname "$(readlink -f "${BASH_SOURCE[0]}")")")
# shellcheck source=tests/common.bash
. "$top/tests/common.bash"

python=python3
[ ! -x /usr/bin/python3 ] || python=/usr/bin/python3
mkdir "${room:?}/pages"
for file in "$top"/tests/again/*.html; do
    name=$(basename "$file" .html)
    for width in {5..40}; do
        page=$room/pages/$name.$width
        "$program" lay "$width" "$file" "$page" --style grid --break fit >"$room/said"
        case $? in
        0) ;;
        # No layout fits.
        4) continue ;;
        *) expect_text "a page" "of $name on $width columns" <"$room/said" ;;
        esac
        # A table of reStructuredText has at least five columns.
        [ "$(head -n 1 "$page" | wc -m)" -gt 5 ] || rm "$page"
    done
    [ -e "$room/pages/$name.40" ] || expect_text "a page of $name" "on 40 columns" </dev/null
    "$program" lay 60 "$file" "$room/pages/$name.60.rule" --style rule >"$room/said" ||
        expect_text "a page" "of $name in style rule" <"$room/said"
done

for reader in docutils pandoc; do
    "$python" "$top/tests/again.py" "$reader" "$room/pages"
    case $? in
    0) ;;
    3) skip "there is no $reader, so pages are not read again by it" ;;
    *) touch "$failed" ;;
    esac
done

[ ! -e "$failed" ]
