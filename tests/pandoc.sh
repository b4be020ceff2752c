#!/usr/bin/env bash
# Runs the filter for pandoc on a document for each reader, and where a table cannot be laid out. What has to come out was
# drawn by hand, as pandoc 2.17 to 3.11 read the documents, and stands in pandoc/. If all is so this prints nothing, but
# for what is skipped.
set -uo pipefail
top=$(dirname "$(dirname "$(readlink -f "${BASH_SOURCE[0]}")")")
# shellcheck source=tests/common.bash
. "$top/tests/common.bash"
if ! command -v pandoc >/dev/null; then
    skip "there is no pandoc, so its filter is not tried"
    exit 0
fi
unset TABLELAYOUT
# A file that is left behind would stand in one of these.
mkdir "${room:?}/temporary" "$room/work" "$room/made"
export TMPDIR=$room/temporary
cd "$room/work" || exit 1
cp "$top"/tests/pandoc/* .
names . >"$room/names"

# Runs pandoc with the filter: the arguments are pandoc's.
with_filter() {
    pandoc --lua-filter "$top/integrations/pandoc/tablelayout.lua" -t plain --columns 44 "$@"
}

with_filter ships.html 2>&1 | expect html.txt "of HTML"
with_filter ships.md 2>&1 | expect markdown.txt "of markdown"
with_filter ships.tex 2>&1 | expect latex.txt "of LaTeX"
sed 's/<img[^>]*>//; s/<hr>//; /<caption>/d' ships.html | pandoc -f html -o "$room/made/ships.docx"
with_filter "$room/made/ships.docx" 2>&1 | expect docx.txt "of docx"
pandoc berths.md -o "$room/made/berths.odt"
with_filter "$room/made/berths.odt" --columns 30 2>&1 | expect odt.txt "of odt"
with_filter ships.md -t markdown 2>&1 | expect code.txt "as markdown"

if pandoc --list-output-formats | grep -qx ansi; then
    with_filter -t ansi columns.md 2>&1 | sed 's/\x1b\[[0-9;]*m//g; s/\x1b\]8;;\x1b\\//g' | expect ansi.txt "as ansi"
else
    skip "pandoc writes no ansi, so that is not tried"
fi

# Settings.
with_filter columns.md -M tablelayout-style=frame 2>&1 | expect frame.txt "in a frame"
printf '| a | b |\n|---|---|\n| c | d |\n' >"$room/made/head.md"
with_filter "$room/made/head.md" -M tablelayout-style=grid 2>&1 | expect_text $'+-+-+\n|a|b|\n+=+=+\n|c|d|\n+-+-+' "in a grid"
with_filter "$room/made/head.md" -M tablelayout-style=box 2>&1 | expect_text $'┌─┬─┐\n│a│b│\n╞═╪═╡\n│c│d│\n└─┴─┘' "in a box"
with_filter "$room/made/head.md" -M tablelayout-style=apart 2>&1 | expect_text $'a b\n- -\nc d' "with rows apart"
printf '| a | no |\n|:-:|---:|\n| bbbb bbbb bbbb bbbb bbbb bbbb | 5 |\n' >"$room/made/sides.md"
with_filter "$room/made/sides.md" --columns 20 2>&1 |
    expect_text $'      a        no\n-------------- --\nbbbb bbbb bbbb  5\nbbbb bbbb bbbb' "with sides"
# A cell stands at its own side, or else at that of the column in which it begins, over several columns too. A nested table
# has sides of its own. pandoc takes the sides of columns from the first row.
cat >"$room/made/cells.html" <<'HTML'
<table>
<tr><td style="text-align: right">a</td><td>5</td></tr>
<tr><td>bbbb</td><td style="text-align: center">c</td></tr>
<tr><td colspan="2" style="text-align: center">d</td></tr>
<tr><td colspan="2">e</td></tr>
<tr><td><table><tr><td>f</td></tr><tr><td>gggg</td></tr></table></td>
<td><table><tr><td style="text-align: right">h</td></tr><tr><td>iii</td></tr></table></td></tr>
</table>
HTML
with_filter "$room/made/cells.html" 2>&1 |
    expect_text $'   a 5\nbbbb  c\n   d\n       e\nf      h\ngggg iii' "with sides of cells"
# What pandoc writes as low stays, unless a style is asked for.
with_filter "$room/made/head.md" 2>&1 | expect_text $'  a   b\n  --- ---\n  c   d' "of a table that pandoc writes as low"
with_filter "$room/made/head.md" -M tablelayout-style=rule 2>&1 | expect_text $'a b\n- -\nc d' "with a rule"
with_filter columns.md -M tablelayout-width=7 2>&1 | expect broken.txt "with broken words"
for breaking in 0 2 fit; do
    with_filter columns.md -M tablelayout-width=5 -M tablelayout-break="$breaking" 2>&1 |
        expect_text $'Text.\n\naa cc\na  dd\nbb ee\nb' "with words broken by $breaking"
done
# The path has 10 columns, and its parts have 4 at most: the word of 7 columns stays whole, until the page is too narrow.
printf '| a | b |\n|---|---|\n| src/lib.rt | harbour |\n' >"$room/made/path.md"
with_filter "$room/made/path.md" -M tablelayout-width=12 2>&1 | expect_text $'a    b\n---- -------\nsrc/ harbour\nlib.\nrt' "with the path broken"
with_filter "$room/made/path.md" -M tablelayout-width=11 2>&1 | expect_text $'a      b\n------ ----\nsrc/   harb\nlib.rt our' "with both words broken"
with_filter columns.md -M tablelayout-width=7 -M tablelayout-break=3 2>&1 | expect broken.txt "with words of 3 columns whole"
for other in some 501 03; do
    with_filter columns.md -M tablelayout-break="$other" 2>&1 >"$room/page" | grep -o "tablelayout-break is .*" |
        expect_text "tablelayout-break is $other, and has to be words, any, fit or from 0 to 500" "of no breaking"
done
with_filter columns.md -M tablelayout-style=some 2>&1 >"$room/page" | grep -o "tablelayout-style is .*" |
    expect_text "tablelayout-style is some, and has to be one of plain, compact, rule, apart, frame, grid, box" "of no style"
with_filter columns.md -M tablelayout-width=501 2>&1 >"$room/page" | grep -o "tablelayout-width is .*" |
    expect_text "tablelayout-width is 501, and has to be from 1 to 500" "of too wide a page"

# A table that stays as pandoc writes it: why, and the arguments of pandoc.
stays() {
    pandoc -t plain --columns 44 "$2" >"$room/own"
    with_filter "${@:2}" 2>"$room/said" | expect "$room/own" "by pandoc of ${*:2}"
    expect_text "tablelayout: table 1 $1" "on standard error of ${*:2}" <"$room/said"
}
stays "(aaa bbb cc dd ee): it stays as pandoc writes it: no layout fits 2 columns, and the least width is 3" \
    columns.md -M tablelayout-width=2
stays "(aaa bbb cc dd ee): it stays as pandoc writes it: no layout fits 5 columns, and the least width is 6" \
    columns.md -M tablelayout-width=5 -M tablelayout-break=words
stays "(aaa bbb cc dd ee): it stays as pandoc writes it: no layout fits 5 columns, and the least width is 6" \
    columns.md -M tablelayout-width=5 -M tablelayout-break=3
{
    echo "<table><tr>"
    printf '<td>%d</td>' {1..61}
    echo "</tr></table>"
} >"$room/made/wide.html"
stays "(1 2 3 4 5 6 7 8 9 10 11 12 13 14 15 16 1..): it stays as pandoc writes it: limit: columns 61" "$room/made/wide.html"
with_filter ships.html -t rst 2>"$room/said" | expect <(pandoc ships.html -t rst --columns 44) "as rst"
expect_text "tablelayout: tables stay as pandoc writes them, since rst is no format of text" "on standard error of rst" <"$room/said"

# A noncharacter in a cell stays, also where spaces of code are kept.
with_filter -f markdown -M tablelayout-style=compact <<<$'| \xef\xb7\x90a | `b  c` |\n|---|---|\n| \xef\xb7\x91 | d |' 2>&1 |
    expect_text $'\xef\xb7\x90a b  c\n\xef\xb7\x91  d' "of noncharacters"

# Other programs that the environment names. The first makes no cuts.
make_program() {
    printf '#!/bin/sh\n%s\n' "$1" >"$room/made/other"
    chmod +x "$room/made/other"
}
with_other() {
    TABLELAYOUT=$room/made/other with_filter "$@" 2>"$room/said"
}
make_program "sed '1s/ [0-9]*\$/ --budget 0&/' | '$program' \"\$@\""
with_other columns.md -M tablelayout-width=12 | expect hurried.txt "by a program without cuts"
expect_text "tablelayout: table 1 (aaa bbb cc dd ee): its page may not be the lowest: bounded height 3 lower 2 width 6" \
    "on standard error of a program without cuts" <"$room/said"

# All tables of a document go through one run, those whose words do not fit whole too.
make_program "echo \"\$*\" >>'$room/runs'; exec '$program' \"\$@\""
with_other ships.md | expect markdown.txt "by one run"
with_other columns.md -M tablelayout-width=5 | expect_text $'Text.\n\naa cc\na  dd\nbb ee\nb' "by one run with broken words"
expect_text $'batch\nbatch' "as runs" <"$room/runs"

# A program that is missing, and one that ends after its first answer.
cat columns.md <(echo) columns.md >"$room/made/twice.md"
pandoc -t plain --columns 44 "$room/made/twice.md" >"$room/own"
TABLELAYOUT=$room/none with_filter "$room/made/twice.md" 2>"$room/said" | expect "$room/own" "without a program"
expect_text "tablelayout: 2 tables stay as pandoc writes them: $room/none could not be run" \
    "on standard error without a program" <"$room/said"
make_program "printf '0 2 0 0 0\\nlowest height 1 width 1\\nx\\n'"
with_other "$room/made/twice.md" | expect_text "$(printf 'Text.\n\nx\n\n' && pandoc -t plain --columns 44 columns.md)" "by a program that ends"
expect_text "tablelayout: a table stays as pandoc writes it: $room/made/other ended before it had answered" \
    "on standard error of a program that ends" <"$room/said"

# In a checkout where the program is not built the launcher is run.
mkdir -p "$room/checkout/integrations/pandoc"
cp "$top/integrations/pandoc/tablelayout.lua" "$room/checkout/integrations/pandoc"
make_program "echo launched >&2; exec '$program' \"\$@\""
cp "$room/made/other" "$room/checkout/tablelayout"
pandoc --lua-filter "$room/checkout/integrations/pandoc/tablelayout.lua" -t plain --columns 44 ships.md 2>"$room/said" |
    expect markdown.txt "by a launcher"
expect_text launched "on standard error of a launcher" <"$room/said"

names . | expect "$room/names" "and left"
names "$TMPDIR" | expect_text "" "and left for a time"

[ ! -e "$failed" ]
