#!/usr/bin/env bash
# Runs the program to each of its statuses, and looks at which files it stored and which are as before; each certificate that
# it stored is checked. If all is as docs/COMMAND.md says this prints nothing.
set -uo pipefail
top=$(dirname "$(dirname "$(readlink -f "${BASH_SOURCE[0]}")")")
# shellcheck source=tests/common.bash
. "$top/tests/common.bash"

mkdir "${room:?}/files"
cd "$room/files" || exit 1
echo '<table><tr><td>aaa bbb<td>cc dd ee</table>' >in.html
echo '<table><tr><td>a</table>' >one.html
echo '<table><tr><td><img></table>' >bad.html
printf '<table><tr><td>%0600d</table>' 0 >word.html
head -c 1048577 /dev/zero >long.html
cat >twelve.html <<'HTML'
<table>
<tr><td>sea a<td>ship ship be a a a<td>cargo sea a be
<tr><td>cargo sea sea be a<td>be a harbour<td>sea be be
<tr><td>sea harbour harbour<td>a cargo sea<td>ship cargo be be be ship
<tr><td>a cargo sea<td>sea<td>harbour sea cargo be ship
</table>
HTML
readonly ALL=(page cert less spent)

# Checks what was stored as a certificate, on the page that it names.
is_certificate() {
    local width status
    width=$(sed -n '1s/^tablelayout 1 \([0-9]*\) .*/\1/p' "$2")
    "$program" check "$width" "$1" "$2" --budget "$(sed -n '1s/.* //p' "$2")" >../checked
    status=$?
    case $status in
    0 | 3 | 4) ;;
    *) expect_text "a valid certificate" "as $2" <../checked ;;
    esac
}

# Runs the program where each file was there before. The message, the status, and the names of what is stored are those that
# are wanted. The message may be printed to another output than the one that is looked at.
output=../said
is_stored() {
    local wanted=$1 name names=''
    shift
    for name in "${ALL[@]}"; do echo before >"$name"; done
    : >../said
    "$program" "$@" >"$output" 2>/dev/null
    echo "status $?" >>../said
    for name in "${ALL[@]}"; do
        cmp -s "$name" <(echo before) && continue
        names+=" $name"
        [ "$name" = page ] || is_certificate "$3" "$name"
    done
    echo "stored$names" >>../said
    expect_text "$wanted" "by $*" <../said
}

# lay
is_stored $'lowest height 2 width 10\nstatus 0\nstored page cert' lay 12 in.html page cert
is_stored $'lowest height 2 width 10\nstatus 0\nstored page' lay 12 in.html page
is_stored $'usage\nstatus 2\nstored' lay 0 in.html page cert
is_stored $'bounded height 3 lower 2 width 7\nstatus 3\nstored page cert' lay 12 in.html page cert --budget 0
is_stored $'narrow least 7 width 6\nstatus 4\nstored cert' lay 6 in.html page cert
is_stored $'narrow least 7 width 6\nstatus 4\nstored' lay 6 in.html page
is_stored $'bad input: unknown element at 15\nstatus 5\nstored' lay 12 bad.html page cert
is_stored $'limit: file 1048577\nstatus 6\nstored' lay 12 long.html page cert
is_stored $'read fault\nstatus 7\nstored' lay 12 none page cert
# PAGE comes first, then CERT, then the message, and what was stored before a fault stands.
is_stored $'status 8\nstored' lay 12 in.html /dev/full cert
is_stored $'status 8\nstored' lay 12 in.html none/page cert
is_stored $'status 8\nstored page' lay 12 in.html page /dev/full
is_stored $'status 8\nstored page' lay 12 in.html page none/cert
output=/dev/full is_stored $'status 8\nstored page cert' lay 12 in.html page cert

# narrow
is_stored $'slimmest width 10 height 2\nstatus 0\nstored page cert less' narrow 2 in.html "${ALL[@]}"
is_stored $'slimmest width 1 height 1\nstatus 0\nstored page cert' narrow 1 one.html "${ALL[@]}"
is_stored $'usage\nstatus 2\nstored' narrow 01 in.html "${ALL[@]}"
is_stored $'bounded width none least 7\nstatus 3\nstored less spent' narrow 2 in.html "${ALL[@]}" --budget 0
is_stored $'bounded width 38 least 35\nstatus 3\nstored page cert less spent' narrow 8 twelve.html "${ALL[@]}" --budget 1
is_stored $'bad input: unknown element at 15\nstatus 5\nstored' narrow 2 bad.html "${ALL[@]}"
is_stored $'too tall height 0\nstatus 12\nstored less' narrow 0 in.html "${ALL[@]}"
is_stored $'too tall height 9\nstatus 12\nstored less' narrow 9 word.html "${ALL[@]}"
is_stored $'status 8\nstored page cert' narrow 2 in.html page cert /dev/full spent

# tidy
is_stored $'tidy height 2 width 10\nstatus 0\nstored page cert less' tidy 12 in.html "${ALL[@]}"
is_stored $'tidy height 1 width 1\nstatus 0\nstored page cert' tidy 1 one.html "${ALL[@]}"
is_stored $'usage\nstatus 2\nstored' tidy 501 in.html "${ALL[@]}"
is_stored $'bounded height 3 lower 2 width 7\nstatus 3\nstored page cert' tidy 12 in.html "${ALL[@]}" --budget 0
is_stored $'untidy choice\nstatus 3\nstored page cert less' tidy 12 in.html "${ALL[@]}" --budget 2
is_stored $'untidy width 30 least 29\nstatus 3\nstored page cert less spent' tidy 30 twelve.html "${ALL[@]}" --budget 2
is_stored $'narrow least 7 width 6\nstatus 4\nstored cert' tidy 6 in.html "${ALL[@]}"
is_stored $'read fault\nstatus 7\nstored' tidy 6 none "${ALL[@]}"

# check
"$program" lay 12 in.html page.txt of_12 >../said
is_stored $'lowest height 2 width 10\nstatus 0\nstored' check 12 in.html of_12
is_stored $'rejected: claim\nstatus 10\nstored' check 11 in.html of_12
is_stored $'read fault\nstatus 7\nstored' check 12 in.html none

# Where memory runs out the files are as before, or are those of a run with enough of it.
{ printf '<table>' && printf '<tr><td>aaa bbb<td>cc dd ee%.0s' {1..1500} && printf '</table>'; } >rows.html
"$program" lay 12 rows.html all_page all_cert >../said
out_of_memory=0
for kilobytes in {2000..24000..500}; do
    for name in page cert; do echo before >"$name"; done
    (ulimit -v "$kilobytes" && exec "$program" lay 12 rows.html page cert) >../said 2>/dev/null
    [ $? -eq 9 ] || continue
    out_of_memory=$((out_of_memory + 1))
    expect_text "" "with $kilobytes KB" <../said
    for name in page cert; do
        cmp -s "$name" <(echo before) || cmp -s "$name" "all_$name" || touch "$failed"
    done
done
[ "$out_of_memory" -gt 0 ] || touch "$failed"

[ ! -e "$failed" ]
