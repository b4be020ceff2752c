#!/usr/bin/env bash
# Runs the program on files that cannot be read or written, and looks at what stands afterwards. If all is as it should be
# this prints nothing, but for what is skipped.
set -uo pipefail
top=$(dirname "$(dirname "$(readlink -f "${BASH_SOURCE[0]}")")")
# shellcheck source=tests/common.bash
. "$top/tests/common.bash"

mkdir "${room:?}/files"
cd "$room/files" || exit 1
umask 022
printf '<table><tr><td>aa bb<td>c</table>' >in.html
printf '<table>%s</table>' "$(printf '<tr><td>aa bb<td>c%.0s' {1..400})" >long.html
readonly PAGE='aa bb  c' LOWEST=$'lowest height 1 width 8\n' NO_FILE='No such file or directory'

# What is printed for arguments on each output, and the status.
is_told() {
    local wanted=$1 wrong=$2
    shift 2
    "$program" "$@" >../said 2>../wrong
    echo "status $?" >>../said
    expect_text "$wanted" "by $*" <../said
    expect_text "$wrong" "on standard error by $*" <../wrong
}
# The page is stored under the name, in the place of what stood there, and nothing stays beside it.
is_stored() {
    names . >../before
    is_told "${LOWEST}status 0" "" lay 10 in.html "$1"
    expect_text "$PAGE" "as $1" <"$1"
    names . | expect ../before "in the folder by a page as $1"
}
# Under this name stands what stood there before.
is_kept() {
    expect_text "old" "as $1" <"$1"
}
# The two names are refused, and no file is made, changed or lost.
is_refused() {
    local first=$1 second=$2
    shift 2
    find . -type f -exec cksum {} + | sort >../before
    is_told $'usage\nstatus 2' "tablelayout: '$first' and '$second' are one file" "$@"
    find . -type f -exec cksum {} + | sort | expect ../before "in the folder by $*"
}

# What the system said of a file stands on standard error.
is_told $'read fault\nstatus 7' "tablelayout: nosuch.html: $NO_FILE" lay 80 nosuch.html page
is_told $'read fault\nstatus 7' "tablelayout: .: Is a directory" lay 80 . page
is_told $'read fault\nstatus 7' "tablelayout: none: $NO_FILE" check 80 in.html none
is_told "status 8" "tablelayout: none/page: $NO_FILE" lay 80 in.html none/page
is_told "status 8" "tablelayout: ..: Is a directory" lay 80 in.html ..
is_told "status 8" "tablelayout: /dev/full: No space left on device" lay 80 in.html /dev/full
"$program" lay 10 in.html page 2>&1 >/dev/full |
    expect_text "tablelayout: standard output: No space left on device" "on a full device"
"$program" lay 10 in.html - 2>&1 >/dev/full |
    expect_text "tablelayout: standard output: No space left on device" "for a page on a full device"
"$program" --help 2>&1 >/dev/full |
    expect_text "tablelayout: standard output: No space left on device" "by --help on a full device"
"$program" lay 10 - page 2>&1 <&- >/dev/null |
    expect_text "tablelayout: standard input: $NO_FILE" "without standard input"
names . | expect_text $'in.html\nlong.html\npage' "in the folder by files that fail"
rm page

# What is stored as /dev/stderr stands after what stands there.
echo old >../log
"$program" lay 10 in.html /dev/stderr 2>>../log >/dev/null
expect_text $'old\n'"$PAGE" "on standard error" <../log
{ echo old >&2 && "$program" lay 10 in.html /dev/stderr >/dev/null; } 2>../log
expect_text $'old\n'"$PAGE" "on a new standard error" <../log

# A file is made, and replaced, by a new one, which has the mode and the owner of the old one.
is_told "${LOWEST}status 0" "" lay 10 in.html page
stat -c %a page | expect_text 644 "as the mode of a new file"
chmod 640 page
is_stored page
is_stored ./page
stat -c %a page | expect_text 640 "as the mode"
exec 3<page
is_told $'lowest height 400 width 8\nstatus 0' "" lay 10 long.html page
expect_text "$PAGE" "as the page that was replaced" <&3
exec 3<&-
if [ "$(id -u)" = 0 ]; then
    chown 12345:23456 page
    chmod 6755 page
    is_stored page
    stat -c '%u:%g %a' page | expect_text "12345:23456 6755" "as the owner and the mode"
else
    skip "the owner of a file, which only root can change"
    mkdir shut
    echo old >shut/page
    chmod 555 shut
    is_stored shut/page
    chmod 755 shut
    chmod 444 page
    is_told "status 8" "tablelayout: page: Permission denied" lay 10 in.html page
fi
rm -rf page shut

# A link stays a link, several names stay those of one file, and a device or a pipe what it is.
echo old >file
ln -s file link
ln -s ../files/new dangling
ln file other
is_stored link
is_stored other
cmp file other || touch "$failed"
expect_text "$PAGE" "as the file of a link" <file
is_told "${LOWEST}status 0" "" lay 10 in.html dangling
expect_text "$PAGE" "as the new file of a link" <new
{ [ -L link ] && [ -L dangling ] && [ "file" -ef other ] && [ ! -L new ]; } || touch "$failed"
mkfifo pipe
cat pipe >../came &
is_told "${LOWEST}status 0" "" lay 10 in.html pipe
wait
expect_text "$PAGE" "through a pipe" <../came
is_told "${LOWEST}status 0" "" lay 10 in.html /dev/null
{ [ -p pipe ] && [ -c /dev/null ]; } || touch "$failed"
rm file link other dangling new pipe

# A file is replaced whole or not at all, where the system takes no more than 1,024 bytes, and where it ends the program.
limited() {
    (ulimit -f 1 && exec "$program" "$@") 2>&1
    echo "status $?"
}
echo old >page
(trap '' XFSZ && limited lay 80 long.html page) |
    expect_text $'tablelayout: page: File too large\nstatus 8' "by a page that is too large"
is_kept page
(trap '' XFSZ && limited lay 80 long.html new) |
    expect_text $'tablelayout: new: File too large\nstatus 8' "by a new page that is too large"
names . | expect_text $'in.html\nlong.html\npage' "in the folder by pages that are too large"
(ulimit -c 0 && limited lay 80 long.html page) >../said 2>&1
grep -qx "status 153" ../said || touch "$failed"
is_kept page
names . | expect_text $'.tablelayout-0\nin.html\nlong.html\npage' "in the folder by a run that was ended"
is_stored page
rm page .tablelayout-0

# Two names of one file are refused, wherever one of them is stored, and two of a device are not.
echo old >page
ln -s in.html link
ln in.html other
ln -s new dangling
mkdir folder
is_refused in.html ./in.html lay 80 in.html ./in.html
is_refused in.html "$PWD/in.html" lay 80 in.html "$PWD/in.html" page
is_refused in.html folder/../in.html tidy 80 in.html page folder/../in.html
is_refused in.html link lay 80 in.html link
is_refused link in.html lay 80 link in.html
is_refused in.html other lay 80 in.html other
is_refused page ./page lay 80 in.html page ./page
is_refused new folder/../new lay 80 in.html new folder/../new
is_refused new dangling narrow 80 in.html page new dangling
is_refused cert ./cert narrow 80 in.html page cert less ./cert
is_refused /dev/stdin page lay 80 - page <./page
is_refused page folder/../page lay --style frame 80 in.html page --workers 2 -- folder/../page
is_told "${LOWEST}status 0" "" lay 10 in.html /dev/null /dev/../dev/null
is_told $'rejected: syntax at 0\nstatus 10' "" check 80 in.html ./in.html
rm -r page link other dangling folder

[ ! -e "$failed" ]
