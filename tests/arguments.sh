#!/usr/bin/env bash
# Runs the program on arguments in any order, on `-`, and on names that look like options. If all is as it should be this
# prints nothing.
set -uo pipefail
top=$(dirname "$(dirname "$(readlink -f "${BASH_SOURCE[0]}")")")
# shellcheck source=tests/common.bash
. "$top/tests/common.bash"

mkdir "${room:?}/files"
cd "$room/files" || exit 1
printf '<table><tr><td>aa bb<td>c</table>' >in.html
printf 'aa bb,c\n' >in.csv
readonly PAGE=$'+-----+-+\n|aa bb|c|\n+-----+-+\n' LOWEST=$'lowest height 3 width 9\n'

# What is printed for arguments, and the status, on standard input from a file.
is_said() {
    local wanted=$1 input=$2
    shift 2
    "$program" "$@" 2>/dev/null <"$input" >../said
    echo "status $?" >>../said
    expect_text "$wanted" "by $*" <../said
}
# The page in a frame is printed.
is_framed() {
    is_said "$PAGE${LOWEST}status 0" "$@"
}
# The arguments are refused, and no file is made or lost.
is_refused() {
    names . >../before
    is_said $'usage\nstatus 2' in.html "$@"
    names . | expect ../before "in the folder by $*"
}

# Options stand anywhere.
is_framed in.html lay 10 in.html /dev/stdout --style frame
is_framed in.html --style frame lay 10 in.html /dev/stdout
is_framed in.html lay --style frame 10 in.html --budget 9 /dev/stdout
is_framed in.html --budget 9 lay 10 --workers 2 in.html /dev/stdout --solver plain --style frame
is_framed in.csv lay 10 --csv in.csv --style frame /dev/stdout
is_framed in.csv --csv --least 2,1 lay 10 in.csv --style frame /dev/stdout

# A cell stands at the side that it asks for with `--align cells` alone, wherever that stands.
printf '<table><tr><td align=right>a<td>bb<tr><td colspan=2 align=center>c<tr><td align=none>dd<td>e</table>' >sides.html
readonly ASKED=$' a  bb\n  c   \ndd  e \nlowest height 3 width 6\nstatus 0'
is_said "$ASKED" in.html lay 10 sides.html - --align cells
is_said "$ASKED" in.html --align cells lay 10 sides.html -
is_said $'a   bb\nc     \ndd  e \nlowest height 3 width 6\nstatus 0' in.html lay 10 sides.html - --align auto
is_refused lay 10 sides.html - --align
is_refused lay 10 sides.html - --align cells --align cells

# `-` is standard input and standard output, and `./-` a file.
is_framed in.html lay 10 - /dev/stdout --style frame
is_framed in.html lay 10 - - --style frame
is_framed in.html --style frame lay 10 -- - -
is_framed in.csv lay --csv --style frame 10 - -
is_said "${LOWEST}status 0" in.html lay 10 - ./- --style frame
expect_text "${PAGE%$'\n'}" "as the file" <./-
is_said "${LOWEST}status 0" in.html lay 10 in.html page cert --style frame
is_said "${LOWEST}status 0" cert check 10 in.html - --style frame
is_said "${LOWEST}status 0" in.html check 10 - cert --style frame
is_refused check 10 - -
is_refused lay 10 in.html - -

# After `--` all are names, and before it none that begins so is one.
cp in.html ./--html
is_framed in.html lay 10 --style frame -- --html -
is_said "${LOWEST}status 0" in.html lay 10 --style frame in.html -- --csv
expect_text "${PAGE%$'\n'}" "as --csv" <./--csv
is_refused lay 10 in.html --csv
is_refused lay 10 --html page
is_refused lay 10 in.html --style frame
is_refused lay 10 in.html page -- --csv --html cert
is_refused --csv demo 1

# What is no option or no value of one is refused wherever it stands.
is_refused lay 10 --stlye frame in.html page
is_refused lay 10 in.html page --style
is_refused lay 10 in.html page --style -- frame
is_refused --style lay 10 in.html page
is_refused lay --csv 10 in.csv --csv page

# The message and the status are those of any invalid arguments, and one line on standard error says what is wrong.
is_told() {
    local wanted=$1
    shift
    "$program" "$@" >../said 2>../wrong
    echo "status $?" >>../said
    expect_text $'usage\nstatus 2' "by $*" <../said
    expect_text "$wanted" "on standard error by $*" <../wrong
}
is_told "tablelayout: unknown option '--stlye': did you mean '--style'?" lay 10 in.html page --stlye frame
is_told "tablelayout: unknown option '--ccsv': did you mean '--csv'?" --ccsv lay 10 in.csv page
is_told "tablelayout: unknown option '--style=frame'" lay 10 in.html page --style=frame
is_told "tablelayout: unknown command 'lya': did you mean 'lay'?" lya 10 in.html page
is_told "tablelayout: unknown command 'table'" table
is_told "tablelayout: no command: 'tablelayout help' lists them"
is_told "tablelayout: no command: 'tablelayout help' lists them" --csv
is_told "tablelayout: option '--style' needs a value" lay 10 in.html page --style
is_told "tablelayout: option '--style' does not take 'frma'" lay 10 in.html --style frma page
is_told "tablelayout: option '--budget' does not take '100001'" lay 10 in.html page --budget 100001
is_told "tablelayout: option '--least' does not take '5,'" lay 10 in.html page --csv --least 5,
is_told "tablelayout: command 'check' does not take '--html'" check 10 in.html cert --html
is_told "tablelayout: command 'check' does not take '--trim'" check 10 in.html cert --trim
is_told "tablelayout: command 'check' does not take '--align'" check 10 in.html cert --align l
is_told "tablelayout: command 'check' does not take '--align'" check 10 in.html cert --align cells
is_told "tablelayout: option '--align' does not take 'lr'" lay 10 in.html page --align lr
is_told "tablelayout: option '--align' does not take 'cell'" lay 10 in.html page --align cell
is_told "tablelayout: option '--align' does not take 'Cells'" lay 10 in.html page --align Cells
is_told "tablelayout: command 'check' does not take '--solver'" check 10 in.html cert --solver best
is_told "tablelayout: command 'batch' takes no other words" batch 1
is_told "tablelayout: command 'batch' takes no other words" batch --workers 4
is_told "tablelayout: unknown command 'bacth': did you mean 'batch'?" bacth
is_told "tablelayout: command 'demo' does not take '--csv'" demo 1 --csv
is_told "tablelayout: command 'lay' needs a number" lay
is_told "tablelayout: command 'lay' does not take the number '0'" lay 0 in.html page
is_told "tablelayout: command 'lay' does not take the number 'in.html'" lay in.html page
is_told "tablelayout: command 'demo' does not take the number '01'" demo 01
is_told "tablelayout: an option is given twice, or '--head' or '--least' without '--csv'" lay 10 in.html page --head
is_told "tablelayout: an option is given twice, or '--head' or '--least' without '--csv'" lay 10 in.html page --csv --csv
readonly NAMES="does not take so many names, or one is empty, or two are the same"
is_told "tablelayout: command 'lay' $NAMES" lay 10 in.html
is_told "tablelayout: command 'check' $NAMES" check 10 - -
is_told "tablelayout: command 'demo' $NAMES" demo 1 in.html

# The launcher reads a socket too, and leaves it alone where IN is a file: this one does not end.
cat >../on_socket.py <<'PYTHON'
import socket
import subprocess
import sys

ours, theirs = socket.socketpair()
if sys.argv[1]:
    with open(sys.argv[1], "rb") as file:
        ours.sendall(file.read())
    ours.shutdown(socket.SHUT_WR)
ran = subprocess.run(sys.argv[2:], stdin=theirs, timeout=60)
theirs.setblocking(False)
try:
    print("left", len(theirs.recv(9)))
except BlockingIOError:
    print("waits")
sys.exit(ran.returncode)
PYTHON
on_socket() {
    local wanted=$1
    shift
    python3 ../on_socket.py "$@" >../said 2>&1
    echo "status $?" >>../said
    expect_text "$wanted" "on a socket by $*" <../said
}
on_socket "$PAGE${LOWEST}left 0"$'\nstatus 0' in.html "$top/tablelayout" lay 10 - - --style frame
on_socket "$PAGE${LOWEST}left 0"$'\nstatus 0' in.csv "$top/tablelayout" --csv lay --style frame 10 /dev/stdin -
on_socket "${LOWEST}left 0"$'\nstatus 0' cert "$top/tablelayout" check 10 in.html - --style frame
on_socket "$PAGE${LOWEST}left 0"$'\nstatus 0' in.html "$top/tablelayout" preview --style frame 10 -
on_socket $'aa bb c\nleft 0\nstatus 0' in.html "$top/tablelayout" show --width 10
on_socket "$PAGE${LOWEST}waits"$'\nstatus 0' '' "$top/tablelayout" lay 10 in.html - --style frame
on_socket $'usage\n'"tablelayout: command 'lay' does not take the number '0'"$'\nwaits\nstatus 2' '' "$top/tablelayout" lay 0 - -

# What is asked of the program itself, whose version is that of the Python package. The launcher names the commit too.
"$program" --version | expect_text \
    "tablelayout $(sed -n 's/^version = "\(.*\)"$/\1/p' "$top/integrations/python/pyproject.toml")" "by --version"
"$top/tablelayout" --version | sed -E 's/ \([0-9a-f]+\+?\)$//' | cmp - <("$program" --version) || touch "$failed"
"$program" --help | grep -q "^tablelayout lay WIDTH" || touch "$failed"
"$program" -h | cmp - <("$program" --help) || touch "$failed"
"$program" --help >/dev/full 2>/dev/null
echo "status $?" | expect_text "status 8" "by --help on a full device"

[ ! -e "$failed" ]
