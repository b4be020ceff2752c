#!/usr/bin/env bash
# Runs `show`, and lines of docs/PAGERS.md that fill a screen, on terminals of tmux of 40, 80 and 200 columns. If all is so
# this prints nothing, but for what is skipped.
set -uo pipefail
top=$(dirname "$(dirname "$(readlink -f "${BASH_SOURCE[0]}")")")
# shellcheck source=tests/common.bash
. "$top/tests/common.bash"
command -v tmux >/dev/null || { skip "there is no tmux, so no terminal of it is tried" && exit 0; }
mkdir "${room:?}/bin" "$room/work"
ln -s "$top/tablelayout" "$room/bin"
PATH=$room/bin:$PATH
unset COLUMNS NO_COLOR TABLELAYOUT TABLELAYOUT_OPTIONS TMUX
export HOME=$room/work LC_ALL=C.UTF-8 LESS=R LESSHISTFILE=- GIT_CONFIG_NOSYSTEM=1
cd "$room/work" || exit 1
cp "$top/examples/stock.html" .
# In 37 columns stand 7 words of 4 letters, in 77 columns 15, in 197 all.
readonly WORDS=30
{ echo "id,text" && printf '1,' && printf 'word %.0s' $(seq "$WORDS") && echo; } >words.csv
echo 'set -g default-terminal screen' >tmux.conf
trap 'end_server; rm -rf "$room"' EXIT

# Each terminal has a server of its own, as one that ends may still hold its socket.
server=0
end_server() {
    tmux -S "$room/server$server" kill-server 2>/dev/null
}

# Starts a command on a terminal of so many columns, and waits until a text stands there.
start() {
    local columns=$1 awaited=$2 command=$3
    end_server
    server=$((server + 1))
    tmux -S "$room/server$server" -f tmux.conf new-session -d -x "$columns" -y 50 "$command; exec sleep 60"
    await "$awaited" || screen | expect_text "$awaited" "on $columns columns by $command"
}

await() {
    local tries
    for ((tries = 0; tries < 100; tries++)); do
        ! screen | grep -qF "$1" || return 0
        sleep 0.1
    done
    return 1
}

# What stands on the terminal, without spaces at the ends of lines, and empty lines at its end.
screen() {
    tmux -S "$room/server$server" capture-pane -p "$@" 2>&1 | sed -e 's/ *$//' -e :a -e '/^\n*$/{$d;N;ba' -e '}'
}

# A drawn page, as a terminal shows it.
drawn() {
    sed 's/ *$//' "$top/tests/show/$1"
}

# The same page as a document has it: numbers stand left in their column of four, as pandoc knows no side for them.
of_document() {
    drawn "$1" | head -n -1 | sed -E -e 's/  ([0-9]{2})$/\1/;t' -e 's/   ([0-9])$/\1/'
}

# How many lines have words.
lines_of_words() {
    screen | grep -c word
}

for columns in 40 80 200; do
    case $columns in
    40) page=stock_40.txt lines=5 ;;
    80) page=stock_120.txt lines=2 ;;
    *) page=stock_120.txt lines=1 ;;
    esac
    start "$columns" "lowest height" "tablelayout show stock.html"
    screen | expect <(drawn "$page") "by show on $columns columns"
    screen -e | head -n 1 | grep -c $'^\e\[1mStock' | expect_text 1 "bold lines at the top"
    start "$columns" "lowest height" "tablelayout show words.csv"
    lines_of_words | expect_text "$lines" "lines by show on $columns columns"
    screen | grep -o word | wc -l | expect_text "$WORDS" "words by show on $columns columns"
    if command -v less >/dev/null; then
        start "$columns" "words.csv" "LESSOPEN='|tablelayout lessopen %s' less -M words.csv"
        lines_of_words | expect_text "$((lines + 1))" "lines by less on $columns columns, with its last"
        start "$columns" "(END)" "cat words.csv | tablelayout show --csv | less -R"
        lines_of_words | expect_text "$lines" "lines by show in less on $columns columns"
    fi
    if command -v pandoc >/dev/null; then
        start "$columns" "below" "{ echo '<p>above'; cat stock.html; echo '<p>below'; } | tablelayout page"
        screen | grep -v '^$' | expect <({ echo above && of_document "$page" && echo below; } | grep -v '^$') "by page on $columns columns"
    fi
done
command -v less >/dev/null || skip "there is no less"
command -v pandoc >/dev/null || skip "there is no pandoc, so no page is tried"

# A message of HTML in mutt, by the line for ~/.mailcap.
if command -v mutt >/dev/null && command -v pandoc >/dev/null; then
    echo 'text/html; tablelayout page %s; copiousoutput; nametemplate=%s.html' >.mailcap
    printf 'set folder=~ spoolfile=~/box mbox_type=mbox sleep_time=0 read_inc=0 wrap=0\nauto_view text/html\n' >.muttrc
    {
        printf 'From a@example.org Tue Dec  1 00:00:00 2026\nFrom: a@example.org\nSubject: stock\nMIME-Version: 1.0\n'
        printf 'Content-Type: text/html; charset=utf-8\n\n'
        cat stock.html
        echo
    } >box
    for columns in 40 80 200; do
        page=stock_120.txt
        [ "$columns" != 40 ] || page=stock_40.txt
        start "$columns" "Msgs:" "mutt -n -R -f box"
        tmux -S "$room/server$server" send-keys Enter
        await "all else"
        screen | sed -n '/^Stock of/,/^all else/p' | expect <(of_document "$page") "by mutt on $columns columns"
    done
else
    skip "there is no mutt, or no pandoc"
fi

[ ! -e "$failed" ]
