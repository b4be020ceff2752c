#!/usr/bin/env bash
# Runs the lines of docs/PAGERS.md whose programs are there, but for mutt's, which tests/terminals.sh runs. If all is so this
# prints nothing, but for what is skipped.
set -uo pipefail
top=$(dirname "$(dirname "$(readlink -f "${BASH_SOURCE[0]}")")")
# shellcheck source=tests/common.bash
. "$top/tests/common.bash"
mkdir "${room:?}/bin" "$room/work"
ln -s "$top/tablelayout" "$room/bin"
PATH=$room/bin:$PATH
unset COLUMNS TABLELAYOUT_OPTIONS
export TERM=dumb HOME=$room/work GIT_CONFIG_NOSYSTEM=1
cd "$room/work" || exit 1
printf 'item,left\nlamp oil,3\nrope,12\n' >stock.csv
# With a head, and without one.
wanted=$'item     left\n-------- ----\nlamp oil    3\nrope       12'
headless=$'item     left\nlamp oil 3   \nrope     12  '

# Whether a program is there to be tried.
has() {
    command -v "$1" >/dev/null || { skip "there is no $1" && return 1; }
}

tablelayout show --csv --head <stock.csv | expect_text "$wanted" "of standard input"
TABLELAYOUT_OPTIONS='--style frame' tablelayout show stock.csv | head -n 1 | expect_text "+--------+----+" "with options of the environment"
if has sqlite3; then
    sqlite3 stock.db -cmd '.mode csv' '.import stock.csv stock'
    sqlite3 -csv -header stock.db 'select * from stock' | tablelayout show --csv --head | expect_text "$wanted" "of sqlite3"
fi
if has duckdb; then
    duckdb -csv -c "select * from 'stock.csv'" | tablelayout show --csv --head | expect_text "$wanted" "of duckdb"
fi
if has csvcut; then
    csvcut -c 2,1 stock.csv | tablelayout show --csv --head | expect_text $'left item    \n---- --------\n   3 lamp oil\n  12 rope    ' "of csvkit"
fi
if has jq; then
    jq -n '{items: [{item: "lamp oil", left: 3}, {item: "rope", left: 12}]}' >stock.json
    jq '.items' stock.json | tablelayout show --json | expect_text "$wanted" "of jq"
fi
if has less; then
    LESSOPEN='|tablelayout lessopen %s' less stock.csv | expect_text "$headless" "by less"
    cp stock.csv stock.txt
    LESSOPEN='|tablelayout lessopen %s' less stock.txt | expect stock.csv "by less of another file"
fi
if has git; then
    git init -q . 2>/dev/null
    git config diff.table.textconv 'tablelayout textconv'
    printf '*.csv diff=table\n*.html diff=table\n' >.gitattributes
    printf '<p>no table' >text.html
    git add stock.csv text.html
    sed -i 's/12/10/' stock.csv
    printf ' here' >>text.html
    changed() {
        git diff --no-color -U0 | grep -E '^[-+][^-+]'
    }
    changed | expect_text $'-rope     12\n+rope     10\n-<p>no table\n+<p>no table here' "by git diff"
    # A longer cell makes its column wider on the page that serves best, and changes its own line alone where it fits.
    git add -A .
    sed -i 's/rope/a long rope/' stock.csv
    changed | grep -c '^+' | expect_text 3 "lines by git diff of a longer cell"
    git config diff.stock.textconv 'tablelayout textconv --widths 20,6'
    echo 'stock.csv diff=stock' >>.gitattributes
    changed | expect_text $'+stock.csv diff=stock\n-rope                 10\n+a long rope          10' "by git diff with widths"
    tablelayout show --html --width 120 stock.csv | sed -n '/^<colgroup>/p' | grep -o '[0-9]*ch' | tr -d ch | paste -sd , |
        expect_text 11,4 "as the widths of a file"
fi
# Starts a server of its own in a folder of its own, reached by a socket there alone.
start_server() {
    local binaries
    binaries=$(find /usr/lib/postgresql -name initdb -printf '%h\n' 2>/dev/null | sort -V | tail -n 1)
    [ -n "$binaries" ] || return 1
    server=$binaries/pg_ctl
    mkdir "$room/server" && as_owner=()
    if [ "$(id -u)" = 0 ]; then
        # A server does not run as root.
        id postgres >/dev/null 2>&1 && chown postgres "$room" "$room/server" || return 1
        as_owner=(runuser -u postgres --)
    fi
    "${as_owner[@]}" "$binaries/initdb" -D "$room/server/data" -A trust -U postgres -N >/dev/null 2>&1 &&
        "${as_owner[@]}" "$server" -D "$room/server/data" -w -l "$room/server/log" -o "-k $room/server -c listen_addresses=''" start >/dev/null
}

if has psql && start_server; then
    export PGHOST=$room/server PGUSER=postgres
    query="select 'lamp oil' as item, 3 as left union all select 'rope', 12"
    echo "$query \\g (format=csv) | tablelayout show --csv --head -" | psql -Xq | expect_text "$wanted" "of psql"
    printf '%s\n' '\pset format csv' "\\setenv PSQL_PAGER 'tablelayout show --csv --head -'" '\pset pager always' "$query;" >always.sql
    if command -v script >/dev/null; then
        TERM=xterm NO_COLOR=1 script -qec "stty rows 24 cols 40; psql -Xqf always.sql" /dev/null </dev/null | tr -d '\r' | head -n 4 |
            expect_text "$wanted" "of psql with its pager"
    fi
    "${as_owner[@]}" "$server" -D "$room/server/data" -m immediate stop >/dev/null
else
    skip "there is no server of PostgreSQL to start"
fi

[ ! -e "$failed" ]
