#!/usr/bin/env bash
# What it costs to find which words break: lays two drawn tables of 2,000 rows of 8 cells out by `--break words`, `any` and
# `fit`, on 60 and on 300 columns, with no cuts. In one all words are short, in the other each tenth cell ends with a path
# of up to 111 columns. Builds the program where it is missing. Prints the bytes of each file, and for each width and
# breaking the seconds of processor time of the fastest of three runs, how many times as long as the least of `words` that
# is, and the message. Where whole words do not fit, `words` is one reading of the file and one least width. Fails where a
# run ends without an answer.
set -euo pipefail
here=$(dirname "$(readlink -f "${BASH_SOURCE[0]}")")
"$here/../tablelayout" lay 7 "$here/../examples/first.html" /dev/stdout >/dev/null
program=$here/../crates/tablelayout/out/tablelayout
files=$(mktemp -d)
trap 'rm -rf "$files"' EXIT

# Draws a table with paths in one of so many cells; 0 draws none.
draw_rows() {
    awk -v one_of="$1" 'function draw(k) { s = (s * 16838 % m * 65536 % m + s * 20077 + 12345) % m; return int(s / 65536) % k }
        BEGIN {
            m = 2147483648; s = 7
            count = split("the of and table layout column width page lines words break harbour cargo ship lamp oil rope anchor", words, " ")
            parts = split("src lib crates tablelayout integrations python share usr include linux kernel modules default example", names, " ")
            printf "<table>"
            for (row = 0; row < 2000; row++) {
                printf "<tr>"
                for (cell = 0; cell < 8; cell++) {
                    printf "<td>"
                    for (left = 5 + draw(9); left > 0; left--) printf "%s ", words[1 + draw(count)]
                    if (one_of && draw(one_of) == 0) {
                        for (left = 3 + draw(7); left > 0; left--) printf "%s/", names[1 + draw(parts)]
                        printf "%s_%s.html", names[1 + draw(parts)], names[1 + draw(parts)]
                    }
                }
            }
            printf "</table>"
        }'
}

failed=0
# Sets `hundredths` to the processor time of the fastest of three runs.
lay_out() {
    local status user system
    hundredths=''
    for _ in 1 2 3; do
        status=0
        /usr/bin/time -f '%U %S' -o "$files/used" "$program" lay "$1" "$2" /dev/null --break "$3" --budget 0 >"$files/message" || status=$?
        case $status in 0 | 3 | 4) ;; *) failed=1 ;; esac
        read -r user system < <(tail -n 1 "$files/used")
        user=$((10#${user/./} + 10#${system/./}))
        if [ -z "$hundredths" ] || [ "$user" -lt "$hundredths" ]; then hundredths=$user; fi
    done
}

draw_rows 0 >"$files/words.html"
draw_rows 10 >"$files/paths.html"
for name in words paths; do
    echo "$name: $(wc -c <"$files/$name.html") bytes"
    least=''
    for width in 60 300; do
        for breaking in words any fit; do
            lay_out "$width" "$files/$name.html" "$breaking"
            if [ "$breaking" = words ] && { [ -z "$least" ] || [ "$hundredths" -lt "$least" ]; }; then least=$hundredths; fi
            printf '%5d %-6s %4d.%02d s %6d times  %s\n' "$width" "$breaking" $((hundredths / 100)) $((hundredths % 100)) \
                $((hundredths / (least ? least : 1))) "$(cat "$files/message")"
        done
    done
done
exit "$failed"
