# shellcheck shell=bash
# Completes the commands of tablelayout, the options of each command, and their values; elsewhere files.

# Prints the options of a command.
_tablelayout_options() {
    case $1 in
    show | lay | narrow | tidy | preview | check) echo --style --break --budget --workers --csv --head --least ;;&
    show | lay | narrow | tidy | preview) echo --solver --align --trim --html ;;&
    show | lay | narrow | tidy | batch | preview) echo --progress ;;&
    show | page) echo --width ;;&
    show)
        echo --table --list --json --markup --delimiter --encoding --rows --columns --records --strict --quiet --verbose
        ;;
    page) echo --from ;;
    textconv) echo --widths ;;
    esac
}

# Prints the words of which one follows an option.
_tablelayout_values() {
    case $1 in
    --style) echo plain compact rule apart frame grid box ;;
    --break) echo words any fit ;;
    --align) echo auto cells ;;
    --solver) echo plain best learn rounds ;;
    esac
}

_tablelayout() {
    local current=${COMP_WORDS[COMP_CWORD]} words option
    COMPREPLY=()
    if [ "$COMP_CWORD" -eq 1 ]; then
        words='show page lessopen textconv lay narrow tidy check batch demo preview install uninstall help'
    elif [[ $current == -* ]]; then
        # An option stands at most once.
        for option in $(_tablelayout_options "${COMP_WORDS[1]}"); do
            [[ " ${COMP_WORDS[*]:2:COMP_CWORD-2} " == *" $option "* ]] || words+=" $option"
        done
    else
        words=$(_tablelayout_values "${COMP_WORDS[COMP_CWORD - 1]}")
    fi
    mapfile -t COMPREPLY < <(compgen -W "${words-}" -- "$current")
}

complete -o bashdefault -o default -F _tablelayout tablelayout
