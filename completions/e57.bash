# Completion of e57's words for bash: read it by `source`, or put it as `e57` into a folder that bash-completion reads.

_e57_files() {
    compopt -o filenames 2>/dev/null
    mapfile -t COMPREPLY < <(compgen -d -- "$1"; compgen -f -X '!*.e57' -- "$1"; compgen -f -X '!*.E57' -- "$1")
}

# The options of a command, each with its `=`.
_e57_options() {
    case $1 in
        extract) echo --fields= --from= --count= --decimal= ;;
        repack) echo --chunk= --tight= ;;
        filter) echo --fields= --keep= --every= --from= --count= ;;
    esac
}

# How many words a command that names a file has before its options.
_e57_places() {
    case $1 in
        pages | info | list | check) echo 1 ;;
        blob | extract | repack) echo 2 ;;
        filter) echo 3 ;;
        *) echo 0 ;;
    esac
}

_e57() {
    local word=${COMP_WORDS[COMP_CWORD]} command=${COMP_WORDS[1]} places option
    COMPREPLY=()
    if [ "$COMP_CWORD" -eq 1 ]; then
        mapfile -t COMPREPLY < <(compgen -W 'pages info list check blob extract repack filter trial --help --version' -- "$word")
        return
    fi
    places=$(_e57_places "$command")
    if [ "$COMP_CWORD" -eq 2 ] && [ "$places" -gt 0 ]; then
        _e57_files "$word"
        return
    fi
    if [ "$COMP_CWORD" -eq 3 ]; then
        case $command in
            repack | filter)
                _e57_files "$word"
                return
                ;;
        esac
    fi
    # Not a value: bash takes a word with `=` apart.
    if [ "$COMP_CWORD" -le $((1 + places)) ] || [ "$word" = = ] || [ "${COMP_WORDS[COMP_CWORD - 1]}" = = ]; then
        return
    fi
    for option in $(_e57_options "$command"); do
        case " ${COMP_WORDS[*]:2:COMP_CWORD - 2} " in
            *" ${option%=} "*) [ "$option" = --keep= ] || continue ;;
        esac
        case $option in "$word"*) COMPREPLY+=("$option") ;; esac
    done
    compopt -o nospace 2>/dev/null
}

complete -F _e57 e57
