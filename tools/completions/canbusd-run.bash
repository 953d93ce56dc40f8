# Completions of canbusd-run for bash: its options, then a program, and then that program's own completions.
_canbusd_run() {
    local text=$2 before=$3 place
    # words: bash run
    local values='address|interfaces|date|until|stall|seed|jitter'
    local options='--address --interfaces --wait --static --virtual --date --until --stall --seed --jitter'
    # end of words
    COMPREPLY=()
    for ((place = 1; place < COMP_CWORD; place++)); do
        case ${COMP_WORDS[place]} in
        --) ((place += 1)) && break ;;
        -*) [[ ! ${COMP_WORDS[place]} =~ ^--($values)$ ]] || ((place += 1)) ;;
        =) ((place += 1)) ;;
        *) break ;;
        esac
    done
    if [ "$place" -lt "$COMP_CWORD" ] && declare -F _command_offset >/dev/null; then
        _command_offset "$place"
    elif [ "$place" -lt "$COMP_CWORD" ]; then
        compopt -o default
    elif [ "$before" = --address ]; then
        compopt -o default
    elif [[ $before =~ ^--($values)$ ]]; then
        :
    elif [ "${text#-}" != "$text" ] && [ "${COMP_WORDS[COMP_CWORD - 1]}" != -- ]; then
        mapfile -t COMPREPLY < <(compgen -W "$options --help --version" -- "$text")
    else
        mapfile -t COMPREPLY < <(compgen -c -- "$text")
    fi
}
complete -F _canbusd_run canbusd-run
