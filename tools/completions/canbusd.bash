# Completions of canbusd and candump2bench for bash. `scripts/words` writes the lists.
_canbusd() {
    local text=$2 before=$3
    COMPREPLY=()
    # The value of an option follows a blank or `=`, at which bash splits words unless COMP_WORDBREAKS lacks it.
    [ "$before" != = ] || before=${COMP_WORDS[COMP_CWORD - 2]}
    # The number in `--bitrate NAME=` follows `=` too.
    case ${COMP_WORDS[COMP_CWORD - 1]},${COMP_WORDS[COMP_CWORD - 3]} in =,--bitrate | =,--dbitrate) before=--bitrate ;; esac
    case $text in --*=*) before=${text%%=*} ;; esac
    # words: bash commands
    local commands="serve bench audit bits dump send status watch fault restart down up restbus convert extcap sweep report replay"
    # end of words
    case $COMP_CWORD,$before,${COMP_WORDS[1]} in
    # After a redirection comes a file.
    *,*[\<\>]*,*) compopt -o default && return ;;
    1,*) _canbusd_offer "$commands help --help --version" && return ;;
    *,help) _canbusd_offer "$commands" && return ;;
    esac
    # Offers an option's values, the file after a bus, or options: this depends on the command, the option before this
    # word, and the word.
    case ${COMP_WORDS[1]},$before,$text in
    *,*,*@*) _canbusd_files -f default ;;
    # words: bash
    *,--ack,*) _canbusd_offer "always peers" ;;
    *,--txqueue,* | *,--rxqueue,* | *,--limit,* | *,--auto-restart,* | *,--bitrate,* | *,--dbitrate,* | \
    *,--faults,* | *,--sessions,* | *,--pace,* | *,--write,* | *,--flush,*) ;;
    bench,--record,* | *,--log,* | *,--listen,* | *,--pcapng,* | *,--dbc,* | *,--address,*) _canbusd_files -f default ;;
    *,--out,*) _canbusd_files -d dirnames ;;
    serve,--record,*) _canbusd_offer "end live none" ;;
    serve,*,*) _canbusd_offer "--ack --report --txqueue --rxqueue --limit --auto-restart --bitrate --dbitrate --listen --sessions \
        --pace --write --out --record --flush --sync --until-eof --verbose --help" ;;
    bench,*,*) _canbusd_offer "--ack --report --txqueue --rxqueue --limit --auto-restart --bitrate --dbitrate --record --log \
        --strict --show-faults --help" ;;
    audit,*,-*) _canbusd_offer "--bitrate --dbitrate --cut --events --faults --help" ;;
    bits,*,*) _canbusd_offer "--bitrate --dbitrate --help" ;;
    dump,*,*) _canbusd_offer "--pcapng --dbc --address --help" ;;
    extcap,*,*) _canbusd_offer "--install --address --help" ;;
    audit,* | restbus,* | convert,* | sweep,* | report,* | replay,*) compopt -o default ;;
    # end of words
    esac
}

# Offers these words, after a prefix such as `--ack=`.
_canbusd_offer() {
    local front=
    case $text in --*=*) front=${text%%=*}= ;; esac
    mapfile -t COMPREPLY < <(compgen -P "$front" -W "$1" -- "${text#"$front"}")
}

# Offers files (-f) or folders (-d). readline does so itself, except after a prefix such as `can0@` or `--out=`.
_canbusd_files() {
    local rest=${text#*[@=]} place
    local front=${text%"$rest"}
    if [ -z "$front" ]; then
        compopt -o "$2"
        return
    fi
    # The rest of the word without backslashes, as in the names of files.
    mapfile -t COMPREPLY < <(compgen "$1" -- "$(printf '%s' "$rest" | sed 's/\\\(.\)/\1/g')")
    for place in "${!COMPREPLY[@]}"; do
        if [ -d "${COMPREPLY[place]}" ]; then
            compopt -o nospace
            COMPREPLY[place]+=/
        fi
        COMPREPLY[place]=$front$(printf '%q' "${COMPREPLY[place]}")
    done
}
complete -F _canbusd canbusd

# candump2bench: the options in its help, and files.
_canbusd_tool() {
    local text=$2
    COMPREPLY=()
    case $text in
    -*) _canbusd_offer "$("$1" --help 2>/dev/null | grep -oE -- '--[a-z-]+')" ;;
    *) compopt -o default ;;
    esac
}
complete -F _canbusd_tool candump2bench
