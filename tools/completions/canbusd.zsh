#compdef canbusd candump2bench
# Completions of canbusd and candump2bench for zsh. `scripts/words` writes the lists.

_canbusd() {
    # candump2bench: the options in its help, and files.
    if [[ $service != canbusd ]]; then
        _gnu_generic
        return
    fi
    local curcontext=$curcontext state line
    typeset -A opt_args
    local -a commands=(
        # words: zsh commands
        'serve:serve buses to clients'
        'bench:run a script of sessions and attempts, the same at each run'
        'audit:check a record'
        'bits:print the bits of a frame on the wire'
        'dump:print frames as they come'
        'send:send frames'
        'status:print the state and the counts of interfaces'
        'watch:show a running server in the browser'
        'fault:give a running bus a rule of faults'
        'restart:bring interfaces back from bus off'
        'down:take interfaces off the bus'
        'up:bring interfaces up'
        'restbus:send the messages of the other nodes of a DBC file'
        'convert:make an ASC, BLF, pcapng or candump log of another'
        'extcap:show the interfaces of a server in Wireshark'
        'sweep:run a command with a fault at each attempt'
        'report:show the run of a record as a page, or as text'
        'replay:replay a record, and list its events'
        # end of words
        'help:show the help of a command'
    )
    _arguments -C '(- *)--help[show the help]' '(- *)--version[show the version]' '1: :->command' '*::argument:->argument'
    [[ $state != command ]] || _describe command commands
    [[ $state == argument ]] || return
    case $line[1] in
    # words: zsh
    serve) _arguments '(- *)--help[show the help]' \
        '--ack=[Frames are acknowledged by a silent node (always), or only by the other interfaces (peers)]:MODE:(always peers)' \
        '--report[Make error message frames of each fault too, not only of changes of state]' \
        '--txqueue=[Frames that an interface keeps to be sent, 1 to 1024]:N:' \
        '--rxqueue=[Frames that a socket keeps to be received, 1 to 65536]:N:' \
        '--limit=[Calls and attempts of the run, 1 to 16777216, of 32 bytes of memory each, 108 with an FD frame]:N:' \
        '--auto-restart=[Restart an interface in the Nth attempt after it went bus off, 1 to 1000000, or never (0)]:N:' \
        '*--bitrate=[Bits a second, 5000 to 1000000: attempts take the time of their bits]:[NAME=]N:' \
        '*--dbitrate=[Bits a second of the data phase of FD frames, to 20000000]:[NAME=]M:' \
        '--listen=[Host and port, or a Unix path that begins with / or .]:ADDR:_files' \
        '--sessions=[Sessions to serve]:N:' \
        '--pace=[Milliseconds after each attempt of a bus without --bitrate, 0 to 60000]:MS:' \
        '--write=[Most bytes of frames in one write to a client, 256 to 65536]:BYTES:' \
        '--out=[Write the log and the record of each bus into DIR]:DIR:_files -/' \
        '--record=[When records are written: at the end, live, or none]:WHEN:(end live none)' \
        '--flush=[Milliseconds that live output may wait, 0 to 60000]:MS:' \
        '--sync[Wait each time until live output is on the disk]' \
        '--until-eof[End the run when standard input ends]' \
        '--verbose[Report each client and each bus off in a line on standard error]' \
        '*:bus:_canbusd_bus' ;;
    bench) _arguments '(- *)--help[show the help]' \
        '--ack=[Frames are acknowledged by a silent node (always), or only by the other interfaces (peers)]:MODE:(always peers)' \
        '--report[Make error message frames of each fault too, not only of changes of state]' \
        '--txqueue=[Frames that an interface keeps to be sent, 1 to 1024]:N:' \
        '--rxqueue=[Frames that a socket keeps to be received, 1 to 65536]:N:' \
        '--limit=[Calls and attempts of the run, 1 to 16777216, of 32 bytes of memory each, 108 with an FD frame]:N:' \
        '--auto-restart=[Restart an interface in the Nth attempt after it went bus off, 1 to 1000000, or never (0)]:N:' \
        '*--bitrate=[Bits a second, 5000 to 1000000: attempts take the time of their bits]:[NAME=]N:' \
        '*--dbitrate=[Bits a second of the data phase of FD frames, to 20000000]:[NAME=]M:' \
        '--record=[Write the record of the run to FILE once the input has ended]:FILE:_files' \
        '--log=[Write the frames of the run to FILE once the input has ended, as candump logs them]:FILE:_files' \
        '--strict[End with status 1 if a message of a session was refused]' \
        '--show-faults[End the lines of attempts with their faults, and the rules that gave them]' \
        '1:bus:_canbusd_bus' ;;
    audit) _arguments '(- *)--help[show the help]' \
        '*--bitrate=[Bits a second, 5000 to 1000000: write how long each attempt is on the wire]:[NAME=]N:' \
        '*--dbitrate=[Bits a second of the data phase of FD frames, to 20000000]:[NAME=]M:' \
        '--cut[Audit a record that is cut off, as far as it reaches]' \
        '--events[Write each legal entry with its effects]' \
        '--faults=[Names and script of faults of the run: write which rule gave each attempt its verdict]:NAMES@FILE:_canbusd_bus' \
        '*:file:_files' ;;
    bits) _arguments '(- *)--help[show the help]' \
        '--bitrate=[Bits a second, 5000 to 1000000: write how long the frame is on the wire]:N:' \
        '--dbitrate=[Bits a second of the data phase of FD frames, to 20000000]:M:' ;;
    dump) _arguments '(- *)--help[show the help]' \
        '--pcapng=[write a capture for Wireshark]:FILE:_files' \
        '--dbc=[names of messages and signals]:FILE:_files' \
        '--address=[HOST:PORT of the server, or its Unix path]:ADDR:_files' ;;
    restbus | convert | sweep | report | replay) _arguments '(- *)--help[show the help]' \
        '*:file:_files' ;;
    extcap) _arguments '(- *)--help[show the help]' \
        '--install[install it for this user]' \
        '--address=[HOST:PORT of the server, or its Unix path]:ADDR:_files' ;;
    help) _arguments '1:command:(serve bench audit bits dump send status watch fault restart down up restbus convert extcap sweep report replay)' ;;
    # end of words
    esac
}

# The names of a bus, and the file with faults after `@`.
_canbusd_bus() {
    if compset -P '*@'; then
        _files
    else
        _message 'names, and @FILE'
    fi
}

_canbusd "$@"
