# Completions of canbusd-run for fish: its options, then a program, and then that program's own completions.
complete -c canbusd-run -x -a "(__fish_complete_subcommand --fcs-skip 1)"
# words: fish run
complete -c canbusd-run -r -F -l address -d 'the server: HOST:PORT, [V6]:PORT, or a Unix path that begins with / or .'
complete -c canbusd-run -x -l interfaces -d 'the interfaces that PROGRAM finds, which `any` is too'
complete -c canbusd-run -f -l wait -d 'wait for a server that is not there yet, and in each write for room in a full transmit queue'
complete -c canbusd-run -f -l static -d 'for programs that are linked statically or with musl, or of Go, too: another process makes their calls (Linux 5.19 or later)'
complete -c canbusd-run -f -l virtual -d 'simulate the clock of PROGRAM and of all that it starts'
complete -c canbusd-run -x -l date -d 'the date at the start: 2026-01-31, 2026-01-31T12:00:00 (UTC), seconds since 1970, or now'
complete -c canbusd-run -x -l until -d 'end PROGRAM after this many seconds of its clock (SIGTERM)'
complete -c canbusd-run -x -l stall -d 'give up, with status 125, if nothing goes on for this many seconds of real time'
complete -c canbusd-run -x -l seed -d 'another order of those that are due at one moment, the same for each N'
complete -c canbusd-run -x -l jitter -d 'each timed wait is longer by up to this many microseconds, which N determines'
# end of words
complete -c canbusd-run -f -l help -d "Show the help"
complete -c canbusd-run -f -l version -d "Show the version"
