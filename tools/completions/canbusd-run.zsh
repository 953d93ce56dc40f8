#compdef canbusd-run
# Completions of canbusd-run for zsh: its options, then a program, and then that program's own completions.
local -a options=(
    # words: zsh run
    '--address=[the server: HOST:PORT, \[V6\]:PORT, or a Unix path that begins with / or .]:ADDR:_files'
    '--interfaces=[the interfaces that PROGRAM finds, which `any` is too]:NAME:'
    '--wait[wait for a server that is not there yet, and in each write for room in a full transmit queue]'
    '--static[for programs that are linked statically or with musl, or of Go, too: another process makes their calls (Linux 5.19 or later)]'
    '--virtual[simulate the clock of PROGRAM and of all that it starts]'
    '--date=[the date at the start: 2026-01-31, 2026-01-31T12:00:00 (UTC), seconds since 1970, or now]:D:'
    '--until=[end PROGRAM after this many seconds of its clock (SIGTERM)]:S:'
    '--stall=[give up, with status 125, if nothing goes on for this many seconds of real time]:S:'
    '--seed=[another order of those that are due at one moment, the same for each N]:N:'
    '--jitter=[each timed wait is longer by up to this many microseconds, which N determines]:MICROS:'
    # end of words
)
_arguments -S $options '(- *)--help[show the help]' '(- *)--version[show the version]' \
    '(-):program: _command_names -e' '*::arguments: _normal'
