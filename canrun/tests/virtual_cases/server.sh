# The cases source this file. It runs a server with a bit rate. The server and the case write their files to the folder
# OUT.
set -e
mkdir "$OUT"
export CANBUSD_ADDRESS="$OUT/socket"

# start OPTION.. BUS.. starts the server. The server's standard input stays open until `stop`.
start() {
    mkfifo "$OUT/stdin"
    "$CANBUSD" serve --until-eof --bitrate 500000 --out "$OUT" --listen "$CANBUSD_ADDRESS" "$@" \
        <"$OUT/stdin" >"$OUT/address" 2>"$OUT/errors" &
    server=$!
    exec 9>"$OUT/stdin"
    sleep 0.1
}

# inside PROGRAM .. runs a program whose CAN sockets belong to the server. aside PROGRAM .. does the same in the
# background.
inside() {
    "$RUN" "$@" 9>&-
}

aside() {
    "$RUN" "$@" 9>&- &
}

stop() {
    sleep 0.1
    exec 9>&-
    wait "$server"
    rm -f "$OUT/stdin" "$CANBUSD_ADDRESS"*
}
