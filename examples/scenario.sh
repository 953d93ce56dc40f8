#!/bin/sh
# A scenario for virtual time: a server, candump, and a node that sends a frame every second. The output is the same in
# every run.
#
#     ./canbusd-run --virtual examples/scenario.sh
#
# CANBUSD and CANBUSD_RUN name the programs; by default they are those of this clone. candump and cangen are from can-utils.
set -eu
clone=$(dirname -- "$0")/..
canbusd=${CANBUSD:-$clone/canbusd}
run=${CANBUSD_RUN:-$clone/canbusd-run}
folder=$(mktemp -d)
export CANBUSD_ADDRESS="$folder/socket"

"$canbusd" serve --bitrate 500000 --listen "$CANBUSD_ADDRESS" can0,can1 >/dev/null &
server=$!
sleep 1
"$run" candump -ta can1 &
dump=$!
sleep 1
"$run" cangen -g 1000 -n 10 -I 123 -L 2 -D 1122 can0
sleep 1
kill "$dump" "$server"
wait
rm -r "$folder"
