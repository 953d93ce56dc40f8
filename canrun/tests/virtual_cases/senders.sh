# Nodes that only send, and a node that does not read for 3 s: queues become full, and bridges lend their sessions.
. "$CASES/server.sh"
start can0,can1,can2
aside candump -ta can2,300:7FF >"$OUT/candump"; dump=$!
aside "$NODES/full" can1 3 >"$OUT/full"; full=$!
aside "$NODES/lent" turns 3000 >"$OUT/sent"; sender=$!
inside "$NODES/cyclic" can0 100 400 8000
wait $full $sender
for word in filter own fork many; do inside "$NODES/lent" $word >>"$OUT/sent"; done
kill $dump
stop
