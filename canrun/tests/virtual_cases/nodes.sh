# C programs: a node that sends every 10 ms, a node that responds 2 ms after each frame, and candump.
. "$CASES/server.sh"
start can0,can1,can2
aside candump -ta can2 >"$OUT/candump"; dump=$!
sleep 0.1
aside "$NODES/respond" can1 100 200 "${FRAMES:-50}"
sleep 0.1
inside "$NODES/cyclic" can0 100 10000 "${FRAMES:-50}"
sleep 0.1
kill $dump
stop
