# The broadcast manager: one socket sends cyclically, and another socket has a timeout and a throttle.
. "$CASES/server.sh"
start can0,can1
aside "$NODES/bcm" can1 watch >"$OUT/watched"; watch=$!
sleep 0.1
inside "$NODES/bcm" can0 send >"$OUT/sent"
wait $watch
stop
