# Three cyclic messages. The second frame of the third message has the worst response time. The node with the lowest
# priority starts first.
. "$CASES/server.sh"
start can0,can1,can2
aside "$NODES/cyclic" can2 003 756 "$((5 * ${ROUNDS:-20}))" 5555555555557C; c=$!
sleep 0.01
aside "$NODES/cyclic" can1 002 756 "$((5 * ${ROUNDS:-20}))" 55555555555503; b=$!
sleep 0.01
inside "$NODES/cyclic" can0 001 540 "$((7 * ${ROUNDS:-20}))" 55555555555505
wait $b $c
stop
