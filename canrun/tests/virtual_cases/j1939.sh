# J1939: an address claim, messages of 8, 30 and 5,000 bytes, and a message without a receiver.
. "$CASES/server.sh"
start can0,can1
inside "$NODES/j1939" can0 80 claim >"$OUT/claimed"
aside "$NODES/j1939" can1 90 receive 3 >"$OUT/received"; receiver=$!
sleep 0.1
for length in 8 30 5000; do
    inside "$NODES/j1939" can0 80 send 90 $length >>"$OUT/sent"
done
wait $receiver
inside "$NODES/j1939" can0 80 send 90 30 >>"$OUT/sent"
stop
