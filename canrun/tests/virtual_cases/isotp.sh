# ISO-TP with CAN_ISOTP: messages of 60 and 4,000 bytes, and a message without a receiver.
. "$CASES/server.sh"
start can0,can1
aside candump -ta can0 >"$OUT/candump"; dump=$!
sleep 0.1
aside "$NODES/isotp" can1 7E8 7E0 receive 2 >"$OUT/received"; receiver=$!
sleep 0.1
inside "$NODES/isotp" can0 7E0 7E8 send 60 >"$OUT/sent"
inside "$NODES/isotp" can0 7E0 7E8 send 4000 >>"$OUT/sent"
wait $receiver
inside "$NODES/isotp" can0 7E0 7E8 send 60 >>"$OUT/sent"
kill $dump
stop
