# The J1939 cases that a kernel has answered (canrun/tests/kernel), with a bit rate and with queues of the maximum
# length.
. "$CASES/server.sh"
start --txqueue 1024 can0,can1 vcan0
inside "$PROBE" j1939 claims transport notices >"$OUT/answers"
stop
