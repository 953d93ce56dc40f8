# 32 destroyed attempts take the sender bus off. 200 ms later it is restarted by a program, or (KIND=auto) by the
# server.
. "$CASES/server.sh"
printf 'next 32 from can0 id 100 skip 50 global bit\n' >"$OUT/rules"
case $KIND in
auto) start --auto-restart 9091 "can0,can1@$OUT/rules" ;;
*)
    start "can0,can1@$OUT/rules"
    "$PYTHON" "$CASES/bus_off.py" >"$OUT/restarter" 9>&- & restarter=$!
    ;;
esac
aside candump -ta -e "can0,0:0,#FFFFFFFF" >"$OUT/candump"; dump=$!
sleep 0.1
inside "$NODES/cyclic" can0 100 10000 120 >"$OUT/node" 2>&1
sleep 0.1
kill $dump $restarter
stop
