# Tools of can-utils: cangen, candump with two formats, and canplayer, which replays the log of candump.
. "$CASES/server.sh"
start can0,can1
aside candump -ta any >"$OUT/candump"; all=$!
aside candump -L can1 >"$OUT/logged"; one=$!
sleep 0.1
inside cangen can0 -g 7 -I i -L 8 -D i -n 50
inside cangen can0 -g 3.5 -I i -L i -D i -n 50
sleep 1
kill $all $one
sed s/can1/can0/ <"$OUT/logged" >"$OUT/play"
aside candump -L can1 >"$OUT/replayed"; one=$!
sleep 1
inside canplayer -I "$OUT/play"
sleep 0.1
kill $one
stop
