# python-can with the interface KIND: threads that send periodically, a Notifier, and receive calls with timeouts.
. "$CASES/server.sh"
start can0,can1
case $KIND in
socketcan) inside "$PYTHON" "$CASES/python_can.py" socketcan can0 can1 "${SECONDS_OF_RUN:-5}" >"$OUT/node" ;;
*) "$PYTHON" "$CASES/python_can.py" canbusd can0 can1 "${SECONDS_OF_RUN:-5}" >"$OUT/node" 9>&- ;;
esac
stop
