"""An instrument cluster, as an ordinary program for SocketCAN: cluster.c in Python. It has no code for canbusd.

    python3 cluster.py INTERFACE

Every 50 milliseconds the cluster sends its state in message 300. The state contains the engine's speed, which arrives in
message 100. It also contains a lamp, which is on if no engine message has arrived for 250 milliseconds, or if the engine's
counter has not changed for 400 milliseconds. And it contains a warning of ice, which depends on the temperature in page 1
of message 200. The cluster answers requests for its name (22 F1 90) over ISO-TP, with the identifiers 7E0 and 7E8. After
every restart from bus off it counts its frames from 0 again.
"""

import select
import socket
import struct
import sys
import time

ENGINE, COMFORT, STATE = 0x100, 0x200, 0x300
REQUEST, ANSWER = 0x7E0, 0x7E8
# These constants are from linux/can/error.h and raw.h.
BUS_OFF, RESTARTED, ERROR_FILTER = 0x040, 0x100, 2
PERIOD, LOST, STUCK = 0.05, 0.25, 0.4
NAME = b"CLUSTER-000000001"
FRAME = struct.Struct("=IB3x8s")


class Cluster:
    """The state of the cluster, without a bus."""

    def __init__(self, now):
        self.heard = self.counted = now
        self.counter, self.speed, self.alive = -1, 0, 0
        self.is_ice, self.is_on = False, True

    def take(self, identifier, data, now):
        """Takes a frame."""
        if identifier & socket.CAN_ERR_FLAG:
            if identifier & BUS_OFF:
                self.is_on = False
            elif identifier & RESTARTED:
                self.is_on, self.alive = True, 0
        elif identifier == ENGINE:
            self.heard, self.speed = now, data[0] | data[1] << 8
            if data[2] & 15 != self.counter:
                self.counter, self.counted = data[2] & 15, now
        elif identifier == COMFORT and data[0] == 1:
            self.is_ice = data[1] / 2 - 40 <= 3

    def state(self, now):
        """Returns the data of the frame that carries the state."""
        lamp = 1 if now - self.heard > LOST else 2 if now - self.counted > STUCK else 0
        data = bytes([lamp | self.is_ice << 3 | self.alive << 4, self.speed & 255, self.speed >> 8])
        self.alive = (self.alive + 1) & 15
        return data


def answer(request):
    """Returns the answer to a request from a tester."""
    if request == b"\x22\xf1\x90":
        return b"\x62\xf1\x90" + NAME
    return bytes([0x7F, request[0], 0x31])


def main(interface):
    node = socket.socket(socket.PF_CAN, socket.SOCK_RAW, socket.CAN_RAW)
    node.setsockopt(socket.SOL_CAN_RAW, ERROR_FILTER, BUS_OFF | RESTARTED)
    node.bind((interface,))
    tester = socket.socket(socket.PF_CAN, socket.SOCK_DGRAM, socket.CAN_ISOTP)
    tester.bind((interface, REQUEST, ANSWER))
    due = time.monotonic()
    cluster = Cluster(due)
    while True:
        for ready in select.select([node, tester], [], [], max(0.0, due - time.monotonic()))[0]:
            if ready is node:
                identifier, length, data = FRAME.unpack(node.recv(FRAME.size))
                cluster.take(identifier, data[:length], time.monotonic())
            else:
                tester.send(answer(tester.recv(4095)))
        now = time.monotonic()
        if now >= due:
            due += PERIOD
            if cluster.is_on:
                data = cluster.state(now)
                try:
                    node.send(FRAME.pack(STATE, len(data), data))
                except OSError as fault:
                    # If the interface is bus off, or its queue is full, a later send may succeed.
                    print(fault, flush=True)


main(sys.argv[1])
