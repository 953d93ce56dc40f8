"""Runs as the process of canbusd.isotp.SocketIsoTp under canbusd-run. This program needs only Python.

    isotp_socket.py DESCRIPTOR INTERFACE OPTIONS

OPTIONS are the options of canbusd._isotp.options as JSON.
"""

import errno
import json
import select
import socket
import sys
from typing import Any

MOST_BYTES = 4095
# Options of linux/can/isotp.h, and flags of the first option: extended addresses, padding, a different extended address
# for received frames, and a send that returns only after its last frame.
OPTIONS, FLOW_CONTROL, LINK_LAYER = 1, 2, 5
EXTENDED, PADDING, OTHER_RX, WAIT_DONE = 0x2, 0x4, 0x200, 0x400
# The size in bytes of Linux's structure for an FD frame.
CANFD_MTU = 72


def relay(own: socket.socket, end: socket.socket) -> None:
    """Passes messages between a socket pair and a CAN_ISOTP socket until the other side of the pair is closed."""
    while True:
        ready = select.select([own, end], [], [])[0]
        if end in ready:
            try:
                own.send(b"r" + end.recv(MOST_BYTES))
            except OSError as fault:
                own.send(f"e{fault.errno}".encode())
                if fault.errno == errno.ENODEV:
                    # This error means that the server has ended.
                    return
        if own in ready:
            data = own.recv(MOST_BYTES)
            if not data:
                return
            own.send(f"s{error_of(end, data)}".encode())


def error_of(end: socket.socket, data: bytes) -> int:
    """Sends a message. Returns the errno, or 0 if the message was sent."""
    try:
        end.send(data)
        return end.getsockopt(socket.SOL_SOCKET, socket.SO_ERROR)
    except OSError as fault:
        return fault.errno or errno.EIO


def set_options(end: socket.socket, given: "dict[str, Any]") -> None:
    """Sets the options of a CAN_ISOTP socket."""
    level = socket.SOL_CAN_BASE + socket.CAN_ISOTP
    addresses, padding = given["addresses"], given["padding"]
    flags = WAIT_DONE | (0 if padding is None else PADDING) | (EXTENDED | OTHER_RX if addresses else 0)
    tx_address, rx_address = addresses or (0, 0)
    own = bytes([tx_address, padding or 0, 0, rx_address])
    end.setsockopt(level, OPTIONS, flags.to_bytes(4, sys.byteorder) + bytes(4) + own)
    end.setsockopt(level, FLOW_CONTROL, bytes([given["block_size"], given["stmin"], 0]))
    if given["fd"]:
        end.setsockopt(level, LINK_LAYER, bytes([CANFD_MTU, given["tx_dl"], 0]))


def main() -> None:
    """Opens the socket, reports that it is open, and passes messages."""
    descriptor, channel, options = sys.argv[1:]
    given = json.loads(options)
    own = socket.socket(fileno=int(descriptor))
    end = socket.socket(socket.AF_CAN, socket.SOCK_DGRAM, socket.CAN_ISOTP)
    set_options(end, given)
    flag = socket.CAN_EFF_FLAG if given["tx"] > 0x7FF else 0
    end.bind((channel, given["rx"] | flag, given["tx"] | flag))
    own.send(b"o")
    relay(own, end)


if __name__ == "__main__":
    main()
