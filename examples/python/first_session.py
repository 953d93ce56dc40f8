#!/usr/bin/env python3
"""A first session with python-can.  In one window run

    ./canbusd serve can0,can1

and in another

    PYTHONPATH=python/src python3 examples/python/first_session.py [ADDRESS]

If the package is installed, can.Bus(interface="canbusd", channel="can0") does the same.
"""

import sys

import can
from canbusd import CanbusdBus


def main():
    address = sys.argv[1] if len(sys.argv) > 1 else None
    with CanbusdBus("can0", address=address) as can0, CanbusdBus("can1", address=address) as can1:
        can0.send(can.Message(arbitration_id=0x123, data=[0x11, 0x22, 0x33, 0x44], is_extended_id=False))
        print(can1.recv(timeout=5))
        can1.send(can.Message(arbitration_id=0x123, data=[1, 2], is_extended_id=True))
        print(can0.recv(timeout=5))


if __name__ == "__main__":
    main()
