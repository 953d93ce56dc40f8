#!/usr/bin/env python3
"""Measures how long it takes to send a frame, put it on the bus and receive it: with LocalBus, with LocalBus under python-can, with
python-can's own `virtual`, and with a Bench in this process and in another one. Also measures a dialogue of 20 attempts with a new
bench. Prints microseconds of wall time, the minimum of five rounds; with `--cpu` processor time of this thread."""

import os
import sys
import time
from functools import partial
from pathlib import Path

sys.path.insert(0, str(Path(__file__).resolve().parents[1] / "python" / "src"))

import can

from canbusd import Bench, LocalBus

ROUNDS = 5
CLOCK = time.thread_time if "--cpu" in sys.argv[1:] else time.perf_counter


def least(do, count):
    best = float("inf")
    for _ in range(ROUNDS):
        begin = CLOCK()
        for _ in range(count):
            do()
        best = min(best, (CLOCK() - begin) / count)
    return best * 1e6


def over_bus(bus, sender, receiver):
    sender.send(0x123, b"\x11\x22")
    bus.attempt()
    receiver.receive()


def without_attempt(sender, receiver):
    sender.send(0x123, b"\x11\x22")
    receiver.receive()


def by_python_can(sender, receiver, message):
    sender.send(message)
    receiver.recv(0)


def dialogue():
    with Bench("ecu,tester") as bench:
        ecu, tester = bench.open("ecu"), bench.open("tester")
        for number in range(20):
            tester.send(0x123, bytes([number]))
            bench.attempt()
            ecu.receive()


def show_bench(kind):
    with Bench("can0,can1") as bench:
        show(f"Bench {kind}: send, attempt, receive", 1000, over_bus, bench, bench.open("can0"), bench.open("can1"))
    show(f"Bench {kind}: 20 attempts", 20, dialogue)


def show(what, count, do, *arguments):
    print(f"{what:37} {least(partial(do, *arguments), count):7.2f}")


def main():
    message = can.Message(arbitration_id=0x123, data=[0x11, 0x22], is_extended_id=False)
    local = LocalBus("can0,can1", limit=1 << 24)
    show("LocalBus: send, attempt, receive", 20000, over_bus, local, local.open("can0"), local.open("can1"))
    sent = LocalBus("can0,can1", limit=1 << 24, attempts="sent")
    show("LocalBus(attempts='sent')", 20000, without_attempt, sent.open("can0"), sent.open("can1"))
    ours, virtual = {"interface": "canbusd", "local": sent}, {"interface": "virtual"}
    with can.Bus(channel="can0", **ours) as one, can.Bus(channel="can1", **ours) as other:
        show("the same by python-can", 5000, by_python_can, one, other, message)
    with can.Bus(channel="x", **virtual) as one, can.Bus(channel="x", **virtual) as other:
        show("python-can's virtual", 5000, by_python_can, one, other, message)
    show_bench("inside")
    os.environ["CANBUSD_LIBRARY"] = ""
    show_bench("as a process")


main()
