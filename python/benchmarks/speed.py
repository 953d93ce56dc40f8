#!/usr/bin/env python3
"""Compares the interface `canbusd` with python-can's `virtual` interface and its `socketcand` client, in one run.

    CANBUSD=/path/to/canbusd PYTHONPATH=python/src python3 python/benchmarks/speed.py

Round trip: one thread sends a frame and receives a frame back. Latency: half of a round trip, as median and 99th
percentile. Burst: one thread sends frames in parts, and another thread receives them; the next part is sent after the
last frame of a part has arrived. A burst ends at the first loss. The best of several runs counts, and losses are added
up.

To measure the package of another commit with the same program, run `git archive COMMIT python/src | tar x -C DIR` and
set PYTHONPATH=DIR/python/src. To compare two packages, measure them alternately, several times, on an idle machine.
"""

import argparse
import statistics
import threading
import time
from contextlib import contextmanager

import can

from canbusd.server import Server

RUNS = 3
# The sizes of bursts: the largest that python-can's socketcand client handles without loss, and a larger size.
FEW, SOME = 15, 1000


def frame(number):
    return can.Message(arbitration_id=number & 0x7FF, data=number.to_bytes(8, "big"), is_extended_id=False)


@contextmanager
def virtual():
    with can.Bus(interface="virtual", channel="speed") as one, can.Bus(interface="virtual", channel="speed") as other:
        yield one, other


@contextmanager
def serving():
    with Server("can0,can1", pace_ms=0, txqueue=1024, rxqueue=65536, limit=1 << 23) as server:
        yield server


@contextmanager
def socketcand():
    with serving() as server:
        host, port = server.address.split(":")
        where = {"interface": "socketcand", "host": host, "port": int(port)}
        with can.Bus(channel="can0", **where) as one, can.Bus(channel="can1", **where) as other:
            yield one, other


@contextmanager
def canbusd():
    with serving() as server, server.bus("can0") as one, server.bus("can1") as other:
        yield one, other


def round_trips(one, other, count):
    """Makes `count` round trips, and returns the duration of each round trip in seconds."""
    took = []
    for number in range(count):
        begun = time.perf_counter()
        one.send(frame(number))
        other.send(other.recv(10))
        assert one.recv(10) is not None
        took.append(time.perf_counter() - begun)
    return took


def send_each(bus, frames):
    for one in frames:
        bus.send(one)


def send_together(bus, frames):
    bus.send_many(frames)


def burst(one, other, count, part, send):
    """Sends `count` frames in bursts of `part` frames. Returns how many frames were received per second, and how many
    were lost."""
    frames = [frame(number) for number in range(count)]
    got = sent = 0
    arrived = threading.Semaphore(0)

    def receive():
        nonlocal got
        while got < count and other.recv(2) is not None:
            got += 1
            if got % part == 0:
                arrived.release()

    receiver = threading.Thread(target=receive)
    receiver.start()
    begun = time.perf_counter()
    for start in range(0, count, part):
        send(one, frames[start : start + part])
        sent += part
        if not arrived.acquire(timeout=3):
            break
    took = time.perf_counter() - begun
    receiver.join()
    return got / took, sent - got


def measured(interface, count, part, send):
    """Returns the best results of several runs: round trips per second, latencies and frames per second. Also returns
    how many frames were lost in all runs."""
    rows, lost = [], 0
    for _ in range(RUNS):
        with interface() as (one, other):
            took = sorted(round_trips(one, other, count // 10))
            rate, missed = burst(one, other, count // part * part, part, send)
            lost += missed
            half = statistics.median(took) / 2, took[len(took) * 99 // 100] / 2
            rows.append((len(took) / sum(took), *(seconds * 1e6 for seconds in half), rate))
    best = (
        max(row[0] for row in rows),
        min(row[1] for row in rows),
        min(row[2] for row in rows),
        max(row[3] for row in rows),
    )
    return *best, lost


def main():
    parser = argparse.ArgumentParser(description=__doc__, formatter_class=argparse.RawDescriptionHelpFormatter)
    parser.add_argument("--frames", type=int, default=100000, metavar="N", help="frames of a burst (default 100000)")
    count = parser.parse_args().frames
    ways = [
        ("virtual", virtual, count, send_each),
        ("socketcand", socketcand, FEW, send_each),
        ("socketcand", socketcand, SOME, send_each),
        ("canbusd, send", canbusd, FEW, send_each),
        ("canbusd, send", canbusd, count, send_each),
        ("canbusd, send_many", canbusd, FEW, send_together),
        ("canbusd, send_many", canbusd, count, send_together),
    ]
    print("| Interface | Round trips/s | Latency, median / 99% | Frames/s | in parts of | Lost |")
    print("|---|---|---|---|---|---|")
    for name, interface, part, send in ways:
        trips, half, worst, rate, lost = measured(interface, count, part, send)
        print(f"| {name} | {trips:,.0f} | {half:.0f} / {worst:.0f} µs | {rate:,.0f} | {part:,} | {lost} |", flush=True)


if __name__ == "__main__":
    main()
