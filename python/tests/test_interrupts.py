"""Exceptions from signal handlers, such as those for Ctrl-C and pytest-timeout, at any time during a call: afterwards
the bus still works and can be shut down."""

import os
import subprocess
import sys
from pathlib import Path

import pytest
from common import WAIT

import canbusd
from canbusd.server import Server

# A program in which a timer repeatedly interrupts a client. After every interrupt the bus must still match answers to
# calls, and at the end it must shut down. The last output line is the number of interrupted calls.
CLIENT = """
import faulthandler, random, signal, sys, threading, time
import can
from canbusd.bus import CanbusdBus

class Interrupt(Exception):
    pass

def interrupt(*_):
    raise Interrupt

def reads_on(bus):
    try:
        while True:
            bus.recv()
    except can.CanOperationError:
        pass

faulthandler.dump_traceback_later(200, exit=True)
signal.signal(signal.SIGALRM, interrupt)
_, address, call, reader = sys.argv
rng = random.Random(1)
frame = can.Message(arbitration_id=0x123, data=[1, 2], is_extended_id=False)
calls = {
    "send": lambda bus: bus.send(frame, timeout=10),
    "recv": lambda bus: bus.recv(0.0001),
    "send_many": lambda bus: bus.send_many([frame] * 20),
}
threads = []
for _ in range(20):
    bus = CanbusdBus("can0", address=address, receive_own_messages=True)
    if reader == "read by another thread":
        threads.append(threading.Thread(target=reads_on, args=(bus,), daemon=True))
        threads[-1].start()
    for _ in range(25):
        try:
            signal.setitimer(signal.ITIMER_REAL, rng.uniform(1e-5, 1e-3))
            while True:
                calls[call](bus)
        except Interrupt:
            pass
        assert bus.error_counters() == ("active", 0, 0)
        before = bus.stats().sent
        bus.send(frame, timeout=10)
        assert bus.stats().sent == before + 1
    try:
        signal.setitimer(signal.ITIMER_REAL, rng.uniform(1e-5, 1e-3))
        bus.shutdown()
        while True:
            time.sleep(0.001)
    except Interrupt:
        bus.shutdown()
for thread in threads:
    thread.join(60)
    assert not thread.is_alive()
print("in step")
"""


@pytest.mark.parametrize("reader", ["read by nobody else", "read by another thread"])
@pytest.mark.parametrize("call", ["send", "recv", "send_many"])
def test_an_interrupt_leaves_the_bus_in_step(call, reader):
    environment = {**os.environ, "PYTHONPATH": str(Path(canbusd.__file__).parents[1]), "PYTHONWARNINGS": "ignore"}
    with Server("can0,can1", pace_ms=0, txqueue=64) as server:
        words = [sys.executable, "-c", CLIENT, server.address, call, reader]
        done = subprocess.run(words, env=environment, capture_output=True, text=True, timeout=240, check=False)
    assert (done.returncode, done.stdout, done.stderr) == (0, "in step\n", "")


# A program that is interrupted by Ctrl-C while it removes the folder of an unused run. A background job of a shell
# would ignore the signal.
FINALIZED = """
import os, shutil, signal, time
from canbusd import Bench

signal.signal(signal.SIGINT, signal.default_int_handler)
remove = shutil.rmtree

def interrupted(*words, **more):
    shutil.rmtree = remove
    os.kill(os.getpid(), signal.SIGINT)

shutil.rmtree = interrupted
bench = Bench("can0")
bench.stop()
folder = bench._folder
try:
    del bench
    for _ in range(2000):
        time.sleep(0.01)
except KeyboardInterrupt:
    print("interrupted")
assert not os.path.exists(folder)
"""


def test_an_interrupt_of_a_finalizer_is_not_lost():
    environment = {**os.environ, "PYTHONPATH": str(Path(canbusd.__file__).parents[1])}
    words = [sys.executable, "-c", FINALIZED]
    done = subprocess.run(words, env=environment, capture_output=True, text=True, timeout=WAIT, check=False)
    assert (done.returncode, done.stdout, done.stderr) == (0, "interrupted\n", "")
