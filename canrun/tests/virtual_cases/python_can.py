"""python_can.py INTERFACE A B SECONDS: a Notifier, periodic senders, and receive calls with a timeout. Prints each
event with its time."""

import sys
import time

import can

interface, one_name, two_name, seconds = sys.argv[1], sys.argv[2], sys.argv[3], float(sys.argv[4])
start = time.time()
counts = {}


def say(*words):
    print(f"{time.time() - start:.6f}", *words, flush=True)


def message(identifier, *data):
    return can.Message(arbitration_id=identifier, data=data, is_extended_id=False)


def seen(received):
    number = counts[received.arbitration_id] = counts.get(received.arbitration_id, 0) + 1
    if number % 20 == 1:
        say("notified", f"{received.arbitration_id:X}", received.data.hex(), f"{received.timestamp - start:.6f}")
    if received.arbitration_id == 0x120 and received.data[0] == 1:
        two.send(message(0x121, 2))


one, two = (can.Bus(interface=interface, channel=name) for name in (one_name, two_name))
notifier = can.Notifier(two, [seen], timeout=0.5)
tasks = [one.send_periodic(message(0x100 + k, k), period) for k, period in enumerate([0.1, 0.25, 0.05])]
turn = 0
while time.time() < start + seconds:
    one.send(message(0x120, turn % 2))
    received = one.recv(timeout=0.3)
    say("received", received and f"{received.arbitration_id:X} {received.timestamp - start:.6f}")
    time.sleep(0.7)
    turn += 1
for task in tasks:
    task.stop()
notifier.stop()
one.shutdown()
two.shutdown()
say(sorted(counts.items()))
