"""A gateway with a race: it loses a request that arrives while it handles another one. Requests arrive every 10 ms, and
handling one takes 9.8 ms. So the loss occurs only with a fault or another schedule."""

import threading
import time

import can
import pytest


class Gateway(can.Listener):
    """Answers every request after 9.8 ms."""

    def __init__(self, bus):
        self.bus, self.is_busy = bus, False

    def work(self, message):
        time.sleep(0.0098)
        self.is_busy = False
        self.bus.send(can.Message(arbitration_id=0x101, data=message.data, is_extended_id=False))

    def on_message_received(self, message):
        if not message.is_error_frame and message.arbitration_id == 0x100 and not self.is_busy:
            self.is_busy = True
            threading.Thread(target=self.work, args=[message], daemon=True).start()


@pytest.mark.canbusd("tester,gateway", bitrate=500_000, auto_restart=128)
@pytest.mark.canbusd_sweep(faults=["destroyed", "twice"])
def test_each_request_is_answered(canbusd):
    with canbusd.bus("tester", error_frames=False) as tester, canbusd.bus("gateway") as bus:
        notifier = can.Notifier(bus, [Gateway(bus)])
        start = time.monotonic()
        for number in range(8):
            time.sleep(max(0, start + number * 0.01 - time.monotonic()))
            tester.send(can.Message(arbitration_id=0x100, data=[number], is_extended_id=False))
        time.sleep(0.05)
        answers = set()
        while (message := tester.recv(0)) is not None:
            answers.add(message.data[0])
        notifier.stop()
        assert answers == {*range(8)}
