"""Cyclic supervision.

A supervisor reports a heartbeat that is late. On a bench the test sets the time, so the result depends on nothing else.
"""

from canbusd import Bench, Faults


class Supervisor:
    last = 0.0

    def receive(self, frame):
        if frame.arbitration_id == 0x701:
            self.last = frame.timestamp

    def is_late(self, now):
        return now - self.last > 0.12


def test_a_heartbeat_that_fails_is_noticed():
    with Bench("node,master", faults=Faults().destroyed([2, 3, 4])) as bench:
        node, master = bench.open("node"), bench.open("master", error_frames=False)
        supervisor, late = Supervisor(), []
        for tick in range(7):
            node.send(0x701, b"\x05")
            bench.attempt(at=tick * 0.05)
            for frame in master.receive():
                supervisor.receive(frame)
            late.append(supervisor.is_late(tick * 0.05))
        assert late == [False, False, False, False, True, False, False]
