"""A run of days.

A server that writes its record while it runs can run for days. If the server is killed, the part of the record that it has
written is still usable. Here the server is killed in the middle of a run, and the partial record is read.
"""

import can
from canbusd import Server, read_record


def test_a_run_that_is_cut_off(tmp_path):
    with Server("ecu,tester", record="live", out=tmp_path) as server:
        with server.bus("ecu") as ecu, server.bus("tester") as tester:
            for number in range(100):
                ecu.send(can.Message(arbitration_id=number, is_extended_id=False))
                assert tester.recv(timeout=5).arbitration_id == number
            server.wait_for(lambda: len(server.attempts()) == 100, timeout=5)
            server.kill()
    record = read_record(tmp_path / "ecu.rec.new", names="ecu,tester", cut=True)
    assert [attempt.outcome for attempt in record.attempts] == ["done"] * 100
