"""An unchanged C program for SocketCAN, on a bus that destroys its frames until it is bus off.

    python3 -m pytest examples/c

`canbusd.run` starts the program with canbusd-run, which connects its CAN sockets to the test's server.
"""

import subprocess
from pathlib import Path

import pytest

from canbusd import Faults


@pytest.fixture
def heartbeat(tmp_path):
    """Builds the program with gcc, and returns its path."""
    program = tmp_path / "heartbeat"
    source = Path(__file__).with_name("heartbeat.c")
    subprocess.run(["gcc", "-Wall", "-Wextra", "-Werror", "-o", program, source], check=True)
    return str(program)


# Attempts 0 and 1 send two heartbeats. The third heartbeat is destroyed 32 times, which raises the error counter to
# 256: bus off. The controller restarts after 50 more attempts; the bus makes one attempt each millisecond.
@pytest.mark.canbusd("node,tester", faults=Faults().destroyed(range(2, 34)), auto_restart=50)
def test_a_node_that_goes_bus_off(canbusd, heartbeat):
    with canbusd.bus("tester") as tester:
        done = canbusd.run([heartbeat, "node"], check=True, capture_output=True, text=True, timeout=30)
        assert done.stdout == "bus off\nrestarted\n"
        numbers = [tester.recv(timeout=5).data[0] for _ in range(5)]
        assert numbers == [0, 1, 0, 1, 2]
