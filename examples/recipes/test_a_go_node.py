"""A Go node.

Go programs make system calls without the C library, as statically linked programs do. With `static=True` their CAN sockets
are nevertheless those of the server. The node in examples/go answers every frame 0x123.
"""

import shutil
import subprocess
from pathlib import Path

import can
import pytest

GO = shutil.which("go")
SOURCE = Path(__file__).parents[1] / "go" / "node.go"


@pytest.mark.skipif(not GO, reason="no go: apt-get install golang-go")
@pytest.mark.skipif(not SOURCE.exists(), reason="examples/go is not beside the recipes")
@pytest.mark.canbusd("node,tester")
def test_a_go_node(canbusd, tmp_path):
    subprocess.run([GO, "build", "-o", tmp_path / "node", SOURCE], check=True)
    node = canbusd.start([str(tmp_path / "node"), "node"], static=True)
    node.expect("ready")
    with canbusd.bus("tester") as tester:
        for number in range(100):
            tester.send(can.Message(arbitration_id=0x123, data=[number], is_extended_id=False))
            answer = tester.recv(timeout=10)
            assert (answer.arbitration_id, answer.data[0]) == (0x124, number + 1)
