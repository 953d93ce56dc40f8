"""A virtual ECU: Linux in QEMU. Its own driver of a CAN card sends and receives on a bus with a tester and with faults.

    CANBUSD_KERNEL=FOLDER python3 -m pytest examples/virtual_ecu

The script `guest` in this folder makes the guest system; its first lines list what it needs. The guest's program is `ecu`.
"""

import os
import shutil
import subprocess
from pathlib import Path

import can
import pytest

from canbusd import Faults, Server

FOLDER = Path(__file__).parent
#: How many seconds a guest without KVM on a busy machine may take to start, and to reply.
START, REPLY = 300, 30


@pytest.fixture(scope="module")
def machine(tmp_path_factory):
    """Returns the command that starts a guest whose CAN card is connected to the interface ecu."""
    if not shutil.which("qemu-system-x86_64"):
        pytest.skip("no qemu-system-x86_64: apt-get install qemu-system-x86")
    initrd = tmp_path_factory.mktemp("guest") / "initrd"
    made = subprocess.run(["sh", FOLDER / "guest", initrd], stderr=subprocess.PIPE, text=True, check=False)
    if made.returncode:
        pytest.skip(made.stderr.strip())
    (kernel,) = Path(os.environ["CANBUSD_KERNEL"], "boot").glob("vmlinuz-*")
    words = "qemu-system-x86_64 -m 256 -nographic -no-reboot -net none".split()
    words += "-object can-bus,id=b -object can-host-socketcan,id=h,if=ecu,canbus=b -device kvaser_pci,canbus=b".split()
    return [*words, "-kernel", kernel, "-initrd", initrd, "-append", "console=ttyS0 quiet no_timer_check"]


@pytest.fixture(scope="module")
def server(machine, tmp_path_factory):
    """Runs a server and starts the guest. Yields the server after the guest's first heartbeat."""
    with Server("ecu,tester", out=tmp_path_factory.mktemp("can")) as running:
        with running.bus("tester") as tester:
            running.start(machine)
            assert tester.recv(timeout=START).arbitration_id == 0x700
        yield running
    assert all(said.startswith("ok ") for said in running.audit().values())


@pytest.fixture
def tester(server):
    """Opens a bus that receives only the replies of the ECU."""
    replies = [{"can_id": 0x200, "can_mask": 0x7FF, "extended": False}]
    with server.bus("tester", can_filters=replies, error_frames=False) as bus:
        yield bus


def ask(tester, value):
    tester.send(can.Message(arbitration_id=0x100, data=[value], is_extended_id=False))


def test_sigterm_where_nobody_acknowledges(machine, tmp_path):
    """The second heartbeat waits for room in the transmit queue for a second, and the virtual machine waits with it."""
    with Server("ecu", ack="peers", txqueue=1, out=tmp_path) as server:
        guest = server.start(machine, wait=True)
        guest.expect("heartbeat 2", within=START)
        assert guest.stop(timeout=REPLY) == 0


def test_a_reply(tester):
    ask(tester, 1)
    assert tester.recv(timeout=REPLY).data == b"\x01"


def test_a_reply_that_is_destroyed_comes_again(server, tester):
    server.inject(Faults().next(3, sender="ecu", id=0x200).destroyed())
    ask(tester, 2)
    assert tester.recv(timeout=REPLY).data == b"\x02"
    assert server.rules_left() == 0


def test_the_tester_goes_bus_off(server, tester):
    server.inject(Faults().next(32, sender="tester").destroyed())
    ask(tester, 3)
    server.expect_state("tester", "off", within=REPLY)
    tester.restart()
    ask(tester, 4)
    assert tester.recv(timeout=REPLY).data == b"\x04"


def test_the_ecu_goes_bus_off(server, tester):
    server.inject(Faults().next(32, sender="ecu").destroyed())
    server.expect_state("ecu", "off", within=REPLY)
    with server.bus("ecu") as ecu:
        ecu.restart()
    ask(tester, 5)
    assert tester.recv(timeout=REPLY).data == b"\x05"
