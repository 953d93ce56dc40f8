"""Functions and data that are shared by the tests of buses and servers."""

import subprocess
from pathlib import Path

import can
import pytest

from canbusd._process.program import find_program
from canbusd.bench import Bench
from canbusd.server import Server

PYTHON = Path(__file__).resolve().parents[1]
#: The timeout in seconds for any awaited event. It is long enough for a slow machine.
WAIT = 60
#: A DBC file with two nodes, one of which sends a message every 10 ms.
DBC = """VERSION ""
BU_: Engine ECU
BO_ 256 EngineData: 4 Engine
 SG_ EngineSpeed : 16|16@1+ (0.25,0) [0|16000] "rpm" ECU
BO_ 512 EcuData: 2 ECU
 SG_ Lamp : 0|2@1+ (1,0) [0|2] "" Engine
BA_DEF_ BO_ "GenMsgCycleTime" INT 0 65535;
BA_DEF_DEF_ "GenMsgCycleTime" 0;
BA_ "GenMsgCycleTime" BO_ 256 10;
"""

#: Turns a function into a fixture that runs the test once for every kind of bus. The parameter is a bus class and a bit
#: rate.
on_each_kind = pytest.fixture(
    params=[(Server, 500_000), (Bench, 500_000), (Bench, None)], ids=["server", "bench", "bench without a bit rate"]
)


def writes_live():
    """Returns whether the program can write a record while it runs."""
    words = [find_program(), "serve", "--help"]
    return b"--record" in subprocess.run(words, stdout=subprocess.PIPE, check=True).stdout


needs_live = pytest.mark.skipif(not writes_live(), reason="the program is older than `serve --record`")


def message(identifier, data=b"", extended=False, **more):
    """Returns a python-can message, with an 11-bit identifier by default."""
    return can.Message(arbitration_id=identifier, data=data, is_extended_id=extended, **more)


def shape(received):
    """Returns the fields in which equal messages agree, which do not include the timestamp."""
    kinds = received.is_extended_id, received.is_remote_frame, received.is_error_frame, received.is_fd
    return received.arbitration_id, bytes(received.data), received.dlc, *kinds
