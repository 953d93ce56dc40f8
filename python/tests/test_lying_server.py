"""The program at the server's address may not be canbusd. None of the control characters that it sends reaches a
terminal."""

import contextlib
import re
import socket
import subprocess
import threading
from pathlib import Path

import pytest
from test_commands import environment

from canbusd._process.program import find_program
from forked import forked

HERE = Path(__file__).parent
WAIT = 60
# 7-bit and 8-bit control characters that change colours, clear the screen, set the title and overwrite text on a
# terminal.
EVIL = "\x1b[31m\x1b[2J\x1b]0;title\x07\x9b31m\x00\x08\x7f\r"
GREETING, OK = "< hi >", "< ok >"
#: The false answers, by the first word of the client's message. `*` stands for any other word.
LIES = {
    "greeting": {"": f"{EVIL} SSH-2.0 {EVIL}\n"},
    "refused": {"": f"< error {EVIL} >"},
    "refused later": {"open": f"< error {EVIL} >"},
    "names": {"interfaces": f"< interfaces can0 {EVIL} >"},
    "other names": {"open": "< error no such interface >", "interfaces": f"< interfaces {EVIL} >"},
    "answers": {
        "status": f"< {EVIL} >",
        "faults": f"< {EVIL} >",
        "fault": f"< error {EVIL} >",
        "send": f"< error {EVIL} >",
    },
    "frames": {"rawmode": f"{OK}< frame 123 1.000000 11 >< frame {EVIL} 1.000000 11 >{EVIL}< error {EVIL} 1.0 >"},
    "more": {"*": f"{OK}< {EVIL} >"},
}
COMMANDS = {
    "dump": ["dump", "-T", "100", "can0"],
    "send": ["send", "can0", "123#11"],
    "status": ["status"],
    "watch": ["watch", "--port", "0"],
    "fault": ["fault", "can0", "next", "1", "lastbit"],
    "faults left": ["fault", "--left", "can0"],
    "restart": ["restart", "can0"],
    "down": ["down", "can0"],
    "up": ["up", "can0"],
    "restbus": ["restbus", str(HERE / "rest.dbc"), "--for", "0.1"],
}


def answer(connection, lies):
    """Sends a greeting, and answers every message until the other side disconnects."""
    connection.settimeout(WAIT)
    with contextlib.suppress(OSError), connection:
        connection.sendall(lies.get("", GREETING).encode("latin-1"))
        rest = ""
        while data := connection.recv(1 << 16):
            *messages, rest = (rest + data.decode()).split(">")
            for message in messages:
                word = message.strip("< ").split(" ")[0]
                usual = {"echo": "< echo >", "interfaces": "< interfaces can0 >", "status": "< status active 0 0 >"}
                usual.update(stats=f"< stats {' '.join('0' * 8)} >", load="< load 0 0 0 0 >", faults="< faults 0 >")
                said = lies.get(word) or (lies.get("*") if word not in usual else None) or usual.get(word, OK)
                connection.sendall(said.encode("latin-1"))


@contextlib.contextmanager
def liar(lies):
    """The address of a server that sends these false answers."""
    with socket.create_server(("127.0.0.1", 0)) as listening:

        def serve():
            with contextlib.suppress(OSError):
                while True:
                    connection, _ = listening.accept()
                    threading.Thread(target=answer, args=(connection, lies), daemon=True).start()

        thread = threading.Thread(target=serve, daemon=True)
        thread.start()
        try:
            yield f"127.0.0.1:{listening.getsockname()[1]}"
        finally:
            listening.shutdown(socket.SHUT_RDWR)
            thread.join(WAIT)


def shown(address, words):
    """Returns the output of a program, including its error output. A program that does not end within 15 seconds is
    terminated."""
    child = subprocess.Popen(
        words, env={**environment(), "CANBUSD_ADDRESS": address}, stdin=subprocess.DEVNULL, stdout=subprocess.PIPE,
        stderr=subprocess.STDOUT,
    )  # fmt: skip
    try:
        return child.communicate(timeout=15)[0].decode("latin-1")
    except subprocess.TimeoutExpired:
        child.terminate()
        return child.communicate(timeout=WAIT)[0].decode("latin-1")


@pytest.mark.parametrize("lie", [*LIES])
@pytest.mark.parametrize("name", [*COMMANDS])
def test_no_control_characters(name, lie):
    with liar(LIES[lie]) as address:
        env = {**environment(), "CANBUSD_ADDRESS": address}
        # A command that does not end by itself within 15 seconds is killed.
        _, written, errors = forked(*COMMANDS[name], env=env, longest=15)
    written += errors
    assert "Traceback" not in written
    assert not re.findall(r"[^\n\t -~]", written), written


@pytest.mark.parametrize("lie", ["greeting", "refused", "names", "other names"])
def test_canbusd_run(lie):
    """canbusd-run's messages end at a NUL, so NULs are removed from the false answers."""
    with liar({word: said.replace("\0", "") for word, said in LIES[lie].items()}) as address:
        written = shown(address, [find_program("canbusd-run"), "--interfaces", "can1", "--", "true"])
    assert written.startswith("canbusd-run: ") and not re.findall(r"[^\n\t -~]", written), written
