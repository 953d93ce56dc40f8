"""A run is the same whether it is read by several processes or by one."""

import multiprocessing
import os
import random
import subprocess
import threading

import pytest

from canbusd._process.program import find_program
from canbusd._run import workers
from canbusd._run.events import Events
from canbusd.replay import Replay

ERRORS = ("1FFFFFFF", "140", "88", "0")


def record_of_faults(folder, opens_late):
    """Returns the record of a bench with faults, bus off, automatic restarts and full queues. If `opens_late`, some
    sockets are opened later."""
    rng = random.Random(opens_late)
    lines, script = [], [f"{number} global bit\n" for number in range(60, 130)]
    script += [
        f"{number} {rng.choice(('lastbit', 'local crc can1', 'global form'))}\n" for number in range(200, 900, 3)
    ]
    for turn in range(40):
        for number in range(4):
            if turn == (20 if opens_late and number > 1 else 0):
                lines += [f"session {number + 1}", f"feed {number + 1} < open can{number} >< rawmode >"]
                lines.append(f"feed {number + 1} < errmask {ERRORS[number]} >")
            elif turn and not (opens_late and turn < 20 and number > 1):
                sends = (f"<send {rng.randrange(number, 0x800, 4):X} 1 {rng.randrange(256):X}>" for _ in range(9))
                lines.append(f"feed {number + 1} {''.join(sends)}")
                lines += [f"drain {number + 1}"] * (turn % 3 > 0)
        lines.append(f"run {turn + 1}.000000")
    faults, record = folder / "faults.script", folder / "run.rec"
    faults.write_text("".join(script), encoding="ascii")
    words = ["--report", "--auto-restart", "40", "--txqueue", "16", "--rxqueue", "30", "--bitrate", "1000000"]
    words += ["--record", str(record), f"can0,can1,can2,can3@{faults}"]
    text = "\n".join([*lines, ""]).encode()
    subprocess.run([find_program(), "bench", *words], input=text, stdout=subprocess.DEVNULL, check=True)
    return record.read_bytes()


def texts_of(record, size):
    """Returns the event lines of a record in strings of `size` lines each."""
    with Events() as events:
        lines = "\n".join(events.texts(record)).split("\n")
    return ["\n".join(lines[first : first + size]) for first in range(0, len(lines), size)]


def plain(value):
    """Returns a value as nested lists, so that values can be compared."""
    if isinstance(value, dict):
        return [(plain(key), plain(one)) for key, one in value.items()]
    if isinstance(value, (list, tuple)):
        return [*map(plain, value)]
    return [type(value).__name__, plain(vars(value))] if hasattr(value, "__dict__") else value


def state_of(run):
    """Returns the state of a run, without the objects that read the lines of the run."""
    return plain({name: value for name, value in vars(run).items() if name not in ("_reader", "_waits")})


@pytest.mark.parametrize("opens_late", [False, True])
@pytest.mark.parametrize("size", [1, 7, 1000])
def test_they_read_what_one_does(tmp_path, monkeypatch, size, opens_late):
    record = record_of_faults(tmp_path, opens_late)
    alone, together = Replay(), Replay()
    alone.take_text("\n".join(texts_of(record, size)))
    assert alone.is_whole and alone.lost and alone.steps.changed and any(socket.dropped for socket in alone.sockets)
    monkeypatch.setattr(workers, "FEW", 5)
    monkeypatch.setattr(os, "sched_getaffinity", lambda _: {0, 1, 2, 3})
    workers.take_all(together, texts_of(record, size))
    assert state_of(together) == state_of(alone)
    for child in multiprocessing.active_children():
        child.join(60)
        assert child.exitcode == 0


def test_a_process_with_threads_is_not_forked(tmp_path, monkeypatch):
    monkeypatch.setattr(workers, "FEW", 5)
    monkeypatch.setattr(workers, "Workers", None)
    over = threading.Event()
    thread = threading.Thread(target=over.wait)
    thread.start()
    try:
        run = Replay()
        workers.take_all(run, texts_of(record_of_faults(tmp_path, False), 50))
    finally:
        over.set()
        thread.join()
    assert run.is_whole
