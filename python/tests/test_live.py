"""Logs and records that are read while they grow, and servers that write them while they run."""

import os
import signal
import threading

import can
import pytest
from common import WAIT, message, needs_live, shape
from test_record import LIVE, LIVE_RESTARTED

from canbusd._run.live import GrowingFile, LiveLog, LiveRecord, left_by
from canbusd._run.log import read_log
from canbusd.faults import Faults
from canbusd.record import BadRecord, audit, parse_record, read_record
from canbusd.server import Server, ServerError

FRONT = LIVE.splitlines(True)[:2]


def append(path, text):
    with open(path, "a", encoding="ascii") as file:
        file.write(text)


def test_lines_are_taken_once(tmp_path):
    path = tmp_path / "can0.log"
    path.write_text("one\ntw")
    file = GrowingFile(path)
    assert list(file.lines()) == ["one"] and list(file.lines()) == []
    append(path, "o\n\nfour")
    assert list(file.lines()) == ["two", ""]
    # A reader that stopped early returns the remaining lines on the next call.
    append(path, "\nfive\n")
    assert next(file.lines()) == "four"
    assert list(file.lines()) == ["four", "five"]
    # When the disk is full, the writer removes an incomplete line.
    append(path, "to")
    assert list(file.lines()) == []
    os.truncate(path, path.stat().st_size - 2)
    assert list(file.lines()) == []


def test_a_log_that_grows(tmp_path):
    path = tmp_path / "can0.log"
    path.write_text("")
    log = LiveLog(path)
    assert log.messages() == []
    append(path, "(0000000000.000001) can0 123#1122\n(0000000000.0000")
    first = log.messages()
    assert [(one.channel, one.timestamp, shape(one)[:2]) for one in first] == [("can0", 0.000001, (0x123, b"\x11\x22"))]
    append(path, "02) can1 20000080#0000000000000000\nx\n")
    for _ in range(2):
        with pytest.raises(ValueError, match="can0.log: line 3 is no frame: x$"):
            log.messages()
    path.write_text(path.read_text().replace("x\n", "(0000000000.000003) can0 124#\n"))
    assert [one.arbitration_id for one in log.messages()] == [0x123, 0x80, 0x124]
    assert len(first) == 1


@pytest.mark.parametrize(
    "text, size",
    [(LIVE, 1), (LIVE, 50), (LIVE, 1000), (LIVE_RESTARTED, 7), (LIVE_RESTARTED, 50), (LIVE_RESTARTED, 1000)],
    ids=["1-4", "50-4", "1000-4", "7-restarted", "50-restarted", "1000-restarted"],
)
def test_a_record_that_grows(tmp_path, text, size):
    """The record grows by `size` bytes at a time, and is renamed after the last step. Every step starts the program
    twice. The longer record has similar lines, so steps of 7 bytes cut them at every position."""
    growing, path = tmp_path / "can0.rec.new", tmp_path / "can0.rec"
    growing.write_text(text[: text.index("open")])
    live = LiveRecord(path, ["a", "b"])
    assert (live.record().lines, live.attempts(), left_by(path, "live")) == ([], [], growing)
    seen = live.record()
    for first in range(text.index("open"), len(text), size):
        append(growing, text[first : first + size])
        sofar = parse_record(text[: first + size].encode(), names="a,b", cut=True)
        assert live.record() == sofar and live.attempts() == sofar.attempts
    growing.rename(path)
    whole = live.record()
    assert whole == parse_record(text.encode(), names="a,b") and not whole.is_cut
    assert (whole.attempts, left_by(path, "live")) == (live.attempts(), path)
    # A record that was returned earlier is not changed.
    assert seen.lines == [] and seen.is_cut


def test_entries_are_read_and_replayed_once(tmp_path):
    path = tmp_path / "can0.rec"
    path.write_text("".join(LIVE.splitlines(True)[:-1]))
    live = LiveRecord(path, ["a", "b"])
    attempts = live.attempts()
    assert [attempt.outcome for attempt in attempts] == ["done"]
    size = path.stat().st_size
    path.write_text("x" * size + "send 0 124# = number 1\nattempt 0.000003 good = tried 0 1 124# done 0002 0000\n")
    assert [attempt.frame for attempt in live.attempts()] == ["123#01FF", "124#"] and len(attempts) == 1


@pytest.mark.parametrize(
    "text, fault",
    [
        ("", "^bad version"),
        ("canbus record 4\n", "^line 2: bad line"),
        ("".join([*FRONT, "open 0 1 = socket 0\nx\n"]), "^line 4: bad line: `x`"),
        (LIVE + "x\n", "^line 11: bad line"),
    ],
)
def test_a_record_that_is_wrong_is_so_each_time(tmp_path, text, fault):
    path = tmp_path / "can0.rec.new"
    path.write_text(text)
    live = LiveRecord(tmp_path / "can0.rec", ["a", "b"])
    for ask in (live.record, live.attempts, live.record):
        with pytest.raises(BadRecord, match=fault):
            ask()


def test_an_entry_that_is_wrong_is_so_each_time(tmp_path):
    path = tmp_path / "can0.rec.new"
    path.write_text(LIVE.replace("done 0002", "done 0000"))
    live = LiveRecord(tmp_path / "can0.rec", ["a", "b"])
    for ask in (live.attempts, live.record, live.attempts):
        with pytest.raises(BadRecord, match="^entry 4: wrong"):
            ask()


@pytest.mark.parametrize(
    "options, fault",
    [
        ({"record": "always"}, "^record is 'end', 'live' or 'none', not 'always'$"),
        ({"flush": 1}, "^flush and sync are of"),
        ({"sync": True}, "^flush and sync are of"),
        ({"record": "live", "limit": 100}, "^limit= needs record='end'"),
        ({"record": "none", "limit": 1_000_000}, "^limit= needs record='end'"),
        ({"record": "live", "flush": -1}, "^flush is a whole number of milliseconds from 0 to 60000, not -1$"),
        ({"record": "live", "flush": 60_001}, "^flush is"),
        ({"record": "none", "flush": 0.5}, "^flush is"),
    ],
)
def test_options_that_do_not_go_together(options, fault):
    with pytest.raises(ValueError, match=fault):
        Server("can0", **options)


def test_attempts_of_a_record_that_is_written_at_the_end():
    with Server("can0,can1") as server:
        with server.bus("can0") as can0, server.bus("can1") as can1:
            can0.send(message(0x123))
            assert can1.recv(WAIT)
            with pytest.raises(ServerError, match='record="live"'):
                server.attempts()
            # The server is still running.
            can0.send(message(0x124))
            assert can1.recv(WAIT)
        server.stop()
        assert [attempt.frame for attempt in server.attempts("can1")] == ["123#", "124#"]


@needs_live
def test_a_server_is_looked_at_while_it_runs(tmp_path):
    faults = Faults().last_bit(0)
    options = {"record": "live", "flush": 0, "faults": {"ecu": faults}, "out": tmp_path, "observe": ()}
    with Server("ecu,tester", "car0", **options) as server:
        assert (server.record("ecu").lines, server.log("ecu"), server.attempts("tester")) == ([], [], [])
        with server.bus("ecu") as ecu, server.bus("tester") as tester:
            for number in range(100):
                ecu.send(message(0x100 + number))
                for _ in range(1 if number else 2):
                    assert tester.recv(WAIT).arbitration_id == 0x100 + number
                done = server.wait_for(lambda: attempts_of(server, f"{0x100 + number:03X}#", "done"), timeout=WAIT)
                assert [attempt.accepted for attempt in done] == [("tester",)]
        assert [attempt.outcome for attempt in server.attempts("ecu")] == ["lastbit", *["done"] * 100]
        server.wait_for(lambda: len(server.log("ecu")) == 101, timeout=WAIT)
        assert [one.arbitration_id for one in server.log("tester")] == [0x100, *range(0x100, 0x164)]
        # After both sessions have been closed, no further entries are added to the record.
        record = server.wait_for(lambda: closed(server.record("ecu"), 2), timeout=WAIT)
        assert record.is_cut and record.names == ("ecu", "tester") and server.attempts("ecu") == record.attempts
        growing = {f"{name}.{kind}" for name in ("car0", "ecu") for kind in ("log", "rec.new", "rec.faults.new")}
        assert {path.name for path in tmp_path.iterdir()} == {*growing, ".canbusd.lock"}
        assert server.bus("ecu").shutdown() is None
    whole = server.record("ecu")
    assert not whole.is_cut and whole.lines[: len(record.lines)] == record.lines
    assert server.audit() == {"ecu": f"ok {len(whole.lines)} entries", "car0": "ok 0 entries"}
    assert server.stop().entries == {"ecu": len(whole.lines), "car0": 0}
    left = {"car0.log", "car0.rec", "ecu.log", "ecu.rec", "ecu.rec.faults"}
    assert {path.name for path in tmp_path.iterdir()} == left
    assert read_record(tmp_path / "ecu.rec").lines == whole.lines
    assert [shape(one) for one in read_log(tmp_path / "ecu.log")] == [shape(one) for one in server.log("ecu")]


def attempts_of(server, frame, outcome):
    return [one for one in server.attempts("ecu") if (one.frame, one.outcome) == (frame, outcome)]


def closed(record, count):
    """Returns the record if exactly `count` of its sessions are closed, and otherwise None."""
    return record if sum(line.startswith("close ") for line in record.lines) == count else None


@needs_live
@pytest.mark.parametrize("by", ["kill", "crash"])
def test_what_a_killed_server_leaves(tmp_path, by):
    server = Server("can0,can1", record="live", flush=0, out=tmp_path)
    with server.bus("can0") as can0, server.bus("can1") as can1:
        for number in range(20):
            can0.send(message(number))
            assert can1.recv(WAIT).arbitration_id == number
        server.wait_for(lambda: len(server.attempts()) == len(server.log()) == 20, timeout=WAIT)
        if by == "kill":
            assert server.kill().status == -signal.SIGKILL
        else:
            server._signal()
            with pytest.raises(ServerError, match="status -9$"):
                server.stop()
    assert {path.name for path in tmp_path.iterdir()} == {"can0.log", "can0.rec.new", "can0.rec.faults.new"}
    record = server.record()
    assert record.is_cut and [attempt.outcome for attempt in record.attempts] == ["done"] * 20
    assert server.attempts() == record.attempts and len(server.log()) == 20
    assert server.audit() == {"can0": f"ok {len(record.lines)} entries, then cut off"}
    assert read_record(tmp_path / "can0.rec.new", cut=True).lines == record.lines
    assert audit((tmp_path / "can0.rec.new").read_bytes(), cut=True) == server.audit()["can0"]
    page = server.report()
    assert page == tmp_path / "can0.html" and page.read_text(encoding="utf-8").endswith("</html>\n")
    # The next server renames this file and keeps it.
    with Server("can0,can1", record="live", out=tmp_path, observe=()) as server:
        assert server.record().lines == []
    assert "can0.rec.cut" in server.said and read_record(tmp_path / "can0.rec.cut", cut=True).lines == record.lines


@needs_live
def test_a_server_without_a_record():
    with Server("can0,can1", record="none", flush=0) as server:
        with server.bus("can0") as can0, server.bus("can1") as can1:
            can0.send(message(0x123, b"\x11"))
            assert can1.recv(WAIT)
            logged = server.wait_for(server.log, timeout=WAIT)
            assert [(one.channel, one.arbitration_id, bytes(one.data)) for one in logged] == [("can0", 0x123, b"\x11")]
            for ask in (server.record, server.attempts, server.audit, server.report):
                with pytest.raises(ServerError, match='^there is no record: the server has record="none"$'):
                    ask()
            can0.send(message(0x124))
            assert can1.recv(WAIT)
    assert len(server.log()) == 2 and list(server.stop().entries) == ["can0"]


@needs_live
def test_a_failure_shows_the_end_of_the_log():
    with Server("can0,can1", record="live", flush=0) as server:
        with server.bus("can0") as can0, server.bus("can1") as can1:
            for number in range(20):
                can0.send(message(number))
                assert can1.recv(WAIT)
            server.wait_for(lambda: len(server.log()) == 20, timeout=WAIT)
        with pytest.raises(AssertionError) as fault:
            server.expect_state("can0", "off", within=0)
        *_, heading, _, _, _, _, _, _, _, _, _, last = str(fault.value).split("\n")
        assert heading.endswith("can0.log ends, each frame with its sender:") and last.endswith(" can0 013#")
        with pytest.raises(TimeoutError, match="can0 013#$"):
            server.wait_for(lambda: False, timeout=0)


@needs_live
def test_threads_read_the_same():
    with Server("can0,can1", record="live", flush=0) as server:
        with server.bus("can0") as can0, server.bus("can1") as can1:
            seen, ended = [], threading.Event()

            def read():
                while not ended.is_set():
                    seen.append((server.attempts(), server.log()))

            threads = [threading.Thread(target=read) for _ in range(3)]
            for thread in threads:
                thread.start()
            for number in range(200):
                can0.send(can.Message(arbitration_id=number, is_extended_id=False))
                assert can1.recv(WAIT)
            server.wait_for(lambda: len(server.log()) == 200, timeout=WAIT)
            ended.set()
            for thread in threads:
                thread.join(WAIT)
    for attempts, log in seen:
        assert [attempt.number for attempt in attempts] == list(range(len(attempts)))
        assert [one.arbitration_id for one in log] == list(range(len(log)))
