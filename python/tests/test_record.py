"""Records have the form that docs/RECORD.md describes, and yield the events of their runs."""

import re
from pathlib import Path

import pytest

from canbusd._process.program import ProgramNotFound
from canbusd._run.events import BLOCK, Events
from canbusd._run.steps import FATES
from canbusd.bench import Bench
from canbusd.frames import Frame
from canbusd.record import Attempt, BadRecord, Item, audit, attempts_of, parse_record, read_record
from canbusd.replay import Replay

ROOT = Path(__file__).parents[2]
# The worked example from docs/RECORD.md.
EXAMPLE = """\
canbus record 1
bus 2 always 0000 10 100
open 0 256 = socket 0
open 1 1 = socket 1
send 0 123#01FF = number 0
attempt 0.000001 good = tried 0 0 123#01FF done 0002 0000
receive 1 = data 0 0 123#01FF 0.000001
receive 1 = none
close 1 = closed 0 0
end 7
"""
# A record in which an interface goes bus off and restarts at the end of the second attempt after that.
RESTARTED = "\n".join(
    [
        "canbus record 2",
        "bus 2 always 0000 10 100 2",
        "open 0 256 = socket 0",
        "option 0 errmask 00000140 = ok",
        "send 0 123# = number 0",
        *(
            f"attempt 0.0000{number:02} global-bit = tried 0 0 123# destroyed 0000 {number // 32:04}"
            for number in range(1, 33)
        ),
        "attempt 0.000033 good = idle",
        "attempt 0.000034 good = idle restarted 0001",
        "receive 0 = error 0 20000040#0000000000000000 0.000032",
        "end 38",
        "",
    ]
)
WITH_FD = """\
canbus record 3
bus 2 always 0000 10 100 0
open 0 256 = socket 0
send 0 123##0 = fd-off
option 0 fd 1 = ok
send 0 123##00102030405060708090A0B0C = number 0
end 4
"""
WITH_FLAGS = WITH_FD.replace("record 3", "record 5").replace("##001", "##101")
# A record that was written during its run. It contains no FD frames, and automatic restart is on.
LIVE = """\
canbus record 4
bus 2 always 0000 10 4294967294 1
open 0 256 = socket 0
open 1 1 = socket 1
option 1 fd 1 = ok
send 0 123#01FF = number 0
attempt 0.000001 good = tried 0 0 123#01FF done 0002 0000
attempt 0.000002 good = idle
receive 1 = data 0 0 123#01FF 0.000001
end 7
"""
LIVE_CLASSIC = EXAMPLE.replace("record 1", "record 4").replace("10 100", "10 16777217 0")
LIVE_RESTARTED = RESTARTED.replace("record 2", "record 4").replace("10 100 2", "10 4294967294 2")
LIVE_WITH_FD = WITH_FD.replace("record 3", "record 4").replace("10 100 0", "10 4294967294 0")


def test_the_example_is_the_one_of_the_documents():
    with open(ROOT / "docs" / "RECORD.md", encoding="utf-8") as page:
        assert "".join(f"    {line}\n" for line in EXAMPLE.splitlines()) in page.read()


@pytest.mark.parametrize(
    "text, said",
    [
        (EXAMPLE, "ok 7 entries"),
        (RESTARTED, "ok 38 entries"),
        (WITH_FD, "ok 4 entries"),
        ("", "bad version"),
        ("canbus record 1\n", "line 2: bad line"),
        (EXAMPLE.replace("record 1", "record 9"), "bad version"),
        (EXAMPLE.replace("\n", "\r\n"), "bad version"),
        (EXAMPLE.replace("bus 2", "bus 17"), "line 2: bad line"),
        (EXAMPLE.replace("bus 2", "bus 02"), "line 2: bad line"),
        (EXAMPLE.replace("open 1 1", "open 16 1"), "line 4: bad line"),
        (EXAMPLE.replace("open 1 1 = socket 1", "open 15 1 = no-interface"), "entry 4: wrong"),
        (EXAMPLE.replace("open 1 1", "open 1 4294967296"), "line 4: bad line"),
        (EXAMPLE.replace("number 0", "number 18446744073709551616"), "line 5: bad line"),
        (EXAMPLE.replace("number 0", "number 18446744073709551615"), "entry 2: wrong"),
        (EXAMPLE.replace("send 0 123#01FF", "send 0 123#01ff"), "line 5: bad line"),
        ("".join(EXAMPLE.splitlines(True)[:5]), "line 6: bad line"),
        (EXAMPLE[:-1], "line 10: bad line"),
        (EXAMPLE.replace("end 7", "end 8"), "line 10: bad line"),
        (EXAMPLE + "x", "line 11: bad line"),
        (EXAMPLE.replace("10 100", "10 6"), "entry 6: wrong"),
        (EXAMPLE.replace("done 0002", "done 0000"), "entry 3: wrong"),
        (RESTARTED.replace("10 100 2", "10 100 0"), "line 2: bad line"),
        (RESTARTED.replace("10 100 2", "10 100 1"), "entry 35: wrong"),
        (RESTARTED.replace(" restarted 0001", ""), "entry 36: wrong"),
        (RESTARTED.replace("restarted 0001", "restarted 0000"), "line 39: bad line"),
        (WITH_FD.replace("123##0 = fd-off", "123# = fd-off"), "line 4: bad line"),
        (WITH_FD.replace("0A0B0C", "0A0B"), "line 6: bad line"),
        (WITH_FD.replace("record 3", "record 2").replace("100 0", "100 7"), "line 4: bad line"),
        (EXAMPLE.replace("record 1", "record 3").replace("10 100", "10 100 0"), "bad version"),
        (LIVE, "ok 7 entries"),
        (LIVE_CLASSIC, "ok 7 entries"),
        (LIVE_RESTARTED, "ok 38 entries"),
        (LIVE_WITH_FD, "ok 4 entries"),
        ("canbus record 4\n", "line 2: bad line"),
        ("canbus record 4\nbus 16 peers FFFF 1024 16777217 1000000\nend 0\n", "ok 0 entries"),
        (LIVE.replace("4294967294", "4294967295"), "line 2: bad line"),
        (LIVE.replace("4294967294", "16777216"), "line 2: bad line"),
        (LIVE.replace("4294967294 1", "4294967294"), "line 2: bad line"),
        (LIVE.replace("4294967294 1", "4294967294 1000001"), "line 2: bad line"),
        (LIVE.replace("4294967294", "04294967294"), "line 2: bad line"),
        (LIVE.replace("record 4", "record 7"), "bad version"),
        (LIVE.replace("record 4", "record 5"), "line 2: bad line"),
        (WITH_FLAGS, "ok 4 entries"),
        (WITH_FLAGS.replace("record 5", "record 4").replace("10 100 0", "10 4294967294 0"), "ok 4 entries"),
        (WITH_FLAGS.replace("record 5", "record 3"), "line 6: bad line"),
        (WITH_FLAGS.replace("##1", "##4"), "line 6: bad line"),
        (WITH_FLAGS.replace("##1", "##0"), "bad version"),
        (WITH_FLAGS.replace("fd 1", "fd 0"), "entry 3: wrong"),
        (LIVE.replace("record 4", "record 3"), "line 2: bad line"),
        (LIVE_CLASSIC.replace("record 4", "record 2"), "line 2: bad line"),
        (LIVE_CLASSIC.replace("record 4", "record 1"), "line 2: bad line"),
        (EXAMPLE.replace("10 100", "10 16777217"), "line 2: bad line"),
        (RESTARTED.replace("10 100 2", "10 16777217 2"), "line 2: bad line"),
        (WITH_FD.replace("10 100 0", "10 16777217 0"), "line 2: bad line"),
        (LIVE_RESTARTED.replace(" restarted 0001", ""), "entry 36: wrong"),
        (LIVE_RESTARTED.replace("4294967294 2", "4294967294 0"), "line 39: bad line"),
        (LIVE_WITH_FD.replace("0A0B0C", "0A0B"), "line 6: bad line"),
        (LIVE_WITH_FD.replace("fd-off", "number 0"), "entry 1: wrong"),
        (LIVE[:-1], "line 10: bad line"),
        (LIVE.replace("end 7", "end 6"), "line 10: bad line"),
    ],
)
def test_an_audit_names_the_first_fault(text, said):
    assert audit(text.encode()) == (said if said.startswith("ok ") else f"canbusd: {said}")


def test_bytes_that_are_no_text():
    assert audit(b"canbus record 1\n\xff") == "canbusd: read fault"
    with pytest.raises(BadRecord, match="UTF-8"):
        parse_record(b"\xff")


@pytest.mark.parametrize("text", [EXAMPLE, RESTARTED, WITH_FD, LIVE], ids=["1", "2", "3", "4"])
def test_a_record_cut_anywhere_is_refused(text):
    for end in range(len(text)):
        with pytest.raises(BadRecord) as fault:
            parse_record(text[:end].encode())
        assert re.fullmatch(r"bad version|line \d+: bad line", fault.value.verdict)


def test_attempts_and_items():
    record = parse_record(EXAMPLE.encode(), names="can0,can1")
    assert record.names == ("can0", "can1")
    assert record.attempts == [Attempt(0.000001, "can0", 0, "123#01FF", "done", "good", ("can1",), (), ())]
    assert record.items == [Item("can1", 1, "can0", Frame(0x123, b"\x01\xff"), "taken")]
    assert record.items[0].frame.timestamp == 0.000001


def test_attempts_of_an_automatic_restart():
    attempts = parse_record(RESTARTED.encode(), names=["a", "b"]).attempts
    assert [attempt.outcome for attempt in attempts] == ["destroyed"] * 32 + ["idle"]
    assert (attempts[31].off, attempts[31].fault) == (("a",), "global bit")
    assert (attempts[32].restarted, attempts[32].timestamp) == (("a",), 0.000034)


def test_what_became_of_items():
    with Bench("can0,can1", rxqueue=1) as bench:
        sender, taken, unread, waiting = (bench.open(name) for name in ("can0", "can1", "can1", "can1"))
        for identifier in (1, 2):
            sender.send(identifier)
            bench.attempt()
        taken.receive()
        unread.close()
    fates = [(item.socket, item.frame.arbitration_id, item.fate) for item in bench.record().items]
    assert fates == [
        (1, 1, "taken"), (2, 1, "unread"), (3, 1, "waiting"), (1, 2, "dropped"), (2, 2, "dropped"), (3, 2, "dropped"),
    ]  # fmt: skip


@pytest.mark.parametrize("name", ["can0", "can.0", "..."])
def test_names_of_interfaces(tmp_path, name):
    path, log = tmp_path / f"{name}.rec", tmp_path / f"{name}.log"
    path.write_text(EXAMPLE)
    assert read_record(path).names == ("interface 0", "interface 1")
    log.write_text("(0000000000.000001) body 123#01FF\n")
    assert read_record(path).names == ("body", "interface 1")
    assert read_record(str(path), ["x", "y"]).names == ("x", "y")
    log.write_text("(0000000000.000002) body 123#01FF\n")
    assert read_record(path).names == ("interface 0", "interface 1")
    for names in ("a", "a,b,c", "a,a", "a,", "a,b c"):
        with pytest.raises(BadRecord, match="names"):
            read_record(path, names)


def test_idle_attempts_are_counted():
    with Bench("can0") as bench:
        session = bench.open("can0")
        for idle in (2, 0, 1):
            for _ in range(idle):
                assert bench.attempt() is None
            session.send(0x123)
            bench.attempt()
        bench.attempt()
    run = bench.record().replay
    assert ([step.idle for step in run.steps], run.idle_since, run.idle) == ([2, 0, 1], 1, 4)


def test_steps_are_made_of_columns():
    run = parse_record(RESTARTED.encode()).replay
    assert [step.kind for step in run.steps[30:]] == ["destroyed"] * 2 + ["restart"]
    off, back = run.steps[-2:]
    assert (off.entry, off.moment, off.attempt, off.text, off.verdict, off.off) == (
        34, "0.000032", 31, "123#", "global-bit", (0,),
    )  # fmt: skip
    assert (off.counts, back.counts) == (((256, 0), (0, 32)), ((0, 0), (0, 32)))
    assert [(number, frame.text) for number, frame in off.contenders] == [(0, "123#")]
    assert (back.entry, back.attempt, back.idle, back.text, back.contenders) == (36, 32, 2, "", [])
    # The restart has the index of the next attempt, which did not take place.
    assert list(map(run.steps.place_of, [0, 31, 32, None])) == [0, 31, None, None]


def test_times_on_the_wire_are_columns():
    """An attempt has times on the wire if the line in the record has them. A restart at the end of an attempt has none,
    and if no times were requested, no step has any."""
    lines = [
        "canbus events 1",
        "bus 2 always 0000 10 100 2",
        "open 0 256 = socket 0",
        "send 0 123#01FF = number 0",
        "send 0 123#01FF = number 1",
        "attempt 0.000001 good = tried 0 0 123#01FF done 0002 0000; wire 120000 126000 60 0",
        "attempt 0.000002 global-bit = tried 0 1 123#01FF destroyed 0000 0000 restarted 0002"
        "; counts 0 8 0; counts 1 0 0; wire 120001 200000 61 7",
        "end 5",
    ]
    run = Replay()
    run.take(lines)
    steps = run.steps
    assert [step.kind for step in steps] == ["done", "destroyed", "restart"]
    assert [*steps.frame_nanos] == [120000, 120001, 0] and [*steps.busy_nanos] == [126000, 200000, 0]
    assert [*steps.nominal_bits] == [60, 61, 0] and [*steps.fast_bits] == [0, 7, 0]
    without = parse_record(RESTARTED.encode()).replay.steps
    assert [*without.busy_nanos] == [*without.fast_bits] == [0] * len(without)


def test_pages_of_a_run_do_not_depend_on_how_it_is_read():
    """The strings of a run have the same indices, however many lines are read at once."""
    lines = [
        "canbus events 1",
        "bus 2 always 0003 10 100",
        "open 0 256 = socket 0",
        "option 0 errmask 000000FF = ok",
        "open 1 256 = socket 1",
        "send 0 123# = number 0",
        "send 1 124# = number 0",
        "attempt 0.000001 global-bit = tried 0 0 123# destroyed 0000 0000"
        "; counts 0 8 0; counts 1 0 1; put 0:20000088#0000010000000000",
        "attempt 0.000002 good = tried 0 0 123# done 0002 0000; counts 0 7 0; counts 1 0 0; put 1",
        "end 7",
    ]
    whole, parts = Replay(), Replay()
    whole.take(lines)
    for line in lines:
        parts.take([line])
    # The frame 124# only waits, so the table of strings does not contain it.
    texts = ["", "123#", "20000088#0000010000000000"]
    assert whole.texts.all == parts.texts.all == texts and whole.items.errors == parts.items.errors


def test_fates_as_a_run_goes_on():
    """An item waits until it is received or its socket is closed, even if there are no further attempts."""
    run = Replay()
    run.take(["canbus events 1", "bus 2 always 0000 10 100", "open 0 5 = socket 0", "open 1 1 = socket 1"])
    for number in range(3):
        run.take([f"send 0 123#{number:02} = number {number}"])
    step = "attempt 0.00000{0} good = tried 0 {0} 123#0{0} done 0002 0000; {1}".format
    run.take([step(0, "put 1"), step(1, "dropped 1:1")])
    assert fates_of(run) == [("waiting", 0), ("dropped", 0)]
    run.take(["receive 1 = data 0 0 123#00 0.000000", "receive 1 = none"])
    assert fates_of(run) == [("taken", 2), ("dropped", 0)]
    run.take([step(2, "put 1"), "close 1 = closed 1 1"])
    assert fates_of(run) == [("taken", 2), ("dropped", 0), ("unread", 3)]


def fates_of(run):
    """Returns the outcome of each item, and the number of steps before that outcome."""
    return [(FATES[fate], end) for fate, end in zip(run.items.fates(), run.items.ends())]


def test_who_took_part():
    with Bench("can0,can1,can2") as bench:
        for name, identifier in (("can0", 0x125), ("can1", 0x123), ("can2", 0x124)):
            bench.open(name).send(identifier)
        for _ in range(3):
            bench.attempt()
        steps = bench.record().replay.steps
    met = [[(number, frame.text) for number, frame in step.contenders] for step in steps]
    assert met == [
        [(0, "125#"), (1, "123#"), (2, "124#")],
        [(0, "125#"), (2, "124#")],
        [(0, "125#")],
    ]
    assert [step.waiting for step in steps] == [(1, 1, 1), (1, 0, 1), (1, 0, 0)]


@pytest.mark.parametrize("size", [1, 7, 100])
def test_events_that_are_read_in_parts(monkeypatch, size):
    whole = parse_record(RESTARTED.encode())
    monkeypatch.setattr("canbusd._run.events.BLOCK", size)
    record = parse_record(RESTARTED.encode())
    assert record == whole and (record.attempts, record.items) == (whole.attempts, whole.items)
    # A byte that can't occur in a record is reported before lines that are wrong.
    with pytest.raises(BadRecord) as fault:
        parse_record(RESTARTED.replace("open 0", "open 16").encode() + b"\xff\n")
    assert fault.value.verdict == "read fault"


def test_why_a_record_is_refused():
    """The reason is the program's error message, on one line."""
    for text, words in (
        (
            EXAMPLE.replace("123#01FF done", "123#01FF lastbit"),
            r"entry 3: wrong: `attempt .* lastbit .*`; legal is: .* done .*",
        ),
        (EXAMPLE.replace("10 100", "10 6"), "entry 6: wrong: `close 1 = .*`; line 2 allows at most 6 entries"),
        (EXAMPLE.replace("open 1 1", "open 1 1 1"), "line 4: bad line: `open 1 1 1 = .*`; a line is .*"),
        (EXAMPLE[:-6], "line 10: bad line: .*the text ends here.*"),
        ("x" * 300000, "bad version: `x+ ?..`; the first line of a record is canbus record 1 or 2, .*"),
    ):
        with pytest.raises(BadRecord, match=f"^{words}$"):
            parse_record(text.encode())


def test_a_program_that_is_another(monkeypatch, tmp_path):
    """None of these programs fits: one is too old, one is killed, and one writes another version of events."""
    program = tmp_path / "canbusd"
    monkeypatch.setenv("CANBUSD", str(program))
    for script, words in (
        (
            "echo \"error: unexpected argument '--events' found\" >&2; exit 2",
            "canbusd does not fit this package: error: .*",
        ),
        ("kill -9 $$", "canbusd does not fit this package: status -9"),
        ("echo canbus events 2", "which reads `canbus events 1`, not `canbus events 2`"),
    ):
        program.write_text(f"#!/bin/sh\n{script}\n")
        program.chmod(0o755)
        with pytest.raises(ProgramNotFound, match=words):
            parse_record(EXAMPLE.encode())


@pytest.mark.parametrize("text", [EXAMPLE, WITH_FD, LIVE], ids=["1", "3", "4"])
def test_a_record_that_is_cut_off(tmp_path, text):
    path = tmp_path / "can0.rec"
    whole = text.encode()
    lines = whole.splitlines(True)
    for place in range(len(whole)):
        path.write_bytes(whole[:place])
        with pytest.raises(BadRecord):
            read_record(path)
        count = whole[:place].count(b"\n") - 2
        if count < 0:
            with pytest.raises(BadRecord, match="record|line 2"):
                read_record(path, cut=True)
            continue
        record = read_record(path, cut=True)
        assert record.is_cut and record.lines == [line.decode()[:-1] for line in lines[2 : 2 + count]]
        assert audit(whole[:place], cut=True) == f"ok {count} entries, then cut off"
        assert len(record.attempts) == sum(" = tried " in line or " restarted " in line for line in record.lines)
    path.write_bytes(whole)
    assert not read_record(path, cut=True).is_cut and read_record(path, cut=True) == read_record(path)
    assert audit(whole, cut=True) == audit(whole) == f"ok {len(lines) - 3} entries"
    assert audit(b"".join(lines[:5]) + b"\xff", cut=True) == "ok 3 entries, then cut off"
    assert audit(whole + b"x", cut=True) == f"canbusd: line {len(lines) + 1}: bad line"
    assert audit(whole + lines[-1], cut=True) == f"canbusd: line {len(lines) + 1}: bad line"


def test_faults_of_a_record_that_is_cut_off():
    cut = EXAMPLE.encode()[:-3]
    for text in (cut, cut.replace(b"record 1", b"record 4").replace(b"10 100", b"10 4294967294 0")):
        assert audit(text, cut=True) == "ok 7 entries, then cut off"
        assert audit(text.replace(b"done 0002", b"done 0000"), cut=True) == "canbusd: entry 3: wrong"
        assert audit(text.replace(b"123#01FF", b"123#01ff"), cut=True) == "canbusd: line 5: bad line"
        assert audit(text.replace(b"socket 0", b"socket \xff"), cut=True) == "canbusd: read fault"
    # The audit accepts version 3 without an FD frame if the record is cut off, because an FD frame could have followed.
    # Version 4 is never required.
    for version, limit in ((3, 100), (4, 16777217)):
        text = f"canbus record {version}\nbus 1 always 0000 10 {limit} 0\nopen 0 1 = socket 0\n"
        assert audit(text.encode(), cut=True) == "ok 1 entries, then cut off"
        assert audit(f"{text}end 1\n".encode()) == ("canbusd: bad version" if version == 3 else "ok 1 entries")


@pytest.mark.parametrize("name", ["can0", "..."])
@pytest.mark.parametrize("ending", ["new", "cut"])
def test_names_in_the_log_of_a_run_that_was_killed(tmp_path, ending, name):
    path, log = tmp_path / f"{name}.rec.{ending}", tmp_path / f"{name}.log"
    path.write_text(LIVE[: LIVE.index("receive")])
    log.write_text("(0000000000.000001) body 123#01FF\n(0000000000.000002) bo")
    assert read_record(path, cut=True).names == ("body", "interface 1")
    log.write_text("(0000000000.000001) bo")
    assert read_record(path, cut=True).names == ("interface 0", "interface 1")


@pytest.mark.parametrize("text", [EXAMPLE, LIVE, LIVE_RESTARTED, LIVE_WITH_FD], ids=["1", "4", "restarted", "fd"])
@pytest.mark.parametrize("many", [1, 2])
def test_a_text_that_is_read_as_it_grows(text, many):
    """A record that is read one or two lines at a time yields the same result as one that is read at once."""
    lines, run, attempts = text.encode().splitlines(True), Replay(), []
    with Events(cut=True) as events:
        for first in range(0, len(lines), many):
            steps, is_last = len(run.steps), first + many >= len(lines)
            for found in events.texts(b"".join(lines[first : first + many]), is_last):
                run.take_text(found)
            attempts += attempts_of(run, ("a", "b"), steps)
            assert run.is_whole == is_last and run.entries == min(max(first + many - 2, 0), len(lines) - 3)
    assert attempts == parse_record(text.encode(), names="a,b").attempts


def test_a_text_that_is_larger_than_a_pipe():
    """The events are read while the record is being written to the program, whether at once or in two halves."""
    count = BLOCK // 16
    front, lines = "canbus record 1\nbus 1 always 0000 10 16777216\n", "open 0 0 = bad-capacity\n" * count
    assert len(parse_record(f"{front}{lines}end {count}\n".encode()).lines) == count
    run = Replay()
    with Events(cut=True) as events:
        for text in (front + lines, lines):
            for found in events.texts(text.encode(), is_last=False):
                run.take_text(found)
    assert run.entries == 2 * count


# Sockets 1 and 2 have room for one item each. Only socket 1 receives error message frames.
DROPPED = """\
canbus record 1
bus 2 always 0003 10 100
open 0 256 = socket 0
open 1 1 = socket 1
open 1 1 = socket 2
option 1 errmask 00000088 = ok
send 0 123# = number 0
send 0 124# = number 1
send 0 125# = number 2
attempt 0.000001 good = tried 0 0 123# done 0002 0000
attempt 0.000002 good = tried 0 1 124# done 0002 0000
attempt 0.000003 global-bit = tried 0 2 125# destroyed 0000 0000
attempt 0.000004 good = tried 0 2 125# done 0002 0000
end 11
"""


def test_items_that_found_no_room():
    """The frame of a dropped item is known if the item can't be an error message frame. This is so if there was no
    fault, or if the socket does not receive error message frames."""
    items = [(item.socket, item.frame and str(item.frame), item.fate) for item in parse_record(DROPPED.encode()).items]
    assert items == [
        (1, "123#", "waiting"), (2, "123#", "waiting"), (1, "124#", "dropped"), (2, "124#", "dropped"),
        (1, None, "dropped"), (1, None, "dropped"), (2, "125#", "dropped"),
    ]  # fmt: skip
