"""A bench that is used interactively, both as a process and inside this process. The expected results follow from the
rules for the bus (Bosch CAN 2.0, linux/can/error.h)."""

import os
import threading

import can
import pytest

from canbusd._library.bench_inside import is_used
from canbusd._words import MOST_INPUT
from canbusd.bench import Bench, BenchError, Refused
from canbusd.faults import Faults
from canbusd.frames import Frame


@pytest.fixture(autouse=True, params=["process", "inside"])
def kind(request, monkeypatch):
    """Runs every test with both kinds of bench."""
    if request.param == "process":
        monkeypatch.setenv("CANBUSD_LIBRARY", "")
    elif not is_used():
        pytest.skip("no libcanbusd of these sources: scripts/library build")
    return request.param


of_a_process = pytest.mark.parametrize("kind", ["process"], indirect=True)


def pair(**options):
    bench = Bench("can0,can1", **options)
    return bench, bench.open("can0"), bench.open("can1")


def test_a_frame_reaches_the_other_interface():
    bench, sender, receiver = pair()
    with bench:
        sender.send(0x123, bytes.fromhex("11223344"))
        assert receiver.receive() == []
        attempt = bench.attempt(at="23.424242")
        assert (attempt.winner, attempt.number, attempt.frame, attempt.outcome) == ("can0", 0, "123#11223344", "done")
        assert (attempt.accepted, attempt.off, attempt.fault, attempt.timestamp) == (("can1",), (), "good", 23.424242)
        (frame,) = receiver.receive()
        assert (frame, frame.timestamp) == (Frame(0x123, bytes.fromhex("11223344")), 23.424242)
        assert sender.receive() == []
        assert receiver.stats() == (1, 0, 1, 0, 0, 0, 0, 0)
        assert sender.stats() == (0, 0, 0, 1, 1, 0, 0, 0)
        assert bench.attempt() is None


def test_the_last_moment():
    bench, sender, receiver = pair()
    with bench:
        sender.send(0x123)
        assert bench.attempt("9999999999.999999").outcome == "done"
        assert [frame.timestamp for frame in receiver.receive()] == [9999999999.999999]
        for at in ("10000000000.000000", 1e10, -1, "1.5", "now", float("nan")):
            with pytest.raises(ValueError, match="at is"):
                bench.attempt(at)


def test_all_kinds_of_frames():
    frames = [
        Frame(0x7FF, bytes(8)),
        Frame(0x123, is_extended_id=True),
        Frame(0x12345, b"\x01", is_extended_id=True),
        Frame(0x123, is_remote_frame=True),
        Frame(0x123, is_remote_frame=True, dlc=4),
        *(Frame(0x123, bytes(range(length)), is_fd=True) for length in (8, 12, 64)),
    ]
    with Bench(["can0", "can1"]) as bench:
        sender, receiver = bench.open("can0", fd=True), bench.open("can1", fd=True)
        classic = bench.open("can1")
        for frame in frames:
            sender.send(frame)
            assert bench.attempt().outcome == "done"
        assert receiver.receive() == frames
        assert classic.receive() == [frame for frame in frames if not frame.is_fd]


def test_what_send_takes():
    bench, sender, receiver = pair()
    with bench:
        sender.send(0x123, b"\x01")
        sender.send(0x800)
        sender.send(0x123, is_extended_id=True)
        sender.send(0x123, is_remote_frame=True, dlc=3)
        sender.send(can.Message(arbitration_id=0x123, data=[1, 2], is_extended_id=False))
        sender.send(can.Message(arbitration_id=0x123, is_remote_frame=True, dlc=5))
        bench.run()
        texts = [str(frame) for frame in receiver.receive()]
    assert texts == ["123#01", "00000800#", "00000123#", "123#R3", "123#0102", "00000123#R5"]
    with pytest.raises(ValueError, match="^frame .* not '123#01'$"):
        sender.send("123#01")


def test_lost_arbitration():
    """The 29-bit identifier 048C0000 begins with the 11 bits of identifier 123. Its next bit is recessive."""
    with Bench("can0,can1,can2") as bench:
        for name, identifier in (("can0", 0x124), ("can1", 0x123), ("can2", 0x48C0000)):
            bench.open(name).send(identifier)
        assert [attempt.winner for attempt in bench.run()] == ["can1", "can2", "can0"]


def test_a_frame_that_arrives_twice():
    bench, sender, receiver = pair(faults=Faults().last_bit(0))
    with bench:
        other = bench.open("can0")
        sender.send(0x123)
        first, second = bench.attempt(at=0.000001), bench.attempt(at=0.000002)
        assert (first.outcome, first.accepted, first.fault) == ("lastbit", ("can1",), "lastbit")
        assert (second.outcome, second.accepted, second.fault) == ("done", ("can1",), "good")
        assert [frame.timestamp for frame in receiver.receive()] == [0.000001, 0.000002]
        assert [frame.timestamp for frame in other.receive()] == [0.000002]
        assert sender.receive() == []
        assert sender.status() == ("active", 7, 0)


def test_a_missing_acknowledgement():
    with Bench("can0", ack="peers") as bench:
        session = bench.open("can0", error_frames=0x204)
        session.send(0x123)
        attempts = [bench.attempt(at=number / 1e6) for number in range(1, 18)]
        assert {(one.outcome, one.accepted, one.off) for one in attempts} == {("noack", (), ())}
        texts = [str(frame) for frame in session.receive()]
        assert texts == ["20000204#0008000000006000", "20000204#0020000000008000"]
        assert session.status() == ("passive", 128, 0)


def test_bus_off_and_restart():
    bench, sender, _ = pair(faults=Faults().destroyed(range(32)))
    with bench:
        for _ in range(3):
            sender.send(0x123)
        attempts = [bench.attempt(at=number / 1e6) for number in range(1, 33)]
        assert {one.outcome for one in attempts} == {"destroyed"}
        assert [one.off for one in attempts] == [()] * 31 + [("can0",)]
        assert [frame.arbitration_id for frame in sender.receive()] == [0x204, 0x204, 0x40]
        assert sender.status().state == "off"
        with pytest.raises(Refused, match="^bus off$"):
            sender.send(0x123)
        assert bench.attempt() is None
        sender.restart(at=0.00004)
        (frame,) = sender.receive()
        assert (frame.arbitration_id, frame.timestamp, frame.meaning) == (0x100, 0.00004, "restarted")
        assert sender.status() == ("active", 0, 0)
        assert sender.stats() == (4, 0, 4, 3, 0, 0, 3, 0)
        with pytest.raises(Refused, match="^can0: not bus off, but active$"):
            sender.restart()
        sender.send(0x123)
        assert (bench.attempt().number, bench.attempt()) == (3, None)


def test_an_automatic_restart():
    bench, sender, _ = pair(faults=Faults().destroyed(range(32)), auto_restart=3)
    with bench:
        sender.send(0x123)
        assert bench.run()[-1].off == ("can0",)
        # run() stopped after the first idle attempt, so this is the second of the three attempts until the restart.
        assert bench.attempt() is None
        back = bench.attempt()
        assert (back.outcome, back.winner, back.restarted) == ("idle", "", ("can0",))
        assert sender.status() == ("active", 0, 0)


def test_a_fault_that_one_receiver_sees():
    """Once can2 is error passive, it can no longer destroy a frame in which it sees an error."""
    faults = Faults().local("crc", ["can2"], range(200))
    with Bench("can0,can1,can2", faults=faults, ack="peers") as bench:
        sender, other, victim = (bench.open(name, error_frames=False) for name in bench.names)
        for _ in range(4):
            # A destroyed frame is an error for the sender too.
            sender.send(0x100)
            attempts = bench.run()
            assert [attempt.outcome for attempt in attempts] == ["destroyed"] * 32
            sender.restart()
        assert victim.status() == ("passive", 0, 128)
        sender.send(0x100)
        attempt = bench.attempt()
        assert (attempt.outcome, attempt.accepted, attempt.fault) == ("done", ("can1",), "local crc can2")
        assert victim.status() == ("passive", 0, 129)
        assert [str(frame) for frame in other.receive()] == ["100#"]
        assert victim.receive() == []


def test_reported_faults():
    bench, sender, receiver = pair(faults=Faults().destroyed(0), report=True)
    with bench:
        sender.send(0x123)
        bench.attempt()
        assert [str(frame) for frame in sender.receive()] == ["20000088#0000810A00000000"]
        assert [str(frame) for frame in receiver.receive()] == ["20000088#0000040000000000"]


@pytest.mark.parametrize(
    "filters, passing",
    [
        (None, ["123#", "124#", "00000123#", "123#R"]),
        ([{"can_id": 0x123, "can_mask": 0x7FF}], ["123#", "00000123#", "123#R"]),
        ([{"can_id": 0x123, "can_mask": 0x7FF, "extended": False}], ["123#", "123#R"]),
        ([{"can_id": 0x123, "can_mask": 0x7FF, "extended": True}], ["00000123#"]),
        ([{"can_id": 0x20000123, "can_mask": 0x7FF}], ["124#"]),
        ([{"can_id": 0x123, "can_mask": 0xC00007FF}, {"can_id": 0x124, "can_mask": 0xFFFFFFFF}], ["123#", "124#"]),
    ],
)
def test_filters(filters, passing):
    with Bench("can0,can1") as bench:
        sender, receiver = bench.open("can0"), bench.open("can1", filters)
        for text in ("123#", "124#", "00000123#", "123#R"):
            sender.send(Frame.parse(text))
        bench.run()
        assert sorted(map(str, receiver.receive())) == sorted(passing)


def test_options_of_a_session():
    with Bench("can0") as bench:
        quiet = bench.open("can0", local_loopback=False)
        own = bench.open("can0", receive_own_messages=True)
        filters = [{"can_id": 0x20000123, "can_mask": 0x7FF}, {"can_id": 0x20000124, "can_mask": 0x7FF}]
        joined = bench.open("can0", filters, join_filters=True)
        quiet.send(0x100)
        own.send(0x123)
        own.send(0x200)
        bench.run()
        beside = bench.open("can0")
        beside.send(0x7FF)
        bench.run()
        assert [(str(frame), frame.is_rx) for frame in own.receive()] == [
            ("123#", False), ("200#", False), ("7FF#", True)
        ]  # fmt: skip
        assert [(str(frame), frame.is_rx) for frame in quiet.receive()] == [
            ("123#", True), ("200#", True), ("7FF#", True)
        ]  # fmt: skip
        assert [str(frame) for frame in joined.receive()] == ["200#", "7FF#"]
        for wrong in ("all", 1 << 32):
            with pytest.raises(ValueError, match="^error_frames "):
                bench.open("can0", error_frames=wrong)


def test_refusals():
    # The record's four entries are the open and the option of each session. A refused open adds no entry.
    bench, sender, receiver = pair(limit=4)
    with bench:
        with pytest.raises(Refused, match="^no such interface 'can7'; the bench has can0, can1$"):
            bench.open("can7")
        for call in (lambda: bench.open("can1"), receiver.receive):
            with pytest.raises(Refused, match="^record full$"):
                call()
        with pytest.raises(Refused, match="^record full$"):
            sender.send(0x123)


def test_a_full_queue():
    bench, sender, _ = pair(txqueue=1)
    with bench:
        sender.send(0x123)
        with pytest.raises(Refused, match="^no buffers$"):
            sender.send(0x124)
        assert sender.stats().refused == 1
        assert [attempt.frame for attempt in bench.run()] == ["123#"]
        with pytest.raises(Refused, match="^fd frames off$"):
            sender.send(0x123, is_fd=True)


def test_a_receive_queue_that_overflows():
    bench, sender, receiver = pair(rxqueue=1)
    with bench:
        for identifier in (1, 2):
            sender.send(identifier)
            bench.attempt()
        assert [frame.arbitration_id for frame in receiver.receive()] == [1]
        assert receiver.close() == (0, 1)


def test_64_sessions_and_no_more():
    with Bench("can0") as bench:
        sessions = [bench.open("can0") for _ in range(64)]
        with pytest.raises(Refused, match="too many sessions"):
            bench.open("can0")
        sessions[0].send(0x123)
        bench.attempt()
        assert [len(session.receive()) for session in sessions] == [0] + [1] * 63


def test_a_closed_session():
    bench, sender, receiver = pair()
    with bench:
        sender.send(0x123)
        bench.attempt()
        assert receiver.close() == (1, 0)
        for call in (receiver.receive, receiver.status, receiver.close, lambda: receiver.send(1)):
            with pytest.raises(ValueError, match="closed"):
                call()


def test_messages_of_the_protocol():
    bench, sender, _ = pair()
    with bench:
        assert sender.call("recvown 1") == ["ok"]
        with pytest.raises(Refused, match="^unknown command$"):
            sender.call("dance")
        for message in ("ok >< ok", "echo\nattempt", "close"):
            with pytest.raises(ValueError, match="message"):
                sender.call(message)


def test_an_echo_keeps_the_bench_in_step():
    bench, sender, receiver = pair(txqueue=1)
    with bench:
        for echo in ("echo", "  echo  "):
            assert sender.call(echo) == ["echo"]
        sender.send(0x123)
        for _ in range(2):
            with pytest.raises(Refused, match="^no buffers$"):
                sender.send(0x124)
        assert sender.status() == ("active", 0, 0)
        sender.call("echo")
        assert [attempt.frame for attempt in bench.run()] == ["123#"]
        sender.send(0x125)
        assert [attempt.frame for attempt in bench.run()] == ["125#"]
        assert [str(frame) for frame in receiver.receive()] == ["123#", "125#"]


def test_messages_that_are_too_long():
    # A message has at most 1,024 bytes between `<` and `>`.
    bench, sender, _ = pair()
    with bench:
        assert sender.call("echo".ljust(1022)) == ["echo"]
        for length in (1023, 4090, 100_000):
            for message in ("echo".ljust(length), "\xe9" * length):
                with pytest.raises(Refused, match="^message too long$"):
                    sender.call(message)
        with pytest.raises(Refused, match="^no such interface 'x"):
            bench.open("x" * 5000)
        assert sender.status() == ("active", 0, 0)


def test_a_session_is_closed_only_where_the_bus_says_so():
    bench, sender, _ = pair(limit=4)
    with bench:
        for _ in range(2):
            with pytest.raises(Refused, match="^record full$"):
                sender.close()
        assert sender.status() == ("active", 0, 0)


def test_a_bus_as_the_program_is_given_it(tmp_path):
    script = tmp_path / "my script"
    script.write_text("0 lastbit\n")
    with Bench(f"can0,can1@{script}") as bench:
        assert bench.names == ("can0", "can1")
        bench.open("can1").send(0x123)
        assert [(attempt.outcome, attempt.fault) for attempt in bench.run()] == [
            ("lastbit", "lastbit"),
            ("done", "good"),
        ]
    assert bench.audit().startswith("ok ")
    with pytest.raises(ValueError, match="^faults are given twice"):
        Bench(f"can0@{script}", faults=Faults())
    with pytest.raises(FileNotFoundError):
        Bench("can0@no such file")


def test_threads_share_a_bench():
    bench, _, _ = pair(txqueue=1000)
    sessions = [bench.open("can0") for _ in range(8)]
    faults = []

    def work(number):
        try:
            for turn in range(50):
                sessions[number].send(0x100 + number, bytes([turn]))
                assert sessions[number].status() == ("active", 0, 0)
        except Exception as fault:
            faults.append(fault)

    threads = [threading.Thread(target=work, args=(number,)) for number in range(len(sessions))]
    for thread in threads:
        thread.start()
    for thread in threads:
        thread.join(60)
    assert faults == []
    frames = [attempt.frame for attempt in bench.run()]
    assert sorted(frames) == sorted(f"{0x100 + number:03X}#{turn:02X}" for number in range(8) for turn in range(50))
    assert [attempt.frame for attempt in bench.record().attempts] == frames


@of_a_process
def test_an_interrupted_call_ends_the_dialogue_and_keeps_the_run(monkeypatch):
    def interrupt(*_):
        """Acts like Ctrl-C during a wait for the bench. A background job might ignore a real SIGINT."""
        raise KeyboardInterrupt

    bench, sender, receiver = pair()
    sender.send(0x123)
    bench.attempt()
    with monkeypatch.context() as patched:
        patched.setattr("select.select", interrupt)
        with pytest.raises(KeyboardInterrupt):
            sender.send(0x124)
    for call in (receiver.receive, bench.attempt, lambda: bench.open("can0"), receiver.close, sender.restart):
        with pytest.raises(BenchError, match="^a call was interrupted"):
            call()
    assert bench.audit().startswith("ok ")
    assert [attempt.frame for attempt in bench.record().attempts] == ["123#"]


def test_the_end_of_the_input():
    """The program reads at most 16777216 bytes. A line that would exceed this limit is not written, and the run up to
    that line is kept."""
    bench, sender, _ = pair()
    sender.send(0x123)
    assert bench.attempt().outcome == "done"
    comment = "#" + "x" * 4000
    while bench._written + len(comment) + 100 < MOST_INPUT:
        bench._write(comment)
        bench._in_step = True
    with pytest.raises(BenchError, match="^a bench takes 16777216 bytes of input"):
        for _ in range(100):
            sender.status()
    assert bench._written <= MOST_INPUT < bench._written + 100
    with pytest.raises(ValueError, match="ended"):
        sender.status()
    assert bench.audit().startswith("ok ")
    assert [attempt.frame for attempt in bench.record().attempts] == ["123#"]


@pytest.mark.parametrize(
    "words, said",
    [
        ({"names": "can0", "faults": "0 nonsense\n"}, "script line 1: bad line"),
        ({"names": "can0", "faults": Faults().local("crc", "can7", 0)}, "unknown interface"),
    ],
)
def test_a_start_that_fails(words, said):
    with pytest.raises(BenchError, match=said):
        Bench(**words)


@pytest.mark.parametrize(
    "options",
    [{"txqueue": 0}, {"rxqueue": 65537}, {"ack": "nobody"}, {"limit": "many"}, {"faults": 0}, {"out": "/no/such"}],
)
def test_a_wrong_option_is_named(options):
    with pytest.raises(ValueError, match=f"^{next(iter(options))} "):
        Bench("can0", **options)


@pytest.mark.parametrize("names", [[], ["can0", 1], "can0,can0", "", ["can0,can1"], "can:0"])
def test_names_that_are_none_are_named(names):
    with pytest.raises(ValueError, match="^names "):
        Bench(names)


@pytest.mark.parametrize("names", ["can0, can1", " can0,can1", ["can0 ", "can1"]])
def test_spaces_between_names_are_named(names):
    with pytest.raises(ValueError, match="^names .* commas without spaces, 'can0,can1', not '"):
        Bench(names)


@of_a_process
def test_a_bench_that_is_killed():
    bench, sender, _ = pair()
    bench._lines._child.kill()
    with pytest.raises(BenchError):
        for _ in range(1000):
            sender.status()
    with pytest.raises((BenchError, ValueError)):
        bench.attempt()


def test_a_forked_process_does_not_keep_a_bench_from_its_end():
    bench, sender, _ = pair()
    reader, writer = os.pipe()
    child = os.fork()
    if child == 0:
        # The child process lives until the bench has ended.
        os.close(writer)
        os.read(reader, 1)
        os._exit(0)
    try:
        bench.stop()
    finally:
        os.close(writer)
        os.waitpid(child, 0)
        os.close(reader)


@of_a_process
def test_a_bench_that_says_nothing_is_given_up(monkeypatch, tmp_path):
    program = tmp_path / "canbusd"
    program.write_text("#!/bin/sh\necho working >&2\nsleep 1000\n")
    program.chmod(0o755)
    monkeypatch.setenv("CANBUSD", str(program))
    monkeypatch.setattr("canbusd._process.bench_process.TIMEOUT", 0.5)
    with pytest.raises(BenchError, match="said nothing for .* seconds\nworking"):
        Bench("can0")


def test_which_bench_it_is(kind, monkeypatch):
    """A bench uses the library unless CANBUSD_LIBRARY is empty, or only CANBUSD, which names a program, is set."""

    def made():
        with Bench("can0") as bench:
            return type(bench._lines).__name__

    assert made() == {"process": "BenchProcess", "inside": "BenchInside"}[kind]
    monkeypatch.delenv("CANBUSD_LIBRARY")
    assert made() == "BenchProcess"


def test_a_bench_that_has_ended():
    bench, sender, _ = pair()
    bench.stop()
    bench.stop()
    with pytest.raises(ValueError, match="ended"):
        sender.send(0x123)


def test_record_audit_and_log(tmp_path):
    """Replaying the record yields the same results as the program reported during the run."""
    runs = []
    for run in ("one", "two"):
        out = tmp_path / run
        out.mkdir()
        faults = Faults().last_bit(0).destroyed([1, 2]).local("form", "can1", 3)
        bench = Bench("can0,can1", faults=faults, auto_restart=5, out=out)
        with bench:
            sender, receiver = bench.open("can0"), bench.open("can1")
            for number in range(5):
                sender.send(0x100 + number, bytes([number]))
            attempts = bench.run()
            received = receiver.receive()
        record = bench.record()
        assert record.names == ("can0", "can1")
        assert record.attempts == attempts
        taken = [item.frame for item in record.items if item.interface == "can1" and item.fate == "taken"]
        assert taken == received
        assert bench.audit() == f"ok {len(record.lines)} entries"
        # In the log, a failed attempt is an error frame, and a frame that was received twice has two lines.
        logged = [(one.is_error_frame, 0 if one.is_error_frame else one.arbitration_id) for one in bench.log()]
        assert logged == [
            (attempt.outcome == "destroyed", 0 if attempt.outcome == "destroyed" else int(attempt.frame[:3], 16))
            for attempt in attempts
        ]
        assert bench.report() == out / "can0.html" and (out / "can0.html").stat().st_size > 10000
        runs.append([(out / name).read_bytes() for name in ("can0.rec", "can0.log")])
    assert runs[0] == runs[1]


def test_attempts_take_the_time_of_their_bits():
    """000# has 50 bits: 34 zeros, 6 stuff bits and the last 10 bits. 3 bits of intermission follow. If there is no
    acknowledgement, 19 bits follow the CRC."""
    bench, sender, receiver = pair(bitrate=500_000)
    with bench:
        for _ in range(3):
            sender.send(0)
        first = bench.attempt()
        assert (first.timestamp, first.outcome, first.frame) == (0.0001, "done", "000#")
        assert [attempt.timestamp for attempt in bench.run(until=0.000107)] == [0.000206]
        assert bench.run(until="0.000212") == []
        (last,) = bench.run()
        assert last.timestamp == 0.000312
        sender.send(0)
        assert bench.attempt(at=1).timestamp == 1.0001
        assert [frame.timestamp for frame in receiver.receive()] == [0.0001, 0.000206, 0.000312, 1.0001]
        assert [attempt.timestamp for attempt in bench.record().attempts] == [0.0001, 0.000206, 0.000312, 1.0001]


def test_a_bit_rate_for_data():
    """A frame with 64 zero bytes and identifier 123 has 27 bits at 1 Mbit/s and 651 bits at 10 Mbit/s. Without BRS it
    has 678 bits at 1 Mbit/s."""
    with Bench("can0", bitrate=1_000_000, dbitrate=10_000_000) as bench:
        session = bench.open("can0", fd=True)
        session.send(0x123, bytes(64), is_fd=True, bitrate_switch=True)
        session.send(0x123, bytes(64), is_fd=True)
        assert [attempt.timestamp for attempt in bench.run(until=1)] == [0.000092, 0.000773]


def test_the_load_of_a_bench():
    """A frame with identifier 123 and no data has 45 bits and 3 bits of intermission: 9.6 ms at 5 kbit/s."""
    for rates, load in (({}, (0, 0, 0, 0)), ({"bitrate": 5_000}, (0, 9_600, 5_000, 5_000))):
        with Bench("can0", **rates) as bench:
            session = bench.open("can0")
            session.send(0x123)
            bench.run()
            assert session.load() == load


def test_an_answer_of_another_program(monkeypatch):
    with Bench("can0") as bench:
        session = bench.open("can0")
        others = [("load", "load 0 0"), ("status", "status off"), ("stats", "ok"), ("faults", "stats 1")]
        # In these answers, other words replace the numbers or states.
        others += [("faults", "faults x"), ("status", "status off 1 -1"), ("status", "status idle 0 0")]
        for word, answer in others:
            monkeypatch.setattr(session, "call", lambda message: [answer] if message == word else [])
            ask = {"faults": session.rules_left}.get(word) or getattr(session, word)
            with pytest.raises(Refused, match=f"^another version of canbusd answers: {answer.removeprefix('ok')}$"):
                ask()


def test_a_run_to_a_moment_that_is_refused():
    with Bench("can0", bitrate=500_000, limit=4) as bench:
        session = bench.open("can0", error_frames=False)
        session.send(0)
        session.send(0)
        with pytest.raises(Refused, match="record full"):
            bench.run(until=1)
    with Bench("can0") as bench, pytest.raises(ValueError, match="bitrate"):
        bench.run(until=1)
    with Bench("can0", bitrate=500_000) as bench:
        bench.run(until=2)
        with pytest.raises(BenchError, match="the moment set is a later one"):
            bench.run(until=1)


@pytest.mark.parametrize(
    "rates", [{"bitrate": {"can1": 5_000}}, {"bitrate": {None: 5_000}}, {"bitrate": {"can0": 5_000, None: 500_000}}]
)
def test_a_bit_rate_by_an_interface(rates):
    """The frame 123# has 45 bits of 200 microseconds each."""
    with Bench("can0,can1", **rates) as bench:
        bench.open("can0").send(0x123)
        assert bench.attempt().timestamp == 0.009
        assert [one.timestamp for one in bench.record().attempts] == [0.009]


@pytest.mark.parametrize(
    "rates",
    [
        {"bitrate": 4_999},
        {"dbitrate": 500_000},
        {"bitrate": 500_000, "dbitrate": 499_999},
        {"bitrate": "500k"},
        {"bitrate": {"can1": 500_000}},
        {"bitrate": {"can0": "500k"}},
    ],
)
def test_bit_rates_that_a_bus_may_not_have(rates):
    with pytest.raises(ValueError, match="bitrate"):
        Bench("can0", **rates)
