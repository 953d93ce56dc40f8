"""Time on the wire: when attempts begin and end, the bus load, and the columns of a page. The program computes the
numbers of bits, which are tested by tests/record/test_audit_wire.py in the repository.
"""

import json
import random
from fractions import Fraction

import on_wire  # noqa: F401  it finds the model
import pytest
from test_commands import call
from test_report import NAMES, bus_off, data_of, record_of
from wire_model import bit_counts, random_frames

from canbusd import Bench
from canbusd._page.report import page
from canbusd._process.rates import Rates
from canbusd._run.events import Events
from canbusd._run.slots import load_of, overlaps_of, slots_of
from canbusd.record import parse_record, timed
from canbusd.server import Server

SLOW, SWITCHING = Rates(500000), Rates(500000, 2000000)
# Only three messages use the bus, with periods of 2.5, 3.5 and 3.5 frames. The worst response time is 3.5 frames, for
# the second instance of the message with the lowest priority (Davis, Burns, Bril, Lukkien, Real-Time Systems 2007). A
# frame has 108 bits including the intermission, which is 216 microseconds.
A, B, C = "001#55555555555505", "002#55555555555503", "003#5555555555557C"
FULL = [(0, A, 210), (1, B, 426), (2, C, 642), (0, A, 858), (1, B, 1074), (0, A, 1290), (2, C, 1506)]


@pytest.mark.parametrize("given", [(4999,), (1000001,), (500000, 499999), (500000, 20000001), (0, 0)])
def test_rates_that_a_bus_may_not_have(given):
    with pytest.raises(ValueError, match="^--d?bitrate "):
        Rates(*given)


def test_rates_at_the_limits():
    assert [Rates(5000, 5000).dbitrate, Rates(1000000, 20000000).dbitrate] == [5000, 20000000]


def run_of(*tried):
    """Returns the record of a run with these frames. Each frame is given as interface, content and time in
    microseconds. An interface sends a frame just before the attempt of that frame."""
    entries = [f"open {iface} 1 = socket {iface}" for iface in range(3)]
    numbers = [0, 0, 0]
    for iface, text, micros in tried:
        entries.append(f"send {iface} {text} = number {numbers[iface]}")
        tried_words = f"tried {iface} {numbers[iface]} {text} done {7 - (1 << iface):04X} 0000"
        entries.append(f"attempt {micros // 1000000}.{micros % 1000000:06} good = {tried_words}")
        numbers[iface] += 1
    lines = ["canbus record 3", f"bus 3 always 0000 10 1000000 0", "option 0 fd 1 = no-socket"]
    return "\n".join([*lines, *entries, f"end {len(entries) + 1}", ""]).encode()


def replay_of(*tried, rates=SLOW):
    return parse_record(run_of(*tried), rates=rates).replay


def run_of_three_messages():
    """Returns a run with the frames of FULL. They are sent as soon as they are due, so they lose arbitration to other
    frames."""
    entries = [f"open {iface} 1 = socket {iface}" for iface in range(3)]
    numbers = {A: 0, B: 0, C: 0}

    def send(*texts):
        for text in texts:
            entries.append(f"send {[A, B, C].index(text)} {text} = number {numbers[text]}")
            numbers[text] += 1

    send(A, B, C)
    for attempt, (iface, text, micros) in enumerate(FULL):
        number = sum(text == other for _, other, _ in FULL[:attempt])
        entries.append(f"attempt 0.{micros:06} good = tried {iface} {number} {text} done {7 - (1 << iface):04X} 0000")
        # Message A is due again at 540 microseconds, after the third attempt has begun. B and C are due at 756
        # microseconds, and A at 1080.
        send(*{2: [A], 3: [B, C], 4: [A]}.get(attempt, []))
    lines = ["canbus record 1", "bus 3 always 0000 10 100", *entries, f"end {len(entries)}", ""]
    return parse_record("\n".join(lines).encode()).replay


def test_a_wire_that_is_never_free():
    slots = slots_of(replay_of(*FULL))
    assert [(slot.begin, slot.over) for slot in slots] == [(216000 * k, 216000 * (k + 1)) for k in range(7)]
    assert load_of(slots) == (1512000, 1512000)
    assert load_of(slots).share == 1
    assert load_of(slots_of(replay_of(*FULL, rates=Rates(1000000)))) == (7 * 108000, 6 * 216000 + 108000)
    assert load_of([]).share == 0


def test_attempts_that_begin_too_early():
    tried = [(iface, text, micros - 2 * (k == 3)) for k, (iface, text, micros) in enumerate(FULL)]
    run = replay_of(*tried)
    # Because times are rounded, less than a microsecond of the overlap is hidden.
    assert overlaps_of(run, slots_of(run)) == [
        "attempt 3 at 0.000856 begins 1.001 microseconds before attempt 2 is over"
    ]
    tried[3] = (0, A, 857)
    run = replay_of(*tried)
    assert overlaps_of(run, slots_of(run)) == [
        "attempt 3 at 0.000857 begins 0.001 microseconds before attempt 2 is over"
    ]


def on_a_bench(maker, rates, frames):
    """Returns these frames with times like those of a bench. Some frames are back to back. Fractions of a nanosecond
    are rounded up, and fractions of a microsecond down."""
    free, tried = 0, []
    for number, frame in enumerate(frames):
        begin = max(free, 1000 * maker.choice([0, 0, free // 1000 + maker.randrange(200)]))
        nominal, fast = bit_counts(frame)
        lasts = Fraction(nominal, rates.bitrate) + Fraction(fast, rates.dbitrate)
        end, over = (begin - (-bits * 1000000000 // 1) for bits in (lasts, lasts + Fraction(3, rates.bitrate)))
        tried.append((number % 3, str(frame), end // 1000))
        free = over
    return tried


@pytest.mark.parametrize("seed, rates", enumerate([Rates(333333, 777777), Rates(1000000, 7000000), Rates(6000, 6001)]))
def test_rounding_does_not_add_up(seed, rates):
    maker = random.Random(seed)
    frames = list(random_frames(seed, 400, is_fd=False, longest=8))
    tried = on_a_bench(maker, rates, frames)
    slots = slots_of(replay_of(*tried, rates=rates))
    assert [slot.overlap for slot in slots] == [0] * len(frames)
    # With a bit rate that is slightly lower, some frames overlap.
    slower = Rates(rates.bitrate - rates.bitrate // 200, rates.dbitrate)
    assert any(slot.overlap for slot in slots_of(replay_of(*tried, rates=slower)))


def test_restarts_take_no_time():
    # The attempts are one microsecond apart.
    slots = slots_of(timed(bus_off(), SLOW))
    assert len(slots) == 32
    assert all(slot.overlap for slot in slots[1:])
    assert load_of(slots).share > 10


def test_attempts_at_the_last_moment():
    last = 9999999999999999
    run = replay_of((0, A, last - 1), (0, A, last), (0, A, last))
    assert overlaps_of(run, slots_of(run)) == []


NAMES = ["--names", "a,b,c"]


@pytest.fixture
def full(tmp_path):
    path = tmp_path / "full.rec"
    path.write_bytes(run_of(*FULL))
    return path


def test_replay_with_a_bit_rate(full):
    load = "load 100.0 %: the wire was busy for 0.001512 of 0.001512 seconds\n"
    status, written, said = call("replay", *NAMES, "--bitrate", 500000, full)
    assert (status, said) == (0, "")
    assert written == call("replay", *NAMES, full)[1].replace("ok", load + "ok")
    assert call("replay", "--quiet", "--bitrate", 500000, full)[1] == load + "ok 18 entries\n"
    status, written, said = call("replay", *NAMES, "--json", "--bitrate", 1000000, full)
    assert json.loads(written.splitlines()[-1]) == {
        "type": "load", "busy": 0.000756, "time": 0.001404, "share": pytest.approx(756 / 1404)
    }  # fmt: skip


def test_replay_of_a_record_with_overlaps(full):
    status, written, said = call("replay", "--quiet", "--bitrate", 250000, full)
    assert status == 1
    assert written == "load 175.0 %: the wire was busy for 0.003024 of 0.001728 seconds\n"
    assert said.splitlines()[0] == (
        "canbusd replay: attempt 1 at 0.000426 begins 215.001 microseconds before attempt 0 is over"
    )
    assert len(said.splitlines()) == 6
    full.write_bytes(run_of(*[(0, A, 1)] * 13))
    assert call("replay", *NAMES, "--json", "--bitrate", 500000, full)[2].splitlines()[10:] == [
        "canbusd replay: 2 more do"
    ]
    full.write_bytes(run_of())
    assert call("replay", *NAMES, "--bitrate", 500000, full) == (0, "load 0 %: no frame was tried\nok 4 entries\n", "")


def test_a_report_with_a_bit_rate(full):
    status, text, said = call("report", *NAMES, "--bitrate", 500000, "--dbitrate", 2000000, full)
    assert (status, said) == (0, "")
    assert [data_of(text)[0]["wire"][name] for name in ("bitrate", "dbitrate")] == [500000, 2000000]
    assert "wire" not in data_of(call("report", *NAMES, full)[1])[0]
    drawn = call("report", *NAMES, "--text", "--bitrate", 500000, full)[1]
    load = "load 100.0 %: the wire was busy for 0.001512 of 0.001512 seconds\n"
    assert load in drawn and drawn.replace(load, "") == call("report", *NAMES, "--text", full)[1]


@pytest.mark.parametrize("command", ["replay", "report"])
def test_words_that_are_refused(full, command):
    for words, why in [
        (("--bitrate", "4999"), "--bitrate 4999: from 5000 to 1000000"),
        (("--bitrate", "1000001"), "--bitrate 1000001: from 5000 to 1000000"),
        (("--dbitrate", "2000000"), "--dbitrate needs --bitrate"),
        (("--bitrate", "500000", "--dbitrate", "499999"), "--dbitrate 499999: from 500000, that of --bitrate, to 20000000"),
        (("--bitrate", "5000", "--dbitrate", "20000001"), "--dbitrate 20000001: from 5000, that of --bitrate, to 20000000"),
    ]:  # fmt: skip
        assert call(command, *words, full) == (2, "", f"canbusd {command}: {why}\n")
    for word in ("5e5", "-500000", "500_000", ""):
        status, written, said = call(command, f"--bitrate={word}", full)
        assert (status, written) == (2, "") and f"not a number in decimal digits: '{word}'" in said


def test_the_columns_of_a_page():
    header, column = data_of(page(run_of_three_messages(), ("a", "b", "c"), "run.rec", rates=SLOW))
    wire = header["wire"]
    assert (wire["bitrate"], wire["dbitrate"], wire["end"]) == (500000, None, 1512000)
    assert column(wire["begin"]) == [216000 * attempt for attempt in range(7)]
    assert [column(wire[name]) for name in ("nominal", "fast", "frame", "busy")] == [
        [each] * 7 for each in (105, 0, 210000, 216000)
    ]
    # The first frames of b and c lose to the first frame of a. The second frame of c loses to the second frames of b and a.
    assert column(wire["since"]) == [0, 1, 2, 0, 0, 0, 2]


@pytest.fixture
def audits(monkeypatch):
    """The list of requests to the program. Each says whether a record may be cut off, and gives the bit rates."""
    asked = []

    def events(cut, rates):
        asked.append((cut, rates))
        return Events(cut, rates)

    monkeypatch.setattr("canbusd.record.Events", events)
    return asked


def test_a_page_has_its_record_read_once(audits):
    with Bench("can0", bitrate=500_000) as bench:
        bench.report()
    with Server("can0", bitrate=500_000, dbitrate=2_000_000, record="live") as server:
        server.report()
    assert audits == [(False, SLOW), (True, SWITCHING)]


def test_a_page_with_other_bit_rates_has_it_read_again(audits):
    run = replay_of(*FULL)
    for rates, shown in ((SLOW, 210000), (Rates(1000000), 105000), (None, None)):
        header, column = data_of(page(run, ("a", "b", "c"), "run.rec", rates=rates))
        assert (shown is None) == ("wire" not in header)
        assert shown is None or column(header["wire"]["frame"]) == [shown] * 7
    assert audits == [(False, SLOW), (False, Rates(1000000))]


def test_the_columns_of_a_run_with_bus_off():
    header, column = data_of(page(bus_off(), NAMES, "run.rec", rates=SWITCHING))
    wire = header["wire"]
    assert wire["dbitrate"] == 2000000
    # Idle attempts and a restart follow. They take no time, and none of them begins before the previous attempt has
    # ended.
    assert column(wire["busy"])[32:] == column(wire["frame"])[32:] == [0, 0]
    begins = column(wire["begin"])
    assert begins[:32] == [1000 * attempt for attempt in range(32)] and begins[32:] == [begins[32]] * 2
    assert column(wire["since"]) == [*range(32), 0, 0]


def test_pages_of_runs_that_tried_nothing():
    for entries in ([], ["attempt 5.000000 good = idle"]):
        header, column = data_of(page(record_of(*entries), NAMES, "run.rec", rates=SLOW))
        assert column(header["wire"]["begin"]) == [0] * len(entries)
        assert header["wire"]["end"] == 0


def test_without_a_bit_rate_a_page_has_nothing_of_it():
    text = page(run_of_three_messages(), ("a", "b", "c"), "run.rec")
    assert "wire" not in data_of(text)[0]
    assert "bus load" not in text.lower() and "wire.busy" not in text
    assert "bus load" in page(run_of_three_messages(), ("a", "b", "c"), "run.rec", rates=SLOW)
