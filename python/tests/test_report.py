"""The page of a run: its text, and the data for its JavaScript."""

import base64
import json
import re
import struct
import zlib
from array import array

import pytest

from canbusd import Bench, Faults
from canbusd._page.report import page, part
from canbusd._run.steps import KINDS
from canbusd._run.story import duration_words, events_of, facts_of, heading_of
from canbusd.record import parse_record

NAMES = ("can0", "can1")


def record_of(*entries, bus="2 always 0000 10 10000", version=1):
    """Returns the replay of a record with these entries."""
    text = "\n".join([f"canbus record {version}", f"bus {bus}", *entries, f"end {len(entries)}", ""])
    return parse_record(text.encode(), names=NAMES).replay


def bus_off():
    """Returns a run in which can0's frame is destroyed 32 times. Each time, can0's transmit error counter grows by 8.
    can0 restarts at the end of the second attempt after that."""
    return record_of(
        "open 0 256 = socket 0",
        "send 0 123# = number 0",
        "send 0 124# = number 1",
        *(f"attempt 0.{k:06} global-bit = tried 0 0 123# destroyed 0000 000{k // 32}" for k in range(1, 33)),
        "send 0 125# = bus-off",
        "send 0 125# = bus-off",
        "attempt 0.000033 good = idle",
        "attempt 0.000034 good = idle restarted 0001",
        bus="2 always 0000 10 100 2",
        version=2,
    )


def events_in(run):
    return [(event.step, event.kind, event.words) for event in events_of(run, NAMES)]


def data_of(text):
    """Returns the header of the page's data, and a function that reads one column of the data."""
    coded = re.search(r'<script type="text/plain" id="run">([^<]*)</script>', text)[1]
    whole = zlib.decompress(base64.b64decode(coded))
    (size,) = struct.unpack("<I", whole[-4:])
    header = json.loads(whole[-4 - size : -4])

    def column(one):
        code, place, length = one[:3]
        numbers = array(code)
        count = length * numbers.itemsize
        # The least significant byte of each number comes first.
        numbers.frombytes(b"".join(whole[place + k : place + count : length] for k in range(length)))
        for k in range(1, length if one[3:] else 0):
            numbers[k] += numbers[k - 1]
        return list(numbers)

    header["texts"] = bytes(column(header["texts"])).decode().split("\n")
    return header, column


def test_the_events_of_bus_off():
    run = bus_off()
    assert events_in(run) == [
        (11, "warning", "can0 is error warning: transmit count 96"),
        (15, "passive", "can0 is error passive: transmit count 128"),
        (
            31,
            "bus off",
            "can0 went bus off at transmit count 256: all its 32 attempts from attempt 0 on failed (32 x global bit)",
        ),
        (31, "lost", "can0 lost 2 frames: bus off empties its transmit queue"),
        (31, "refused", "can0 refused 2 sends: it was bus off"),
        (32, "restart", "can0 is back on the bus, with both counts 0; it was off for 2 µs, and no frame was tried"),
    ]
    assert heading_of(run, NAMES, events_of(run, NAMES)) == (
        "2 nodes, 32 attempts: can0 went bus off in attempt 31",
        31,
    )
    assert facts_of(run) == "32 attempts: 32 destroyed. 2 idle attempts. 1 restart. 39 entries in the record."


@pytest.mark.parametrize(
    "micros, words",
    [
        (1, "1 µs"),
        (999, "999 µs"),
        (203_100, "203.1 ms"),
        (1_250_000, "1.2 s"),
        (59_900_000, "59.9 s"),
        (125_000_000, "2 min 5.0 s"),
    ],
)
def test_durations(micros, words):
    assert duration_words(micros) == words


def test_how_long_a_node_was_off():
    """The duration of an outage is shown in seconds and in attempts by other nodes. The outage lasts from the attempt
    that caused bus off to the last attempt before the restart."""
    with Bench("can0,can1", faults=Faults().destroyed(range(32))) as bench:
        can0, can1 = bench.open("can0"), bench.open("can1")
        can0.send(0x123)
        for number in range(32):
            bench.attempt(at=number / 1_000)
        for number in range(3):
            can1.send(0x124)
            bench.attempt(at=0.1 + number)
        can0.restart()
        # A restart has the same timestamp as the attempt before it.
        events = events_of(bench.record().replay, NAMES)
    (back,) = [event.words for event in events if event.kind == "restart"]
    assert back == "can0 is back on the bus, with both counts 0; it was off for 2.1 s, attempts 31 to 34"


def test_the_facts_of_a_record_that_is_cut_off():
    text = (
        b"canbus record 4\nbus 1 always 0000 10 4294967294 0\nopen 0 256 = socket 0\nattempt 0.000001 good = idle\nend"
    )
    assert facts_of(parse_record(text, cut=True).replay) == "1 idle attempt. 2 entries in the record, which is cut off."


def test_a_fault_in_the_last_bit_gives_a_second_copy():
    run = record_of(
        "open 0 256 = socket 0",
        "send 0 123#11 = number 0",
        "attempt 0.000001 lastbit = tried 0 0 123#11 lastbit 0002 0000",
        "attempt 0.000002 lastbit = tried 0 0 123#11 lastbit 0002 0000",
        "attempt 0.000003 good = tried 0 0 123#11 done 0002 0000",
    )
    assert events_in(run) == [
        (1, "second copy", "can1 accepted 123#11 again: copy 2"),
        (2, "second copy", "can1 accepted 123#11 again: copy 3"),
    ]


def test_refusals_and_drops_that_are_close_together_are_one_event():
    entries = ["open 0 256 = socket 0", "open 1 1 = socket 1"]
    for number in range(3):
        entries += [f"send 0 123# = number {number}", *["send 0 123# = no-buffers"] * 2]
        entries += [f"attempt 0.{number:06} good = tried 0 {number} 123# done 0002 0000"]
    run = record_of(*entries, bus="2 always 0000 1 100")
    assert events_in(run) == [
        (-1, "refused", "can0 refused 6 sends: its transmit queue was full"),
        (1, "dropped", "socket 1 on can1 dropped 2 items: its receive queue was full"),
    ]
    assert heading_of(run, NAMES, events_of(run, NAMES))[0] == (
        "2 nodes, 3 attempts: 2 items dropped, since receive queues were full"
    )


def test_a_run_without_events():
    run = record_of("open 0 1 = socket 0", "attempt 0.000001 good = idle")
    assert events_in(run) == []
    assert heading_of(run, NAMES, [])[0] == "2 nodes, 0 attempts: no frame was tried"
    header, column = data_of(page(run, NAMES, "run.rec"))
    assert column(header["steps"]["kind"]) == [KINDS.index("idle")]


def test_idle_attempts_are_steps_between_the_others():
    header, column = data_of(page(bus_off(), NAMES, "run.rec"))
    kinds = column(header["steps"]["kind"])
    assert [KINDS[kind] for kind in kinds] == ["destroyed"] * 32 + ["idle", "restart"]
    assert column(header["steps"]["number"])[32] == 2
    assert column(header["tec"][0]) == [8 * k for k in range(1, 33)] + [256, 0]
    # The step numbers in events are indices into these columns.
    assert [event[:3] for event in header["events"]][-1] == [33, "restart", 0]
    assert header["first"] == 31


def test_the_rule_of_an_attempt():
    rules = ["next 31 from can0 global bit"] * 31 + [""]
    header, column = data_of(page(bus_off(), NAMES, "run.rec", rules=rules))
    faults = [header["verdicts"][place] for place in column(header["steps"]["verdict"])]
    assert faults[:32] == ["global bit, by `next 31 from can0 global bit`"] * 31 + ["global bit"]
    # If the rules are from a record that was cut off, there may be fewer of them than steps.
    header, _ = data_of(page(bus_off(), NAMES, "run.rec", rules=rules[:1]))
    assert header["verdicts"][:2] == ["global bit, by `next 31 from can0 global bit`", "global bit"]


def rules_on(text):
    """Returns the rule of each row on a page. If a row has no rule, the string is empty."""
    header, column = data_of(text)
    verdicts = [header["verdicts"][place] for place in column(header["steps"]["verdict"])]
    return [verdict.partition(", by ")[2].strip("`") for verdict in verdicts]


def test_what_bus_off_took_and_refused():
    header, _ = data_of(page(bus_off(), NAMES, "run.rec"))
    lost = {
        step: [(number, header["texts"][text]) for number, text in frames] for step, frames in header["lost"].items()
    }
    assert lost == {"31": [(0, "123#"), (1, "124#")]}
    assert [(one["lost"], one["full"], one["off"]) for one in header["ifaces"]] == [(2, 0, 2), (0, 0, 0)]


def test_what_drove_a_node_off_is_counted_from_a_count_of_0():
    verdicts = ["global-bit", "good", "good", "good", "good", "good", "good", "good", "good", *["local-crc:0002"] * 32]
    kinds = ["done 0002" if verdict == "good" else "destroyed 0000" for verdict in verdicts]
    entries, number = ["open 0 1 = socket 0", *(f"send 0 123# = number {k}" for k in range(9))], 0
    for k, (verdict, kind) in enumerate(zip(verdicts, kinds)):
        entries.append(f"attempt 0.{k:06} {verdict} = tried 0 {number} 123# {kind} {int(k == 40):04X}")
        number += verdict == "good"
    run = record_of(*entries)
    assert [words for _, kind, words in events_in(run) if kind == "bus off"] == [
        "can0 went bus off at transmit count 256: all its 32 attempts from attempt 9 on failed (32 x local crc at can1)"
    ]


def test_items_say_what_became_of_them():
    run = record_of(
        "open 0 256 = socket 0",
        "open 1 1 = socket 1",
        "send 0 123#11 = number 0",
        "send 0 123#22 = number 1",
        "attempt 0.000001 good = tried 0 0 123#11 done 0002 0000",
        "attempt 0.000002 good = tried 0 1 123#22 done 0002 0000",
        "receive 1 = data 0 0 123#11 0.000001",
    )
    header, column = data_of(page(run, NAMES, "run.rec"))
    assert column(header["items"]["step"]) == [0, 1]
    assert [["taken", "waiting", "unread", "dropped"][fate] for fate in column(header["items"]["fate"])] == [
        "taken",
        "dropped",
    ]
    # The first frame stayed in the queue until the end of the second step.
    assert column(header["items"]["end"])[0] == 2
    header, column = data_of(page(run, NAMES, "run.rec", most_items=1))
    assert (column(header["items"]["step"]), header["itemsInAll"]) == ([0], 2)


def test_no_title_ends_the_data():
    text = page(bus_off(), NAMES, "</script><b>.rec")
    assert "</script><b>" not in text
    assert data_of(text)[0]["title"] == "</script><b>.rec"
    assert not re.search(r"https?://|/\*(RUN|STYLE|SCRIPT)\*/", text)


def luminance(colour):
    """Returns the relative luminance of a colour, as defined by WCAG 2."""
    digits = "".join(2 * digit for digit in colour[1:]) if len(colour) == 4 else colour[1:]
    parts = [int(digits[k : k + 2], 16) / 255 for k in (0, 2, 4)]
    red, green, blue = [part / 12.92 if part <= 0.03928 else ((part + 0.055) / 1.055) ** 2.4 for part in parts]
    return 0.2126 * red + 0.7152 * green + 0.0722 * blue


def contrast(one, other):
    dark, light = sorted([luminance(one), luminance(other)])
    return (light + 0.05) / (dark + 0.05)


def test_contrast_is_at_least_4_5_in_light_and_dark():
    light, dark = re.split(r"@media \(prefers-color-scheme: dark\)", part("page.css").split("* {")[0])
    kinds = ["done", "lastbit", "destroyed", "noack", "restart"]
    colours = {}
    for style in (light, dark):
        colours = {**colours, **dict(re.findall(r"--(\w+): (#[0-9a-f]+)", style))}
        pairs = [("on", kind) for kind in kinds]
        pairs += [("on", name) for name in ("warning", "passive")]
        pairs += [(name, "page") for name in [*kinds, "idle", "accepted", "hit", "off", "tec", "rec", "text", "soft"]]
        pairs += [
            (name, back) for name in ("text", "soft", "tec", "destroyed") for back in ("chosen", "hover", "panel")
        ]
        weak = {pair: contrast(*(colours[name] for name in pair)) for pair in pairs}
        assert {pair: ratio for pair, ratio in weak.items() if ratio < 4.5} == {}
