"""Tests records and logs of a bench, and the exact reports of the audit on a damaged record."""

import pytest

from commands import TWO_SESSIONS, TWO_STARTED, run_line

# Two sockets with room for one item each, a frame from one to the other, and the close of the second socket.
RECORD = """canbus record 1
bus 2 always 0000 10 100
open 0 1 = socket 0
open 1 1 = socket 1
send 0 123#01FF = number 0
attempt 0.000001 good = tried 0 0 123#01FF done 0002 0000
receive 1 = data 0 0 123#01FF 0.000001
receive 1 = none
close 1 = closed 0 0
end 7
"""
VERSION = (
    "the first line of a record is canbus record 1 or 2, or, with an FD frame or the option fd, canbus record 3, or, "
    "of a long run, canbus record 4, or, with a flag of an FD frame, canbus record 5, or, with an interface that goes "
    "down, canbus record 6"
)
LINE = "a line is EVENT = REPLY, and the last is end COUNT; each ends with LF"
# The old string, the new string, the fault, the wrong line with its number, and the note.
DAMAGED = [
    (
        "done 0002",
        "done 0000",
        "entry 3: wrong",
        "6: attempt 0.000001 good = tried 0 0 123#01FF done 0000 0000",
        "legal is: attempt 0.000001 good = tried 0 0 123#01FF done 0002 0000",
    ),
    ("10 100", "10 6", "entry 6: wrong", "9: close 1 = closed 0 0", "line 2 allows at most 6 entries"),
    (
        "record 1",
        "record 9",
        "bad version",
        "1: canbus record 9",
        VERSION,
    ),
    (
        "bus 2",
        "bus 17",
        "line 2: bad line",
        "2: bus 17 always 0000 10 100",
        "the second line is bus IFACES ACK REPORTING TXCAPACITY LIMIT, followed by RESTART in versions 2 to 6",
    ),
    (
        "send 0 123#01FF",
        "send 0 123#01ff",
        "line 5: bad line",
        "5: send 0 123#01ff = number 0",
        LINE,
    ),
    (
        "end 7",
        "end 8",
        "line 10: bad line",
        "10: end 8",
        LINE,
    ),
    (
        "end 7\n",
        "end 7",
        "line 10: bad line",
        "10: end 7\n  the text ends here, in a line without LF",
        "with --cut the 7 entries before it are audited",
    ),
    (
        "end 7\n",
        "",
        "line 10: bad line",
        "10: \n  the text ends here, before its line end COUNT",
        "with --cut the 7 entries before it are audited",
    ),
    (
        "record 1\n",
        "record 1\r\n",
        "bad version",
        "1: canbus record 1?",
        "this line ends with CR and LF: lines end with only LF",
    ),
    (
        "done 0002 0000\nreceive 1 = data",
        "done 0000 0000\nreceive 1 = date",
        "line 7: bad line",
        "7: receive 1 = date 0 0 123#01FF 0.000001",
        LINE,
    ),
    (
        "record 1\nbus 2 always 0000 10 100\n",
        "record 3\nbus 2 always 0000 10 100 0\n",
        "bad version",
        "1: canbus record 3",
        VERSION,
    ),
    (
        "end 7\n",
        "end 7\n\n",
        "line 11: bad line",
        "11: ",
        LINE,
    ),
]


def test_a_record(tmp_path):
    """A bench writes a record with these entries, and the record passes the audit."""
    lines = "feed 1 < send 123 2 1 ff >\nat 0.000001\nattempt\ndrain 2\nfeed 2 < close >\n"
    written = "tried can0 0 done can1 -\n2 < frame 123 0.000001 01FF >\n2 < closed 0 0 >\n"
    line = "bench --record run.rec --rxqueue 1 --limit 100 can0,can1"
    assert run_line(line, TWO_SESSIONS + lines, cwd=tmp_path) == (0, TWO_STARTED + written, "")
    assert (tmp_path / "run.rec").read_text() == RECORD
    assert run_line("audit run.rec", cwd=tmp_path) == (0, "ok 7 entries\n", "")


def test_a_log(tmp_path):
    first = "feed 2 < send 12345678 0 >\nat 1436509052.249713\nattempt\n"
    lines = first + "feed 1 < send 123 2 1 ff >\nattempt\nattempt\n"
    written = "tried can1 0 done can0 -\ntried can0 0 done can1 -\nidle\n"
    line = "bench --log run.log can0,can1"
    assert run_line(line, TWO_SESSIONS + lines, cwd=tmp_path) == (0, TWO_STARTED + written, "")
    logged = "(1436509052.249713) can1 12345678#\n(1436509052.249713) can0 123#01FF\n"
    assert (tmp_path / "run.log").read_text() == logged


@pytest.mark.parametrize("what", ["record", "log"])
def test_a_file_that_cannot_be_opened(what, tmp_path):
    errors = "canbusd: cannot open none/run\n  none/run: No such file or directory (os error 2)\n"
    assert run_line(f"bench --{what} none/run can0", cwd=tmp_path) == (1, "", errors)


def test_files_of_a_run_that_ends_in_a_fault(tmp_path):
    """A run that ends in a fault creates no new files and leaves old files unchanged."""
    errors = """canbusd: line 1: bad line
  standard input:1: attempt 1
  nothing may follow attempt: each line makes one attempt
  no record was written to run.rec
  no log was written to run.log
"""
    line = "bench --record run.rec --log run.log can0"
    assert run_line(line, "attempt 1\n", cwd=tmp_path) == (1, "", errors)
    assert not list(tmp_path.iterdir())
    (tmp_path / "run.rec").write_text("old")
    errors = """canbusd: cannot open none
  none: No such file or directory (os error 2)
  no record was written to run.rec: the old file of this name stays as it is
"""
    assert run_line("bench --record run.rec can0@none", cwd=tmp_path) == (1, "", errors)
    assert (tmp_path / "run.rec").read_text() == "old"


def test_a_strict_bench_that_ends_in_a_refusal(tmp_path):
    """A strict bench that ends in a refusal still writes its record."""
    output = "1 < hi >\n1 < error no such interface >\n"
    errors = "canbusd: message refused\n  standard output, byte 9: 1 < error no such interface >\n"
    line = "bench --strict --record run.rec can0"
    assert run_line(line, "session 1\nfeed 1 < open can1 >\n", cwd=tmp_path) == (1, output, errors)
    assert run_line("audit run.rec", cwd=tmp_path) == (0, "ok 0 entries\n", "")


def test_a_log_in_the_place_of_the_record(tmp_path):
    """A log that is the same file as the record is refused, even through a link, and the record is complete."""
    (tmp_path / "run.rec").write_text("old")
    (tmp_path / "run.log").symlink_to("run.rec")
    errors = "canbusd: cannot open run.log\n  --record names this file too\n"
    line = "bench --record run.rec --log run.log can0"
    assert run_line(line, "attempt\n", cwd=tmp_path) == (1, "idle\n", errors)
    assert run_line("audit run.log", cwd=tmp_path) == (0, "ok 1 entries\n", "")


@pytest.mark.parametrize("old, new, fault, place, note", DAMAGED)
def test_damaged_records(old, new, fault, place, note, tmp_path):
    (tmp_path / "damaged.rec").write_bytes(RECORD.replace(old, new).encode())
    errors = f"canbusd: {fault}\n  damaged.rec:{place}\n  {note}\n"
    assert run_line("audit damaged.rec", cwd=tmp_path) == (1, "", errors)


@pytest.mark.parametrize("damaged, number", [(b"canbus record 9\n\xff\n", 2), (b"\xff", 1)])
def test_bytes_that_are_no_text(damaged, number, tmp_path):
    """Bytes that are not UTF-8 text are reported before a malformed line, whichever comes first in the record."""
    (tmp_path / "damaged.rec").write_bytes(damaged)
    errors = f"canbusd: read fault\n  damaged.rec:{number}: ?\n  this line is no UTF-8 text\n"
    assert run_line("audit damaged.rec", cwd=tmp_path) == (1, "", errors)


def test_the_record_of_a_restart(tmp_path):
    """The record contains the automatic restart of an interface, and a record without the restart is wrong."""
    (tmp_path / "off.script").write_text("".join(f"{number} global bit\n" for number in range(32)))
    attempts = "".join(f"at 0.{number:06}\nattempt\n" for number in range(1, 35))
    lines = f"feed 1 < errmask 140 >< send 123 0 >\n{attempts}drain 1\nfeed 1 < send 123 0 >\nattempt\n"
    written = "1 < ok >\n" + 31 * "tried can0 0 destroyed - -\n" + "tried can0 0 destroyed - can0\n"
    written += "idle\nidle restarted can0\n1 < error 040 0.000032 >< error 100 0.000034 >\ntried can0 1 done can1 -\n"
    line = "bench --auto-restart 2 --record run.rec can0,can1@off.script"
    assert run_line(line, TWO_SESSIONS + lines, cwd=tmp_path) == (0, TWO_STARTED + written, "")
    record = tmp_path / "run.rec"
    start = "canbus record 2\nbus 2 always 0000 10 1000000 2\nopen 0 256 = socket 0\n"
    assert record.read_text().startswith(start)
    # The entries are two opens, an option, a send, 34 attempts, receives until no item remains, a send and an attempt.
    assert run_line("audit run.rec", cwd=tmp_path) == (0, "ok 43 entries\n", "")
    record.write_text(record.read_text().replace(" restarted 0001", ""))
    errors = """canbusd: entry 37: wrong
  run.rec:40: attempt 0.000034 good = idle
  legal is: attempt 0.000034 good = idle restarted 0001
"""
    assert run_line("audit run.rec", cwd=tmp_path) == (1, "", errors)
