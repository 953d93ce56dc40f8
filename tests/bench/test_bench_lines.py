"""Valid lines of a bench, and the limits on lines, input, lists and queues."""

import os
import shutil
import subprocess

import pytest

from commands import TWO_SESSIONS, TWO_STARTED, call, run_line
from serving import ROOT, program

# Command lines, input after the two sessions, and the output for that input.
CARRIED_OUT = [
    (
        "bench can0,can1",
        "feed 1 < send 123 4 11 22 33 44 >\nat 23.424242\nattempt\ndrain 2\ndrain 1\n",
        "tried can0 0 done can1 -\n2 < frame 123 23.424242 11223344 >\n",
    ),
    (
        "bench can0,can1",
        "feed 1 < send 123 0  >\nat 9999999999.999999\nattempt\ndrain 2",
        "tried can0 0 done can1 -\n2 < frame 123 9999999999.999999  >\n",
    ),
    (
        "bench can0,can1",
        "feed 1 < send 123 2 1 ff >\n# sent\n\nattempt\ndrain 2\n",
        "tried can0 0 done can1 -\n2 < frame 123 0.000000 01FF >\n",
    ),
    (
        "bench can0,can1",
        (
            "feed 2 < send 80000123 1 0A >< send 1FFFFFFF\t8 1 2 3 4 5 6 7 8 >\nattempt\nattempt\n"
            "at 0000000007.000050\nattempt\ndrain 1\n"
        ),
        (
            "tried can1 0 done can0 -\ntried can1 1 done can0 -\nidle\n"
            "1 < frame 00000123 0.000000 0A >< frame 1FFFFFFF 0.000000 0102030405060708 >\n"
        ),
    ),
    (
        "bench --txqueue 1 can0,can1",
        "feed 1 < send 123 0 >< send 124 0 >\nattempt\nfeed 1 < send 124 0 >\nattempt\n",
        "1 < error no buffers >\ntried can0 0 done can1 -\ntried can0 1 done can1 -\n",
    ),
    (
        "bench can0,can1 --rxqueue 1",
        "feed 1 < send 123 0 >< send 124 0 >\nattempt\nattempt\ndrain 2\n",
        "tried can0 0 done can1 -\ntried can0 1 done can1 -\n2 < frame 123 0.000000  >\n",
    ),
    (
        "bench --limit 4 can0,can1",
        "feed 1 < send 123 0 >\nattempt\nattempt\nfeed 1 < send 123 0 >\ndrain 1\n",
        "tried can0 0 done can1 -\nrecord full\n1 < error record full >\n1 < error record full >\n",
    ),
    (
        "bench can0,can1",
        (
            "feed 1 < open can0 >< rawmode >\nsession 64\nfeed 64 < rawmode >< send 1 0 >< open can2 >\nfeed 64 \n"
            "drain 64\n"
        ),
        (
            "1 < error wrong state >< ok >\n64 < hi >\n"
            "64 < error wrong state >< error wrong state >< error no such interface >\n"
        ),
    ),
    # If the first 11 bits are equal, the 11-bit identifier wins. If whole identifiers are equal, the lower interface wins.
    (
        "bench --ack always --report can0,can1,can2",
        "feed 1 < send 048C0000 0 >\nfeed 2 < send 123 0 >\nattempt\nattempt\n",
        "tried can1 0 done can0,can2 -\ntried can0 0 done can1,can2 -\n",
    ),
    (
        "bench can0,can1",
        "feed 2 < send 123 0 >\nfeed 1 < send 123 0 >\nattempt\nattempt\n",
        "tried can0 0 done can1 -\ntried can1 0 done can0 -\n",
    ),
    (
        "bench can0,can1",
        "feed 1 < send 124 0 >\nfeed 2 < send 048C0000 0 >\nattempt\nattempt\n",
        "tried can1 0 done can0 -\ntried can0 0 done can1 -\n",
    ),
    # The frames have 45 and 60 bits, followed by 3 bits of intermission. With BRS, an FD frame has 27 bits at the
    # nominal bit rate and 32 bits at the data bit rate.
    (
        "bench --bitrate 500000 can0,can1",
        "feed 1 < send 123 0 >< fdframes 1 >< sendfd 123 0 >\nrun 0.000096\nattempt\n",
        "1 < ok >\ntried can0 0 done can1 - at 0.000090\ntried can0 1 done can1 - at 0.000216\n",
    ),
    (
        "bench --bitrate 500000 --dbitrate 2000000 can0,can1",
        "feed 1 < send 123 0 >< fdframes 1 >< sendfdx 1 123 0 >\nrun 0.000097\n",
        "1 < ok >\ntried can0 0 done can1 - at 0.000090\ntried can0 1 done can1 - at 0.000166\n",
    ),
    (
        "bench --bitrate 500000 --dbitrate 2000000 can0,can1",
        "feed 1 < send 123 0 >< fdframes 1 >< sendfd 123 0 >\nrun 0.000097\n",
        "1 < ok >\ntried can0 0 done can1 - at 0.000090\ntried can0 1 done can1 - at 0.000216\n",
    ),
]
# Sixteen names of fifteen bytes.
NAMES = [f"interface-no-{number:02}" for number in range(16)]
# The record of a frame sent from the first of these interfaces to the last. All other values are defaults.
SIXTEEN = """canbus record 1
bus 16 always FFFF 10 1000000
open 0 256 = socket 0
open 15 256 = socket 1
send 0 123# = number 0
attempt 0.000000 good = tried 0 0 123# done FFFE 0000
receive 1 = data 0 0 123# 0.000000
receive 1 = none
end 6
"""


def carries_out(line, lines, written):
    """Returns whether a bench with two sessions writes exactly this output for these lines."""
    return run_line(line, TWO_SESSIONS + lines) == (0, TWO_STARTED + written, "")


@pytest.mark.parametrize("line, lines, written", CARRIED_OUT)
def test_lines_that_are_carried_out(line, lines, written):
    assert carries_out(line, lines, written)


def test_error_message_frames_are_no_refusals():
    """Neither error message frames nor notes count as refusals."""
    masks = "< errmask 1FFFFFFF >< errdata 1 >"
    text = f"session 1\nfeed 1 < open can0 >< rawmode >{masks}< send 123 0 >\nattempt\ndrain 1\nfeed 1 x\n"
    errors = "note: session 1: bytes outside < and > were skipped\n"
    output = "1 < hi >\n1 < ok >< ok >< ok >< ok >\ntried can0 0 noack - -\n1 < error 0A0 0.000000 0000801900000000 >\n"
    assert run_line("bench --strict --ack peers --report can0", text) == (0, output, errors)


def test_nobody_acknowledges_without_a_receiver():
    """If no node acknowledges a frame, an error passive sender does not increase its error count."""
    text = "session 1\nfeed 1 < open can0 >< rawmode >< send 123 0 >\n" + 17 * "attempt\n"
    output = "1 < hi >\n1 < ok >< ok >\n" + 17 * "tried can0 0 noack - -\n"
    assert run_line("bench --ack peers can0", text) == (0, output, "")


@pytest.mark.parametrize(
    "line, reply, note",
    [
        ("#" * 4096 + "\n", "", ""),
        ("#" * 4096, "", ""),
        (f"feed 1 <rawmode{' ' * 1017}>", "1 < error wrong state >\n", ""),
        (
            f"feed 1 <rawmode{' ' * 1017}><",
            "1 < error wrong state >\n",
            "note: session 1: the last message has no >\n",
        ),
        (f"feed 1 <rawmode{' ' * 1018}>< echo >", "1 < error message too long >< echo >\n", ""),
    ],
    ids=range(5),
)
def test_limits_of_lines_and_messages(line, reply, note):
    assert run_line("bench can0", f"session 1\n{line}") == (0, f"1 < hi >\n{reply}", note)


@pytest.mark.parametrize("before, after, number", [("", "", 2), ("\n", "\n", 3)])
def test_a_line_that_is_too_long(before, after, number):
    """The report shows the first 72 bytes of a line that is too long."""
    text = f"session 1\n{before}{'#' * 4097}{after}"
    errors = (
        f"canbusd: line {number}: bad line\n  standard input:{number}: {'#' * 72}..\n  a line has at most 4096 bytes\n"
    )
    assert run_line("bench can0", text) == (1, "1 < hi >\n", errors)


TOO_LONG = "canbusd: input too long\n  the input has at most 16777216 bytes, and takes at most as many reads\n"
LONGEST_INPUT = (4095 * "#" + "\n") * 4096


def test_limit_of_the_input():
    assert run_line("bench can0", LONGEST_INPUT) == (0, "", "")
    assert run_line("bench can0", f"{LONGEST_INPUT}#") == (1, "", TOO_LONG)


@pytest.mark.skipif(not shutil.which("cc"), reason="no C compiler: cc")
def test_limit_of_the_reads(tmp_path):
    """If each read returns only one byte (short_reads.c), the longest input uses up all reads, and no read is left to
    detect the end of the input."""
    library, text = tmp_path / "short_reads.so", tmp_path / "input"
    source = os.path.join(ROOT, "tests", "helpers", "short_reads.c")
    subprocess.run(["cc", "-O2", "-Wall", "-Werror", "-fPIC", "-shared", "-o", library, source], check=True)
    environment = {**os.environ, "LD_PRELOAD": str(library)}
    for input_text, wanted in ((LONGEST_INPUT[:-1], (0, "", "")), (LONGEST_INPUT, (1, "", TOO_LONG))):
        text.write_text(input_text)
        with text.open("rb") as lines:
            assert call(program(), "bench", "can0", stdin=lines, env=environment) == wanted


def test_a_message_sets_250_filters():
    """A message has at most 1,024 bytes, so these filters have one digit each. Only the last filter matches 123."""
    filters = f"feed 2 < filter 250{' 1 F' * 249} 3 F >\n"
    lines = f"{filters}feed 1 < send 123 0 >< send 124 0 >\nattempt\nattempt\ndrain 2\n"
    written = "tried can0 0 done can1 -\ntried can0 1 done can1 -\n2 < frame 123 0.000000  >\n"
    assert carries_out("bench can0,can1", lines, f"2 < ok >\n{written}")


def test_64_sessions_receive_a_frame():
    def of_each(text):
        return "".join(text.replace("S", str(number)) for number in range(1, 65))

    opened = of_each("session S\nfeed S < open can0 >< rawmode >\n")
    sent = "feed 1 < recvown 1 >< send 7FF 1 A >\nattempt\n"
    greeted = of_each("S < hi >\nS < ok >< ok >\n")
    written = "1 < ok >\ntried can0 0 done - -\n" + of_each("S < frame 7FF 0.000000 0A >\n")
    assert run_line("bench can0", opened + sent + of_each("drain S\n")) == (0, greeted + written, "")


def test_a_transmit_queue_holds_1024_frames():
    lines = 1025 * "feed 1 < send 123 0 >\n" + "feed 1 < stats >\n"
    written = "1 < error no buffers >\n1 < stats 0 0 0 1024 0 1024 0 1 >\n"
    assert carries_out("bench --txqueue 1024 can0,can1", lines, written)


def test_a_receive_queue_holds_65536_items():
    lines = 65_537 * "feed 1 < send 123 0 >\nattempt\n" + "feed 2 < stats >\n"
    status, output, errors = run_line("bench --rxqueue 65536 can0,can1", TWO_SESSIONS + lines)
    assert (status, errors) == (0, "")
    assert output.endswith("tried can0 65536 done can1 -\n2 < stats 65536 1 0 0 0 0 0 0 >\n")


def test_a_bus_has_16_interfaces(tmp_path):
    opened = f"feed 1 < open {NAMES[0]} >< rawmode >\nfeed 2 < open {NAMES[15]} >< rawmode >\n"
    text = f"session 1\nsession 2\n{opened}feed 1 < send 123 0 >\nattempt\ndrain 2\n"
    tried = f"tried {NAMES[0]} 0 done {','.join(NAMES[1:])} -\n"
    output = f"{TWO_STARTED}{tried}2 < frame 123 0.000000  >\n"
    line = f"bench --report --record run.rec {','.join(NAMES)}"
    assert run_line(line, text, cwd=tmp_path) == (0, output, "")
    assert (tmp_path / "run.rec").read_text() == SIXTEEN


def test_a_long_run(tmp_path):
    """The record has two opens, and four entries per round: a send, an attempt and two receives. The second receive
    finds no frame.
    """
    lines = 4000 * "feed 1 < send 123 0 >\nattempt\ndrain 2\n"
    rounds = [f"tried can0 {number} done can1 -\n2 < frame 123 0.000000  >\n" for number in range(4000)]
    line = "bench --record run.rec can0,can1"
    assert run_line(line, TWO_SESSIONS + lines, cwd=tmp_path) == (0, TWO_STARTED + "".join(rounds), "")
    assert run_line("audit run.rec", cwd=tmp_path) == (0, "ok 16002 entries\n", "")
