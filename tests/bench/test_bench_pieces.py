"""Inputs to a bench, given at once or one byte at a time: the reports on lines and messages are the same."""

import pytest

from commands import TWO_SESSIONS, TWO_STARTED, run_bytes, run_line

OUTSIDE = "note: session 2: bytes outside < and > were skipped\n"
BEGUN = "note: session 1: the last message has no >\n"
# Input after the two sessions, its output, and the report at the end of the run.
NOTED = [
    ("feed 1 < echo >  < echo >\t\nfeed 1 < ec\nfeed 1 ho >\n", "1 < echo >< echo >\n1 < echo >\n", ""),
    ("feed 2 echo\n", "", OUTSIDE),
    ("feed 2 echo >\nfeed 2 < echo >\n", "2 < echo >\n", OUTSIDE),
    (
        "feed 2 x>< send< send 80000123 1 0A >y< send 123 0 >\nattempt\ndrain 1\n",
        "tried can1 0 done can0 -\n1 < frame 00000123 0.000000 0A >\n",
        OUTSIDE,
    ),
    ("feed 2 < send 123 0 < echo >\n", "2 < echo >\n", OUTSIDE),
    ("feed 1 < echo >< send 123 0\n", "1 < echo >\n", BEGUN),
    ("feed 1 <", "", BEGUN),
    ("feed 1 <\nfeed 2 echo\n", "", BEGUN + OUTSIDE),
    (
        "session 64\nfeed 64 x\n",
        "64 < hi >\n",
        "note: session 64: bytes outside < and > were skipped\n",
    ),
]
# Input after the two sessions, its output, and the report on the first refused message.
REFUSED = [
    ("feed 1 < send 123 2 1122 >\n", "1 < error bad word count >\n", "error bad word count >\n"),
    (
        "feed 1 < send 123 0 >< echo >< x >\nfeed 2 < y >\n",
        "1 < echo >< error unknown command >\n2 < error unknown command >\n",
        "echo >< error unknown command >\n",
    ),
    ("feed 1 < restart >", "1 < error not bus off >\n", "error not bus off >\n"),
]
AT = "  at SECONDS.MICROS: 1 to 10 digits, a point, 6 digits, as at 1.500000\n"
ATTEMPT = "  nothing may follow attempt: each line makes one attempt\n"
NUMBER = "  a session is 1 to 64 without leading zeros, after one space\n"
MISSING = "  no line before it starts session 3\n"
WITH_CR = "  this line ends with CR and LF: lines end with only LF\n"
OTHER = "  a line begins with at, session, feed, drain, end, fault, attempt, down or up; see canbusd help bench\n"
CHANGE = "  down NAME or up NAME: one space comes before the name of an interface, as down can0\n"
# A refused line, the line as the report shows it, and the rest of the report.
FAULTY = [
    ("at 10000000000.000000", "at 10000000000.000000", AT),
    ("at 1.00000", "at 1.00000", AT),
    ("at 1.0000000", "at 1.0000000", AT),
    ("at .000000", "at .000000", AT),
    ("at 1,000000", "at 1,000000", AT),
    ("attempt ", "attempt ", ATTEMPT),
    ("attempt\r", "attempt?", WITH_CR),
    (" ", " ", OTHER),
    ("Attempt", "Attempt", OTHER),
    ("\x1b[2J\xe9", "?[2J??", OTHER),
    ("session 1", "session 1", "  session 1 was started before: a number is used once\n"),
    ("session 0", "session 0", NUMBER),
    ("session 03", "session 03", NUMBER),
    ("session 65", "session 65", NUMBER),
    ("drain 3", "drain 3", MISSING),
    ("drain  1", "drain  1", NUMBER),
    ("feed 3 < open can0 >", "feed 3 < open can0 >", MISSING),
    (
        "feed 1",
        "feed 1",
        "  feed S BYTES: S is 1 to 64 without leading zeros, and one space comes before BYTES\n",
    ),
    ("end 3", "end 3", MISSING),
    ("fault", "fault", "  fault RULE: one space comes before RULE\n"),
    ("down", "down", CHANGE),
    ("up ", "up ", CHANGE),
    ("down can2", "down can2", "  can2 is none of can0,can1\n"),
    ("up can0", "up can0", "  can0 is neither bus off nor down\n"),
    ("down can0\r", "down can0?", WITH_CR),
]


def runs(line, text, wanted):
    """Checks that this command line yields this status, output and errors for the input, whether it is given at once or
    one byte at a time."""
    for run in (run_line, run_bytes):
        assert run(line, text) == wanted


@pytest.mark.parametrize("rest, written, noted", NOTED)
def test_what_is_in_no_message_is_noted(rest, written, noted):
    runs("bench can0,can1", TWO_SESSIONS + rest, (0, TWO_STARTED + written, noted))


@pytest.mark.parametrize("rest, written, shown", REFUSED)
def test_a_strict_bench_wants_no_refusal(rest, written, shown):
    errors = f"canbusd: message refused\n  standard output, byte 48: 1 < {shown}"
    runs("bench --strict can0,can1", TWO_SESSIONS + rest, (1, TWO_STARTED + written, errors))
    runs("bench can0,can1", TWO_SESSIONS + rest, (0, TWO_STARTED + written, ""))


@pytest.mark.parametrize("line, shown, note", FAULTY)
def test_lines_that_are_refused(line, shown, note):
    errors = f"canbusd: line 5: bad line\n  standard input:5: {shown}\n{note}"
    runs("bench can0,can1", f"{TWO_SESSIONS}{line}\nattempt\n", (1, TWO_STARTED, errors))


@pytest.mark.parametrize("count", [0, 1, 1023, 1024, 1025, 2048, 2049, 5000])
def test_a_line_far_down_is_refused(count):
    """`count` lines of 8 bytes come before the refused line. In some cases they are more than the program buffers."""
    line = count + 1
    errors = (
        f"canbusd: line {line}: bad line\n  standard input:{line}: drain 64\n  no line before it starts session 64\n"
    )
    runs("bench can0", count * "# seven\n" + "drain 64\n# seven\n", (1, "", errors))


def test_a_line_of_4097_bytes_is_refused():
    """The line would be valid if it were shorter. The report shows its first 72 bytes."""
    first = "canbusd: line 1: bad line\n  standard input:1: feed 1 "
    errors = f"{first}{65 * 'x'}..\n  a line has at most 4096 bytes\n"
    runs("bench can0", f"feed 1 {4090 * 'x'}\n", (1, "", errors))
