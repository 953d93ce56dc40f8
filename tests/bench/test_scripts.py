"""Fault scripts in a bench: their effects, and the reports on refused scripts."""

import pytest

from commands import TWO_SESSIONS, TWO_STARTED, run_line

# Each case has a script, the input after the two sessions, and the expected output.
FOLLOWED = [
    (
        "# An idle attempt has no verdict.\n\n0 lastbit",
        (
            "session 3\nfeed 3 < open can0 >< rawmode >\nattempt\nfeed 1 < send 123 0 >\nat 0.000001\nattempt\n"
            "at 0.000002\nattempt\ndrain 2\ndrain 3\ndrain 1\n"
        ),
        (
            "3 < hi >\n3 < ok >< ok >\nidle\ntried can0 0 lastbit can1 -\ntried can0 0 done can1 -\n"
            "2 < frame 123 0.000001  >< frame 123 0.000002  >\n3 < frame 123 0.000002  >\n"
        ),
    ),
    (
        "1 good\n0 local crc can1\n",
        "feed 1 < send 123 0 >\nattempt\nattempt\n",
        "tried can0 0 destroyed - -\ntried can0 0 done can1 -\n",
    ),
    ("", "feed 1 < send 123 0 >\nattempt\n", "tried can0 0 done can1 -\n"),
    (
        "# Each frame of can1 is good.\nnext 2 from can0 global bit\n",
        "feed 1 < send 123 0 >\nfeed 2 < send 122 0 >\nattempt\nattempt\nattempt\nattempt\n",
        "tried can1 0 done can0 -\ntried can0 0 destroyed - -\ntried can0 0 destroyed - -\ntried can0 0 done can1 -\n",
    ),
    (
        "1 good\nalways id 123 skip 1 lastbit\n",
        "feed 1 < send 123 0 >< send 123 0 >< send 123 0 >\nattempt\nattempt\nattempt\nattempt\n",
        (
            "tried can0 0 done can1 -\ntried can0 1 done can1 -\ntried can0 2 lastbit can1 -\n"
            "tried can0 2 lastbit can1 -\n"
        ),
    ),
    (
        "",
        (
            "fault next 1 lastbit\nfeed 1 < fault next 1 from can1 global bit >< faults >< send 123 0 >\nattempt\n"
            "feed 2 < nofaults >< faults >< send 1 0 >\nattempt\n"
        ),
        "1 < ok >< faults 2 >\ntried can0 0 lastbit can1 -\n2 < ok >< faults 0 >\ntried can1 0 done can0 -\n",
    ),
]
# A script, the error, the position and content of the wrong line, and a note.
FAULTY = [
    (
        b"0 good\n5 local crc can1\n# 05\n05 good",
        "script line 4: repeated attempt",
        "4: 05 good",
        "line 2 has a verdict for this attempt",
    ),
    (
        b"0 good\n5 local crc can1,can2\n",
        "script line 2: unknown interface",
        "2: 5 local crc can1,can2",
        "can2 is none of can0,can1",
    ),
    (
        b"0 good\n5 local crc\n",
        "script line 2: bad line",
        "2: 5 local crc",
        "the names of the interfaces that see the fault are missing",
    ),
    (
        b"0 local crc can0 can1",
        "script line 1: bad line",
        "1: 0 local crc can0 can1",
        "names of 1 to 15 bytes are joined by commas, without spaces",
    ),
    (
        b"0 lastbit can0",
        "script line 1: bad line",
        "1: 0 lastbit can0",
        "nothing may follow good, lastbit, global bit and global form",
    ),
    (b"0  lastbit", "script line 1: bad line", "1: 0  lastbit", "words are parted by one space"),
    (
        b"good",
        "script line 1: bad line",
        "1: good",
        (
            "a line is NUMBER VERDICT, as 0 lastbit, or a rule, as next 32 from can0 global bit: NUMBER has 1 to 8 digits, "
            "and one space follows it"
        ),
    ),
    (
        b"0 local bit can0",
        "script line 1: bad line",
        "1: 0 local bit can0",
        "VERDICT is good, lastbit, global bit, global form, local stuff NAMES, local crc NAMES or local form NAMES",
    ),
    (b"next 0 good", "script line 1: bad line", "1: next 0 good", "next N: N has 1 to 8 digits and is not 0"),
    (
        b"0 lastbit\nalways from can1,can2 good",
        "script line 2: unknown interface",
        "2: always from can1,can2 good",
        "can2 is none of can0,can1",
    ),
    (
        b"next 3 local crc can2",
        "script line 1: unknown interface",
        "1: next 3 local crc can2",
        "can2 is none of can0,can1",
    ),
    (
        b"always id 12 good",
        "script line 1: bad line",
        "1: always id 12 good",
        (
            "id ID: 3 hexadecimal digits up to 7FF or 8 up to 1FFFFFFF; or ID:MASK, 1 to 8 digits each, without bit "
            "29 in MASK"
        ),
    ),
    (b"0 good\r\n", "script line 1: bad line", "1: 0 good?", "this line ends with CR and LF: lines end with only LF"),
    (b"0 good\n1 g\xffod\n", "read fault", "2: 1 g?od", "this line is no UTF-8 text"),
]


def carries_out(script, lines, written, folder, *options):
    """Returns whether a bench with two sessions and this script writes exactly this output."""
    (folder / "a.script").write_text(script)
    line = " ".join(["bench", *options, "can0,can1@a.script"])
    return run_line(line, TWO_SESSIONS + lines, cwd=folder) == (0, TWO_STARTED + written, "")


@pytest.mark.parametrize("script, lines, written", FOLLOWED)
def test_scripts_that_are_followed(script, lines, written, tmp_path):
    assert carries_out(script, lines, written, tmp_path)


@pytest.mark.parametrize(
    "verdict, tried, heard",
    [("lastbit", "lastbit can1", f"2 {'< frame 123 0.000000  >' * 32}\n"), ("global bit", "destroyed -", "")],
)
def test_bus_off_after_32_faults(verdict, tried, heard, tmp_path):
    """The frame is tried until its interface is bus off. Then the queue is empty, and no further frame is accepted."""
    script = "".join(f"{number} {verdict}\n" for number in range(32))
    sends = "feed 1 < send 123 0 >< send 124 0 >\n"
    lines = sends + 32 * "attempt\n" + "drain 2\nfeed 1 < send 123 0 >\nattempt\n"
    written = 31 * f"tried can0 0 {tried} -\n" + f"tried can0 0 {tried} can0\n"
    assert carries_out(script, lines, f"{written}{heard}1 < error bus off >\nidle\n", tmp_path)


def test_faults_are_reported_where_that_is_asked_for(tmp_path):
    asked = "feed 1 < errmask 88 >< errdata 1 >< send 123 0 >\nfeed 2 < errmask 88 >< errdata 1 >\n"
    lines = asked + "at 0.000001\nattempt\ndrain 1\ndrain 2\n"
    answered = "1 < ok >< ok >\n2 < ok >< ok >\ntried can0 0 destroyed - -\n"
    sent = "1 < error 088 0.000001 0000810A00000000 >\n"
    heard = "2 < error 088 0.000001 0000040000000000 >\n"
    assert carries_out("0 global bit", lines, answered + sent + heard, tmp_path, "--report")
    assert carries_out("0 global bit", lines, answered, tmp_path)


@pytest.mark.parametrize("script, fault, place, note", FAULTY)
def test_scripts_that_are_refused(script, fault, place, note, tmp_path):
    """A wrong script is refused before the limits of the bus are checked."""
    (tmp_path / "faulty.script").write_bytes(script)
    errors = f"canbusd: {fault}\n  faulty.script:{place}\n  {note}\n"
    assert run_line("bench --limit 0 can0,can1@faulty.script", "session 1\n", cwd=tmp_path) == (1, "", errors)


def test_a_script_before_a_bad_bus(tmp_path):
    (tmp_path / "good.script").write_text("0 good")
    errors = "canbusd: bad bus\n  --limit 0: from 1 to 16777216\n"
    assert run_line("bench --limit 0 can0@good.script", "session 1\n", cwd=tmp_path) == (1, "", errors)
