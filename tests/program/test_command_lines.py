"""Tests the exact messages for refused arguments, the help, and the messages for buses, scripts and addresses that
can't be used."""

import resource
import socket

import pytest

from commands import call, run_line
from serving import program

# Refused command lines. test_long_runs.py tests other refused arguments, and test_devices.py tests failing files and
# streams.
NO_JOB = [
    "",
    "serve",
    "bench",
    "bench can0 can1",
    "bench --limit",
    "bench --limit= can0",
    "bench --limit +5 can0",
    "bench --txqueue 4294967296 can0",
    "bench --rxqueue x can0",
    "bench --auto-restart -1 can0",
    "bench --auto-restart can0",
    "bench --limit 1 --limit 1 can0",
    "bench --ack never can0",
    "bench --ack",
    "bench --report=1 can0",
    "bench --record",
    "bench --log",
    "bench --strict=1 can0",
    "bench --strict --strict can0",
    "bench --show-faults=1 can0",
    "bench --show-faults --show-faults can0",
    "bench --bitrate +500000 can0",
    "serve --bitrate +500000 can0",
    "serve --strict can0",
    "serve --show-faults can0",
    "bench --record run.rec --log run.rec can0",
    "bench --record run.rec --log ./run.rec can0",
    "bench --log=/a/./b --record=//a//b can0",
    "serve --sessions +5 can0",
    "serve --sessions 1 --sessions 1 can0",
    "serve --record none --sessions 4294967296 can0",
    "serve --record live --record live --out . can0",
    "serve --record end --flush 5 can0",
    "serve --record none --sync=1 can0",
    "bench --flush 5 can0",
    "serve --pace x can0",
    "serve --pace= can0",
    "serve --limit 4294967296 can0",
    "serve --txqueue x can0",
    "serve --rxqueue +1 can0",
    "serve --auto-restart 4294967296 can0",
    "serve --ack never can0",
    "serve --report=1 can0",
    "serve --until-eof=1 can0",
    "serve --listen",
    "serve --out",
    "serve --log run.log can0",
    "audit",
    "audit --cut",
    "audit --events=1 run.rec",
    "audit --events --bitrate",
    "audit --events --bitrate= run.rec",
    "audit --events --bitrate +500000 run.rec",
    "audit --events --bitrate 500000 --bitrate 500000 run.rec",
    "audit --cut --bitrate 500000 run.rec",
    "audit --events --faults",
    "audit --events --faults= run.rec",
    "audit --events --faults can0 run.rec",
    "audit --events --faults can0@a --faults can0@a run.rec",
    "audit --cut --faults can0@a run.rec",
    "bench --faults can0@a can0",
    "serve --faults can0@a can0",
]
# Command lines whose arguments are accepted, so that the report is about the bus.
A_JOB = [
    "bench --record run.rec --log /run.rec can0,can0",
    "bench --record run.rec --log a/run.rec can0,can0",
    "bench --record ../run.rec --log run.rec can0,can0",
    "bench --strict can0,can0",
    "bench --show-faults can0,can0",
    "bench --show-faults --strict can0,can0",
    "bench --bitrate 5000 --dbitrate 20000000 can0,can0",
    "bench --bitrate 1000000 --dbitrate 1000000 can0,can0",
    "serve --bitrate 5000 --dbitrate 20000000 can0,can0",
    "serve --bitrate 1000000 --dbitrate 1000000 can0,can0",
    "bench --bitrate can1=500000 can0,can1,can1",
    "bench --bitrate 4999999=1000000 --dbitrate 4999999=1000000 4999999,can0,can0",
    "bench --bitrate 5000 --bitrate can0=1000000 --dbitrate can0=1000000 --dbitrate 5000 can0,can0",
    "serve --bitrate 500000 --bitrate can2=125000 --dbitrate can3=20000000 can0 can1,can2 can3,can3",
    "serve --bitrate can0=5000 --dbitrate can0=5000 can0 can1,can1",
    "serve --record end --limit 5 can0,can0",
    "serve --record live --out . --flush 0 can0,can0",
    "serve --record none --flush 60000 --sync can0,can0",
    "serve --record none --sessions 4294967295 can0,can0",
]
# Refused arguments, and the beginning of the report on them.
REFUSED = [
    (
        "bench --bitrate 500000 --dbitrate 499999 can0",
        "error: invalid value '499999' for '--dbitrate': not a number from 500000 to 20000000 in decimal digits\n",
    ),
    ("bench --dbitrate 500000 can0", "error: '--dbitrate' needs '--bitrate'\n"),
    ("bench --dbitrate can0=500000 can0", "error: '--dbitrate' needs '--bitrate'\n"),
    (
        "bench --bitrate can1=500000 can0",
        "error: invalid value 'can1=500000' for '--bitrate': no interface has this name\n",
    ),
    (
        "bench --bitrate can=500000 can0",
        "error: invalid value 'can=500000' for '--bitrate': no interface has this name\n",
    ),
    ("bench --bitrate =500000 can0", "error: invalid value '=500000' for '--bitrate': no interface has this name\n"),
    (
        "serve --bitrate can0=1 --bitrate none=1 can0@none",
        "error: invalid value 'none=1' for '--bitrate': no interface has this name\n",
    ),
    (
        "serve --bitrate 1 --dbitrate can2=1000000 can0,can1",
        "error: invalid value 'can2=1000000' for '--dbitrate': no interface has this name\n",
    ),
    ("bench --bitrate can0=500000 --bitrate can0=500000 can0", "error: '--bitrate' gives two values for can0\n"),
    (
        "serve --bitrate can1=1 --bitrate 1 --bitrate can2=2 can0 can1,can2@none",
        "error: '--bitrate' gives two values for can1,can2\n",
    ),
    (
        "serve --bitrate 500000 --dbitrate can1=1 --dbitrate can0=1 can0,can1",
        "error: '--dbitrate' gives two values for can0,can1\n",
    ),
    ("bench --bitrate 500000 --bitrate 500000 can0", "error: '--bitrate' gives two values for all buses\n"),
    ("serve --bitrate 5 --bitrate 6 --bitrate can0=5 can0", "error: '--bitrate' gives two values for all buses\n"),
    (
        "bench --bitrate can0=4999 can0",
        "error: invalid value '4999' for '--bitrate': not a number from 5000 to 1000000 in decimal digits\n",
    ),
    (
        "bench --bitrate=can0= can0",
        "error: invalid value '' for '--bitrate': not a number from 5000 to 1000000 in decimal digits\n",
    ),
    (
        "bench --bitrate can0=5000=0 can0",
        "error: invalid value '5000=0' for '--bitrate': not a number from 5000 to 1000000 in decimal digits\n",
    ),
    (
        "bench --bitrate 4999 --bitrate can0=5000 can0",
        "error: invalid value '4999' for '--bitrate': not a number from 5000 to 1000000 in decimal digits\n",
    ),
    (
        "bench --bitrate 5000 --dbitrate can0=5000 --dbitrate 4999 can0",
        "error: invalid value '4999' for '--dbitrate': not a number from 5000 to 20000000 in decimal digits\n",
    ),
    (
        "serve --bitrate 5000 --bitrate can1=500000 --dbitrate 499999 can0 can1",
        "error: invalid value '499999' for '--dbitrate': not a number from 500000 to 20000000 in decimal digits\n",
    ),
    (
        "serve --bitrate can0=500000 --dbitrate can1=1000000 can0 can1",
        "error: '--dbitrate' needs '--bitrate' for can1 too\n",
    ),
    (
        "serve --bitrate can0=500000 --dbitrate 1000000 can0 can1,can2",
        "error: '--dbitrate' needs '--bitrate' for can1,can2 too\n",
    ),
    (
        "audit --events --bitrate can0=500000 run.rec",
        "error: invalid value 'can0=500000' for '--bitrate': NAMES of '--faults NAMES@FILE' do not have this name\n",
    ),
    (
        "audit --events --faults can0,can1@a --bitrate can2=500000 run.rec",
        "error: invalid value 'can2=500000' for '--bitrate': NAMES of '--faults NAMES@FILE' do not have this name\n",
    ),
    ("audit --faults can0@a --bitrate can0=500000 run.rec", "error: '--bitrate' needs '--events'\n"),
    (
        "serve --bitrate 500000 --dbitrate 499999 can0",
        "error: invalid value '499999' for '--dbitrate': not a number from 500000 to 20000000 in decimal digits\n",
    ),
    ("serve --dbitrate 500000 can0", "error: '--dbitrate' needs '--bitrate'\n"),
    ("audit --bitrate 500000 run.rec", "error: '--bitrate' needs '--events'\n"),
    ("audit --bitrate 500000 --dbitrate 500000 run.rec", "error: '--bitrate' needs '--events'\n"),
    ("audit --dbitrate 500000 run.rec", "error: '--dbitrate' needs '--bitrate'\n"),
    ("audit --events --dbitrate 500000 run.rec", "error: '--dbitrate' needs '--bitrate'\n"),
    ("audit --faults can0@a run.rec", "error: '--faults' needs '--events'\n"),
    (
        "audit --events --faults can0,can1 run.rec",
        "error: invalid value 'can0,can1' for '--faults': NAMES@FILE, where FILE is the script of faults\n",
    ),
    (
        "audit --events --bitrate 500000 --dbitrate 499999 run.rec",
        "error: invalid value '499999' for '--dbitrate': not a number from 500000 to 20000000 in decimal digits\n",
    ),
    (
        "bench --txqueue ten can0",
        "error: invalid value 'ten' for '--txqueue': not a number from 1 to 1024 in decimal digits\n",
    ),
    (
        "serve --auto-restart 0.5 can0",
        "error: invalid value '0.5' for '--auto-restart': not a number from 0 to 1000000 in decimal digits\n",
    ),
    ("serve --record run.rec can0", "error: invalid value 'run.rec' for '--record': end, live or none\n"),
    (
        "serve --record live --out . --limit 5 can0",
        "error: '--limit' cannot be used with '--record live', whose limit is 4294967294\n",
    ),
    (
        "serve --record none --limit 5 can0",
        "error: '--limit' cannot be used with '--record none', whose limit is 4294967294\n",
    ),
    ("serve --record live can0", "error: '--record live' needs '--out DIR'\n"),
    ("serve --flush 5 can0", "error: '--flush' needs '--record live' or '--record none'\n"),
    ("serve --sync can0", "error: '--sync' needs '--record live' or '--record none'\n"),
    ("bench --record a --log ./a can0", "error: invalid value './a' for '--log': --record names this file\n"),
]
HELP = [
    ("--version", "canbusd "),
    ("--help", "Simulated CAN buses\n"),
    ("bench -h", "Carry out the lines"),
    ("help bench", "Carry out the lines"),
    ("help audit", "Check that a record"),
    ("help bits", "Write the bits of a frame"),
    ("serve -h", "Serve clients on buses\n"),
    ("help serve", "Serve clients on buses\n"),
]
# Arguments with a bus that is refused, and the complete report.
NO_BUS = [
    ("bench can0,can0", "canbusd: bad bus\n  can0: this name is given twice\n"),
    ("bench a,b,can1,b@none", "canbusd: bad bus\n  b: this name is given twice\n"),
    (
        "bench @none",
        "canbusd: bad bus\n  a name is empty: names of 1 to 15 bytes are joined by commas, without spaces\n",
    ),
    (
        "bench can0,",
        "canbusd: bad bus\n  a name is empty: names of 1 to 15 bytes are joined by commas, without spaces\n",
    ),
    ("bench can0,abcdefghijklmnop", "canbusd: bad bus\n  abcdefghijklmnop: 16 bytes, a name has 1 to 15\n"),
    ("bench can0,\x1b[2Jz\xe9", "canbusd: bad bus\n  ?[2Jz??: a name has only ASCII letters, digits, _, - and .\n"),
    ("bench a,b,c,d,e,f,g,h,i,j,k,l,m,n,o,p,q", "canbusd: bad bus\n  17 names: a bus has 1 to 16\n"),
    ("bench --limit 0 can0", "canbusd: bad bus\n  --limit 0: from 1 to 16777216\n"),
    ("bench --auto-restart 1000001 can0", "canbusd: bad bus\n  --auto-restart 1000001: from 0 to 1000000\n"),
    (
        "serve --limit 0 --listen ./none/socket can0@none",
        "canbusd: cannot open none\n  none: No such file or directory (os error 2)\n",
    ),
    ("serve can1@none can0,can0", "canbusd: cannot open none\n  none: No such file or directory (os error 2)\n"),
    ("serve can0,can0 can1@none", "canbusd: bad bus\n  can0: this name is given twice\n"),
    ("serve --limit 0 --listen ./none/socket can0", "canbusd: bad bus\n  --limit 0: from 1 to 16777216\n"),
    ("serve --listen ./none/socket can0,can1 can2 can3,can1", "canbusd: bad bus\n  can1: two buses have this name\n"),
    ("serve a b c d e f g h i j k l m n o p q", "canbusd: bad bus\n  17 buses: a server has 1 to 16\n"),
    (
        "serve --listen ./none/socket can0",
        "canbusd: cannot listen\n  ./none/socket: No such file or directory (os error 2)\n",
    ),
]
NO_SCRIPT = [
    ("bench --limit 0 can0@none", "canbusd: cannot open none\n  none: No such file or directory (os error 2)\n"),
    (
        "bench can0@",
        "canbusd: cannot open \n  : No such file or directory (os error 2)\n  the path of a script comes after @\n",
    ),
    (
        "bench can0@a@b",
        (
            "canbusd: cannot open a@b\n  a@b: No such file or directory (os error 2)\n"
            "  one script serves all names of a bus: its path begins after the first @\n"
        ),
    ),
    ("bench can0@.", "canbusd: read fault\n  .: Is a directory (os error 21)\n"),
]
# Commands with buses that need more than 16 megabytes, and the note on that.
TOO_LARGE = [
    ("bench can0", "a run reserves 108 bytes of memory for each event of --limit"),
    ("serve can0", "each bus reserves 108 bytes of memory for each event of --limit"),
    ("serve --record live --out . can0", "each bus reserves 57 megabytes of memory"),
    ("serve --record none can0", "each bus reserves 57 megabytes of memory"),
]


@pytest.mark.parametrize("line", NO_JOB)
def test_words_that_ask_for_no_job(line, tmp_path):
    status, output, errors = run_line(line, cwd=tmp_path)
    assert (status, output) == (2, "") and errors.startswith("error: "), errors


@pytest.mark.parametrize("line", A_JOB)
def test_words_at_their_limits(line, tmp_path):
    status, output, errors = run_line(line, cwd=tmp_path)
    assert (status, output) == (1, "") and errors.startswith("canbusd: bad bus\n"), errors


@pytest.mark.parametrize("line, begins", REFUSED)
def test_why_words_are_refused(line, begins, tmp_path):
    status, output, errors = run_line(line, cwd=tmp_path)
    assert (status, output) == (2, "") and errors.startswith(begins), errors


def test_words_that_are_no_text():
    errors = "error: the command line is no UTF-8 text\n"
    assert call(program(), "bench", b"can0\xff") == (2, "", errors)


@pytest.mark.parametrize("line, begins", HELP)
def test_help(line, begins, tmp_path):
    status, output, errors = run_line(line, cwd=tmp_path)
    assert (status, errors) == (0, "") and output.startswith(begins), output


@pytest.mark.parametrize("line, errors", NO_BUS + NO_SCRIPT)
def test_buses_and_scripts_that_are_refused(line, errors, tmp_path):
    assert run_line(line, cwd=tmp_path) == (1, "", errors)


@pytest.mark.parametrize("line, note", TOO_LARGE)
def test_buses_that_memory_is_too_small_for(line, note, tmp_path):
    most = 2**24
    limited = {"cwd": tmp_path, "preexec_fn": lambda: resource.setrlimit(resource.RLIMIT_AS, (most, most))}
    assert run_line(line, **limited) == (1, "", f"canbusd: no memory\n  {note}\n")


def test_addresses_that_are_taken(tmp_path):
    """If a port is in use, the report has a note. A file that is not a socket is not removed, and neither is a socket
    on which a program listens."""

    def refused(address, note=""):
        errors = f"canbusd: cannot listen\n  {address}: Address already in use (os error 98)\n{note}"
        return run_line(f"serve --listen {address} can0", cwd=tmp_path) == (1, "", errors)

    with socket.create_server(("127.0.0.1", 0)) as taken:
        note = "  with port 0, as in --listen 127.0.0.1:0, the system picks a free one\n"
        assert refused(f"127.0.0.1:{taken.getsockname()[1]}", note)
    plain = tmp_path / "plain"
    plain.write_text("mine")
    assert refused("./plain") and plain.read_text() == "mine"
    with socket.socket(socket.AF_UNIX) as alive:
        alive.bind(str(tmp_path / "alive"))
        alive.listen()
        assert refused("./alive")


def test_a_log_that_is_a_folder(tmp_path):
    """A server whose log is a folder reports this when it exits, and still writes its record."""
    (tmp_path / "can0.log").mkdir()
    errors = "canbusd: cannot open ./can0.log\n  ./can0.log: Is a directory (os error 21)\n"
    listening = "listening ./lost\nbus can0 entries 0\n"
    line = "serve --until-eof --out . --listen ./lost can0"
    assert run_line(line, cwd=tmp_path) == (1, listening, errors)
    assert run_line("audit can0.rec", cwd=tmp_path) == (0, "ok 0 entries\n", "")
