"""Tests the reports on runs: pages in a browser, drawings, and a replay that is compared with the program."""

import os
import re
import subprocess
import sys

import pytest

from canbusd.record import read_record
from commands import BROWSER, call, example, examples, is_clean
from forked import forked
from random_benches import Maker
from serving import ROOT, program

# The command `canbusd report` as a separate program.
REPORT = [sys.executable, "-m", "canbusd", "report"]
# The number of random runs that are replayed.
RUNS = 300
STATES = ["active", "warning", "passive", "off", "down"]


def reported(*words):
    """Runs `canbusd report`; returns its status, its output, and its errors."""
    return forked("report", *words)


def numbers_asked(written, sessions):
    """Returns each session's last answers to `stats` and `status`, as a tuple of words."""
    found = re.findall(
        r"< stats ([0-9 ]+) >< status (\w+) (\d+) (\d+) >$", "\n".join(written.splitlines()[-sessions:]), re.M
    )
    return [(*stats.split(), *status) for stats, *status in found]


def numbers_replayed(run):
    """Yields the numbers that `stats` and `status` would report for each socket that is open at the end of a replay, as
    a tuple of strings."""
    for socket in run.sockets:
        if socket.closed_after is None:
            iface = run.ifaces[socket.iface]
            yield tuple(
                map(
                    str,
                    (
                        socket.queued,
                        socket.dropped,
                        socket.taken,
                        iface.sent,
                        iface.done,
                        len(iface.waiting),
                        iface.lost,
                        iface.refused,
                        STATES[iface.state()],
                        iface.tec,
                        iface.rec,
                    ),
                )
            )


def test_replay(tmp_path):
    """The replays of random runs agree with the program in each reply and in the statistics of sockets and interfaces."""
    maker, runs, asked, off = Maker(20), 0, 0, 0
    for _ in range(RUNS):
        case = maker.case()
        case.write_to(tmp_path)
        sessions = re.findall(rb"^session ([0-9]+)$", case.text, re.M)
        text = case.text.rstrip(b"\n") + b"\n" + b"".join(b"feed %s < stats >< status >\n" % one for one in sessions)
        done = subprocess.run(
            [program(), *case.words, "--record", "run.rec"], input=text, cwd=tmp_path, capture_output=True, check=False
        )
        if done.returncode:
            continue
        run = read_record(os.path.join(tmp_path, "run.rec")).replay
        replayed = list(numbers_replayed(run))
        for numbers in numbers_asked(done.stdout.decode("utf-8", "replace"), len(sessions)):
            assert numbers in replayed, f"{numbers} is none of {replayed}"
            asked += 1
        runs += 1
        off += sum(bool(step.off) for step in run.steps)
    assert runs > RUNS // 3 and off and asked, f"only {runs} runs"


def test_record_of_another_history(tmp_path):
    """The replay detects every changed reply in a record, as the audit does."""
    record, _ = example("last_bit", tmp_path)
    with open(record, encoding="ascii") as file:
        lines = file.read().splitlines()
    for place, (old, new) in enumerate((old, new) for old in lines[2:-1] for new in replies_like(old)):
        other = [new if line is old else line for line in lines]
        with open(record, "w", encoding="ascii") as file:
            file.write("\n".join(other) + "\n")
        audit, seen = call(program(), "audit", record), reported("--counters", record)
        entry = re.match(r"canbusd: (entry \d+): wrong\n", audit[2])
        assert entry and f": {entry[1]}: wrong" in seen[2] and seen[0] == 1, f"{place}: {new}: {audit} {seen}"


def replies_like(line):
    """Returns the same line with other replies that it could have."""
    event, reply = line.split(" = ")
    others = {
        "open": ["socket 7", "too-many-sockets"],
        "send": ["number 9", "bus-off"],
        "receive": ["none", "no-socket"],
        "attempt": ["idle", reply.replace("done", "noack").replace("lastbit", "done")],
        "option": ["no-socket"],
    }
    return [f"{event} = {other}" for other in others.get(event.split(" ")[0], []) if other != reply]


def test_faults_of_records(tmp_path):
    """`canbusd report` fails with a clean message if a record is missing, empty, binary, cut or damaged. It also does
    so if its reader goes away or a device is full."""
    record, _ = example("bus_off_attack", tmp_path)
    with open(record, "rb") as file:
        text = file.read()
    texts = {
        "empty": b"",
        "binary": os.urandom(4096),
        "cut in a line": text[:200],
        "cut after a line": text[: text.index(b"attempt")],
        "only the first line": b"canbus record 1\n",
        "without its end": text[: text.rindex(b"end")],
        "text after it": text + b"x\n",
        "no bus": text.replace(b"bus 2", b"bus 17"),
        "no set": text.replace(b"0002", b"2", 1),
        "another count": text.replace(b"end ", b"end 1"),
        "CRLF": text.replace(b"\n", b"\r\n"),
        "binary within": text[:300] + b"\x00\xff\x1b" + text[300:],
    }
    for options in ([], ["--counters"], ["--arbitration"]):
        path = os.path.join(tmp_path, "bad.rec")
        for what, damaged in texts.items():
            with open(path, "wb") as file:
                file.write(damaged)
            fault = reported(*options, path)
            assert is_clean(fault) and "\x1b" not in fault[2], f"{what}: {fault}"
        for other in (os.path.join(tmp_path, "none"), tmp_path):
            assert is_clean(reported(*options, other)), other
        command = [*REPORT, *options]
        status, _, errors = call(
            "sh", "-c", '"$@" --names can0,can1 | head -c 10; "$@" --help | head -n 1', "sh", *command, record
        )
        assert (status, errors) == (0, ""), errors
        with open("/dev/full", "w", encoding="ascii") as full:
            done = subprocess.run([*command, record], stdout=full, stderr=subprocess.PIPE, text=True, check=False)
        assert (
            done.returncode == (0 if command[-1] == "--arbitration" else 1) and "Traceback" not in done.stderr
        ), done.stderr


def test_names_of_interfaces(tmp_path):
    """The names of interfaces come from the arguments or from the log next to the record, but never from the log of
    another run."""
    record, _ = example("lost_arbitration", tmp_path)

    def winners():
        return re.findall(r"attempt \d+: (.+) wins", reported("--arbitration", record)[1])

    assert winners() == ["interface 1", "interface 2"], f"{winners()}"
    log = os.path.join(tmp_path, "lost_arbitration.log")
    lines = [
        "(0000000000.000100) body 123#\n",
        "(0000000000.000200) door 048C0000#\n",
        "(0000000000.000300) seat 124#\n",
    ]
    for written, wanted in [
        (lines, ["body", "door"]),
        (lines[:1], ["body", "interface 2"]),
        (lines[1:], ["interface 1", "interface 2"]),
        (["\x00\xff\n"], ["interface 1", "interface 2"]),
    ]:
        with open(log, "w", encoding="latin-1") as file:
            file.writelines(written)
        assert winners() == wanted, f"{winners()}, not {wanted}"
    for names in ("a,b", "a,b,b", "a,,c", "a,b,c,d", "a,b,<c>"):
        assert is_clean(reported("--arbitration", "--names", names, record)), names
    with open(log, "w", encoding="ascii") as file:
        file.writelines(lines)
    given = reported("--arbitration", "--names", "x,y,z", record)[1]
    assert "y wins" in given and "body" not in given, given


def test_drawings(tmp_path):
    """The guide shows the drawing that `report` makes, and no drawing is wider than 120 columns."""
    with open(os.path.join(ROOT, "docs", "GUIDE.md"), encoding="utf-8") as file:
        guide = file.read()
    widest = 0
    for name in examples():
        record, names = example(name, tmp_path)
        for drawing in ("arbitration", "counters"):
            drawn = reported(f"--{drawing}", "--names", names, record)[1].rstrip("\n").splitlines()
            widest = max([widest, *map(len, drawn)])
            # The guide shows only the first attempt of three nodes.
            if (name, drawing) == ("lost_arbitration", "arbitration"):
                assert "\n".join(f"    {line}" for line in drawn[:4]) in guide, f"the guide has another {drawing}"
    widest = max(widest, width_of_sixteen(tmp_path))
    assert widest <= 120, f"{widest} columns"


def width_of_sixteen(folder):
    """Returns the widest line in the drawings of a long run of 16 interfaces with long names."""
    long = ",".join(f"longest-name.{number:02}" for number in range(16))
    record = os.path.join(folder, "long.rec")
    lines = [f"session {s}\nfeed {s} < open longest-name.{s - 1:02} >< rawmode >\n" for s in range(1, 17)]
    lines += [f"feed {s} < send 1FFFFFF{s % 16:X} 8 1 2 3 4 5 6 7 8 >\n" for s in range(1, 17)] + ["attempt\n"] * 600
    script = os.path.join(folder, "long.script")
    with open(script, "w", encoding="ascii") as file:
        file.writelines(f"{number} global bit\n" for number in range(500))
    done = subprocess.run(
        [program(), "bench", "--record", record, f"{long}@{script}"],
        input="".join(lines),
        text=True,
        capture_output=True,
        check=False,
    )
    assert done.returncode == 0, done.stderr
    drawn = "".join(reported(f"--{drawing}", "--names", long, record)[1] for drawing in ("arbitration", "counters"))
    return max(map(len, drawn.splitlines()))


def page_in_browser(page, step):
    """Opens the page in a browser with this step selected; returns the text of the page's elements."""
    done = call(
        BROWSER,
        "--headless",
        "--no-sandbox",
        "--disable-gpu",
        "--host-resolver-rules=MAP * ~NOTFOUND",
        # The page unpacks its data before it draws anything.
        "--virtual-time-budget=20000",
        "--dump-dom",
        f"file://{page}#step={step}",
    )
    shown = re.sub(r"<(script|style)\b.*?</\1>", "", done[1], flags=re.S)
    return re.sub(
        r"\s+",
        " ",
        re.sub(r"</?(?:div|b|i|label)[^>]*>", "", re.sub(r"</?(?:td|th|tr|p|h\d|option)[^>]*>", " | ", shown)),
    )


# Examples, each with the selected step and the strings that the page then contains.
SHOWN = [
    (
        "lost_arbitration",
        1,
        [
            "can2 wins with its frame 0, 048C0000#. Fault: none. Outcome: done. Accepted by can0, can1.",
            "can0 001001001 loses here: 124#",
            "can2 00100100011 11 000000000000000000 0 wins with 048C0000#",
        ],
    ),
    (
        "bus_off_attack",
        31,
        [
            "can0 wins with its frame 0, 123#. Fault: global bit. Outcome: destroyed.",
            "Accepted by nobody. can0 goes bus off.",
            "248 \u2192 256",
            "all its 32 attempts from attempt 0 on failed (32 x global bit)",
            "can0 went bus off at transmit count 256",
        ],
    ),
    ("missed_frame", 16, ["Fault: local crc at can2. Outcome: done. Accepted by can1.", "local fault"]),
    ("last_bit", 0, ["Fault: last bit, at the sender only. Outcome: last bit. Accepted by can1.", "0 \u2192 8"]),
]


@pytest.mark.parametrize("name", examples())
def test_page(name, tmp_path):
    """The page of each example is one file without links."""
    record, names = example(name, tmp_path)
    status, page, errors = reported("--names", names, record)
    assert (status, errors) == (0, "") and page.endswith("</html>\n"), errors
    # The icon is embedded in the page, so that no browser requests one.
    assert not re.search(r"https?:|\bsrc=|\bhref=(?!\"data:)|@import|url\(", page), "a link"


@pytest.mark.browser
@pytest.mark.parametrize("name, step, texts", SHOWN)
def test_page_in_a_browser(name, step, texts, tmp_path):
    """The page in a browser shows the selected attempt."""
    record, names = example(name, tmp_path)
    path = tmp_path / f"{name}.html"
    path.write_text(reported("--names", names, record)[1], encoding="utf-8")
    shown = page_in_browser(path, step)
    for text in texts:
        assert text in shown, f"no `{text}` in {shown[:1500]}"


@pytest.mark.slow
def test_page_of_a_long_run(tmp_path):
    """The page of a run with 100,000 attempts can be created, and opens in a browser."""
    lines = ["session 1\nfeed 1 < open can0 >< rawmode >\nsession 2\nfeed 2 < open can1 >< rawmode >\n"]
    lines += [
        f"at {number // 1000}.{number % 1000:03}000\n"
        f"feed {1 + number % 2} < send 1{number % 256:02X} 1 {number % 256:X} >\nattempt\n"
        + "drain 1\ndrain 2\n" * (number % 100 == 99)
        for number in range(100000)
    ]
    record, path = os.path.join(tmp_path, "long.rec"), os.path.join(tmp_path, "long.html")
    done = subprocess.run(
        [program(), "bench", "--record", record, "can0,can1"],
        input="".join(lines),
        text=True,
        capture_output=True,
        check=False,
    )
    assert done.returncode == 0, done.stderr
    status, page, errors = reported(record)
    assert status == 0, errors
    with open(path, "w", encoding="utf-8") as file:
        file.write(page)
    if not BROWSER:
        pytest.skip("the page is made, but there is no browser to show it")
    shown = page_in_browser(path, 99999)
    assert "Attempt 99,999 at 99.999000" in shown and "Attempts 100,000" in shown, shown[:500]
