#!/usr/bin/env python3
"""Tests serve_load, serve_limit and serve_wrong against each other (half a minute).

    python3 serve_test.py [--cpus 2,3] [--only WORD]

1. serve_limit's answers are, word for word, those of the manual page, for whole messages
   and for messages in pieces.
2. Runs that must have no fault: several numbers of sessions, names, windows, lengths;
   bytes that serve_load splits in both directions; full transmit queues; receive queues
   that overflow because the client reads slowly.
3. Runs in which serve_wrong does one thing wrong now and then, or the server ends, does
   not answer, or is missing: serve_load has to end with status 1 and count the right fault.

The status is 0 if all tests passed, and otherwise 1.
"""

import argparse
import os
import socket
import subprocess
import sys
import tempfile
import threading
import time

from serve_compare import HERE, Failed, Server, load

COUNTS = ("refused", "dropped", "lost", "doubled", "disorder", "wrong", "miscounted", "stalls")
failed = 0


def report(name, good, text=""):
    global failed
    failed += not good
    print(f"{'ok' if good else 'FAILED':<7}{name}{': ' if text else ''}{text}", flush=True)


# ------------------------------------------------------------ texts


def connect(server):
    if server.unix:
        one = socket.socket(socket.AF_UNIX)
        one.connect(server.unix)
    else:
        one = socket.create_connection(("127.0.0.1", server.port))
        one.setsockopt(socket.IPPROTO_TCP, socket.TCP_NODELAY, 1)
    one.settimeout(5)
    return one


def read_until(one, wanted):
    """Reads until the input is as long as the expected answer, or until no more bytes arrive."""
    got = b""
    try:
        while len(got) < len(wanted):
            piece = one.recv(65536)
            if not piece:
                break
            got += piece
    except (socket.timeout, ConnectionResetError):
        pass
    return got


def without_moments(text):
    """Replaces the timestamp of each frame with T. Checks that the timestamp is close to the present time."""
    words = text.split(b" ")
    for i, word in enumerate(words):
        if word.count(b".") == 1 and len(word) >= 8:
            if len(word.split(b".")[1]) == 6 and abs(float(word) - time.time()) < 60:
                words[i] = b"T" * 17
    return b" ".join(words)


RAW = "< open can0 >< rawmode >"
RAW_OK = "< ok >< ok >"
TEXTS = [  # the messages on one connection, and the expected answer after `< hi >`
    ("x< echo >< < echo >", "< echo >< echo >"),
    ("<echo>\t<\r\necho\t >", "< echo >< echo >"),
    ("< rawmode >< echo >", "< error wrong state >< echo >"),
    ("< send 123 0 >< stats >< close >", "< error wrong state >" * 3),
    (
        "< open can9 >< open >< open can0 can1 >",
        "< error no such interface >< error bad word count >< error bad word count >",
    ),
    (RAW + "< rawmode >< open can0 >", RAW_OK + "< ok >< error wrong state >"),
    (
        RAW + "< send 1234 0 >< send 800 0 >< send 123 9 >< send 123 1 >",
        RAW_OK + "< error bad id >< error bad id >< error bad length >< error bad word count >",
    ),
    (
        RAW + "< send A0000123 0 >< send 123 1 100 >< send 123 1 g >< send 123 >",
        RAW_OK + "< error bad id >< error bad byte >< error bad byte >< error bad word count >",
    ),
    (
        RAW + "< filter 1 123 20000000 >< filter >< filter x >< filter 513 >< filter 2 0 0 >",
        RAW_OK + "< error invalid filter >< error bad word count >< error bad number >"
        "< error too many filters >< error bad word count >",
    ),
    (RAW + "< filter 1 123456789 0 >< filter 0 >", RAW_OK + "< error bad number >< ok >"),
    (
        RAW + "< recvown 2 >< recvown >< loopback x >< loopback 1 >",
        RAW_OK + "< error bad number >< error bad word count >< error bad number >< ok >",
    ),
    (
        RAW + "< >< nosuch >< stats 1 >",
        RAW_OK + "< error empty message >< error unknown command >< error bad word count >",
    ),
    ("<" + "x" * 1024 + ">< echo >", "< error unknown command >< echo >"),
    ("<" + "x" * 1025 + ">< echo >", "< error message too long >< echo >"),
    ("<" + " " * 1020 + "echo><" + " " * 1021 + "echo>", "< echo >< error message too long >"),
    (
        RAW + "< recvown 1 >< send 123 4 11 22 33 44 >< send 80000123 0 >< SEND 1 0 >",
        RAW_OK + "< ok >< error unknown command >"
        "< frame 123 TTTTTTTTTTTTTTTTT 11223344 >< frame 00000123 TTTTTTTTTTTTTTTTT  >",
    ),
    (RAW + "< recvown 1 >< send 123 2 1 ff >", RAW_OK + "< ok >< frame 123 TTTTTTTTTTTTTTTTT 01FF >"),
    (RAW + "< send 123 0 >< close >< echo >", RAW_OK + "< closed 0 0 >"),
]
PAIRS = [  # the name of the second; the messages of the second; the messages of the first; the answer to the second
    ("can1", "", "< send 123 4 11 22 33 44 >", "< frame 123 TTTTTTTTTTTTTTTTT 11223344 >"),
    ("can1", "< filter 1 123 7FF >", "< send 00000123 0 >", "< frame 00000123 TTTTTTTTTTTTTTTTT  >"),
    ("can1", "< filter 1 123 C00007FF >", "< send 00000123 0 >< send 123 0 >", "< frame 123 TTTTTTTTTTTTTTTTT  >"),
    ("can1", "< filter 2 20000123 7FF 20000124 7FF >", "< send 123 0 >", "< frame 123 TTTTTTTTTTTTTTTTT  >"),
    ("can1", "< filter 1 20000123 7FF >", "< send 123 0 >< send 124 0 >", "< frame 124 TTTTTTTTTTTTTTTTT  >"),
    ("can1", "< filter 0 >", "< send 123 0 >", ""),
    ("can0", "", "< loopback 0 >< send 100 0 >< loopback 1 >< send 101 0 >", "< frame 101 TTTTTTTTTTTTTTTTT  >"),
]


def limit_of(place, more=""):
    return f"{HERE}/serve_limit --sessions {{sessions}} --{place} {{{place}}} {more}"


def answers_to(text, size, wanted, place, folder):
    with Server(limit_of(place), 1, "", folder) as server, connect(server) as one:
        size = size or len(text)
        try:
            for i in range(0, len(text), size):
                one.sendall(text[i : i + size].encode())
        except OSError:  # after `close`
            pass
        return without_moments(read_until(one, wanted))


def test_texts(folder):
    for place, size in (("port", 0), ("unix", 0), ("unix", 1), ("port", 7)):
        bad = []
        for text, wanted in TEXTS:
            wanted = b"< hi >" + wanted.encode()
            got = answers_to(text, size, wanted, place, folder)
            order = sorted if size else list  # a frame may come before a later answer
            if order(got.split(b">")) != order(wanted.split(b">")):
                bad.append(f"{text[:60]!r}: {got!r}")
        report(f"{len(TEXTS)} texts, {place}, {f'pieces of {size}' if size else 'whole'}", not bad, "; ".join(bad))
    for row in PAIRS:
        test_pair(*row, folder)
    with Server(limit_of("port"), 65, "", folder) as server:
        all_of_them = [connect(server) for _ in range(65)]
        greetings = [read_until(one, b"< hi >") for one in all_of_them[:64]]
        last = read_until(all_of_them[64], b"< error too many sessions >")
        for one in all_of_them:
            one.close()
        report("the 65th session at once", greetings == [b"< hi >"] * 64 and last == b"< error too many sessions >")


def test_pair(name, first_words, words, wanted, folder):
    sent, came = words.count("send"), wanted.count("frame")
    oks = "< ok >" * (2 + words.count("loopback"))
    on = f"{sent} {sent} 0 0 0" if name == "can0" else "0 0 0 0 0"
    first_oks = "< ok >" * (2 + bool(first_words))
    talks = [  # the connection, its messages, and the answer
        (1, f"< open {name} >< rawmode >{first_words}", f"< hi >{first_oks}"),
        (0, f"{RAW}{words}< stats >", f"< hi >{oks}< stats 0 0 0 {sent} 0 {sent} 0 0 >"),
        (1, "< stats >< close >", f"{wanted}< stats {came} 0 {came} {on} >< closed 0 0 >"),
    ]
    bad = ""
    with Server(limit_of("port"), 2, "", folder) as server:
        with connect(server) as one, connect(server) as two:
            for which, text, answer in talks:
                (one, two)[which].sendall(text.encode())
                got = without_moments(read_until((one, two)[which], answer.encode()))
                bad += "" if got == answer.encode() else f"{got} "
    report(f"pair can0, {name} {first_words} {words}", not bad, bad)


# ------------------------------------------------------------ runs of serve_load


def run(name, command, sessions, words, folder, status, check, seconds=30):
    try:
        with Server(command, sessions, "can0,can1", folder) as server:
            got, found, errors = load(server, ["--sessions", str(sessions)] + words.split(), seconds)
    except (Failed, subprocess.TimeoutExpired) as fault:
        report(name, False, str(fault))
        return
    good = got == status and check(found)
    counts = " ".join(f"{key} {found[key]}" for key in COUNTS if found.get(key, "0") not in "0-")
    first = errors.splitlines()[0] if errors else ""
    report(name, good, f"{found.get('result', 'no line')} {counts}" + (f" [{first}]" if status or not good else ""))


def fine(found, **more):
    zero = set(COUNTS) - {"stalls"} - set(more)
    return (
        found.get("result") == "ok"
        and all(found[key] == "0" for key in zero)
        and all(int(found[key]) > 0 for key in more)
    )


def test_good(folder):
    queues = "--txqueue 1024 --rxqueue 65536"
    for place in ("port", "unix"):
        server = limit_of(place, queues)
        for sessions, words in (
            (2, "--window 1"),
            (2, "--window 64 --data 4"),
            (3, "--window 8 --data 5"),
            (5, "--senders 2 --window 1024"),
            (16, "--window 8 --data 6"),
            (64, "--window 16 --frames 20000"),
            (64, "--senders 1 --window 1 --frames 500"),
            (4, "--frames 1"),
            (7, "--frames 3 --window 2 --data 7"),
        ):
            run(f"{place}, {sessions} sessions {words}", server, sessions, words, folder, 0, fine)
        for cut in (1, 2, 3, 7, 29, 40):
            run(f"{place}, cut {cut}", server, 4, f"--cut {cut} --frames 1500", folder, 0, fine)
        run(
            f"{place}, echo",
            server + " --echo",
            3,
            "--echo --window 5",
            folder,
            0,
            lambda found: found["result"] == "ok" and found["messages"] == "10000",
        )
    for names in ("can0", "a,b,c,d", ",".join(f"vcan-{i:_<9}" for i in range(16))):
        run(
            f"{names.count(',') + 1} names",
            limit_of("port", f"{queues} {names}"),
            17,
            f"--names {names} --frames 5000",
            folder,
            0,
            fine,
        )
    for size, window in ((1, 8), (10, 64), (3, 1)):
        run(
            f"txqueue {size}, window {window}",
            limit_of("port", f"--txqueue {size} --rxqueue 65536"),
            8,
            f"--window {window} --frames 4000",
            folder,
            0,
            lambda found: fine(found, refused=1),
        )
    run(
        "a slow reader, rxqueue 1",
        limit_of("unix", "--txqueue 1024 --rxqueue 1"),
        16,
        "--window 1024 --frames 32000 --cut 16",
        folder,
        0,
        lambda found: fine(found, dropped=1),
    )
    wrong = f"{HERE}/serve_wrong --sessions {{sessions}} --port {{port}} --rxqueue 65536"
    run(
        "drops that are owned up to",
        f"{wrong} --txqueue 1024 --wrong owned",
        4,
        "",
        folder,
        0,
        lambda found: fine(found, dropped=1) and found["dropped"] == "30",
    )
    run(
        "the same at window 1",
        f"{wrong} --txqueue 1024 --wrong owned --every 100",
        4,
        "--window 1 --frames 2000",
        folder,
        0,
        lambda found: fine(found, dropped=1),
    )
    run(
        "the same with refusals",
        f"{wrong} --txqueue 3 --wrong owned --every 50",
        4,
        "--frames 2000",
        folder,
        0,
        lambda found: fine(found, dropped=1, refused=1),
    )


def silent(path):
    """A server that accepts connections and sends nothing."""
    with socket.socket(socket.AF_UNIX) as one:
        one.bind(path)
        one.listen(8)
        kept = [one.accept()[0] for _ in range(2)]
        time.sleep(3)
        for each in kept:
            each.close()


def test_wrong(folder):
    wrong = f"{HERE}/serve_wrong --port {{port}} --txqueue 1024 --rxqueue 65536 --wrong"
    # 10,000 frames go to 3 sessions each. If one in 1,000 has a fault, the fault occurs in 30 receives or in 10 sends.
    for kind, every, words, key, count in (
        ("drop", 1000, "", "lost", "30"),
        ("drop", 25001, "", "lost", "1"),
        ("drop", 1000, "--window 1", "lost", None),
        ("drop", 1000, "--cut 3", "lost", "30"),
        ("swap", 1000, "", "disorder", None),
        ("swap", 25001, "", "disorder", "1"),
        ("double", 1000, "", "doubled", "30"),
        ("double", 25001, "", "doubled", "1"),
        ("data", 1000, "", "wrong", "30"),
        ("data", 25001, "", "wrong", "1"),
        ("refuse", 1000, "", "refused", "10"),
        ("refuse", 9001, "", "miscounted", None),
        ("forget", 1000, "", "lost", "30"),
        ("forget", 9001, "", "lost", "3"),
        ("mute", 1000, "", "lost", None),
        ("count", 4, "", "miscounted", None),
    ):
        run(
            f"wrong: {kind}, one in {every} {words}",
            f"{wrong} {kind} --every {every}",
            4,
            words,
            folder,
            1,
            lambda found, key=key, count=count: found["result"] == "fault"
            and found[key] != "0"
            and count in (None, found[key]),
        )
    limit = f"{HERE}/serve_limit --port {{port}} --txqueue 1024"
    run(
        "too many frames for 1 second",
        limit,
        2,
        "--frames 9000000 --window 1",
        folder,
        1,
        lambda found: found["result"] == "late",
        seconds=1,
    )
    run("a server that echoes", f"{limit} --echo", 2, "", folder, 1, lambda found: found["result"] == "late", seconds=1)
    run(
        "no such interface",
        limit,
        2,
        "--names can0,can9",
        folder,
        1,
        lambda found: found["result"] == "fault" and found["wrong"] == "1",
    )
    run("one session too many", f"{limit} --sessions 1", 2, "", folder, 1, lambda found: True, seconds=2)
    with Server(limit, 2, "", folder) as server:
        threading.Timer(0.5, server.child.kill).start()
        status, found, _ = load(server, ["--frames", "9000000", "--window", "1"], 20)
        report("a server that is killed", status == 1 and found["result"] == "fault", found["result"])
    path = os.path.join(folder, "silent")
    thread = threading.Thread(target=silent, args=(path,))
    thread.start()
    while not os.path.exists(path):
        time.sleep(0.01)
    time.sleep(0.1)
    for where, seconds, line in ((path, 1, "result late\n"), (path + "x", 1, "")):
        done = subprocess.run(
            [f"{HERE}/serve_load", "--unix", where, "--seconds", str(seconds)],
            capture_output=True,
            text=True,
            timeout=20,
        )
        report(
            "a server that says nothing" if line else "nobody listens",
            done.returncode == 1 and done.stdout.endswith(line),
        )
    thread.join()


def main():
    parser = argparse.ArgumentParser(description=__doc__, formatter_class=argparse.RawDescriptionHelpFormatter)
    parser.add_argument("--cpus", help="the processors of all programs, as 2,3")
    parser.add_argument("--only", choices=["texts", "good", "wrong"])
    words = parser.parse_args()
    if words.cpus:
        os.sched_setaffinity(0, {int(one) for one in words.cpus.split(",")})
    with tempfile.TemporaryDirectory(prefix="canbus-") as folder:
        for name, test in (("texts", test_texts), ("good", test_good), ("wrong", test_wrong)):
            if words.only in (None, name):
                test(folder)
    print("all held" if not failed else f"{failed} FAILED")
    sys.exit(1 if failed else 0)


if __name__ == "__main__":
    main()
