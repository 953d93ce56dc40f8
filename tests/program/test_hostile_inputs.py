"""Tests random and damaged inputs of `canbusd bench` and `audit`.

The inputs are the examples, a record, and random bytes, in which bytes, words and lines are changed, doubled, moved or
cut. A run may exit with status 0. It may also exit with status 1 and one fault line that the manual page lists,
followed by at most three lines of printable characters that begin with two spaces. A run must not be ended by a signal,
take more than 20 seconds, or write more than its input can request.
"""

import glob
import os
import re
import subprocess
import tempfile

from serving import ROOT

FAULTS = re.compile(
    rb"canbusd: (line \d+: bad line|input too long|bad version|entry \d+: wrong|read fault|no memory)\n"
    rb"(  [ -~]{1,300}\n){0,3}"
)
# The standard error of a run that reads its whole input.
NOTES = re.compile(rb"(note: session \d+: (bytes outside < and > were skipped|the last message has no >)\n)*")
RECORD = b"""canbus record 1
bus 2 always 0000 10 100
open 0 256 = socket 0
open 1 1 = socket 1
filters 1 2 00000123 000007FF 80000123 DFFFFFFF = ok
option 1 errmask 000003FF = ok
send 0 123#01FF = number 0
send 0 123#R3 = number 1
attempt 0.000001 good = tried 0 0 123#01FF done 0002 0000
attempt 0.000002 local-crc:0002 = tried 0 1 123#R3 destroyed 0000 0000
restart 1 0.000003 = not-bus-off
receive 1 = data 0 0 123#01FF 0.000001
receive 1 = none
close 1 = closed 0 0
close 1 = no-socket
end 13
"""
WORDS = [
    b"", b"<", b">", b"< ", b" >", b"feed 1 ", b"session 64", b"attempt", b"\0", b"\xff", b"\n\n", b" = ", b"#",
    b"18446744073709551616", b"4294967296", b"9999999999.999999", b"0", b"-1", b"FFFF", b"end 0\n", b"= tried",
    b"< send 1FFFFFFF 8 0 0 0 0 0 0 0 0 >", b"< filter 512 ", b"option 0 errmask FFFFFFFF = ok\n",
]  # fmt: skip


def changed(rng, text):
    """Returns the input with a few bytes, words or lines changed."""
    for _ in range(rng.choice([1, 1, 2, 3, 8])):
        at, to = sorted(rng.randint(0, len(text)) for _ in range(2))
        kind = rng.randrange(7)
        if kind == 0:
            text = text[:at] + bytes([rng.randrange(256)]) + text[at + 1 :]
        elif kind == 1:
            text = text[:at] + rng.choice(WORDS) + text[at:]
        elif kind == 2:
            text = text[:at] + text[min(to, at + rng.choice([1, 5, 40])) :]
        elif kind == 3:
            text = text[:to] + text[at:to] * rng.choice([1, 2]) + text[to:]
        elif kind == 4:
            lines = text.split(b"\n")
            rng.shuffle(lines)
            text = b"\n".join(lines)
        elif kind == 5:
            text = text[:at] + bytes(rng.randrange(256) for _ in range(rng.choice([1, 10, 300]))) + text[at:]
        else:
            text = text[:at] + rng.choice([b"#", b"<", b" ", b"1"]) * rng.choice([10, 1024, 5000]) + text[at:]
        text = text[: 1 << 20]
    return text


def case(rng, inputs):
    """Returns the arguments and the input of a random run."""
    if rng.random() < 0.4:
        return ["audit", "/dev/stdin"], changed(rng, RECORD)
    words = ["bench", "--limit", str(rng.choice([1, 3, 50, 5000])), rng.choice(["can0", "can0,can1", "can0,can1,can2"])]
    if rng.random() < 0.1:
        return words, bytes(rng.randrange(256) for _ in range(rng.choice([0, 1, 100, 10000])))
    return words, changed(rng, rng.choice(inputs))


def fault_of(program, words, text):
    """Runs the program; returns what it did that is not allowed, or None."""
    try:
        with tempfile.TemporaryFile() as out:
            done = subprocess.run(
                [program, *words], input=text, stdout=out, stderr=subprocess.PIPE, timeout=20, check=False
            )
            written = out.tell()
    except subprocess.TimeoutExpired:
        return "did not end"
    if done.returncode == 0:
        return None if NOTES.fullmatch(done.stderr) else f"status 0 with {done.stderr!r}"
    if done.returncode != 1:
        return f"status {done.returncode}: {done.stderr[:200]!r}"
    if not FAULTS.fullmatch(done.stderr):
        return f"standard error {done.stderr[:200]!r}"
    return None if written <= 100 * len(text) + 1000 else f"{written} bytes written of {len(text)}"


def test_inputs_of_bench_and_audit(program, rng, cases, tmp_path):
    """The bench and the audit report faults in random inputs in the required form. Inputs that cause other behaviour
    are kept."""
    inputs = []
    for path in sorted(glob.glob(os.path.join(ROOT, "examples", "*.bench"))):
        with open(path, "rb") as file:
            inputs.append(file.read())
    faults = []
    for number in range(cases):
        words, text = case(rng, inputs)
        fault = fault_of(program, words, text)
        if fault:
            (tmp_path / str(number)).write_bytes(text)
            faults.append(f"{tmp_path / str(number)}: {' '.join(words)}: {fault}")
    assert not faults, "; ".join(faults)
