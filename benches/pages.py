#!/usr/bin/env python3
"""Measures how long `python3 -m canbusd report`, its text form and `replay` take for four kinds of run, and their memory.

    benches/pages.py --canbusd PROGRAM [--attempts N,..] [--runs N] [--folder DIR] [--source DIR,..]

The four kinds of run are:
- `random`: each attempt sends a frame of 8 random bytes, which another interface receives;
- `hundred`: the same with only 100 different frames;
- `contend`: four interfaces have frames in their queues, and three interfaces receive each frame;
- `faults`: the same with a script of faults on a bus that reports them; interfaces go bus off and restart.

The records are made in the folder, are the same in each run, and are kept there. If there are several sources of the
package, they are measured in turn, and their output has to be identical. The folder also keeps the package's bytecode,
which an installed package has too. Each line has the minimum of the runs: processor time of the command and of the program
that it calls, wall time, and the memory of the larger of the two.
"""

import argparse
import hashlib
import multiprocessing
import os
import random
import subprocess
import sys
import time

ROOT = os.path.dirname(os.path.dirname(os.path.abspath(__file__)))
COMMANDS = {"page": ["report"], "story": ["report", "--text", "--last", "0"], "replay": ["replay"]}
# The number of frames in each interface's queue.
QUEUE = 100
# The masks of the sockets of `faults`: which error message frames each socket receives.
ERRORS = ("1FFFFFFF", "140", "88", "0")
FAULTS = ("global bit", "global form", "lastbit", "local crc can1", "local stuff can2,can3")


def some_frame(rng, low=0, high=0x800, size=8):
    return f"{rng.randrange(low, high):03X}#{rng.randbytes(size).hex().upper()}"


def moment(micros):
    return f"{micros // 1000000}.{micros % 1000000:06}"


class Run:
    """Builds the record of a run in which each frame is sent successfully, by interfaces with one socket each."""

    def __init__(self, ifaces):
        self.entries = [f"open {number} 65535 = socket {number}" for number in range(ifaces)]
        self.front = f"canbus record 1\nbus {ifaces} always 0000 1024 16777216"
        self.sent = [0] * ifaces
        self.micros = 0

    def send(self, iface, frame):
        self.entries.append(f"send {iface} {frame} = number {self.sent[iface]}")
        self.sent[iface] += 1
        return iface, self.sent[iface] - 1, frame

    def attempt(self, iface, number, frame):
        self.micros += 137
        others = [one for one in range(len(self.sent)) if one != iface]
        accepted = sum(1 << one for one in others)
        now = moment(self.micros)
        self.entries.append(f"attempt {now} good = tried {iface} {number} {frame} done {accepted:04X} 0000")
        self.entries += [f"receive {one} = data {iface} {number} {frame} {now}" for one in others]

    def text(self):
        return "\n".join([self.front, *self.entries, f"end {len(self.entries)}", ""]).encode()


def calm(attempts, frames, rng):
    run = Run(2)
    known = [some_frame(rng) for _ in range(frames)]
    for _ in range(attempts):
        run.attempt(*run.send(0, rng.choice(known) if known else some_frame(rng)))
    return run.text()


def contend(attempts, rng):
    """Builds the record of a run. In each round four queues are filled and then emptied. Identifiers contain the
    sender, so no two senders use the same identifier."""
    run = Run(4)
    for _ in range(attempts // (4 * QUEUE)):
        queues = [
            [run.send(iface, some_frame(rng, iface * 0x200, iface * 0x200 + 0x200)) for _ in range(QUEUE)]
            for iface in range(4)
        ]
        for queue in queues:
            queue.reverse()
        while any(queues):
            run.attempt(*min((queue for queue in queues if queue), key=lambda queue: queue[-1][2][:3]).pop())
    return run.text()


def faults(attempts, rng, program, folder):
    """Makes a run with a bench in which every interface queues 100 frames. A tenth of the attempts have faults, and
    some faults come in long rows."""
    lines, bus = [], ",".join(f"can{number}" for number in range(4))
    for number in range(4):
        lines += [
            f"session {number + 1}",
            f"feed {number + 1} < open can{number} >< rawmode >< errmask {ERRORS[number]} >",
        ]
    script, number = [], 0
    while number < 2 * attempts:
        row = 40 if rng.random() < 0.001 else 1
        script += [f"{number + k} {'global bit' if row > 1 else rng.choice(FAULTS)}\n" for k in range(row)]
        number += row - 1 + rng.randrange(1, 20)
    micros, made = 0, 0
    while made < attempts:
        for number in range(4):
            frames = (f"<send {rng.randrange(number, 0x800, 4):X} 1 {rng.randrange(256):X}>" for _ in range(QUEUE))
            lines.append(f"feed {number + 1} {''.join(frames)}")
        micros += 500_000
        lines += [f"run {moment(micros)}", *(f"drain {number + 1}" for number in range(4))]
        made += 4 * QUEUE
    path, rules = os.path.join(folder, "bench.rec"), os.path.join(folder, "faults.script")
    with open(rules, "w", encoding="ascii") as file:
        file.writelines(script)
    words = ["--report", "--auto-restart", "40", "--txqueue", "1024", "--rxqueue", "1024", "--limit", "16777216"]
    words += ["--bitrate", "1000000", "--record", path, f"{bus}@{rules}"]
    subprocess.run(
        [program, "bench", *words], input="\n".join([*lines, ""]).encode(), stdout=subprocess.DEVNULL, check=True
    )
    with open(path, "rb") as file:
        return file.read()


KINDS = {
    "random": lambda attempts, rng, *_: calm(attempts, 0, rng),
    "hundred": lambda attempts, rng, *_: calm(attempts, 100, rng),
    "contend": lambda attempts, rng, *_: contend(attempts, rng),
    "faults": faults,
}


def record_of(kind, attempts, program, folder):
    """Returns the path of the record of this kind of run. Makes the record if it is missing."""
    path = os.path.join(folder, f"{kind}-{attempts}.rec")
    if not os.path.exists(path):
        # The record is made in a separate process, so that its memory is not counted as memory of the measured command.
        maker = multiprocessing.Process(target=make_record, args=(path, kind, attempts, program, folder))
        maker.start()
        maker.join()
        if maker.exitcode:
            raise SystemExit(f"{path}: not made")
    return path


def make_record(path, kind, attempts, program, folder):
    """Writes the record of this kind of run."""
    text = KINDS[kind](attempts, random.Random(kind), program, folder)
    with open(path, "wb") as file:
        file.write(text)


def measured(words, folder, **variables):
    """Runs a command. Returns the processor seconds, wall time, memory in megabytes, and a hash of the output."""
    variables = {**os.environ, **variables, "PYTHONPYCACHEPREFIX": os.path.join(folder, "bytecode")}
    variables.pop("PYTHONDONTWRITEBYTECODE", None)
    begin = time.monotonic()
    child = subprocess.Popen(words, stdout=subprocess.PIPE, env=variables)
    found = hashlib.sha256()
    while block := child.stdout.read(1 << 20):
        found.update(block)
    _, status, usage = os.wait4(child.pid, 0)
    if status:
        raise SystemExit(f"{' '.join(words)}: status {status}")
    wall = time.monotonic() - begin
    return (usage.ru_utime + usage.ru_stime, wall, usage.ru_maxrss / 1000), found.hexdigest()


def main():
    parser = argparse.ArgumentParser(description=__doc__, formatter_class=argparse.RawDescriptionHelpFormatter)
    parser.add_argument("--canbusd", default=os.path.join(ROOT, "dist", "canbusd"), metavar="PROGRAM")
    parser.add_argument("--attempts", default="100000,1000000", metavar="N,..")
    parser.add_argument("--kinds", default=",".join(KINDS), metavar="KIND,..")
    parser.add_argument("--commands", default=",".join(COMMANDS), metavar="COMMAND,..")
    parser.add_argument("--runs", type=int, default=3, metavar="N")
    parser.add_argument("--folder", default="/tmp/canbusd-pages", metavar="DIR")
    parser.add_argument("--source", default=os.path.join(ROOT, "python", "src"), metavar="DIR,..")
    options = parser.parse_args()
    os.makedirs(options.folder, exist_ok=True)
    program, sources = os.path.abspath(options.canbusd), options.source.split(",")
    print(f"{'run':8} {'attempts':>9} {'command':8} " + "   ".join(["     CPU    clock    MB"] * len(sources)))
    for attempts in map(int, options.attempts.split(",")):
        for kind in options.kinds.split(","):
            path = record_of(kind, attempts, program, options.folder)
            for command in options.commands.split(","):
                words = [sys.executable, "-m", "canbusd", *COMMANDS[command], path]
                runs = [
                    [measured(words, options.folder, CANBUSD=program, PYTHONPATH=source) for source in sources]
                    for _ in range(options.runs)
                ]
                if len({written for run in runs for _, written in run}) > 1:
                    raise SystemExit(f"{' '.join(words)}: not always the same")
                least = [[min(one) for one in zip(*(figures for figures, _ in runs))] for runs in zip(*runs)]
                figures = "   ".join(f"{cpu:8.2f} {wall:8.2f} {size:5.0f}" for cpu, wall, size in least)
                print(f"{kind:8} {attempts:9,} {command:8} {figures}", flush=True)


if __name__ == "__main__":
    main()
