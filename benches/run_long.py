#!/usr/bin/env python3
"""Compares servers that write their record at the end, while they run, or not at all.

    make -C benches
    benches/run_long.py --program dist/canbusd --folder /var/tmp --frames 1000000 --rounds 3

serve_load puts each server under load: one sender and --receivers, with --window frames in transit. The servers run in
turn, in an order that changes from round to round. The table has medians: entries a second, until the last receiver has
the last frame; seconds from the end of the input to the end of the server; its memory before the end, in megabytes; and
bytes on the disk for an entry. Then only one frame is in transit at a time: the table has the median and the 99th
percentile of the time from its send to its receive, in microseconds, while the sender does nothing else. Log and record
are in a folder below --folder, which has to be on a disk.
"""

import argparse
import os
import re
import statistics
import subprocess
import tempfile
import time

HERE = os.path.dirname(os.path.abspath(__file__))
LOAD = os.path.join(HERE, "serve_load")
WORDS = [
    "--until-eof",
    "--listen",
    "./socket",
    "--pace",
    "0",
    "--txqueue",
    "1024",
    "--rxqueue",
    "65536",
    "--write",
    "16384",
]
#: The options of each kind of server. A server `end`, which writes its record at the end, has the largest limit on
#: entries.
KINDS = {
    "end": ["--limit", "16777216", "--out", "."],
    "live": ["--record", "live", "--out", "."],
    "live, --sync": ["--record", "live", "--sync", "--out", "."],
    "none, with a log": ["--record", "none", "--out", "."],
    "none": ["--record", "none"],
}


class Server:
    """A server in its own folder, which is deleted at the end."""

    def __init__(self, program, place, words):
        self.folder = tempfile.TemporaryDirectory(prefix="canbusd-long-", dir=place)
        self.child = subprocess.Popen(
            [program, "serve", *WORDS, *words, "can0,can1"],
            stdin=subprocess.PIPE, stdout=subprocess.PIPE, text=True, cwd=self.folder.name,
        )  # fmt: skip
        assert self.child.stdout.readline().startswith("listening "), "the server does not listen"

    def load(self, *words):
        """Runs serve_load and returns its figures. serve_load checks that every frame arrives once and in order."""
        where = ["--unix", os.path.join(self.folder.name, "socket"), "--pid", str(self.child.pid)]
        line = [LOAD, *where, "--names", "can0,can1", "--seconds", "3600", *words]
        words = subprocess.run(line, stdout=subprocess.PIPE, text=True, check=True).stdout.split()
        return dict(zip(words[::2], words[1::2]))

    def memory(self):
        """Returns the resident memory in megabytes."""
        with open(f"/proc/{self.child.pid}/status", encoding="ascii") as status:
            return int(re.search(r"^VmRSS:\s+(\d+) kB", status.read(), re.M)[1]) / 1000

    def end(self):
        """Stops the server. Returns the number of entries, how many seconds the server took to stop, and the number of
        bytes written."""
        begin = time.monotonic()
        written = self.child.communicate(timeout=3600)[0]
        took = time.monotonic() - begin
        assert self.child.returncode == 0, "the server ended with a fault"
        paths = [os.path.join(self.folder.name, name) for name in os.listdir(self.folder.name)]
        return int(written.split()[-1]), took, sum(map(os.path.getsize, paths))

    def __enter__(self):
        return self

    def __exit__(self, *_):
        self.child.kill()
        self.child.communicate()
        self.folder.cleanup()


def measured(options, words):
    """Returns entries per second, the seconds that the server took to stop, megabytes, and bytes per entry; then the
    median and the 99th percentile of the time from send to receive."""
    sessions = ["--sessions", str(1 + options.receivers), "--senders", "1"]
    with Server(options.program, options.folder, words) as server:
        found = server.load(*sessions, "--window", str(options.window), "--frames", str(options.frames))
        seconds = options.frames / float(found["frames_per_s"])
        memory = server.memory()
        entries, took, size = server.end()
        figures = [entries / seconds, took, memory, size / entries]
    with Server(options.program, options.folder, words) as server:
        found = server.load("--sessions", "2", "--senders", "1", "--window", "1", "--frames", str(options.trips))
        server.end()
        return [*figures, float(found["p50_us"]), float(found["p99_us"])]


def main():
    parser = argparse.ArgumentParser(description=__doc__, formatter_class=argparse.RawDescriptionHelpFormatter)
    parser.add_argument("--program", default=os.path.join(HERE, "..", "dist", "canbusd"), help="and not its launcher")
    parser.add_argument("--folder", default="/var/tmp", help="on the disk that is measured (default /var/tmp)")
    parser.add_argument("--frames", type=int, default=1_000_000, metavar="N", help="frames of a load (default 1000000)")
    parser.add_argument("--trips", type=int, default=50_000, metavar="N", help="frames that go alone (default 50000)")
    parser.add_argument("--receivers", type=int, default=4, metavar="N", help="(default 4)")
    parser.add_argument("--window", type=int, default=64, metavar="N", help="(default 64)")
    parser.add_argument("--rounds", type=int, default=3, metavar="N", help="(default 3)")
    parser.add_argument("--only", action="append", choices=list(KINDS), help="one of the servers; may be repeated")
    options = parser.parse_args()
    options.program = os.path.abspath(options.program)
    chosen = options.only or list(KINDS)
    rows = {kind: [] for kind in chosen}
    for turn in range(options.rounds):
        for place in range(len(chosen)):
            kind = chosen[(turn + place) % len(chosen)]
            rows[kind].append(measured(options, KINDS[kind]))
    print("| `--record` | entries/s | end, s | memory, MB | bytes an entry | send to receive, median / 99 % |")
    print("|---|---|---|---|---|---|")
    for kind, runs in rows.items():
        rate, took, memory, size, p50, p99 = map(statistics.median, zip(*runs))
        print(f"| {kind} | {rate:,.0f} | {took:.2f} | {memory:.1f} | {size:.0f} | {p50:.0f} / {p99:.0f} µs |")


if __name__ == "__main__":
    main()
