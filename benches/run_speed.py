#!/usr/bin/env python3
"""Measures programs with CAN sockets that canbusd-run runs, on a server at a Unix path and on a server at a TCP port.

    benches/run_speed.py --program dist/canbusd --run dist/canbusd-run

Latency: the median and the 99th percentile of the time from the write of a frame in one process to its read in another.
Frames a second: from `cangen -g 0 -p 10` to `candump`, which has to get all frames once and in order. Each figure is the
median of five runs. If there are several canbusd-run (`--run` again), they are measured in turn, so that other work on
the machine slows all of them equally.
"""

import argparse
import os
import statistics
import subprocess
import tempfile
import time

HERE = os.path.dirname(os.path.abspath(__file__))
RUNS = 5


class Setting:
    """A server in its own folder, with programs that use it."""

    def __init__(self, program, run, listen):
        self.folder = tempfile.mkdtemp(prefix="canbusd-speed-")
        self.run = os.path.abspath(run)
        words = ["serve", "--until-eof", "--pace", "0", "--txqueue", "1024", "--rxqueue", "65536", "--write", "16384"]
        self.server = subprocess.Popen(
            [os.path.abspath(program), *words, "--limit", str(1 << 22), "--listen", listen, "can0,can1"],
            stdin=subprocess.PIPE, stdout=subprocess.PIPE, text=True, cwd=self.folder,
        )  # fmt: skip
        address = self.server.stdout.readline().split()[1]
        self.address = os.path.join(self.folder, address) if address.startswith(".") else address

    def words(self, *words):
        return [self.run, "--address", self.address, "--", *words]

    def latency(self, count):
        """Returns the median and the 99th percentile of the latency, in microseconds."""
        words = self.words(os.path.join(self.folder, "run_latency"), "can0", "can1", str(count))
        return tuple(map(float, subprocess.run(words, stdout=subprocess.PIPE, text=True, check=True).stdout.split()))

    def rate(self, count):
        """Returns the rate from cangen to candump in frames per second. Raises AssertionError if a frame is lost."""
        path = os.path.join(self.folder, "dump")
        with open(path, "w+", encoding="utf-8") as dump:
            receiver = subprocess.Popen(self.words("candump", "-L", "-n", str(count), "can1"), stdout=dump)
            time.sleep(0.5)
            begun = time.perf_counter()
            words = "cangen can0 -g 0 -p 10 -I 123 -L 8 -D i -n".split()
            subprocess.run(self.words(*words, str(count)), check=True)
            receiver.wait(30)
            took = time.perf_counter() - begun
            dump.seek(0)
            numbers = [int.from_bytes(bytes.fromhex(line.split("#")[1]), "little") for line in dump]
        assert numbers == list(range(count)), "a frame is lost, or twice, or out of order"
        return count / took

    def end(self):
        self.server.stdin.close()
        self.server.wait(60)


def measure(options, listen):
    """Returns, for each canbusd-run, the results of all runs: the median latencies, the 99th percentiles and the frame
    rates."""
    results = [([], [], []) for _ in options.run]
    for _ in range(RUNS):
        for run, (latencies, worst, rates) in zip(options.run, results):
            setting = Setting(options.program, run, listen)
            source = os.path.join(HERE, "run_latency.c")
            subprocess.run(["gcc", "-O2", "-o", os.path.join(setting.folder, "run_latency"), source], check=True)
            for found, number in zip((latencies, worst), setting.latency(5000)):
                found.append(number)
            rates.append(setting.rate(options.frames))
            setting.end()
    return results


def main():
    parser = argparse.ArgumentParser(description=__doc__, formatter_class=argparse.RawDescriptionHelpFormatter)
    parser.add_argument("--program", default=os.path.join(HERE, "..", "dist", "canbusd"), help="the server")
    parser.add_argument("--run", action="append", help="a canbusd-run (default: that of dist/)")
    parser.add_argument("--frames", type=int, default=50_000, metavar="N", help="frames of a run (default 50000)")
    options = parser.parse_args()
    options.run = options.run or [os.path.join(HERE, "..", "dist", "canbusd-run")]
    print("| Server at | canbusd-run | Latency, median / 99% | Frames/s |")
    print("|---|---|---|---|")
    for name, listen in (("a Unix path", "./speed.socket"), ("TCP", "127.0.0.1:0")):
        for run, found in zip(options.run, measure(options, listen)):
            median, worst, rate = map(statistics.median, found)
            print(f"| {name} | {run} | {median:.0f} / {worst:.0f} µs | {rate:,.0f} |", flush=True)


if __name__ == "__main__":
    main()
