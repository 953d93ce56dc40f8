#!/usr/bin/env python3
"""Measures canbusd against limit.c on the same inputs.

    python3 compare.py --canbusd CMD [--other CMD] [--workload NAME ..] [--n N]
                       [--runs 5] [--modes bench,record,audit] [--instructions] [--json FILE]

For each workload and mode (bench; bench with --record; audit of that record) both
programs run in turn, --runs times each.  Standard output, exit status and record must be
the same.  The table has user+sys CPU seconds (the minimum of the runs), events per second,
the ratio canbusd / other, peak memory (ru_maxrss), and `growth`: the cost at N divided by
the cost at N/4, which is 4 if the cost is proportional.  For growth, the time of an empty
run is subtracted from both.

In the ratio of the mode `record`, `record - bench` is the cost of only writing the record.
--instructions adds callgrind's instruction count at a small size (N/16) and its growth
from N/64 (for `limit`, not for `limit-native`, because valgrind does not support AVX-512).

CMD is split as in a shell; words that name files are made absolute.  The status is 0 if
all outputs were the same, and otherwise 1.
"""

import argparse
import json
import os
import re
import shlex
import shutil
import signal
import subprocess
import sys
import tempfile

import workloads

HERE = os.path.dirname(os.path.abspath(__file__))
MODES = ("bench", "record", "audit")


def split_command(text):
    return [os.path.abspath(word) if os.path.exists(word) else word for word in shlex.split(text)]


class Run:
    """The result of one run of a program."""

    def __init__(self, status, cpu, rss):
        self.status, self.cpu, self.rss = status, cpu, rss


class Failed(Exception):
    pass


def run_once(command, args, stdin, stdout, folder, time_limit):
    figures = os.path.join(folder, "figures")
    child = subprocess.Popen(
        [os.path.join(HERE, "measure"), figures, stdin, stdout] + command + args,
        cwd=folder,
        stderr=subprocess.PIPE,
        start_new_session=True,
    )
    try:
        _, stderr = child.communicate(timeout=time_limit)
    except subprocess.TimeoutExpired:
        os.killpg(child.pid, signal.SIGKILL)
        child.communicate()
        raise Failed(f"{shlex.join(command + args)}: more than {time_limit} seconds")
    if child.returncode != 0:
        raise Failed("measure failed")
    with open(figures, encoding="ascii") as handle:
        status, user, system, rss = map(int, handle.read().split())
    if status != 0:
        raise Failed(f"{shlex.join(command + args)}: status {status}: " f"{stderr.decode('latin-1')[:500]}")
    return Run(status, (user + system) / 1e6, rss * 1024)


def read(path):
    with open(path, "rb") as handle:
        return handle.read()


def masked_reporting(text):
    """Returns REPORTING without the bits of interfaces that do not exist, because --report may set these bits or not."""
    first, bus, rest = text.split(b"\n", 2)
    words = bus.split(b" ")
    words[3] = b"%04X" % (int(words[3], 16) & (1 << int(words[1])) - 1)
    return b"\n".join((first, b" ".join(words), rest))


def events_of(record):
    return int(record[record.rstrip(b"\n").rfind(b"\n") + 1 :].split()[1])


class Workload:
    """The files and the runs of one workload at one size."""

    def __init__(self, name, n, folder, programs, words):
        self.name, self.n, self.words = name, n, words
        self.folder = os.path.join(folder, f"{name}-{n}")
        self.args = workloads.write_files(name, n, self.folder)
        self.programs = programs
        self.same = True
        self.events = None

    def path(self, name):
        return os.path.join(self.folder, name)

    def call(self, mode, who, wrap=()):
        if mode == "audit":
            args, stdin = ["audit", f"{self.name}.rec"], "/dev/null"
        else:
            more = ["--record", f"{who}.rec"] if mode == "record" else []
            args, stdin = ["bench"] + more + self.args, self.path(f"{self.name}.input")
        return run_once(
            list(wrap) + self.programs[who], args, stdin, self.path(f"{who}.out"), self.folder, self.words.time_limit
        )

    def check(self, mode):
        one, other = (read(self.path(f"{who}.out")) for who in self.programs)
        if mode == "audit":
            if not one == other == f"ok {self.events} entries\n".encode():
                print(f"  {self.name} audit: {one[:80]!r}, other {other[:80]!r}")
                self.same = False
            return
        if one != other:
            print(f"  {self.name} {mode}: standard output differs")
            self.same = False
        if mode == "record":
            one, other = (read(self.path(f"{who}.rec")) for who in self.programs)
            if masked_reporting(one) != masked_reporting(other):
                print(f"  {self.name}: the records differ")
                self.same = False
            os.remove(self.path("canbusd.rec"))
            self.keep_record()

    def keep_record(self):
        """Keeps the other program's record, so that its events can be counted and `audit` can read it."""
        self.events = events_of(read(self.path("other.rec")))
        os.replace(self.path("other.rec"), self.path(f"{self.name}.rec"))

    def measure(self, runs):
        """Returns {mode: {who: Run with the lowest cost and the highest peak memory of its runs}}."""
        answers = {}
        if "record" not in self.words.modes:
            self.call("record", "other")
            self.keep_record()
        for mode in [one for one in MODES if one in self.words.modes]:
            all_runs = {who: [] for who in self.programs}
            for turn in range(runs):
                for who in list(self.programs) if turn % 2 == 0 else list(self.programs)[::-1]:
                    all_runs[who].append(self.call(mode, who))
                self.check(mode)
            answers[mode] = {
                who: Run(0, min(one.cpu for one in some), max(one.rss for one in some))
                for who, some in all_runs.items()
            }
        return answers

    def instructions(self, mode, who):
        """Returns callgrind's instruction count, or None."""
        command = self.programs[who]
        if mode == "audit":
            args, stdin = ["audit", f"{self.name}.rec"], "/dev/null"
        else:
            more = ["--record", f"{who}.rec"] if mode == "record" else []
            args, stdin = ["bench"] + more + self.args, self.path(f"{self.name}.input")
        with open(stdin, "rb") as handle:
            done = subprocess.run(
                ["valgrind", "--tool=callgrind", "--callgrind-out-file=/dev/null"] + command + args,
                cwd=self.folder,
                stdin=handle,
                stdout=subprocess.DEVNULL,
                stderr=subprocess.PIPE,
                timeout=self.words.time_limit,
            )
        found = re.search(rb"Collected : (\d+)", done.stderr)
        if done.returncode != 0 or not found:
            return None
        return int(found[1])

    def remove(self):
        shutil.rmtree(self.folder)


def empty_cost(programs, folder, words):
    """Returns the CPU seconds and the peak memory of a bench run with an empty input."""
    answers = {}
    for who, command in programs.items():
        some = [
            run_once(
                command, ["bench", "can0,can1"], "/dev/null", os.path.join(folder, "out"), folder, words.time_limit
            )
            for _ in range(5)
        ]
        answers[who] = Run(0, min(one.cpu for one in some), min(one.rss for one in some))
    return answers


def growth(small, large, empty):
    below = small.cpu - empty.cpu
    return (large.cpu - empty.cpu) / below if below > 0 else float("nan")


def figures_of(name, n, folder, programs, empty, words):
    """Returns the table rows of one workload."""
    part = max(1, n // 4)
    n = 4 * part
    quarter = Workload(name, part, folder, programs, words)
    at_quarter = quarter.measure(words.runs)
    quarter.remove()
    whole = Workload(name, n, folder, programs, words)
    at_n = whole.measure(words.runs)
    rows = []
    for mode in words.modes:
        one, other = at_n[mode]["canbusd"], at_n[mode]["other"]
        rows.append(
            {
                "workload": name,
                "n": n,
                "mode": mode,
                "events": whole.events,
                "seconds": one.cpu,
                "other_seconds": other.cpu,
                "rate": whole.events / one.cpu,
                "other_rate": whole.events / other.cpu,
                "ratio": one.cpu / other.cpu,
                "rss": one.rss,
                "other_rss": other.rss,
                "growth": growth(at_quarter[mode]["canbusd"], one, empty["canbusd"]),
                "other_growth": growth(at_quarter[mode]["other"], other, empty["other"]),
                "same": whole.same and quarter.same,
            }
        )
    whole.remove()
    return rows


def instruction_rows(name, n, folder, programs, words):
    part = max(1, n // 64)
    sizes = [Workload(name, size, folder, programs, words) for size in (4 * part, part)]
    counts = []
    for one in sizes:
        one.call("record", "other")
        one.keep_record()
        counts.append({(mode, who): one.instructions(mode, who) for mode in words.modes for who in programs})
    rows = []
    for mode in words.modes:
        row = {"workload": name, "n": sizes[0].n, "mode": mode, "events": sizes[0].events}
        for who in programs:
            large, small = counts[0][mode, who], counts[1][mode, who]
            row[who] = large
            row[f"{who}_growth"] = large / small if large and small else None
            # the cost of one more event: the cost of starting and ending the program cancels out
            row[f"{who}_each"] = (large - small) / (sizes[0].events - sizes[1].events) if large and small else None
        rows.append(row)
    for one in sizes:
        one.remove()
    return rows


def number(value, form):
    return "-" if value is None else format(value, form)


def main():
    parser = argparse.ArgumentParser(description=__doc__, formatter_class=argparse.RawDescriptionHelpFormatter)
    parser.add_argument("--canbusd", required=True, metavar="CMD")
    parser.add_argument("--other", default=os.path.join(HERE, "limit"), metavar="CMD")
    parser.add_argument("--workload", nargs="+", action="extend", choices=list(workloads.WORKLOADS))
    parser.add_argument("--n", type=int, help="rounds; by default each workload's own")
    parser.add_argument("--scale", type=float, default=1.0, help="times the default N")
    parser.add_argument("--runs", type=int, default=5)
    parser.add_argument("--modes", default=",".join(MODES))
    parser.add_argument("--instructions", action="store_true")
    parser.add_argument("--no-times", action="store_true")
    parser.add_argument("--folder", help="where the files go (default: memory, /dev/shm)")
    parser.add_argument("--time-limit", type=float, default=600, help="seconds of one run")
    parser.add_argument("--json", metavar="FILE")
    words = parser.parse_args()
    words.modes = words.modes.split(",")
    programs = {"canbusd": split_command(words.canbusd), "other": split_command(words.other)}
    parent = words.folder or ("/dev/shm" if os.path.isdir("/dev/shm") else None)
    rows, counted, same = [], [], True
    with tempfile.TemporaryDirectory(prefix="canbus-", dir=parent) as folder:
        try:
            empty = empty_cost(programs, folder, words)
        except Failed as fault:
            raise SystemExit(str(fault))
        print(
            f"empty run: canbusd {empty['canbusd'].cpu * 1000:.1f} ms "
            f"{empty['canbusd'].rss / 1e6:.1f} MB, other {empty['other'].cpu * 1000:.1f} ms "
            f"{empty['other'].rss / 1e6:.1f} MB"
        )
        chosen = words.workload or list(workloads.WORKLOADS)
        if not words.no_times:
            print(
                f"{'workload':<14}{'mode':<8}{'events':>9}{'canbusd s':>11}{'other s':>9}"
                f"{'ratio':>8}{'events/s':>12}{'other':>12}{'MB':>8}{'other':>8}"
                f"{'growth':>8}{'other':>7}"
            )
            for name in chosen:
                n = words.n or max(1, int(workloads.WORKLOADS[name][1] * words.scale))
                try:
                    found = figures_of(name, n, folder, programs, empty, words)
                except Failed as fault:
                    print(f"{name:<14}FAILED  {fault}", flush=True)
                    same, found = False, []
                for row in found:
                    rows.append(row)
                    same &= row["same"]
                    print(
                        f"{row['workload']:<14}{row['mode']:<8}{row['events']:>9}"
                        f"{row['seconds']:>11.4f}{row['other_seconds']:>9.4f}"
                        f"{row['ratio']:>8.2f}{row['rate']:>12,.0f}{row['other_rate']:>12,.0f}"
                        f"{row['rss'] / 1e6:>8.1f}{row['other_rss'] / 1e6:>8.1f}"
                        f"{row['growth']:>8.2f}{row['other_growth']:>7.2f}"
                        f"{'' if row['same'] else '  DIFFERENT OUTPUT'}",
                        flush=True,
                    )
        if words.instructions:
            print(
                f"{'instructions':<14}{'mode':<8}{'events':>9}{'canbusd':>15}{'other':>15}"
                f"{'ratio':>8}{'an event':>10}{'other':>8}{'growth':>8}{'other':>7}"
            )
            for name in chosen:
                n = words.n or max(1, int(workloads.WORKLOADS[name][1] * words.scale))
                try:
                    found = instruction_rows(name, n, folder, programs, words)
                except (Failed, subprocess.TimeoutExpired) as fault:
                    print(f"{name:<14}FAILED  {fault}", flush=True)
                    same, found = False, []
                for row in found:
                    counted.append(row)
                    ratio = row["canbusd"] / row["other"] if row["canbusd"] and row["other"] else None
                    print(
                        f"{row['workload']:<14}{row['mode']:<8}{row['events']:>9}"
                        f"{number(row['canbusd'], '15,')}{number(row['other'], '>15,')}"
                        f"{number(ratio, '8.2f'):>8}{number(row['canbusd_each'], '10.0f'):>10}"
                        f"{number(row['other_each'], '8.0f'):>8}"
                        f"{number(row['canbusd_growth'], '8.2f'):>8}"
                        f"{number(row['other_growth'], '7.2f'):>7}",
                        flush=True,
                    )
    if words.json:
        with open(words.json, "w", encoding="ascii") as handle:
            json.dump({"times": rows, "instructions": counted}, handle, indent=1)
    print("all outputs are the same" if same else "OUTPUTS DIFFER OR A RUN FAILED")
    sys.exit(0 if same else 1)


if __name__ == "__main__":
    main()
