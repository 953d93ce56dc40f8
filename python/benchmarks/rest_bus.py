"""Measures how punctual a rest bus is: it sends 100 messages with cycle times of 10 to 1,000 ms to a receiver on a bus
with 500 kbit/s.

    nice -n -10 python3 python/benchmarks/rest_bus.py [SECONDS]

The output shows how much the periods deviate from the cycle times, in total and for each cycle time. p50 is the median
of the deviations, and p99 is their 99th percentile.
"""

import os
import sys
import tempfile
import time
from collections import defaultdict
from pathlib import Path

from canbusd import Server

CYCLES = {10: 8, 20: 22, 50: 20, 100: 30, 1000: 20}
MICROS = 1_000_000


def database(folder):
    """Writes a DBC file with the messages in CYCLES, which have 8 bytes each. Returns the path of the file, and a dict
    of the cycle times by identifier."""
    lines, cycles = ['VERSION ""\n\nBU_: Others ECU\n'], {}
    for cycle, count in CYCLES.items():
        for _ in range(count):
            number = 0x100 + len(cycles)
            cycles[number] = cycle
            lines.append(f'BO_ {number} M{number}: 8 Others\n SG_ a : 0|32@1+ (1,0) [0|0] "" ECU\n')
    lines.append('BA_DEF_ BO_ "GenMsgCycleTime" INT 0 65535;\nBA_DEF_DEF_ "GenMsgCycleTime" 0;')
    lines += [f'BA_ "GenMsgCycleTime" BO_ {number} {cycle};' for number, cycle in cycles.items()]
    path = Path(folder) / "many.dbc"
    path.write_text("\n".join(lines) + "\n")
    return path, cycles


def main():
    seconds = float(sys.argv[1]) if len(sys.argv) > 1 else 10.0
    with tempfile.TemporaryDirectory() as folder:
        path, cycles = database(folder)
        with Server("others,ecu", bitrate=500_000, txqueue=100) as server:
            before = os.times()
            with server.rest_bus(path, without="ECU", interface="others") as rest:
                time.sleep(seconds)
            used = sum(os.times()[:2]) - sum(before[:2])
            with server.bus("ecu") as ecu:
                load = ecu.load().permille / 10
            log = server.log()
    last, periods = {}, defaultdict(list)
    for message in log:
        number = message.arbitration_id
        if number in last:
            periods[cycles[number]].append(abs(message.timestamp - last[number] - cycles[number] / 1000) * MICROS)
        last[number] = message.timestamp
    print(f"{len(log)} frames in {seconds:g} s, bus load {load:g} %, {rest.counts()}")
    print(f"processor {used / seconds * 100:.1f} % of one, load {os.getloadavg()[0]:.1f}")
    for name, found in {"all": [one for its in periods.values() for one in its], **periods}.items():
        found.sort()
        p50, p99 = found[len(found) // 2], found[int(len(found) * 0.99)]
        print(f"{name:>5} p50 {p50:6.0f} us  p99 {p99:6.0f} us  most {found[-1]:6.0f} us")


if __name__ == "__main__":
    main()
