"""Tests `canbusd serve` with faults: of 64 sessions on 4 buses, no frame is lost without being counted.

On each of the four buses, which have two interfaces, 14 sessions send a quarter of the frames (40,000 in all; --frames
in the slow test). Each of them receives the frames of three others. Two more sessions break off in the middle of a
message, are reset or half closed, and connect again. A script causes faults of every kind, and bursts of faults that
take an interface bus off; a session then restarts the interface. At the end:

- each session got as many frames and error messages as `stats` counts as taken, and a frame twice only after a fault in
  the last bit. Frames from one session arrived in the order in which it sent them, and frames from one interface in the
  order in which the server accepted them. Frames that a session did not get are counted as dropped;
- all frames of an interface are done or lost, and the counts of the sessions, the record and `stats` agree;
- the server exits with status 0, and the audit of every record reports ok.
"""

import argparse
import contextlib
import multiprocessing
import os
import random
import re
import socket
import struct
import threading
import time

import pytest

from serving import Plain, join, serving_alone, turns

BUSES, SESSIONS, BREAKING = 4, 16, 2
BURST, MOST_WAITING = 50, 400
PATIENCE = 120
KINDS = [
    "global bit",
    "global form",
    "lastbit",
    "local stuff {1}",
    "local crc {0}",
    "local form {0},{1}",
    "local crc {0},{1}",
]
# Matches an answer, a frame (its identifier, its data and optionally its origin), or an error message frame.
TEXT = re.compile(
    rb"< (?:(hi|ok|stats [\d ]+|closed \d+ \d+|error [a-z][a-z ]+)|"
    rb"frame (\w+) \S+ (\w*)(?: (same|other) (\d+))?|error \w{3,8} [\d.]+) >"
)


def names_of(bus):
    return [f"can{2 * bus}", f"can{2 * bus + 1}"]


def write_fault_script(path, names, attempts, rng):
    """Writes a script with occasional faults of each kind, and sometimes 40 faults in a row."""
    with open(path, "w", encoding="utf-8") as file:
        number = 20
        while number < attempts:
            for _ in range(40 if rng.random() < 0.002 else 1):
                file.write(f"{number} {rng.choice(KINDS).format(*names)}\n")
                number += 1
            number += rng.randrange(8, 20)


class Client:
    """A session that sends frames with its own identifier and receives those from three other sessions. `earlier` is
    the number of broken sessions that used this index before. The server may read the last frames of a broken session
    after the first frames of the next one, so the order is checked within each session. Half of the sessions request
    the origin of frames, and check the order within an interface too.
    """

    def __init__(self, server, place, names, earlier=0):
        self.socket = socket.create_connection((server.host, server.port), PATIENCE)
        self.socket.setsockopt(socket.IPPROTO_TCP, socket.TCP_NODELAY, 1)
        self.place, self.earlier, self.rest, self.answers = place, earlier, b"", []
        self.sent = self.refused = self.items = self.copies = 0
        self.last = {}
        assert self.answer() == b"hi", "no greeting"
        filters = " ".join(f"{identifier(place - back):X} C00007FF" for back in (1, 2, 3))
        commands = [f"< open {names[place % 2]} >", "< rawmode >", f"< filter 3 {filters} >", "< errmask 140 >"]
        for command in commands + ["< origin 1 >"] * (place % 4 < 2):
            self.write(command)
            answer = self.answer()
            assert answer == b"ok", f"{command} {answer}"

    def write(self, text):
        self.socket.sendall(text.encode())

    def answer(self):
        """Returns the next answer. Counts and checks the frames and error messages that arrive before it."""
        while not self.answers:
            piece = self.socket.recv(65536)
            assert piece, f"session {self.place} was ended"
            text = self.rest + piece
            end = 0
            for found in TEXT.finditer(text):
                end = found.end()
                if found[1]:
                    self.answers.append(found[1])
                else:
                    self.take(*found.group(2, 3, 4, 5))
            self.rest = text[end:]
        return self.answers.pop(0)

    def take(self, sender, data, side, number):
        """Counts a frame or an error message, and checks that the frames of each session and of each interface come in
        order."""
        self.items += 1
        if sender:
            is_copy = self.comes_again((sender, data[:4]), int(data[4:], 16))
            assert not side or self.comes_again(side, int(number)) == is_copy, f"session {self.place}: {side} {number}"
            self.copies += is_copy

    def comes_again(self, sender, number):
        """Returns whether the last frame from this sender had the same number; fails if it had a higher one."""
        last = self.last.get(sender, -1)
        assert number >= last, f"session {self.place}: frame {number} of {sender} after {last}"
        self.last[sender] = number
        return number == last

    def burst(self, count):
        """Returns the commands that send the next `count` frames."""
        first = self.sent + self.refused
        numbers = range(first, first + count)
        start = f"< send {identifier(self.place):X} 6 {self.earlier.to_bytes(2, 'big').hex(' ')} "
        return "".join(f"{start}{number.to_bytes(4, 'big').hex(' ')} >" for number in numbers)

    def stats(self):
        """Sends `stats`; returns the numbers QUEUED DROPPED TAKEN SENT DONE WAITING LOST REFUSED in the reply."""
        self.write("< stats >")
        return self.read_stats()

    def read_stats(self):
        """Returns the numbers in the next reply to `stats`. Counts the sends that were refused before it, and stores
        whether bus off was a reason."""
        self.were_off = False
        while not (answer := self.answer()).startswith(b"stats "):
            assert answer in (b"error no buffers", b"error bus off", b"error not bus off", b"ok"), f"{answer}"
            if answer in (b"error no buffers", b"error bus off"):
                self.refused += 1
                self.sent -= 1
            self.were_off |= answer == b"error bus off"
        return [int(word) for word in answer.split()[1:]]

    def send(self, count):
        """Sends `count` frames, some of which may be refused, and waits until only few frames are waiting."""
        text = self.burst(count)
        self.sent += count
        self.write(text + "< stats >")
        waiting = self.read_stats()[5]
        if self.were_off:
            self.write("< restart >")
        for _ in turns("the frames that wait go out", PATIENCE):
            if waiting <= MOST_WAITING:
                break
            time.sleep(0.002)
            waiting = self.stats()[5]

    def drain(self):
        """Waits until no frame is waiting and all frames and error messages have arrived; returns the numbers that
        `stats` reports then.
        """
        until = time.monotonic() + PATIENCE
        while True:
            counts = self.stats()
            queued, _, taken, _, _, waiting, _, _ = counts
            if waiting == 0 and queued == taken == self.items:
                return counts
            assert time.monotonic() < until, f"session {self.place}: {counts}, {self.items} items"
            time.sleep(0.02)

    def close(self):
        self.write("< close >")
        closed = self.answer()
        self.socket.close()
        return closed


def identifier(place):
    return 0x100 + place % SESSIONS


def break_off(server, place, names, rng, is_over):
    """Runs sessions that break off, one after another; returns the number of sessions."""
    count = 0
    while not is_over.is_set():
        with contextlib.suppress(OSError, AssertionError):
            client = Client(server, place, names, count % 0x10000)
            count += 1
            for _ in range(rng.randrange(4)):
                client.send(rng.randrange(1, BURST))
            client.write(client.burst(20)[: rng.randrange(400)])
            how = rng.randrange(3)
            if how == 0:
                client.socket.setsockopt(socket.SOL_SOCKET, socket.SO_LINGER, struct.pack("ii", 1, 0))
            elif how == 1:
                client.socket.shutdown(socket.SHUT_WR)
            client.socket.close()
        time.sleep(rng.random() / 20)
    return count


def take_place(server):
    """Opens a connection that sends nothing. The slot of a broken session may become free only after a few tries."""
    for _ in turns("a place is free again", PATIENCE):
        client = Plain(server)
        if client.text() == "< hi >":
            return client
        client.close()
        time.sleep(0.02)


class BusLoad:
    """The sessions of a bus, each in a thread, and the final `stats` of the sessions that stay."""

    # A barrier at which the processes of all buses wait for one another.
    buses = None

    def __init__(self, server, bus, frames, seed):
        self.server, self.bus, self.names = server, bus, names_of(bus)
        self.steady = SESSIONS - BREAKING
        self.most, self.rng = frames // self.steady, random.Random(seed)
        self.steps, self.is_over = threading.Barrier(self.steady + 1), threading.Event()
        self.ends, self.faults, self.broken = [], [], []

    def stay(self, place):
        """Runs a session that stays until the end."""
        try:
            client = Client(self.server, place, self.names)
            self.steps.wait(PATIENCE)
            while client.sent < self.most and not self.steps.broken:
                client.send(BURST)
            self.steps.wait(PATIENCE)
            self.steps.wait(10 * PATIENCE)
            counts = client.drain()
            self.steps.wait(PATIENCE)
            closed = client.close()
            assert closed == f"closed 0 {counts[1]}".encode(), f"{closed} after {counts}"
            self.ends.append((place, client.sent, client.items, client.copies, counts))
        except (OSError, AssertionError, threading.BrokenBarrierError) as fault:
            self.faults.append(f"bus {self.bus}, session {place}: {fault!r}")
            self.steps.abort()

    def come_and_go(self, place, seed):
        """Runs sessions that break off, one after another."""
        self.broken.append(break_off(self.server, place, self.names, random.Random(seed), self.is_over))

    def go_through(self, breaking):
        """Leads all sessions through the steps of the test. The staying sessions connect before others connect and
        break off. After those have ended, new connections take their slots on every bus, so that the server has read
        everything that the old ones sent.
        """
        self.steps.wait(PATIENCE)
        self.buses.wait(PATIENCE)
        for thread in breaking:
            thread.start()
        self.steps.wait(10 * PATIENCE)
        self.is_over.set()
        join(breaking, PATIENCE)
        self.buses.wait(10 * PATIENCE)
        places = [take_place(self.server) for _ in breaking]
        self.buses.wait(PATIENCE)
        self.steps.wait(PATIENCE)
        self.steps.wait(PATIENCE)
        for place in places:
            place.close()

    def run(self):
        """Returns the faults, the results of the staying sessions, and how many sessions broke off."""
        staying = [threading.Thread(target=self.stay, args=(place,)) for place in range(self.steady)]
        breaking = [
            threading.Thread(target=self.come_and_go, args=(place, self.rng.random()))
            for place in range(self.steady, SESSIONS)
        ]
        for thread in staying:
            thread.start()
        try:
            self.go_through(breaking)
        except threading.BrokenBarrierError:
            self.steps.abort()
            self.buses.abort()
        self.is_over.set()
        join([thread for thread in staying + breaking if thread.ident], 3 * PATIENCE)
        return self.faults, self.ends, sum(self.broken)


def meet_at(barrier):
    BusLoad.buses = barrier


def on_one_bus(*load):
    return BusLoad(*load).run()


class Counted:
    """The counts in a record: frames sent, finished, lost and refused for each interface; items received and lost for
    each socket."""

    def __init__(self, path):
        self.sent, self.done, self.refused, self.lasts, self.offs = [0, 0], [0, 0], [0, 0], 0, 0
        self.lost, waiting, sockets, self.ends, self.entries = [0, 0], [0, 0], [], [], 0
        taken = []
        with open(path, encoding="ascii") as file:
            for line in file:
                event, _, reply = line.rstrip("\n").partition(" = ")
                words, replied = event.split(" "), reply.split(" ")
                self.entries += bool(reply)
                if replied[0] == "socket":
                    sockets.append(int(words[1]))
                    taken.append(0)
                elif replied[0] == "number":
                    self.sent[sockets[int(words[1])]] += 1
                    waiting[sockets[int(words[1])]] += 1
                elif reply == "no-buffers":
                    self.refused[sockets[int(words[1])]] += 1
                elif replied[0] == "tried":
                    winner = int(replied[1])
                    self.lasts += replied[4] == "lastbit"
                    if replied[4] == "done":
                        self.done[winner] += 1
                        waiting[winner] -= 1
                    if replied[6] != "0000":
                        self.offs += 1
                        self.lost[winner] += waiting[winner]
                        waiting[winner] = 0
                elif words[0] == "receive" and reply != "none":
                    taken[int(words[1])] += 1
                elif replied[0] == "closed":
                    self.ends.append((taken[int(words[1])], int(replied[2])))


@pytest.mark.parametrize("frames", [40_000, pytest.param(None, marks=pytest.mark.slow, id="--frames")])
def test_load_with_faults(request, tmp_path, frames):
    """With 64 sessions on 4 buses, faults of every kind, and sessions that break off and connect again, nothing is lost
    without being counted."""
    frames, seed = frames or request.config.getoption("frames"), request.config.getoption("seed")
    buses = []
    for bus in range(BUSES):
        script = os.path.join(tmp_path, f"faults{bus}")
        write_fault_script(script, names_of(bus), frames // BUSES * 2, random.Random(seed + bus))
        buses.append(f"{','.join(names_of(bus))}@{script}")
    with serving_alone(
        "--pace", "0", "--txqueue", "1024", "--rxqueue", "1000", "--limit", "16777216", "--report", *buses
    ) as server:
        begin = time.monotonic()
        where = argparse.Namespace(address=server.address, host=server.host, port=server.port)
        fork = multiprocessing.get_context("fork")
        with fork.Pool(BUSES, meet_at, (fork.Barrier(BUSES),)) as pool:
            loads = [(where, bus, frames // BUSES, seed + bus) for bus in range(BUSES)]
            results = pool.starmap(on_one_bus, loads)
        seconds = time.monotonic() - begin
        most, ticks = server.memory("VmHWM"), server.ticks()
        faults = [fault for result in results for fault in result[0]]
        assert not faults, "; ".join(faults[:3])
        written = server.end(patience=10 * PATIENCE)
        records = [Counted(server.path(f"{names_of(bus)[0]}.rec")) for bus in range(BUSES)]
        for bus, record in enumerate(records):
            compare(server, bus, record, results[bus][1])
        wanted = "".join(f"bus {names_of(bus)[0]} entries {one.entries}\n" for bus, one in enumerate(records))
        assert written == wanted, written
    print(summary(records, results, seconds, most, ticks))


def compare(server, bus, record, ends):
    """Compares the `stats` of the sessions on a bus with the record of the bus."""
    assert server.audited(f"{names_of(bus)[0]}.rec") == record.entries, "the audit counts other entries"
    for side in (0, 1):
        assert (
            record.sent[side] == record.done[side] + record.lost[side]
        ), f"bus {bus}: sent, done, lost: {vars(record)}"
        for place, *_, counts in ends:
            if place % 2 == side:
                wanted = [record.sent[side], record.done[side], 0, record.lost[side], record.refused[side]]
                assert counts[3:] == wanted, f"bus {bus}, session {place}: {counts}, and the record has {wanted}"
        accepted = sum(sent for place, sent, *_ in ends if place % 2 == side)
        assert accepted <= record.sent[side], f"bus {bus}: {accepted} of {record.sent[side]}"
    closed = list(record.ends)
    for place, _, items, _, counts in ends:
        assert (
            items,
            counts[1],
        ) in closed, f"bus {bus}, session {place} took {items}, {counts[1]} dropped: no such socket"
        closed.remove((items, counts[1]))


def summary(records, results, seconds, most, ticks):
    ends = [end for _, ends, _ in results for end in ends]
    items, copies = sum(end[2] for end in ends), sum(end[3] for end in ends)
    sent, done, lost = (sum(sum(getattr(record, what)) for record in records) for what in ("sent", "done", "lost"))
    dropped = sum(dropped for record in records for _, dropped in record.ends)
    entries = sum(record.entries for record in records)
    offs, broken = sum(record.offs for record in records), sum(result[2] for result in results)
    assert offs > 0 and sum(record.lasts for record in records) > 0, "too few faults"
    return (
        f"{sent} frames sent = {done} done + {lost} lost in {offs} times bus off; {items} items came, {copies} of them "
        f"again, {dropped} dropped; {broken} sessions broke; {entries} entries audited; "
        f"{seconds:.0f} s, {ticks / 100:.0f} s of processor time, {most / 2**20:.1f} GB"
    )
