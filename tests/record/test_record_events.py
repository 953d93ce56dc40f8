"""Tests that `canbusd audit --events` writes the events of an independent model, for random runs, complete and cut off.
The model is record_events.py. If a record is not legal, the program writes the lines before the fault. With bit rates
the lines contain times on the wire, which wire_model.py and wire_times.py compute. The tests also check that the Python
package reads from these lines the values that the model has.
"""

import subprocess

import record_events
from canbusd._run.steps import DOWN, DROPPED, RESTART
from canbusd.replay import Replay
from random_benches import Maker
from record_events import events_of
from record_text import BadRecord, parse_text
from serving import WAIT, program
from test_audit_events import EVENTS, RECORD
from timed_benches import random_rates, rate_options

# Interface 0 goes bus off at its 32nd destroyed attempt and loses its waiting frames. It restarts in the second attempt
# after that.
BUS_OFF = [
    "canbus record 2",
    "bus 2 always 0000 10 100 2",
    "open 0 256 = socket 0",
    "option 0 errmask 00000140 = ok",
    "send 0 123# = number 0",
    "send 0 124# = number 1",
    *(f"attempt 0.0000{number:02} global-bit = tried 0 0 123# destroyed 0000 0000" for number in range(1, 32)),
    "attempt 0.000032 global-bit = tried 0 0 123# destroyed 0000 0001",
    "attempt 0.000033 good = idle",
    "attempt 0.000034 good = idle restarted 0001",
    "end 38",
]
AT_BUS_OFF = "; counts 0 256 0; counts 1 0 32; lost 0 2; put 0:20000040#0000000000000000"
AT_RESTART = "; counts 0 0 0; put 0:20000100#0000000000000000"
# An interface goes down twice, and comes up again. Each entry is listed with the parts of its event line.
DOWNS = [
    ("open 0 256 = socket 0", ""),
    ("open 1 256 = socket 1", ""),
    ("option 0 errmask 1FFFFFFF = ok", ""),
    ("send 0 100# = number 0", ""),
    ("send 0 101# = number 1", ""),
    ("send 1 200# = number 0", ""),
    ("attempt 0.000001 good = tried 0 0 100# done 0006 0000", "; put 1"),
    ("down 0 0.000002 = ok", "; lost 0 1"),
    ("down 3 0.000002 = no-interface", ""),
    ("send 0 102# = interface-down", ""),
    ("attempt 0.000003 local-crc:0005 = tried 1 0 200# destroyed 0000 0000", "; counts 1 8 0; counts 2 0 1"),
    ("attempt 0.000004 good = tried 1 0 200# done 0004 0000", "; counts 1 7 0; counts 2 0 0"),
    ("down 0 0.000005 = ok", ""),
    ("restart 0 0.000006 = ok", "; put 0:20000100#0000000000000000"),
    ("restart 0 0.000006 = not-bus-off", ""),
    ("receive 0 = error 0 20000100#0000000000000000 0.000006", ""),
    ("receive 0 = none", ""),
    ("send 0 103# = number 2", ""),
    ("attempt 0.000007 good = tried 0 2 103# done 0006 0000", "; put 1"),
]
BUS_OF_DOWNS = "bus 3 always 0000 10 100 0"
# A record of version 6 that uses nothing that needs this version.
BUS_OFF_6 = "".join(f"{line}\n" for line in ["canbus record 6", *BUS_OFF[1:]]).encode()


def with_downs():
    """Returns the record of the entries in DOWNS."""
    lines = ["canbus record 6", BUS_OF_DOWNS, *(entry for entry, _ in DOWNS), f"end {len(DOWNS)}"]
    return "".join(f"{line}\n" for line in lines).encode()


def events_of_downs():
    """Returns the events of the entries in DOWNS."""
    lines = ["canbus events 1", BUS_OF_DOWNS, *map("".join, DOWNS), f"end {len(DOWNS)}"]
    return "".join(f"{line}\n" for line in lines)


def said(data, *options):
    """Audits a record with these options; returns the output, the status and the standard error of the program."""
    words = [program(), "audit", *options, "/dev/stdin"]
    done = subprocess.run(words, input=data, capture_output=True, timeout=WAIT, check=False)
    return done.stdout.decode(), done.returncode, done.stderr.decode()


def records(seed, count, folder):
    """Yields the records of `count` random runs."""
    maker = Maker(seed)
    while count:
        case, path = maker.case(), folder / "run.rec"
        case.write_to(folder)
        words = [program(), *case.words, "--record", path.name]
        done = subprocess.run(words, input=case.text, cwd=folder, capture_output=True, timeout=WAIT, check=False)
        if done.returncode == 0:
            yield path.read_bytes()
            count -= 1


def test_the_model():
    """The model writes the lines that were worked out by hand for two records."""
    assert events_of(RECORD.encode()) == EVENTS
    lines = events_of("".join(f"{line}\n" for line in BUS_OFF).encode()).splitlines()
    assert lines[:2] == ["canbus events 1", BUS_OFF[1]] and lines[6] == f"{BUS_OFF[6]}; counts 0 8 0; counts 1 0 1"
    assert lines[36:] == [
        BUS_OFF[36] + "; counts 0 248 0; counts 1 0 31",
        BUS_OFF[37] + AT_BUS_OFF,
        BUS_OFF[38],
        BUS_OFF[39] + AT_RESTART,
        "end 38",
    ]


def test_the_model_of_downs():
    """The model writes the lines that were worked out by hand for the entries of DOWNS, and it checks which version
    they need."""
    assert events_of(with_downs()) == events_of_downs()
    others = {
        with_downs().replace(b"record 6", b"record 5"): "line 10: bad line",
        with_downs().replace(b"interface-down", b"bus-off"): "entry 9: wrong",
        BUS_OFF_6: "bad version",
    }
    for data, fault in others.items():
        assert record_events.audit(data) == f"canbusd: {fault}"


def test_events_of_downs():
    """For the entries of DOWNS, the program writes the same lines as the model, and its reports on wrong records agree
    with the model."""
    assert said(with_downs(), "--events") == (events_of_downs(), 0, "")
    for data in (with_downs().replace(b"record 6", b"record 5"), with_downs().replace(b"interface-down", b"bus-off")):
        assert said(data)[2].splitlines()[0] == record_events.audit(data)
    assert said(BUS_OFF_6)[2].splitlines()[0] == "canbusd: bad version"


def test_events_of_random_runs(request, cases, tmp_path):
    """For random runs, the program writes the same lines as the model."""
    items = 0
    for data in records(request.config.getoption("seed"), cases // 2, tmp_path):
        wanted = events_of(data)
        assert said(data, "--events") == (wanted, 0, ""), data
        items += wanted.count("; put ")
    assert items, "nobody received anything"


def test_time_on_the_wire_of_random_runs(request, rng, cases, tmp_path):
    """For random runs at random bit rates, the program writes the same times as the model."""
    tried = 0
    for data in records(request.config.getoption("seed"), cases // 10, tmp_path):
        rates = random_rates(rng)
        wanted = events_of(data, rates=rates)
        assert said(data, "--events", *rate_options(rates)) == (wanted, 0, ""), data
        tried += wanted.count("; wire ")
    assert tried, "nothing was tried"


def test_events_of_records_that_are_cut_off(request, rng, cases, tmp_path):
    """For records that are cut off at a random position, even within a line, the program writes the same lines as the
    model."""
    for data in records(request.config.getoption("seed"), cases // 10, tmp_path):
        whole = data[: rng.randrange(data.index(b"\n", data.index(b"\n") + 1) + 1, len(data))]
        written, status, _ = said(whole, "--events", "--cut")
        assert (written, status) == (events_of(whole, cut=True), 0), whole


def test_events_of_wrong_records(request, rng, cases, tmp_path):
    """For a wrong record the program writes the lines before the wrong one, and reports the fault that it reports
    without --events.
    """
    for data in records(request.config.getoption("seed"), cases // 10, tmp_path):
        lines = data.splitlines(True)
        place = rng.randrange(2, len(lines))
        other = b"".join([*lines[:place], rng.choice(lines[2:]), *lines[place + 1 :]])
        try:
            assert said(other, "--events")[0] == events_of(other)
        except BadRecord:
            written, status, errors = said(other, "--events")
            assert ("", status, errors) == said(other) and status == 1
            before = b"".join(other.splitlines(True)[: written.count("\n")])
            assert events_of(before, cut=True).rpartition("cut ")[0] == written


def step_of(step):
    """Returns a step in a form that can be compared."""
    lists = (step.accepted, step.off, step.hit, step.counts, step.waiting)
    met = [(number, frame.text) for number, frame in step.contenders]
    when = step.kind, step.entry, step.moment, step.attempt, step.idle
    return when, step.iface, step.number, step.text, step.verdict, met, [(*one,) for one in lists]


def bus_of(run, text=lambda frame: frame):
    """Returns the state of a run at its end: interfaces with their waiting and lost frames, sockets, refused sends, and
    error counts."""
    ifaces = [
        (
            [*map(text, one.waiting)],
            one.sent,
            one.done,
            one.lost,
            one.refused,
            one.tec,
            one.rec,
            one.is_down or one.state(),
        )
        for one in run.ifaces
    ]
    sockets = [
        (one.iface, one.capacity, one.closed_after, one.queued, one.taken, one.dropped, one.waiting)
        for one in run.sockets
    ]
    return ifaces, sockets, run.refused, (run.attempts, run.idle, run.idle_since, run.entries)


def queued_in(parts):
    """Yields the items in the `put` parts of entries: the index of the socket, and the error message frame if there is
    one."""
    for words in (part.split(" ")[1:] for one in parts.values() for part in one if part.startswith("put ")):
        yield from ((int(number), error) for number, _, error in (word.partition(":") for word in words))


def times_in(lines):
    """Returns the times on the wire in these lines, by the index of the entry."""
    found = {}
    for number, line in enumerate(lines):
        wire = line.partition("; wire ")[2]
        if wire:
            found[number] = tuple(map(int, wire.split(" ")))
    return found


def test_the_times_that_the_package_reads(request, rng, cases, tmp_path):
    """The package reads the times of each attempt that tried a frame, and no times for a restart."""
    for data in records(request.config.getoption("seed"), cases // 20, tmp_path):
        rates, run = random_rates(rng), Replay()
        lines = events_of(data, rates=rates).splitlines()
        run.take(lines)
        steps = run.steps
        columns = zip(steps.frame_nanos, steps.busy_nanos, steps.nominal_bits, steps.fast_bits)
        read = {entry: times for entry, times in zip(steps.entries, columns) if any(times)}
        assert read == times_in(lines[2:]), data
        others = len(steps.places_of(RESTART)) + len(steps.places_of(DOWN))
        assert len(read) == run.attempts == len(steps) - others, data


def test_what_the_package_reads(request, cases, tmp_path):
    """For random runs and for the entries of DOWNS, the package reads the same steps, items, lost frames and final
    state as the model.
    """
    for data in [with_downs(), *records(request.config.getoption("seed"), cases // 4, tmp_path)]:
        run, model = Replay(), record_events.Replay(parse_text(data))
        run.take(events_of(data).splitlines())
        assert [step_of(step) for step in run.steps] == [step_of(step) for step in model.steps], data
        assert bus_of(run) == bus_of(model, lambda pending: pending.frame.text), data
        lost = {step: [(one.number, one.frame.text) for one in all_of] for step, all_of in model.lost.items()}
        assert run.lost == lost, data
        items = [*zip(run.items.steps, run.items.sockets, run.items.errors, run.items.fates())]
        queued = [(run.steps.entries[step], socket, error) for step, socket, error, fate in items if fate != DROPPED]
        # In a line, the items that restarts cause are listed among those of the attempt.
        by_socket = sorted(queued, key=lambda item: item[:2])
        assert [(socket, run.texts.all[error]) for _, socket, error in by_socket] == [*queued_in(model.parts)], data
        assert len(items) - len(queued) == sum(socket.dropped for socket in run.sockets), data
