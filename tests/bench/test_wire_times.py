"""`canbusd bench --bitrate` computes the same times as wire_times.py, which is independent of the program."""

from __future__ import annotations

import os
import pathlib
import random
import re
import subprocess
from collections.abc import Iterable, Iterator, Sequence

import pytest

import random_benches
from forked import forked
from serving import ROOT
from timed_benches import MICRO, bench, moment, random_frame, random_rates, rate_options, send
from wire_model import KNOWN_LENGTHS, Frame, bit_counts, random_data
from wire_times import Ending, Message, Rates, Release, Sent, ending_of, simulated, use, worst_response

LAST = 1_000_000 * MICRO
# The latest time that can be given, in nanoseconds.
LATEST = 10**19 - 1

# Three messages of 216 us each, including intermission, at 500 kbit/s. Their periods are 2.5, 3.5 and 3.5 times that
# duration. The second instance of the third message has the worst response (Davis, Burns, Bril and Lukkien, Real-Time
# Systems 35, 2007, section 3.2).
THREE = [Frame.read(text) for text in ("001#55555555555505", "002#55555555555503", "003#5555555555557C")]
PERIODS = [540 * MICRO, 756 * MICRO, 756 * MICRO]

# Failed attempts: the value of `--ack`, the verdict, the output, and where the error flag begins.
FAILED = [
    ("always", "lastbit", "lastbit can1 -", Ending.LAST_BIT),
    ("always", "global bit", "destroyed - -", Ending.AFTER_DATA),
    ("always", "local stuff can1", "destroyed - -", Ending.AFTER_DATA),
    ("always", "global form", "destroyed - -", Ending.AFTER_CRC),
    ("always", "local crc can1", "destroyed - -", Ending.AFTER_CRC),
    ("always", "local form can1", "destroyed - -", Ending.AFTER_CRC),
    ("peers", "good", "noack - -", Ending.NO_ACK),
]


def interfaces(count: int) -> list[str]:
    return [f"can{number}" for number in range(count)]


def lines_of(releases: Iterable[Release]) -> list[str]:
    """Returns input lines that queue the frames at their times, and run the bus in between."""
    lines: list[str] = []
    now = -1
    for release in sorted(releases, key=lambda release: release.time):
        if release.time != now:
            lines.append(f"run {moment(release.time)}")
        now = release.time
        lines.append(f"feed {release.node + 1} {send(release.frame)}")
    return [*lines, f"run {moment(LAST * 1000)}"]


def expected_lines(sent: Iterable[Sent], nodes: int) -> list[str]:
    """Returns the output of a bench that sends these frames."""
    counts = [0] * nodes
    lines = []
    for one in sent:
        node = one.release.node
        others = ",".join(name for place, name in enumerate(interfaces(nodes)) if place != node) or "-"
        lines.append(f"tried can{node} {counts[node]} done {others} - at {moment(one.end)}")
        counts[node] += 1
    return lines


def check(program: str, releases: Sequence[Release], nodes: int, rates: Rates) -> list[Sent]:
    """Checks that a bench sends these frames as the model does, and returns the model's result."""
    sent = list(simulated(releases, rates))
    options = [*rate_options(rates), "--txqueue", "1024", "--rxqueue", "1"]
    assert bench(program, options, interfaces(nodes), lines_of(releases)) == expected_lines(sent, nodes)
    return sent


def test_second_instance_responds_last(program: str) -> None:
    """The times are those of the example in the repository. The worst response equals the bound."""
    rates = Rates(500_000)
    messages = [Message(frame, period) for frame, period in zip(THREE, PERIODS)]
    releases = [r for node, message in enumerate(messages) for r in message.releases(node, 0, 1_080 * MICRO + 1)]
    sent = check(program, releases, 3, rates)
    assert [one.end // MICRO for one in sent] == [210, 426, 642, 858, 1074, 1290, 1506]
    assert [one.response // MICRO for one in sent] == [216, 432, 648, 324, 324, 216, 756]
    assert worst_response(messages, 2, rates) == 756 * MICRO


def test_example(program: str) -> None:
    """The example in the repository has these messages."""
    with open(os.path.join(ROOT, "examples", "response_times.bench"), encoding="utf-8") as file:
        lines = file.read()
    done = subprocess.run(
        [program, "bench", "--bitrate", "500000", "can0,can1,can2"],
        input=lines,
        capture_output=True,
        text=True,
        timeout=60,
        check=True,
    )
    ends = re.findall(r" at (\S+)$", done.stdout, re.MULTILINE)
    assert ends == ["0.000210", "0.000426", "0.000642", "0.000858", "0.001074", "0.001290", "0.001506"]


def random_messages(maker: random.Random, rates: Rates) -> list[Message]:
    """Returns messages in order of falling priority that do not fill the bus."""
    while True:
        messages = []
        share = maker.uniform(0.3, 0.97)
        count = maker.randrange(2, 9)
        for number in sorted(maker.sample(range(0x100, 0x700), count)):
            extended = maker.random() < 0.3
            identifier = number << 18 | maker.getrandbits(18) if extended else number
            frame = Frame(identifier, extended, random_data(maker, maker.randrange(9)))
            period = int(rates.attempt_nanos(frame) * count / share * maker.uniform(0.6, 1.8)) // MICRO * MICRO
            late = maker.choice([0, 0, maker.randrange(period)]) // MICRO * MICRO
            messages.append(Message(frame, period, late))
        if use(messages, rates) < 0.98:
            return messages


def test_responses_of_random_messages(program: str, rng: random.Random, cases: int) -> None:
    """The bench agrees with the model, and no response takes longer than the analysis allows. If all messages are
    released at once, the message of the lowest priority reaches its bound, because no message blocks it."""
    met = 0
    for case in range(max(6, cases // 40)):
        rates = Rates(rng.choice([10_000, 125_000, 250_000, 500_000, 1_000_000]))
        messages = random_messages(rng, rates)
        if together := case % 2 == 0:
            messages = [Message(message.frame, message.period) for message in messages]
        until = 6 * max(message.period for message in messages)
        releases: list[Release] = []
        for node, message in enumerate(messages):
            offset = 0 if together else rng.randrange(message.period // MICRO) * MICRO
            late = [rng.randrange(message.jitter // MICRO + 1) * MICRO for _ in range(50)]
            releases += message.releases(node, offset, until, late)
        worst = [0] * len(messages)
        for one in check(program, releases, len(messages), rates):
            worst[one.release.node] = max(worst[one.release.node], one.response)
        bounds = [worst_response(messages, place, rates) for place in range(len(messages))]
        assert all(response <= bound for response, bound in zip(worst, bounds)), (worst, bounds)
        met += together and worst[-1] == bounds[-1]
    assert met, "no response meets its bound"


@pytest.mark.parametrize("text, bits", KNOWN_LENGTHS)
def test_known_lengths(program: str, text: str, bits: int) -> None:
    frame = Frame.read(text)
    assert bit_counts(frame) == (bits, 0)
    lines = bench(program, ["--bitrate", "1000000"], ["can0"], [f"feed 1 {send(frame)}", "attempt"])
    assert lines == [f"tried can0 0 done - - at {moment(bits * MICRO)}"]


def test_known_length_of_an_fd_frame(program: str) -> None:
    """64 zero bytes take 27 nominal bits, and 651 bits at the data bit rate."""
    frame = Frame(0x123, False, bytes(64), is_fd=True, brs=True)
    assert bit_counts(frame) == (27, 651)
    options = ["--bitrate", "1000000", "--dbitrate", "10000000"]
    lines = bench(program, options, ["can0"], [f"feed 1 {send(frame)}", "attempt"])
    assert lines == ["tried can0 0 done - - at 0.000092"]


def test_frames_without_brs_do_not_switch(program: str) -> None:
    """Without BRS, all bits have the nominal bit rate, even if the bus has a data bit rate."""
    frame = Frame.read("123##0" + 64 * "00")
    bits, fast = bit_counts(frame)
    assert fast == 0 and bits > 600
    for rates in (Rates(1_000_000), Rates(1_000_000, 10_000_000)):
        lines = bench(program, rate_options(rates), ["can0"], [f"feed 1 {send(frame)}", "attempt"])
        assert lines == [f"tried can0 0 done - - at {moment(bits * MICRO)}"]


def test_random_frames(program: str, rng: random.Random, cases: int) -> None:
    """If only one node sends, each frame begins at the end of the intermission before it."""
    for _ in range(max(4, cases // 100)):
        rates = random_rates(rng)
        frames = [random_frame(rng) for _ in range(100)]
        check(program, [Release(0, 0, frame) for frame in frames], 1, rates)


@pytest.mark.parametrize("ack, verdict, says, ending", FAILED)
def test_failed_attempts(program: str, rng: random.Random, ack: str, verdict: str, says: str, ending: Ending) -> None:
    """The frame is sent again as soon as the failed attempt ends. The time of the failed attempt is the end of frame."""
    for _ in range(10):
        rates, frame = random_rates(rng), random_frame(rng)
        names = ["can0"] if ack == "peers" else ["can0", "can1"]
        lines = [f"fault next 1 {verdict}"] if verdict != "good" else []
        lines += [f"feed 1 {send(frame)}", "attempt", "attempt"]
        length, again = rates.frame_nanos(frame), rates.attempt_nanos(frame, ending)
        second = "noack - -" if ack == "peers" else "done can1 -"
        assert bench(program, [*rate_options(rates), "--ack", ack], names, lines) == [
            f"tried can0 0 {says} at {moment(length)}",
            f"tried can0 0 {second} at {moment(again + length)}",
        ]


def test_restart_by_attempts(program: str) -> None:
    """With `--auto-restart 128` each attempt, failed or not, counts as one run of 11 recessive bits. The interface is
    back after another interface has sent 128 frames."""
    rates = Rates(500_000)
    sent = Frame.read("123#")
    other = Frame.read("100#")
    lines = ["fault next 32 from can0 global bit", f"feed 1 {send(sent)}", *32 * ["attempt"]]
    lines += [f"feed 2 {send(other)}"] * 129 + ["run 9.000000"]
    options = [*rate_options(rates), "--auto-restart", "128", "--txqueue", "1024"]
    written_lines = bench(program, options, ["can0", "can1"], lines)
    failed, again = written_lines[:32], written_lines[32:]
    assert failed[-1].startswith("tried can0 0 destroyed - can0 at ")
    start = 32 * rates.attempt_nanos(sent, Ending.AFTER_DATA)
    step, length = rates.attempt_nanos(other), rates.frame_nanos(other)
    ends = [moment(start + number * step + length) for number in range(129)]
    assert again == [
        f"tried can1 {number} done {'can0' if number == 128 else '-'} -"
        f"{' restarted can0' if number == 127 else ''} at {ends[number]}"
        for number in range(129)
    ]


@pytest.mark.parametrize("nominal, restart", [(500_000, 128), (5_000, 1), (83_333, 7), (1_000_000, 1_000)])
def test_restart_on_an_idle_bus(program: str, nominal: int, restart: int) -> None:
    """On an idle bus, a run performs the attempts that an interface needs for its restart. Each takes 11 recessive
    bits, as `attempt` in the input does."""
    rates, sent = Rates(nominal), Frame.read("123#")
    over = 32 * rates.attempt_nanos(sent, Ending.AFTER_DATA)
    ends = [moment(over + number * rates.idle_nanos()) for number in range(1, restart + 1)]
    expected = [f"idle at {end}" for end in ends[:-1]] + [f"idle restarted can0 at {ends[-1]}"]
    lines = ["fault next 32 global bit", f"feed 1 {send(sent)}", *32 * ["attempt"]]
    options = [*rate_options(rates), "--auto-restart", str(restart)]
    for made in (["run 9.000000"], restart * ["attempt"]):
        written_lines = bench(program, options, ["can0", "can1"], [*lines, *made])
        assert written_lines[31].startswith("tried can0 0 destroyed - can0 at ")
        assert written_lines[32:] == expected


def test_moments_of_idle_attempts_do_not_fall(program: str) -> None:
    """A long FD frame that is destroyed after its data would have ended 19 bits after the end of its attempt. So the
    next attempt, which takes 11 bits, gets the same time."""
    rates, sent = Rates(1_000_000), Frame(0x123, False, bytes([0x55] * 64), is_fd=True)
    step, length = rates.attempt_nanos(sent, Ending.AFTER_DATA), rates.frame_nanos(sent)
    assert length - step == 19 * 1_000
    end, over = 31 * step + length, 32 * step
    lines = ["fault next 32 global bit", f"feed 1 {send(sent)}", *36 * ["attempt"]]
    written_lines = bench(program, [*rate_options(rates), "--auto-restart", "3"], ["can0", "can1"], lines)
    assert written_lines[31:] == [
        f"tried can0 0 destroyed - can0 at {moment(end)}",
        f"idle at {moment(end)}",
        f"idle at {moment(over + 22_000)}",
        f"idle restarted can0 at {moment(over + 33_000)}",
        f"idle at {moment(over + 33_000)}",
    ]


def without_moments(output: bytes) -> bytes:
    """Returns the output of a bench without the load, and without the times of attempts and received frames."""
    lines = re.sub(rb"^((?:tried|idle).*) at [0-9.]+$", rb"\1", output, flags=re.MULTILINE)
    lines = re.sub(rb"< load [0-9]+ [0-9]+ [0-9]+ [0-9]+ >", rb"< load >", lines)
    return re.sub(rb"(< (?:frame|fdframe|fdframex [0-3]|remote|error) [0-9A-F]+) [0-9]+\.[0-9]{6}", rb"\1", lines)


# Matches an attempt in a record: verdict, frame, outcome, interfaces that went bus off, and interfaces that were
# restarted.
ATTEMPT = re.compile(r"attempt \S+ (\S+) = (?:idle|tried \d+ \d+ (\S+) (\S+) \S+ (\S+))(?: restarted (\S+))?$")


def attempts_in(record: str) -> Iterator[tuple[str, str | None, str | None, bool]]:
    """Yields the attempts in a record: verdict, frame, outcome, and whether an interface was waiting for its restart."""
    lines = record.splitlines()
    restarts = lines[1].split(" ")[6:] not in ([], ["0"])
    off = 0
    for line in lines:
        if by_hand := re.match(r"restart (\d+) \S+ = ok$", line):
            off &= ~(1 << int(by_hand[1]))
        elif attempt := ATTEMPT.match(line):
            verdict, frame, kind, gone, back = attempt.groups()
            yield verdict, frame, kind, restarts and off != 0
            off = (off | int(gone or "0", 16)) & ~int(back or "0", 16)


def moments_of(text: bytes, record: str, rates: Rates) -> list[str]:
    """Returns the times of the attempts in an input, computed from the frames and outcomes in its record. An attempt
    without a frame takes 11 bits while an interface waits for its restart, and times never decrease."""
    attempts = attempts_in(record)
    moments, now, free, last = [], 0, 0, 0
    for line in text.split(b"\n"):
        if line.startswith(b"at "):
            now = int(line[3:].replace(b".", b"")) * MICRO
        elif line == b"attempt" and (attempt := next(attempts, None)):
            verdict, tried, kind, waits = attempt
            begin = max(now, free)
            if tried and kind:
                frame = Frame.read(tried)
                lasts, takes = rates.frame_nanos(frame), rates.attempt_nanos(frame, ending_of(kind, verdict))
            else:
                lasts = takes = rates.idle_nanos() if waits else 0
            free = min(begin + takes, LATEST)
            last = max(last, min(begin + lasts, LATEST) // MICRO)
            moments.append(moment(last * MICRO))
            now = free // MICRO * MICRO
    return moments


def test_random_runs(program: str, request: pytest.FixtureRequest, cases: int, tmp_path: pathlib.Path) -> None:
    """In random runs with faults of every kind, bit rates change only the times and the load, and the times agree with
    the model.
    """
    seed = request.config.getoption("seed")
    maker, rng = random_benches.Maker(seed), random.Random(seed)
    compared, least = 0, max(20, cases // 20)
    for number in range(10 * least):
        if number >= least and compared > 100:
            break
        case, rates = maker.case(), random_rates(rng)
        case.write_to(tmp_path)

        def run(*words: str) -> subprocess.CompletedProcess[bytes]:
            line = [program, "bench", *words, *case.words[1:]]
            return subprocess.run(line, input=case.text, cwd=tmp_path, capture_output=True, timeout=60, check=False)

        plain, timed = run(), run(*rate_options(rates), "--record", "run.rec")
        assert timed.returncode == plain.returncode
        assert without_moments(timed.stdout) == without_moments(plain.stdout)
        if timed.returncode == 0:
            record = (tmp_path / "run.rec").read_text(encoding="utf-8")
            said = re.findall(r"^(?:tried|idle).* at ([0-9.]+)$", timed.stdout.decode(), re.MULTILINE)
            assert said == moments_of(case.text, record, rates) == re.findall(r"^attempt (\S+)", record, re.MULTILINE)
            compared += len(said)
    assert compared > 100


def ended(*words: str, text: str = "") -> tuple[int, str, str]:
    """Returns a command's status, standard output and standard error."""
    done = subprocess.run(words, input=text, capture_output=True, text=True, timeout=60, check=False)
    return done.returncode, done.stdout, done.stderr


@pytest.mark.parametrize(
    "words, fault",
    [
        ("--bitrate 4999", "invalid value '4999' for '--bitrate': not a number from 5000 to 1000000"),
        ("--bitrate 1000001", "invalid value '1000001' for '--bitrate': not a number from 5000 to 1000000"),
        ("--bitrate 500k", "invalid value '500k' for '--bitrate': not a number from 5000 to 1000000"),
        ("--dbitrate 500000", "'--dbitrate' needs '--bitrate'"),
        (
            "--bitrate 500000 --dbitrate 499999",
            "invalid value '499999' for '--dbitrate': not a number from 500000 to 20000000",
        ),
        (
            "--bitrate 500000 --dbitrate 20000001",
            "invalid value '20000001' for '--dbitrate': not a number from 500000 to 20000000",
        ),
    ],
)
def test_bad_words(program: str, words: str, fault: str) -> None:
    status, output, errors = ended(program, "bench", *words.split(), "can0")
    assert (status, output) == (2, "")
    assert errors.startswith(f"error: {fault}")


@pytest.mark.parametrize(
    "words, lines, number, note",
    [
        (
            "--bitrate 500000",
            "x\n",
            1,
            "a line begins with at, session, feed, drain, end, fault, attempt, down, up or run; see ",
        ),
        ("", "run 0.000000\n", 1, "run needs --bitrate"),
        ("", "run 0.1\n", 1, "run SECONDS.MICROS: 1 to 10 digits, a point, 6 digits"),
        ("--bitrate 500000", "run 0.1\n", 1, "run SECONDS.MICROS: 1 to 10 digits, a point, 6 digits"),
        ("--bitrate 500000", "at 0.000002\nrun 0.000002\nrun 0.000001\n", 3, "the moment set is a later one"),
    ],
)
def test_bad_lines(program: str, words: str, lines: str, number: int, note: str) -> None:
    status, output, errors = ended(program, "bench", *words.split(), "can0", text=lines)
    assert (status, output) == (1, "")
    line = lines.splitlines()[number - 1]
    assert errors.startswith(f"canbusd: line {number}: bad line\n  standard input:{number}: {line}\n")
    assert f"\n  {note}" in errors


def test_moments_are_set(program: str) -> None:
    """`at` delays the next attempt, and no waiting frame is sent earlier. It never shortens the previous attempt."""
    lines = [*3 * ["feed 1 < send 123 0 >"], "attempt", "at 0.000010", "attempt", "at 0.000500", "attempt", "attempt"]
    assert bench(program, ["--bitrate", "500000"], ["can0"], lines) == [
        "tried can0 0 done - - at 0.000090",
        "tried can0 1 done - - at 0.000186",
        "tried can0 2 done - - at 0.000590",
        "idle at 0.000596",
    ]


def test_frames_have_their_moment(program: str, tmp_path: pathlib.Path) -> None:
    """Receivers, the log and the record all show the time of the end of frame."""
    lines = ["session 1", "feed 1 < open can0 >< rawmode >", "session 2", "feed 2 < open can1 >< rawmode >"]
    lines += ["feed 1 < send 123 0 >", "run 1.000000", "drain 2"]
    record, log = tmp_path / "run.rec", tmp_path / "run.log"
    files = ["--record", str(record), "--log", str(log)]
    words = [program, "bench", "--bitrate", "500000", *files, "can0,can1"]
    status, output, errors = ended(*words, text="\n".join(lines) + "\n")
    assert (status, errors) == (0, "")
    assert output.endswith("tried can0 0 done can1 - at 0.000090\n2 < frame 123 0.000090  >\n")
    assert log.read_text(encoding="utf-8") == "(0000000000.000090) can0 123#\n"
    assert re.findall("^attempt ([0-9.]+) ", record.read_text(encoding="utf-8"), re.MULTILINE) == ["0.000090"]
    assert ended(program, "audit", str(record))[:2] == (0, "ok 6 entries\n")


def loads(program: str, options: Sequence[str], lines: Iterable[str]) -> list[str]:
    """Returns the answers to `< load >`, which replaces each input line `load`."""
    opened = ["session 1", "feed 1 < open can0 >< rawmode >< fdframes 1 >"]
    asked = ["feed 1 < load >" if line == "load" else line for line in lines]
    words = [program, "bench", *options, "can0"]
    status, output, errors = ended(*words, text="".join(f"{line}\n" for line in [*opened, *asked]))
    assert (status, errors) == (0, "")
    return re.findall("^1 < load (.*) >$", output, re.MULTILINE)


def test_the_load_of_a_bench(program: str) -> None:
    """Each frame has 50 bits and 3 bits of intermission, which take 10.6 ms at 5 kbit/s."""
    sent = "feed 1 < send 000 0 >"
    lines = ["load", sent, sent, sent, "run 0.500000", "load", "at 1.000000", "load"]
    # The frame lasts from 1.9947 to 2.0053 s, so it takes 5.3 ms of each of the two seconds. An attempt without a frame
    # adds no load.
    lines += [sent, "at 1.994700", "attempt", "load", "attempt", "at 3.500000", "load", "at 4.000000", "load"]
    assert loads(program, ["--bitrate", "5000"], lines) == [
        "0 0 5000 5000",
        "0 31800 5000 5000",
        "31 31800 5000 5000",
        "5 42400 5000 5000",
        "5 42400 5000 5000",
        "0 42400 5000 5000",
    ]


def test_the_load_of_an_fd_frame(program: str) -> None:
    """With 64 zero bytes, the 27 nominal bits and 3 bits of intermission take 6 ms at 5 kbit/s, and the 651 data bits
    take 13.02 ms at 50 kbit/s."""
    frame = Frame(0x123, False, bytes(64), is_fd=True, brs=True)
    lines = [f"feed 1 {send(frame)}", "attempt", "at 1.000000", "load"]
    assert loads(program, ["--bitrate", "5000", "--dbitrate", "50000"], lines) == ["19 19020 5000 50000"]


def test_without_bit_rates(program: str) -> None:
    """Without bit rates, attempts take no time, and their lines show no time."""
    lines = [*2 * ["feed 1 < send 123 0 >"], "at 0.000005", "attempt", "attempt", "attempt"]
    assert bench(program, [], ["can0"], lines) == ["tried can0 0 done - -", "tried can0 1 done - -", "idle"]
    assert loads(program, [], [*lines, "load"]) == ["0 0 0 0"]


def recorded(program: str, rates: Rates, maker: random.Random, path: str) -> list[str]:
    """Returns the lines of a record in which frames from two interfaces fail or are sent."""
    lines = []
    for _ in range(30):
        lines.append(f"fault next 1 {maker.choice(['lastbit', 'global bit', 'local crc can1', 'good'])}")
        lines.append(f"feed {maker.randrange(1, 3)} {send(random_frame(maker))}")
        lines += maker.choice([[], ["attempt"], ["attempt", "attempt"]])
    bench(
        program,
        [*rate_options(rates), "--txqueue", "100", "--record", path],
        ["can0", "can1"],
        [*lines, "run 99.000000"],
    )
    with open(path, encoding="utf-8") as file:
        return file.readlines()


def test_replay_of_moments(program: str, rng: random.Random, tmp_path: pathlib.Path) -> None:
    """If the input never waits, attempts follow one another without gaps, so the replay reports nothing. It does report
    an attempt that is 2 microseconds too early, or a bit rate that is too low."""
    path = str(tmp_path / "can0.rec")
    for _ in range(3):
        rates = random_rates(rng)
        lines = recorded(program, rates, rng, path)

        def replay(nominal: int) -> tuple[int, str, str]:
            options = rate_options(Rates(nominal, rates.fast))
            return forked("replay", "--quiet", *options, path)

        status, said, errors = replay(rates.nominal)
        assert (status, errors) == (0, "") and re.fullmatch(r"load .*\nok \d+ entries\n", said)
        assert rates.nominal < 10_000 or replay(rates.nominal // 2)[0] == 1
        places = [place for place, line in enumerate(lines) if line.startswith("attempt") and " tried " in line]
        number = rng.randrange(1, len(places))
        place = places[number]
        end = lines[place].split(" ")[1]
        earlier = moment((int(end.replace(".", "")) - 2) * MICRO)
        lines[place] = lines[place].replace(end, earlier)
        with open(path, "w", encoding="utf-8") as file:
            file.writelines(lines)
        status, said, errors = replay(rates.nominal)
        fault = rf"attempt {number} at {earlier} begins [0-9.]+ microseconds before attempt {number - 1} is over"
        assert (status, errors.count("\n")) == (1, 1) and re.fullmatch(f"canbusd replay: {fault}\n", errors), errors
