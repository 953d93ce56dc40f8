"""Tests canbusd when one request for memory after another is refused.

refuse_memory.c, compiled with cc and preloaded, refuses the n-th request for memory or start of a thread, for each n:
either only this request, or this one and all later ones. A bench must either exit with `no memory` after complete lines
of its output, or report the refusal to a session. In the second case its output and its record must be those of an
input without the refused command. An audit returns its usual reply or says `no memory`. If crates/can_memory_tests is
built, it performs every call of the libraries: a refused call must change nothing, and return the usual result when it
is repeated. If a server is refused memory, only one session fails: other sessions get their frames, and the record that
the server writes when it ends is legal. Finally, the program runs with more and more memory, limited by RLIMIT_AS.
"""

import contextlib
import glob
import mmap
import os
import re
import resource
import shutil
import struct
import subprocess

import pytest

from made_once import made_once
from serving import ROOT, WAIT, NotListening, Pair, Plain, come_true, plain, program, serving_alone, writes_live

pytestmark = pytest.mark.skipif(not shutil.which("cc"), reason="no C compiler: cc")
needs_live = pytest.mark.skipif("not writes_live()", reason="the program is older than `serve --record`")

FOREVER = 2**64 - 1
# No tested run requests memory more often than this or needs more bytes than this.
MOST_PLACES, MOST_BYTES = 5000, 1 << 34
# A program that calls each library function that needs memory.
CALLS = os.path.join(ROOT, "crates", "can_memory_tests", "out", "can_memory_tests")
NO_MEMORY = "canbusd: no memory\n"
# The standard error of a program that was refused memory: the fault, perhaps followed by a remedy.
REFUSED = re.compile(r"canbusd: no memory\n(  [ -~]+\n)*")
SAYS_NO_MEMORY = "< error no memory >"
# A command without effect, which replaces a command that was refused memory.
UNKNOWN, SAYS_UNKNOWN = "< nothing >", "< error unknown command >"
TAKES_MEMORY = re.compile(r"< *(?:open|rawmode|filter)\b[^<>]*>")


@pytest.fixture(scope="module")
def library(request):
    """Compiles the library that refuses memory; returns its path."""
    words = ["cc", "-O2", "-shared", "-fPIC", os.path.join(ROOT, "tests", "helpers", "refuse_memory.c"), "-o"]
    name = "refuse_memory.so"
    return made_once(request, "refusing", lambda folder: subprocess.run([*words, folder / name], check=True)) / name


@pytest.fixture
def refusing(library, tmp_path):
    """Returns an environment in which the program can be refused memory."""
    return Refusing(library, tmp_path)


class Refusing:
    """The environment and the folder of a program that can be refused memory."""

    def __init__(self, library, folder):
        self.folder, self.server, plan = folder, None, folder / "plan"
        plan.write_bytes(bytes(24))
        with open(plan, "r+b") as file:
            self.plan = mmap.mmap(file.fileno(), 24)
        self.environment = {**os.environ, "LD_PRELOAD": str(library), "REFUSE": str(plan)}

    def asked(self):
        """Returns how often the program has requested memory."""
        return struct.unpack("=Q", self.plan[:8])[0]

    def refuse(self, first, last, asked=0):
        """Sets the count of requests to `asked`, and refuses requests `first` to `last`."""
        self.plan[8:] = struct.pack("=2Q", 1, 0)
        self.plan[:8] = struct.pack("=Q", asked)
        self.plan[8:] = struct.pack("=2Q", first, last)

    def refuse_soon(self, first, last):
        """Refuses the requests from `first` to `last`, counted from now on. Returns the index of the first one, counted
        from the start of the program."""
        asked = self.settled()
        self.plan[8:] = struct.pack("=2Q", asked + first, min(asked + last, FOREVER))
        return asked + first

    def stop(self):
        self.plan[8:] = struct.pack("=2Q", 1, 0)

    def settled(self):
        """Waits until the server is idle; returns how often it has requested memory."""
        assert come_true(self.server.rests), "the server does not come to rest"
        return self.asked()

    def run(self, words, text="", first=1, last=0, most=resource.RLIM_INFINITY, other=None):
        """Runs the program with this input and this memory limit; returns its result, and how often it requested
        memory."""
        self.refuse(first, last)
        done = subprocess.run(
            [other or program(), *words],
            input=text,
            capture_output=True,
            text=True,
            timeout=WAIT,
            check=False,
            cwd=self.folder,
            env=self.environment,
            # With a preexec function, Python forks itself for each run.
            preexec_fn=None if most == resource.RLIM_INFINITY else within(most),
        )
        assert done.returncode in (0, 1, 2), f"status {done.returncode} at {first}: {done.stderr}"
        return done, self.asked()


def within(most):
    """Returns a function that limits the memory of a child process to `most` bytes."""
    return lambda: resource.setrlimit(resource.RLIMIT_AS, (most, most))


def places():
    """Yields the index of each request for memory, until the caller leaves its loop."""
    yield from range(1, MOST_PLACES)
    pytest.fail(f"it asks for memory more than {MOST_PLACES} times")


def windows(asked):
    """Returns two ranges for each request: one with only this request, and one with this request and all later ones."""
    return [(first, last) for first in range(1, asked + 1) for last in (first, FOREVER)]


class Bench:
    """A bench with its input, and its results if it gets all its memory."""

    def __init__(self, refusing, words, text):
        self.words, self.text, self.refusing = words, text, refusing
        self.record = self.refusing.folder / "run.rec"
        self.line = ["bench", "--record", "run.rec", *words]
        assert "error unknown command" not in self.runs(text)[0], "this input has unknown commands"
        self.commands = [found.span() for found in TAKES_MEMORY.finditer(text)]
        # The results that are possible if one of these commands is refused memory.
        self.refused = {self.refuses(command) for command in self.commands}
        self.ample = self.runs(text)

    def runs(self, text):
        """Runs the bench with all its memory; returns its output, record, status and standard error."""
        with contextlib.suppress(FileNotFoundError):
            os.remove(self.record)
        done, self.asked = self.refusing.run(self.line, text)
        return done.stdout, self.written(), done.returncode, done.stderr

    def refuses(self, command):
        """Returns the results if this command has no effect and its reply reports that memory was refused."""
        begin, end = command
        output, *others = self.runs(self.text[:begin] + UNKNOWN + self.text[end:])
        return output.replace(SAYS_UNKNOWN, SAYS_NO_MEMORY), *others

    def written(self):
        """Returns the record, or None if there is none."""
        with contextlib.suppress(FileNotFoundError), open(self.record, encoding="utf-8") as file:
            return file.read()
        return None

    def try_at(self, first, last, most=resource.RLIM_INFINITY):
        """Refuses memory to the bench. Returns whether a session or the program reported it, or neither."""
        with contextlib.suppress(FileNotFoundError):
            os.remove(self.record)
        done, _ = self.refusing.run(self.line, self.text, first, last, most)
        did = done.stdout, self.written(), done.returncode, done.stderr
        if did == self.ample:
            return "unseen"
        if did in self.refused:
            return "reported to a session"
        assert done.returncode == 1, f"at {first}: {did}"
        is_reported = REFUSED.fullmatch(done.stderr) or done.stderr == self.ample[3].splitlines(True)[0]
        assert is_reported, f"at {first}: {done.stderr}"
        # If all later requests are refused too, the output may differ after the first refused command, because later
        # commands depend on it.
        output = done.stdout.split(SAYS_NO_MEMORY)[0] if last == FOREVER else done.stdout
        assert self.ample[0].startswith(output), f"at {first}: {done.stdout}"
        assert done.stdout == "" or done.stdout.endswith("\n"), f"a line is cut at {first}: {done.stdout}"
        # If memory for writing the record was refused, the file may contain only part of the record.
        assert (
            last == FOREVER or not did[1] or self.ample[1].startswith(did[1]) and did[1] != self.ample[1]
        ), f"at {first}: another record: {did[1]}"
        return "no memory"


def try_everywhere(bench):
    """Refuses memory to a bench at each request in turn; returns how often each outcome occurred."""
    outcomes = {}
    for first, last in windows(bench.asked):
        how = bench.try_at(first, last)
        outcomes[how] = outcomes.get(how, 0) + 1
    return outcomes


def summed(runs):
    """Returns the summed counts of several runs as a string."""
    sums = {}
    for outcomes in runs:
        for how, count in outcomes.items():
            sums[how] = sums.get(how, 0) + count
    return ", ".join(f"{count} {how}" for how, count in sorted(sums.items()))


# Every command that needs memory, and between them commands that show whether it was carried out. There are also a long
# message and an unknown name.
COMMANDS = (
    """session 1
session 2
feed 1 < open can7 >< open can0 >< rawmode >
feed 2 < open can1 >< rawmode >< stats >
feed 2 < filter 2 123 7FF 20000124 7FF >
feed 1 < send 123 1 1 >< send 125 1 2 >
attempt
attempt
drain 2
feed 2 < filter 3 1 2 3 4 5 6 >< filter 0 >< filter 1 124 7FF >< stats >
feed 1 < send 124 1 3 >< send 123 8 1 2 3 4 5 6 7 8 >< status >
feed 1 """
    + "< send 124 0 >" * 100
    + """
attempt
attempt
drain 2
feed 2 < filter 60"""
    + " 124 7FF" * 60
    + """ >< close >
session 3
feed 3 < open can1 >< rawmode >
end 3
"""
)


def example(path):
    """Returns the arguments and the input of an example."""
    with open(path, encoding="utf-8") as file:
        text = file.read()
    words = re.search(r"\./canbusd bench (.*) < examples/", text)[1]
    return words.replace("@examples/", f"@{ROOT}/examples/").split(), text


@pytest.mark.slow
def test_a_bench_without_memory(refusing):
    """A bench that is refused memory reports it correctly, for every example and for an input with every command that
    needs memory.
    """
    inputs = [example(path) for path in sorted(glob.glob(os.path.join(ROOT, "examples", "*.bench")))]
    inputs += [(["can0,can1"], COMMANDS), (["--report", "--ack", "peers", "--limit", "12", "can0,can1"], COMMANDS)]
    runs = [try_everywhere(Bench(refusing, words, text)) for words, text in inputs]
    print(summed(runs))


@pytest.mark.slow
def test_faults_without_memory(refusing):
    """For wrong lines, scripts, names and arguments, a program without memory reports `no memory` or at least the first
    line of the usual report."""
    folder = refusing.folder
    scripts = {"line": "0 good\nx\n", "name": "5 local crc can2\n", "twice": "5 good\n5 good\n"}
    for name, text in scripts.items():
        with open(os.path.join(folder, name), "w", encoding="utf-8") as file:
            file.write(text)
    words = [["can0"], ["can0,can0"], ["can0@none"], ["--limit", "0", "can0"], ["--limit", "x", "can0"], ["--help"], []]
    words += [[f"can0@{name}"] for name in scripts]
    runs = []
    lines = [["bench", *more] for more in words] + [
        ["serve", "can0", "can0"],
        ["--version"],
        ["audit"],
        ["audit", "none"],
        ["bits", "123#11", "124#"],
        ["bits", "123"],
    ]
    for line in lines:
        ample, asked = refusing.run(line, "session 1\nsession x\n")
        outcomes = {}
        for first, last in windows(asked):
            done, _ = refusing.run(line, "session 1\nsession x\n", first, last)
            if (done.returncode, done.stdout, done.stderr) == (ample.returncode, ample.stdout, ample.stderr):
                how = "as ever"
            elif REFUSED.fullmatch(done.stderr):
                assert done.returncode == 1 and ample.stdout.startswith(done.stdout), f"{line} at {first}: {done}"
                how = "no memory"
            else:
                assert (
                    done.returncode == ample.returncode == 1 and done.stderr == ample.stderr.splitlines(True)[0]
                ), f"{line} at {first}: {done}"
                how = "without what helps"
            outcomes[how] = outcomes.get(how, 0) + 1
        runs.append(outcomes)
    print(summed(runs))


@pytest.mark.parametrize(
    "old, new",
    [
        ("", ""),
        (" done 0002", " done 0000"),
        ("filters", "filers"),
        (r"\Z", "x"),
        ("send 0 124", "send 0 12"),
        (r"(?s)\A.*", "canbus record 9\n"),
        (r"(?s).{20}\Z", ""),
        ("data 0 1 ", "data 0 2 "),
    ],
)
def test_an_audit_without_memory(refusing, old, new):
    """An audit that is refused memory says `no memory` or at least the first line of its usual report, for legal and
    for damaged records."""
    bench = Bench(refusing, ["can0,can1"], COMMANDS)
    legal = bench.ample[1]
    record = re.sub(old, new, legal, count=1)
    assert record != legal or not old
    with open(bench.record, "w", encoding="utf-8") as file:
        file.write(record)
    ample, asked = bench.refusing.run(["audit", "run.rec"])
    outcomes = {}
    for first, last in windows(asked):
        done, _ = bench.refusing.run(["audit", "run.rec"], "", first, last)
        if (done.returncode, done.stdout, done.stderr) == (ample.returncode, ample.stdout, ample.stderr):
            how = "as ever"
        elif done.stderr == NO_MEMORY:
            assert (done.returncode, done.stdout) == (1, ""), f"at {first}: {done}"
            how = "no memory"
        else:
            fault, *helps = ample.stderr.splitlines(True)
            said = done.stderr.splitlines(True)
            assert (done.returncode, done.stdout, said[0]) == (1, "", fault), f"at {first}: {done}"
            assert set(said[1:]) < set(helps), f"at {first}: {done}"
            how = "without what helps"
        outcomes[how] = outcomes.get(how, 0) + 1
    print(summed([outcomes]))


@pytest.mark.parametrize("part, options", [("put", []), ("rule", ["--faults", "can0,can1@run.faults"])])
def test_events_without_memory(refusing, part, options):
    """An audit that is refused memory writes its usual events, or only complete lines before it reports the fault."""
    Bench(refusing, ["can0,can1"], COMMANDS)
    (refusing.folder / "run.faults").write_text("next 1 good\nat 1 always good\nat 1 next 1 lastbit\n")
    words = ["audit", "--events", *options, "run.rec"]
    ample, asked = refusing.run(words)
    assert ample.returncode == 0 and ample.stdout.count(f"; {part} ") > 1
    for first, last in windows(asked):
        done, _ = refusing.run(words, "", first, last)
        if done.returncode == 0:
            assert (done.stdout, done.stderr) == (ample.stdout, ample.stderr), f"at {first}: {done}"
        else:
            assert done.stderr == NO_MEMORY and ample.stdout.startswith(done.stdout), f"at {first}: {done}"
            assert done.stdout[-1:] in ("", "\n"), f"at {first}: {done}"


def crosses(server, source, target):
    """Returns whether a frame crosses a bus. It does not if the driver of the bus was refused memory."""
    with contextlib.closing(plain(server, source)) as sender, contextlib.closing(plain(server, target)) as receiver:
        receiver.socket.settimeout(1)
        sender.write("< send 7FF 0 >")
        try:
            return receiver.frame() == ("7FF", b"")
        except TimeoutError:
            return False


@contextlib.contextmanager
def refused_server(refusing, *words):
    with serving_alone("--pace", "0", *words, "can0,can1", "can2,can3", env=refusing.environment) as server:
        refusing.server = server
        yield server


@pytest.mark.skipif(not os.path.exists(CALLS), reason="not built: rt run in crates/can_memory_tests")
def test_calls_without_memory(refusing):
    """A call of the libraries that is refused memory changes nothing. It returns the usual result when it is repeated."""
    ample, asked = refusing.run([], other=CALLS)
    assert ample.returncode == 0 and ample.stdout.count(": as ever\n") == ample.stdout.count("\n") > 0, f"{ample}"
    for place in range(1, asked + 1):
        done, _ = refusing.run([], "", place, place, other=CALLS)
        assert (done.returncode, done.stdout, done.stderr) == (0, ample.stdout, ""), f"at {place}: {done}"


# A client's messages, each with its answer if the server gets all its memory. None stands for several messages in any
# order.
SAYS = [
    ("< open can2 >", "< ok >"),
    ("< rawmode >", "< ok >"),
    ("< filter 2 123 7FF 124 7FF >", "< ok >"),
    ("< recvown 1 >", "< ok >"),
    ("< status >", "< status active 0 0 >"),
    ("< send 123 0 >", None),
    ("< stats >", None),
    ("< send 123 1 1 >< send 124 1 2 >", None),
    ("< close >", None),
]


def converse(server, refusing):
    """Sends these messages. If the reply to a message is `no memory`, sends the message again with memory available.
    Returns what happened to the session."""
    with contextlib.closing(Plain(server)) as client:
        try:
            greeting = client.text()
            if greeting == SAYS_NO_MEMORY:
                assert client.text() == "", "a session that was refused goes on"
                return "reported at once"
            assert greeting in ("< hi >", "", "< error too many sessions >"), greeting
            outcome = "as ever"
            for command, right in SAYS:
                client.write(command)
                answer = right and client.text()
                if answer == SAYS_NO_MEMORY:
                    outcome = "reported to a session"
                    refusing.stop()
                    answer = client.answer(command)
                if answer == "":
                    return "ended a session"
                assert answer == right, f"{command}: {answer}"
            texts = list(iter(client.text, ""))
        except ConnectionError:
            return "ended a session"
    if SAYS_NO_MEMORY in texts:
        return "reported to a session"
    return outcome if any(text.startswith("< closed ") for text in texts) else "ended a session"


def test_sessions_without_memory(refusing):
    """A session that is refused memory ends or gets a message, and other sessions continue."""
    outcomes, numbers, drivers, is_over = {}, places(), 0, False
    while not is_over:
        refusing.stop()
        with refused_server(refusing) as server:
            others, lives = Pair(server), True
            while lives and not is_over:
                place = next(numbers)
                for last in (FOREVER, place):
                    armed = refusing.refuse_soon(place, last)
                    outcome = converse(server, refusing)
                    is_over = last == place and refusing.settled() < armed
                    refusing.stop()
                    outcomes[outcome] = outcomes.get(outcome, 0) + 1
                    others.go_on(f"refusal {place}")
                    lives = crosses(server, "can2", "can3")
                    if not lives:
                        drivers += 1
                        break
            status, written = server.finish()
            assert status == 0 and server.said() == "", f"status {status}: {server.said()}"
            entries = server.audited("can0.rec"), server.audited("can2.rec")
            assert written == "bus can0 entries {}\nbus can2 entries {}\n".format(*entries), written
    print(f"{summed([outcomes])}; {drivers} drivers ended")


def hears(sender, listener):
    """Sends frames to a listener while one request for memory may be refused; returns what happened."""
    listener.socket.settimeout(1)
    outcome = "as ever"
    for number in range(40):
        answer = sender.answer(f"< send 123 1 {number:x} >< echo >")
        if answer == "":
            return "ended the sender"
        if answer == SAYS_NO_MEMORY:
            outcome, answer = "reported to the sender", sender.text()
            assert answer == "< echo >", f"the sender: {answer}"
            continue
        assert answer == "< echo >", f"the sender: {answer}"
        try:
            text = listener.text()
        except TimeoutError:
            return "ended a driver"
        if text == SAYS_NO_MEMORY:
            assert listener.text() == "", "a session goes on after a receive that was refused"
            return "ended the listener"
        assert re.fullmatch(rf"< frame 123 \d+\.\d+ {number:02X} >", text), f"frame {number}: {text}"
    return outcome


def test_deliveries_without_memory(refusing):
    """A listener gets its frames even if other sessions are refused memory, because receiving a frame requires no
    memory."""
    outcomes = {}
    for place in places():
        refusing.stop()
        with refused_server(refusing) as server:
            sender, listener, others = plain(server, "can0"), plain(server, "can1"), Pair(server)
            armed = refusing.refuse_soon(place, place)
            outcome = hears(sender, listener)
            is_over = refusing.settled() < armed
            refusing.stop()
            outcomes[outcome] = outcomes.get(outcome, 0) + 1
            if outcome == "ended a driver":
                status, written = server.finish()
                assert (status, server.said()) == (1, "canbusd: bus can0: no memory"), server.said()
            else:
                others.go_on(f"refusal {place}, {outcome}")
                written = server.end()
            entries = server.audited("can0.rec"), server.audited("can2.rec")
            assert written == "bus can0 entries {}\nbus can2 entries {}\n".format(*entries), written
        if is_over:
            break
    assert "ended the listener" not in outcomes, f"a receive was refused: {summed([outcomes])}"
    print(summed([outcomes]))


def why_not(fault, others=()):
    """Returns the reason why a server does not listen, and checks the form of its report. `others` are further reasons
    that are allowed."""
    reported = re.fullmatch(rf"canbusd: ({'|'.join(['no memory', 'cannot listen', *others])})(\n  [ -~]*)*", str(fault))
    assert reported, f"{fault}"
    return reported[1]


def greets(server):
    """Connects to a server that listens. Returns whether the server served the session, or had no memory for it."""
    with contextlib.suppress(ConnectionError), contextlib.closing(Plain(server)) as client:
        if client.text() == "< hi >":
            return "served"
    return "no memory, once it listened"


def refused_at_each_place(tried):
    """Refuses memory at one request only, and from that request onwards, for each request until a try makes fewer
    requests. Prints how often each outcome occurred. `tried` is called with the first and the last refused request. It
    returns the outcome, and whether fewer requests were made."""
    outcomes = {}
    for place in places():
        for last in (FOREVER, place):
            how, asks_for_less = tried(place, last)
            outcomes[how] = outcomes.get(how, 0) + 1
        if asks_for_less:
            break
    print(summed([outcomes]))


def start(refusing, place, last, ended, *words, reasons=()):
    """Starts a server that is refused memory. Returns the reason why it does not listen, or the result of `ended`. Also
    returns whether the start made fewer than `place` requests."""
    refusing.refuse(place, last)
    try:
        with refused_server(refusing, *words) as server:
            asks_for_less = last == place and refusing.settled() < place
            refusing.stop()
            return ended(server, greets(server)), asks_for_less
    except NotListening as fault:
        return why_not(fault, reasons), False


def test_a_start_without_memory(refusing):
    """A server that is refused memory at its start either reports this and exits, or serves clients."""

    def ended(server, how):
        status, _ = server.finish()
        right = {"served": (0, ""), "no memory, once it listened": (1, NO_MEMORY.strip())}[how]
        assert (status, server.said()) == right, f"{how}, {status} {server.said()}"
        return how

    refused_at_each_place(lambda place, last: start(refusing, place, last, ended))


def test_an_end_without_memory(refusing):
    """If a file is refused memory when a server ends, this is reported, and the other files are complete."""

    def tried(place, last):
        with refused_server(refusing) as server:
            Pair(server).go_on()
            armed = refusing.refuse_soon(place, last)
            status, written = server.finish()
            asks_for_less = last == place and refusing.settled() < armed
            refusing.stop()
            return files_at_the_end(server, status, written), asks_for_less

    refused_at_each_place(tried)


def files_at_the_end(server, status, written):
    """Checks the files and the reports of a server that has ended; returns how many files are complete."""
    assert re.fullmatch(r"bus can0 entries \d+\nbus can2 entries 0\n", written), written
    lines = [line for line in server.said().splitlines() if not line.startswith("  ")]
    assert status == (1 if lines else 0) and all(
        line == NO_MEMORY.strip() for line in lines
    ), f"{status} {server.said()}"
    whole = 0
    for name in ("can0", "can2"):
        with contextlib.suppress(AssertionError):
            server.audited(f"{name}.rec")
            whole += 1
        with contextlib.suppress(FileNotFoundError), open(server.path(f"{name}.log"), encoding="utf-8") as log:
            whole += len(log.readlines()) == (1 if name == "can0" else 0)
    assert whole >= 4 - 2 * len(lines) and (whole == 4 or lines), f"{whole} files are whole: {server.said()}"
    return f"{whole} of 4 files"


@needs_live
def test_a_start_of_a_long_run_without_memory(refusing):
    """A server that writes its record while it runs, and is refused memory at its start, either reports this and exits,
    or serves clients."""

    def ended(server, how):
        status, written = server.finish()
        return f"{how}, {live_files(server, status, written)}"

    words = ["--record", "live"]
    refused_at_each_place(lambda place, last: start(refusing, place, last, ended, *words, reasons=[r"cannot open \."]))


@needs_live
@pytest.mark.parametrize("flush", ["0", "60000"])
def test_a_long_run_without_memory(refusing, flush):
    """If a bus or a file is refused memory during a run, this is reported, and no partial record looks complete."""

    def tried(place, last):
        with refused_server(refusing, "--record", "live", "--flush", flush) as server:
            Pair(server).go_on()
            others = Pair(server, "can2", "can3")
            armed = refusing.refuse_soon(place, last)
            with contextlib.suppress(AssertionError):
                others.go_on()
            status, written = server.finish()
            asks_for_less = last == place and refusing.asked() < armed
            refusing.stop()
            return live_files(server, status, written), asks_for_less

    refused_at_each_place(tried)


def live_files(server, status, written):
    """Checks the files that a server wrote while it ran; returns how many records are complete, and the server's first
    report."""
    entries = dict(re.findall(r"^bus (\w+) entries (\d+)$", written, re.M))
    whole = 0
    for name in ("can0", "can2"):
        record = server.path(f"{name}.rec")
        if os.path.exists(record):
            assert server.audited(f"{name}.rec") == int(entries[name]), f"{written}{server.said()}"
            whole += 1
            continue
        done = subprocess.run(
            [program(), "audit", "--cut", f"{record}.new"], capture_output=True, text=True, check=False
        )
        found = re.fullmatch(r"ok (\d+) entries(, then cut off)?\n", done.stdout)
        assert found and int(found[1]) <= int(entries.get(name, found[1])), f"{done}: {written}{server.said()}"
        assert status == 1 and server.said(), "a record is not whole, and nothing was said"
    if whole == 2 and status == 0:
        assert server.said() == "", server.said()
        return "all files"
    assert status == 1 and server.said().startswith("canbusd: "), f"status {status}: {server.said()}"
    return f"{whole} of 2 records, {server.said().splitlines()[0]}"


def amounts(first):
    """Yields increasing numbers of bytes, beginning a little above `first`."""
    most = first
    while most < MOST_BYTES:
        most += most // 64
        yield most
    pytest.fail(f"{most} bytes are too few")


def least(words):
    """Returns the smallest number of bytes in `amounts` with which the program can be started."""

    def is_enough(most):
        limited = within(most)
        done = subprocess.run([program(), *words], capture_output=True, timeout=WAIT, check=False, preexec_fn=limited)
        return done.returncode == 0

    return next(filter(is_enough, amounts(1 << 20)))


def test_a_bench_within_ever_more_memory(refusing):
    """A bench with a limit on its memory (RLIMIT_AS) reports `no memory` or works as usual. The limit starts at the
    amount that `--version` needs and increases."""
    bench, outcomes = Bench(refusing, ["--limit", "200000", "can0,can1"], COMMANDS), {}
    for most in amounts(least(["--version"])):
        how = bench.try_at(1, 0, most)
        outcomes[how] = outcomes.get(how, 0) + 1
        if outcomes.get("unseen", 0) == 3:
            break
    print(f"{summed([outcomes])}; as ever from {most >> 10} KB on")


def test_a_server_within_ever_more_memory():
    """A server with an increasing limit on its memory (RLIMIT_AS) serves all of ten sessions or some of them, or
    reports `no memory`."""
    outcomes = {}
    for most in amounts(least(["--version"])):
        try:
            with serving_alone("--limit", "200000", "can0,can1", preexec_fn=within(most)) as server:
                sessions = sum(greets(server) == "served" for _ in range(10))
                status, written = server.finish()
                how = "served all" if sessions == 10 else "served some" if sessions else "served none"
                said = server.said()
                assert (status, said) == (0, "") or REFUSED.fullmatch(said + "\n"), f"{status} {said}"
                assert status != 0 or written == f"bus can0 entries {server.audited('can0.rec')}\n", written
        except NotListening as fault:
            how = why_not(fault)
        outcomes[how] = outcomes.get(how, 0) + 1
        if outcomes.get("served all", 0) == 3:
            break
    print(f"{summed([outcomes])}; as ever from {most >> 10} KB on")
