"""Rules that are added while the bus runs: to servers, benches and python-can buses."""

import itertools
import threading

import can
import pytest

from canbusd.bench import Bench, Refused
from canbusd.faults import Faults
from canbusd.server import Server, ServerError
from common import WAIT, message, needs_live
from test_report import rules_on

TESTER, ECU = 0x100, 0x200
# A rule that names an unknown interface.
BAD_NAME = Faults().next(1, sender="ecu").local("crc", "can9")


def faults_of(server):
    return [attempt.fault for attempt in server.record().attempts]


def test_rules_of_the_start():
    with Server("can0,can1", faults=Faults().next(1, id=0x124).destroyed().last_bit(0)) as server:
        with server.bus("can0") as can0, server.bus("can1") as can1:
            can0.send_many([message(0x123), message(0x124)])
            assert [can1.recv(WAIT).arbitration_id for _ in range(3)] == [0x123, 0x123, 0x124]
    assert faults_of(server) == ["lastbit", "good", "global bit", "good"]


def test_rules_for_a_server_that_runs():
    with Server("can0,can1") as server, server.bus("can0") as can0, server.bus("can1") as can1:
        can0.send(message(0x123))
        assert can1.recv(WAIT).arbitration_id == 0x123
        server.inject(Faults().next(1, sender="can1").destroyed().next(1, sender="can0", id=0x123).last_bit())
        assert server.rules_left() == 2
        can0.send(message(0x123, [1]))
        assert [can1.recv(WAIT).data for _ in range(2)] == [b"\1", b"\1"]
        server.inject("always from can0 global form\nnext 3 good")
        assert server.rules_left("can1") == 3
        server.end_rules()
        assert server.rules_left("can0") == 0
        can0.send(message(0x124))
        assert can1.recv(WAIT).arbitration_id == 0x124
    assert faults_of(server) == ["good", "lastbit", "good", "good"]
    assert server.audit()["can0"].startswith("ok ")


def test_a_rule_is_no_entry_of_the_record():
    with Server("can0,can1", observe=()) as server:
        server.inject("next 1 lastbit")
        assert server.rules_left() == 1
        server.end_rules()
    assert server.stop().entries == {"can0": 0}


def test_the_bus_is_named_where_there_are_several():
    with Server("can0,can1", "car0") as server:
        server.inject(Faults().always().last_bit(), interface="can1")
        assert [server.rules_left(name) for name in ("can0", "car0")] == [1, 0]
        with pytest.raises(ValueError, match="^interface is .* one of can0, can1, car0, not 'can9'$"):
            server.inject("next 1 lastbit", "can9")
        with pytest.raises(ValueError, match="^the server has 2 buses: name an interface, as inject"):
            server.inject("next 1 lastbit")
        with pytest.raises(ValueError, match="car0 is no interface of its bus, can0,can1$"):
            server.inject("next 1 from car0 lastbit", interface="can0")


def test_what_a_server_does_not_take():
    with Server("can0,can1") as server:
        for wrong, text in (
            (Faults().last_bit(0), "'0 lastbit' names an attempt by number"),
            ("next 1 bad\n", "its verdict is .* not 'bad'"),
            (Faults().next(1), "without its fault"),
            (BAD_NAME, "can9|ecu"),
            (3, "faults are"),
        ):
            with pytest.raises(ValueError, match=text):
                server.inject(wrong)
        assert server.rules_left() == 0
        server.inject("always good\n" * 63)
        with pytest.raises(Refused, match="^too many rules: next 2 lastbit$"):
            server.inject("next 1 lastbit\nnext 2 lastbit")
        assert server.rules_left() == 64
    for call in (lambda: server.inject("next 1 lastbit"), server.rules_left, server.end_rules):
        with pytest.raises(ServerError, match="^the server has ended"):
            call()


def test_rules_by_a_bus_of_python_can(pair):
    can0, can1 = pair
    can1.inject(Faults().next(1, sender="can0").last_bit())
    assert can0.rules_left() == 1
    can0.send(message(0x123))
    assert [can1.recv(WAIT).arbitration_id for _ in range(2)] == [0x123, 0x123]
    can0.inject("always good\n" * 64)
    with pytest.raises(can.CanOperationError, match="^too many rules: next 1 lastbit$"):
        can0.inject("next 1 lastbit")
    can0.end_rules()
    assert can1.rules_left() == 0
    with pytest.raises(can.CanOperationError, match="^no such interface: next 1 .* can9: ecu is none of can0, can1$"):
        can0.inject(BAD_NAME)
    with pytest.raises(ValueError, match=r"only possible at the start; inject\(\) takes rules$"):
        can0.inject("0 lastbit")
    can0.shutdown()
    for call in (lambda: can0.inject("next 1 lastbit"), can0.rules_left, can0.end_rules):
        with pytest.raises(can.CanOperationError, match="shut down"):
            call()


def test_a_rule_that_names_an_interface_of_another_bus():
    with Server("can0,can1", "car0") as server, server.bus("can0") as can0:
        with pytest.raises(can.CanOperationError, match="from car0 lastbit: one of its interfaces is on another bus$"):
            can0.inject("next 1 from car0 lastbit")
        with pytest.raises(can.CanOperationError, match="crc car1: car1 is none of can0, can1, car0$"):
            can0.inject("next 1 from can0 local crc car1")
        assert can0.rules_left() == 0


@needs_live
@pytest.mark.parametrize("when", ["end", "live", "killed"])
def test_the_rules_on_the_page_of_a_server(tmp_path, when):
    """The page shows the rules from the script, and the rules that any session added while the server ran."""
    options = {"record": "end"} if when == "end" else {"record": "live", "flush": 0}
    server = Server("can0,can1", faults="next 1 lastbit\n", out=tmp_path, observe=(), **options)
    with server, server.bus("can0") as can0, server.bus("can1") as can1:

        def sent(identifier, count):
            can0.send(message(identifier))
            assert [can1.recv(WAIT).arbitration_id for _ in range(count)] == [identifier] * count

        sent(0x123, 2)
        server.inject("next 1 id 124 lastbit")
        can1.inject("next 2 id 124:7FE lastbit\nalways good")
        # All three rules match the first of these attempts, and the first rule decides it. The other two rules match
        # the attempts after it.
        sent(0x124, 4)
        server.end_rules()
        sent(0x125, 1)
        server.inject("next 1 from can1 good\nnext 1 from can0 good")
        sent(0x126, 1)
        if when == "killed":
            server.wait_for(lambda: len(server.attempts()) == 8, WAIT)
            server.kill()
    assert rules_on(server.report().read_text(encoding="utf-8")) == [
        "next 1 lastbit", "", "next 1 id 124 lastbit", *["next 2 id 124:7FE lastbit"] * 2, "always good",
        "", "next 1 from can0 good",
    ]  # fmt: skip
    left = {"can0.rec.new", "can0.rec.faults.new"} if when == "killed" else {"can0.rec", "can0.rec.faults"}
    assert {path.name for path in tmp_path.iterdir()} == {"can0.log", "can0.html", *left}


def test_rules_in_a_bench():
    with Bench("ecu,tester", faults="next 1 from tester global form\n1 lastbit") as bench:
        ecu, tester = bench.open("ecu"), bench.open("tester")
        ecu.send(ECU)
        bench.inject(Faults().next(2, id=ECU).destroyed())
        assert [attempt.fault for attempt in bench.run()] == ["global bit", "lastbit", "global bit", "good"]
        tester.send(TESTER)
        assert tester.rules_left() == 1
        assert bench.attempt().fault == "global form"
        ecu.inject("always from tester lastbit")
        assert bench.attempt().fault == "lastbit"
        tester.end_rules()
        assert bench.attempt().fault == "good"
        ecu.call("  fault\tnext 1   good ")
        bench.inject("next 1 global bit")
        ecu.send(ECU)
        ecu.send(ECU)
        assert [(attempt.fault, attempt.outcome) for attempt in bench.run()] == [
            ("good", "done"), ("global bit", "destroyed"), ("good", "done"),
        ]  # fmt: skip
        attempts = bench.record().attempts
    assert [attempt.fault for attempt in attempts] == [
        "global bit", "lastbit", "global bit", "good", "global form", "lastbit", "good", "good", "global bit", "good",
    ]  # fmt: skip


def test_what_a_bench_does_not_take():
    with Bench("can0,can1") as bench:
        can0 = bench.open("can0")
        for wrong in ("next 1 bad\n", "next 1 from ecu good", "0 good"):
            with pytest.raises(ValueError):
                bench.inject(wrong)
        with pytest.raises(Refused, match="^no such interface: next 1 from ecu good: ecu is none of can0, can1$"):
            can0.inject("next 1 from ecu good")
        with pytest.raises(Refused, match="^bad rule$"):
            can0.call("fault next 0 good")
        bench.inject("always good\n" * 63)
        with pytest.raises(Refused, match="^too many rules$"):
            bench.inject("next 1 lastbit\nnext 1 lastbit")
        # If several rules are added in one call, either all of them are added or none is.
        assert can0.rules_left() == 63
        can0.inject("next 1 lastbit")
        with pytest.raises(Refused, match="^too many rules: next 1 lastbit$"):
            can0.inject("next 1 lastbit")
        assert can0.rules_left() == 64
        can0.send(0x123)
        assert bench.attempt().fault == "good"
        can0.end_rules()
    with pytest.raises(ValueError, match="ended"):
        bench.inject("next 1 good")


@pytest.fixture
def traffic():
    """A server, and a bus for the ECU. The ECU sends every 5 ms, and a tester sends every 4 ms."""
    with Server("ecu,tester") as server, server.bus("ecu") as ecu, server.bus("tester") as tester:
        tester.send_periodic(message(TESTER), 0.004)
        ecu.send_periodic(message(ECU), 0.005)
        server.wait_for(lambda: ecu.stats().done and tester.stats().done, WAIT)
        yield server, ecu


@pytest.mark.parametrize("run", range(10))
def test_the_ecu_goes_bus_off_and_the_tester_never(traffic, run):
    server, _ = traffic
    server.inject("next 32 from ecu global bit")
    server.expect_state("ecu", "off", within=WAIT)
    attempts = server.record().attempts
    assert {name for attempt in attempts for name in attempt.off} == {"ecu"}
    assert [attempt.winner for attempt in attempts if attempt.outcome == "destroyed"] == ["ecu"] * 32


def test_a_cable_that_breaks(traffic):
    server, ecu = traffic
    server.inject(Faults().always(sender="ecu").destroyed())
    server.expect_state("ecu", "off", within=WAIT)
    server.end_rules()
    done = ecu.stats().done
    ecu.restart()
    server.wait_for(lambda: ecu.stats().done > done, WAIT)
    assert server.state("tester") == "active"


def test_bus_off_on_demand(traffic):
    server, ecu = traffic
    for _ in range(3):
        done = ecu.stats().done
        assert server.bus_off("ecu", timeout=WAIT).state == "off"
        assert server.rules_left() == 0
        # If the interface is already bus off, the call returns at once and leaves no rule.
        server.bus_off("ecu", timeout=0.1)
        assert server.rules_left() == 0
        ecu.restart()
        server.wait_for(lambda: ecu.stats().done > done, WAIT)
        assert server.error_counters("ecu") == ("active", 0, 0)


def test_bus_off_of_one_with_errors(server):
    with server.bus("can0") as can0, server.bus("can1") as can1:
        server.inject("next 3 from can0 global bit")
        can0.send(message(0x123))
        assert can1.recv(WAIT)
        can0.send_periodic(message(0x123), 0.002)
        server.bus_off("can0", timeout=WAIT)
        assert server.rules_left() == 0


def test_bus_off_between_two_questions(server, monkeypatch):
    """The returned counters are those after the interface went bus off."""
    with server.bus("can0") as can0:
        bus = server._observing().session("can0")
        stats = bus.stats

        def goes_off_since():
            can0.send(message(0x123))
            server.wait_for(lambda: can0.error_counters().state == "off", WAIT)
            return stats()

        answers = itertools.chain([stats, stats, goes_off_since], itertools.repeat(stats))
        monkeypatch.setattr(bus, "stats", lambda: next(answers)())
        assert server.bus_off("can0", timeout=WAIT) == ("off", 256, 0)


def test_bus_off_of_one_that_restarts_by_itself():
    with Server("can0,can1", auto_restart=1) as server, server.bus("can0") as can0:
        can0.send_periodic(message(0x123), 0.002)
        assert server.bus_off("can0", timeout=WAIT).state == "off"
        assert server.expect_state("can0", "active", within=WAIT) == ("active", 0, 0)
    assert sum("can0" in attempt.off for attempt in server.record().attempts) == 1


def test_bus_off_of_one_that_sends_nothing(server):
    with server.bus("can0") as can0, server.bus("can1"):
        with pytest.raises(AssertionError) as failure:
            server.bus_off("can1", timeout=0.05)
        assert str(failure.value) == (
            "can1 is active (transmit count 0, receive count 0), and did not go bus off within 0.05 seconds: it sent "
            "nothing in that time\nno frame was seen"
        )
        # No rule remains that would destroy a frame in a later test on this server.
        assert server.rules_left() == 0
        server.inject("always good")
        can0.send_periodic(message(0x123), 0.002)
        with pytest.raises(AssertionError) as failure:
            server.bus_off("can0", timeout=0.5)
        assert str(failure.value).split("\n")[0].partition(": ")[2] == (
            "its frames went through, by an earlier rule or a line of the script; end_rules() ends what is left of its "
            "rule, with the bus's others"
        )
        assert server.rules_left() == 2


def test_bus_off_that_is_interrupted_leaves_no_rule(server, monkeypatch):
    """An interrupted bus_off() leaves no rule. The interrupt may be caused by Ctrl-C or by the timeout of a test."""

    def interrupted(predicate, timeout):
        assert predicate() is None and server.rules_left() == 1
        raise KeyboardInterrupt

    monkeypatch.setattr("canbusd._expect.expectations.wait_for", interrupted)
    with pytest.raises(KeyboardInterrupt):
        server.bus_off("can0")
    assert server.rules_left() == 0


def test_bus_off_leaves_no_rule_where_a_line_of_the_script_helps():
    """Numbered script lines make three attempts fail. So three verdicts of the rule remain unused, and they are
    removed."""
    with Server("can0,can1", faults=Faults().destroyed([0, 1, 2])) as server, server.bus("can0") as can0:
        # The timer sends the frame after the rule for 32 attempts has been added.
        sends = threading.Timer(0.3, can0.send, [message(0x123)])
        sends.start()
        server.bus_off("can0", timeout=WAIT)
        sends.join()
        assert server.rules_left() == 0
