"""Mistakes that users make. The error messages name the location, the value and the remedy."""

import contextlib
from pathlib import Path

import can
import pytest

import canbusd
from canbusd import Bench, Server, ServerError
from common import WAIT, message

# Each entry is the code of a mistake, the exception class, and parts of the error message in order.
WITHOUT_A_RUN = [
    # Servers and benches.
    ("Server('can0,can1', pace=0)", TypeError, "Server has no argument pace (pace_ms?); there are faults, ack,"),
    ("Server('can0,can1', bit_rate=500000)", TypeError, "no argument bit_rate (bitrate?); there are"),
    ("Bench('can0,can1', bit_rate=500000)", TypeError, "Bench has no argument bit_rate (bitrate?); there are names,"),
    ("Bench('can0,can1', pace_ms=3)", TypeError, "Bench has no argument pace_ms; there are names, faults, ack,"),
    ("Bench('can0', 'can1')", TypeError, "Bench: too many positional arguments; it is Bench(names, *,"),
    ("Bench()", TypeError, "missing a required argument: 'names'; it is Bench(names, *,"),
    ("Bench(5)", ValueError, "names are those of the interfaces, such as 'can0,can1', not 5"),
    ("Server('can0 can1')", ValueError, "joined by commas without spaces, 'can0,can1', not 'can0 can1'"),
    ("Server('can0;can1')", ValueError, "joined by commas without spaces, 'can0,can1', not 'can0;can1'"),
    ("Server('can0, can1')", ValueError, "joined by commas without spaces, 'can0,can1', not 'can0, can1'"),
    ("Server('can0,can0')", ValueError, "'can0,can0' has 'can0' twice"),
    (
        "Server('can0', bitrate=500)",
        ValueError,
        "bitrate is a whole number of bits a second from 5000 to 1000000, not 500",
    ),
    ("Server('can0', auto_restart=0.1)", ValueError, "auto_restart is a whole number of attempts from 0 to"),
    ("Server('can0', data_bitrate=2000000)", ValueError, "data_bitrate=2000000 needs a bitrate too"),
    ("Server('can0', report='maybe')", ValueError, "report is true or false, not 'maybe'"),
    ("Server('can0', sync='maybe')", ValueError, "sync is true or false, not 'maybe'"),
    ("Server('can0', observe='can9')", ValueError, "observe is an interface of the server, one of can0, not 'can9'"),
    (
        "Server('can0', observe=True)",
        ValueError,
        "observe is the names of interfaces, such as 'can0,can1', or (), not True",
    ),
    ("Server('can0', database=5)", ValueError, "database is the path of a file, or what load_database returns, not 5"),
    ("Server('can0', flush=10)", ValueError, "flush and sync are of a server whose record is 'live'"),
    (
        "Server('can0', 'can1', faults='next 1 lastbit')",
        ValueError,
        "faults of several buses are a dict",
        "{'can0': ..}",
    ),
    (
        "Server('can0,can1', faults={'can1': ''})",
        ValueError,
        "faults of 'can1': a bus is named by its first",
        "here can0",
    ),
    ("Server('can0', faults=['next 1 lastbit'])", ValueError, "faults are Faults(), a path or a text such as"),
    # Frames.
    ("Frame.parse('123#1')", ValueError, "123#1: the bytes of data are not pairs of digits, as in 123#01"),
    ("Frame.parse('12#11')", ValueError, "12#11: an identifier has 11 bits in 3 digits, as 123"),
    ("Frame.parse('123#R9')", ValueError, "123#R9: a remote frame asks for 0 to 8 bytes"),
    ("Frame.parse('123')", ValueError, "123: no frame such as 123#1122"),
    ("Frame.parse(0x123)", ValueError, "291: no frame such as 123#1122"),
    ("Frame('123')", ValueError, "arbitration_id is a number, such as 0x123, not '123'"),
    ("Frame(0x123, '0102')", ValueError, "data is bytes, such as bytes.fromhex('0102'), not '0102'"),
    ("Frame(0x123, 5)", ValueError, "data is bytes, such as b'", "not 5"),
    ("Frame(0x123, [1, 300])", ValueError, "data is bytes, or numbers from 0 to 255, not [1, 300]"),
    ("Frame(0x1234)", ValueError, "arbitration_id 0x1234 is not in 0 to 7FF; is_extended_id=True has 29 bits"),
    ("Frame.parse('')", ValueError, "an empty text: no frame such as 123#1122"),
    ("Frame(0x123).id", AttributeError, "Frame has no id: arbitration_id"),
    # The package.
    ("canbusd.Sever", AttributeError, "module 'canbusd' has no attribute 'Sever' (Server?)"),
    ("CanbusdBus()", TypeError, "CanbusdBus: missing a required argument: 'channel'; it is CanbusdBus(channel,"),
    ("load_database()", ValueError, "load_database needs the path of a file, such as load_database('car.dbc')"),
    ("read_record(5)", TypeError, "expected str, bytes or os.PathLike object, not int"),
    (
        "canbusd.shapes.ramp(0, 1, duration=2)",
        TypeError,
        "ramp has no argument duration (seconds?); there are start, end, sec",
    ),
    (
        "canbusd.shapes.ramp(0, 1, 2)",
        TypeError,
        "ramp: too many positional arguments; it is ramp(start=None, end=None, *, sec",
    ),
    # Faults.
    ("Faults().last_bit().next(3)", TypeError, "last_bit: missing", "a rule comes first: Faults().next(1).last_bit()"),
    ("Faults().destroyed()", TypeError, "destroyed: missing", "a rule comes first: Faults().next(1)."),
    ("Faults().next(3).next(3)", AttributeError, "the rule `next 3`", "has no next yet: .destroyed(), .last_bit(),"),
    ("Faults().next(1, from_='can0')", TypeError, "next has no argument from_; there are count, sender, id,"),
    (
        "Faults().next(1).local('crc')",
        TypeError,
        "local: missing a required argument: 'names'; it is local(kind, names)",
    ),
    ("Faults('next 1 lastbit')", TypeError, "it is Faults(); a text needs no Faults: faults='next 1 lastbit'"),
    ("Faults().add('next 1 lastbit')", AttributeError, "Faults has no add: next(..) and always(..) add a rule;"),
    ("Faults().destroy(1)", AttributeError, "Faults has no destroy (destroyed?)"),
    ("Faults().of('x')", ValueError, "attempt is a number from 0 to 99999999, not 'x'"),
    ("Faults().next()", TypeError, "next: missing a required argument: 'count'; it is next(count, *, sender=None,"),
]
OF_A_SERVER = [
    # Expectations.
    ("server.expect(data='0102')", ValueError, "data is bytes, such as bytes.fromhex('0102'), not '0102'"),
    ("server.expect(data=5)", ValueError, "data is bytes", "not 5"),
    ("server.expect(data=b'123456789')", ValueError, "data has 9 bytes, and no frame has as many"),
    ("server.expect(0x123, timeout=1)", TypeError, "expect has no argument timeout (within?); there are id, data,"),
    ("server.expect(0x123, extended=True)", TypeError, "no argument extended (is_extended_id?)"),
    ("server.expect(0x123, within='1')", ValueError, "within is a number of seconds, 0 or more, not '1'"),
    ("server.expect(0x123, within=None)", ValueError, "within is a number of seconds, 0 or more, not None"),
    ("server.expect(signal=5)", ValueError, "signal is a name, such as 'EngineSpeed'", "not 5"),
    (
        "server.expect_cyclic(0x100)",
        TypeError,
        "missing a required argument: 'period'; it is expect_cyclic(id, period,",
    ),
    ("server.expect_cyclic(0x100, cycle=0.1)", TypeError, "no argument cycle (period?)"),
    ("server.expect_cyclic(0x100, period='0.1')", ValueError, "period is a number of seconds, 0 or more, not '0.1'"),
    ("server.expect_cyclic(0x100, 0.1, 'x')", ValueError, "tolerance is a number of seconds, 0 or more, not 'x'"),
    (
        "server.expect_sequence([0x100, 0x101])",
        ValueError,
        "one by one, as expect_sequence(256, 257), not as [256, 257]",
    ),
    ("server.expect_sequence({'id': 1, 'dta': b''})", ValueError, "a step has no argument dta (data?); there are id,"),
    ("server.expect_sequence(1, between=5)", ValueError, "between is a list of steps, such as [0x100, 0x101], not 5"),
    ("server.expect_state('can0')", TypeError, "missing a required argument: 'state'; it is expect_state(name, state,"),
    (
        "server.expect_state('can0', 'bus off')",
        ValueError,
        "state is one of active, warning, passive, off, down, not 'bus off'",
    ),
    ("server.bus_off('can0', within=1)", TypeError, "bus_off has no argument within (timeout?)"),
    ("server.bus_off('can0', timeout='x')", ValueError, "timeout is a number of seconds, 0 or more, not 'x'"),
    ("server.bus_off(can0)", can.CanError, "<canbusd.bus.CanbusdBus", "no such interface; the server has can0, can1"),
    ("server.wait_for(True)", ValueError, "predicate is a function", "as lambda: .., not True"),
    ("server.wait_for(lambda: True, '1')", ValueError, "timeout is a number of seconds, 0 or more, not '1'"),
    # Rules.
    ("server.inject('nxt 3 lastbit')", ValueError, "rule 'nxt 3 lastbit': it begins with next or always, not 'nxt'"),
    ("server.inject('Next 1 lastbit')", ValueError, "it begins with next or always, not 'Next'"),
    ("server.inject('next 1 destroyed')", ValueError, "its verdict is good, lastbit,", "not 'destroyed' (global bit?)"),
    ("server.inject('next 1 sender can0 lastbit')", ValueError, "not 'sender can0 lastbit' (from NAMES?)"),
    ("server.inject('next 1  lastbit')", ValueError, "not ' lastbit'; its words are parted by one space"),
    ("server.inject(Faults().next(3))", ValueError, "the rule `next 3` without its fault", ".destroyed(), .last_bit()"),
    (
        "server.inject('next 1 lastbit', 'can9')",
        ValueError,
        "interface is an interface of the server, one of can0, can1,",
    ),
    # These names belong to other libraries or to other classes in the package.
    ("server.Faults()", AttributeError, "hides the module; `from canbusd import Faults`"),
    ("server.recv()", AttributeError, "Server has no recv: server.bus('can0').recv(timeout=1)"),
    ("server.send(1)", AttributeError, "Server has no send: server.bus('can0').send("),
    ("server.expect_frame(1)", AttributeError, "Server has no expect_frame (expect_no_frame?)"),
    ("can0.receive()", AttributeError, "CanbusdBus has no receive: recv(timeout=1)"),
    ("can0.expect(1)", AttributeError, "CanbusdBus has no expect: the Server has it"),
    # Buses.
    ("can0.restart()", can.CanError, "can0: not bus off, but active"),
    ("can0.send_many(can.Message(arbitration_id=1))", ValueError, "msgs are several can.Message, as a list, not"),
    (
        "can0.set_filters(5)",
        ValueError,
        "filters are a list of dicts, such as [{'can_id': 0x123, 'can_mask': 0x7FF}], not 5",
    ),
    ("can0.set_filters([{'id': 1}])", ValueError, "a filter has can_id and can_mask, as {", "not {'id': 1}"),
    (
        "server.bus()",
        TypeError,
        "bus: missing a required argument: 'channel'; it is bus(channel, can_filters=None, **kwargs)",
    ),
    # ISO-TP.
    ("server.isotp('can0', tx=1, rx=1)", ValueError, "tx and rx are different, not both 1"),
    (
        "server.isotp('can0', 1, 2)",
        TypeError,
        "too many positional arguments; it is isotp(channel, *, tx, rx, padding=None, fd=False, tx_dl=None, ",
    ),
    (
        "server.isotp('can0', tx=1, rx=2, pading=0)",
        TypeError,
        "isotp has no argument pading (padding?); there are channel, tx,",
    ),
    (
        "server.isotp('can0', tx=1, rx=2).send('22f190')",
        ValueError,
        "data is bytes, such as bytes.fromhex('22f190'), not",
    ),
    ("server.isotp('can0', tx=1, rx=2).receive()", AttributeError, "has no receive: recv(timeout=1)"),
    # Programs.
    ("server.start('cat', stdout=1)", ValueError, "stdout is the Program's: its `output` is what it writes to both"),
    ("server.start('cat', may_end=True).kill()", AttributeError, "Program has no kill: stop() ends it"),
    (
        "server.start('cat', may_end=True).returncode",
        AttributeError,
        "Program has no returncode: status, which is None",
    ),
    ("server.start('cat', may_end=True).expect(5)", ValueError, "text is what its output has, such as", "not 5"),
    ("server.start('cat', may_end=True).expect('x', timeout=1)", TypeError, "no argument timeout (within?)"),
    (
        "server.start('cat', may_end=True).wait()",
        TypeError,
        "wait: missing a required argument: 'timeout'; it is wait(timeout)",
    ),
]
OF_A_BENCH = [
    ("session.send(0x123, '0102')", ValueError, "data is bytes, such as bytes.fromhex('0102'), not '0102'"),
    ("session.send(0x123, 5)", ValueError, "data is bytes", "not 5"),
    ("session.send(0x123, extended=True)", TypeError, "send has no argument extended (is_extended_id?)"),
    ("session.recv(-1)", ValueError, "timeout is a number of seconds, 0 or more, not -1"),
    ("session.state", AttributeError, "Session has no state: error_counters().state"),
    ("session.restart()", RuntimeError, "can0: not bus off, but active"),
    ("bench.open('can0', filters=[])", TypeError, "open has no argument filters (can_filters?); there are channel,"),
    ("bench.expect('101')", ValueError, "id is a number, 0x101, or the name of a message, not '101'"),
    ("bench.bus('can7')", RuntimeError, "no such interface 'can7'; the bench has can0, can1"),
    ("bench.expect(1, withn=2)", TypeError, "expect has no argument withn (within?)"),
    ("bench.send(0x123)", AttributeError, "Bench has no send: a session sends and receives: bus('can0').send(0x123)"),
    ("bench.run(5.0)", ValueError, "most is a number of attempts, not 5.0; a moment is until=5.0"),
    ("bench.run(until=1.0)", ValueError, "until needs a bench with a bit rate, such as Bench(.., bitrate=500000)"),
    ("bench.run(until='x')", ValueError, "until is a number of seconds from 0 to"),
    ("bench.attempt(at=[])", ValueError, "at is a number of seconds from 0 to", "not []"),
]
OF_A_REST_BUS = [
    (
        "rest['Engine'].play('EngineSpeed', [800, 900])",
        ValueError,
        "a table has pairs of seconds and values",
        "not 800",
    ),
    ("rest['Engine'].play('EngineSpeed', [('x', 900)])", ValueError, "pairs of seconds and values", "not ('x', 900)"),
    ("rest['Engine'].play('EngineSpeed', 800)", ValueError, "a table has pairs of seconds and values", "not 800"),
    ("rest['Engine'].EngineSpeed", AttributeError, "RestNode has no EngineSpeed: a signal is node['EngineSpeed']"),
    ("setattr(rest['Engine'], 'EngineSpeed', 800)", AttributeError, "EngineSpeed"),
    ("setattr(rest.message('EngineData'), 'EngineSpeed', 800)", AttributeError, "EngineSpeed"),
    ("rest.Engine", AttributeError, "has no Engine: a node is rest['Engine'], a message rest.message('EngineData')"),
    ("rest.run(until=1)", AttributeError, "has no run: that of a server sends in its with block by itself"),
    ("rest.send('EngineData', 5)", ValueError, "values are a dict", "{'EngineSpeed': 800}, not 5"),
    (
        "rest.send('EngineData', EngineSpeed=3)",
        TypeError,
        "send has no argument EngineSpeed; there are message, values",
    ),
    ("rest.on_send('EngineData', 5)", ValueError, "a function is called before each frame, or None ends that, not 5"),
    (
        "server.rest_bus(database, nodes=['Engine'])",
        ValueError,
        "nodes are a dict of interfaces by nodes",
        "not ['Engine']",
    ),
    ("server.rest_bus(database, without=5)", ValueError, "without is a node, or a list of nodes", "not 5"),
    ("database.encode('EngineData', 5)", ValueError, "values are a dict of signals", "not 5"),
    ("database.signals", AttributeError, "Database has no signals: message('EngineData').signals"),
    ("server.rest_bus(5)", ValueError, "database is the path of a file, or what load_database returns, not 5"),
    (
        "server.rest_bus(database, exclude=[])",
        TypeError,
        "rest_bus has no argument exclude; there are database, without,",
    ),
]


def told(code, kind, words, **names):
    """Checks that the code raises this exception class, and that the message contains these strings in order."""
    everything = {"can": can, "canbusd": canbusd, **{name: getattr(canbusd, name) for name in canbusd.__all__}, **names}
    with pytest.raises(kind) as fault:
        eval(code, everything)
    said = str(fault.value)
    places = [said.find(word) for word in words]
    assert -1 not in places and places == sorted(places), said


def ids(cases):
    return [case[0] for case in cases]


@pytest.fixture(scope="module")
def server():
    with Server("can0,can1") as running:
        yield running


def each(cases):
    """Returns a decorator that runs a test with each of these mistakes."""
    return pytest.mark.parametrize(
        "code, kind, words", [(code, kind, words) for code, kind, *words in cases], ids=ids(cases)
    )


@each(WITHOUT_A_RUN)
def test_mistakes(code, kind, words):
    told(code, kind, words)


@each(OF_A_SERVER)
def test_mistakes_with_a_server(server, code, kind, words):
    with server.bus("can0") as can0:
        told(code, kind, words, server=server, can0=can0)


@each(OF_A_BENCH)
def test_mistakes_with_a_bench(code, kind, words):
    with Bench("can0,can1") as bench:
        told(code, kind, words, bench=bench, session=bench.open("can0"))


@each(OF_A_REST_BUS)
def test_mistakes_with_a_rest_bus(server, code, kind, words):
    pytest.importorskip("canmatrix")
    database = canbusd.load_database(Path(__file__).parent / "rest.dbc")
    with server.rest_bus(database, interface="can0") as rest:
        told(code, kind, words, server=server, rest=rest, database=database)


AFTER_THE_END = [
    "expect(0x123)",
    "expect_no_frame()",
    "expect_state('can0', 'off')",
    "expect_cyclic(0x100, 0.1)",
    "bus_off('can0')",
    "state('can0')",
    "inject('next 1 lastbit')",
    "run('true')",
    "start('true')",
]


@pytest.mark.parametrize("call", AFTER_THE_END)
@pytest.mark.parametrize(
    "end, said", [("kill", "was killed: "), ("stop", "has ended: .* stop"), ("", "has crashed, with status -9: ")]
)
def test_after_the_end_of_the_server(call, end, said):
    with contextlib.suppress(ServerError), Server("can0,can1") as server:
        if end:
            getattr(server, end)()
        else:
            server._signal()
            server._child.wait(WAIT)
        with pytest.raises(ServerError, match=f"^the server {said}"):
            eval(f"server.{call}")
        with pytest.raises(TimeoutError, match="(?s)the condition was not true within 0 seconds\n.*the server "):
            server.wait_for(lambda: False, 0)


def test_frames_that_are_expected_in_another_order(server):
    server.expect_from_now()
    with server.bus("can0") as can0:
        for identifier in (0x100, 0x200):
            can0.send(message(identifier))
    server.expect(0x200, within=WAIT)
    with pytest.raises(
        AssertionError, match=r"(?m)^it came earlier: \(.*\) can1 100#$\n^expectations look after the frame that"
    ):
        server.expect(0x100, within=0)
    with pytest.raises(AssertionError) as fault:
        server.expect(0x7F3, within=0)
    assert "earlier" not in str(fault.value)


def test_expectations_know_the_names_of_a_rest_bus():
    pytest.importorskip("canmatrix")
    with Server("can0,can1") as server:
        with pytest.raises(ValueError, match="need a database: give the server database='car.dbc', or a rest bus"):
            server.expect("EngineData", within=0)
        with server.rest_bus(Path(__file__).parent / "rest.dbc", interface="can0"):
            assert server.expect("EngineData", within=WAIT).channel == "can1"
            server.expect(signal="EngineSpeed", within=WAIT)


@pytest.mark.parametrize(
    "record, said", [("", "it has no record beside it"), ("canbus record 1\n", "its record is .*run.rec")]
)
def test_a_log_is_named_in_place_of_its_record(tmp_path, record, said):
    log = tmp_path / "run.log"
    log.write_text("(1.000000) can0 123#11\n")
    if record:
        (tmp_path / "run.rec").write_text(record)
    with pytest.raises(canbusd.BadRecord, match=f"^a log is no record: {said}$"):
        canbusd.read_record(log)
