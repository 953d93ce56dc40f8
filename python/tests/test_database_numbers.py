"""DBC files with arbitrary numbers. Each file is either read within a second, using at most 100 MB of memory, or
refused with the number of the line."""

import multiprocessing
import random
import re
import resource
import signal
import time
from decimal import Decimal
from pathlib import Path

import pytest

from canbusd._database.dbc_lines import MOST_LINE, LineFault, check_numbers
from canbusd._database.formats import plain
from canbusd.frames import Frame
from canbusd.signals import DatabaseError, load_database

HERE = Path(__file__).parent
HEAD = 'VERSION ""\n\nBU_: ECU TESTER\n\nBO_ 291 M: 8 ECU\n'
# This file contains a float, a multiplexer with two levels, and all numeric attributes that the package reads.
MORE = """\
VERSION ""

BU_: ECU TESTER

BO_ 291 Engine: 8 ECU
 SG_ speed : 0|32@1- (1,0) [-3.4E+38|3.4E+38] "km/h" TESTER
 SG_ mode M : 32|8@1+ (1,0) [0|255] "" TESTER
 SG_ left m0M : 40|8@1+ (1,0) [0|255] "" TESTER
 SG_ right m1 : 48|8@1+ (2,0) [0|510] "%" TESTER

EV_ Var: 0 [0|10] "" 0 3 DUMMY_NODE_VECTOR0 Vector__XXX;
BA_DEF_ BO_  "GenMsgCycleTime" INT 0 65535;
BA_DEF_ BO_  "GenMsgStartDelayTime" INT 0 65535;
BA_DEF_ SG_  "GenSigStartValue" FLOAT 0 1E10;
BA_DEF_ SG_  "GenSigCycleTime" INT 0 1000;
BA_DEF_DEF_  "GenMsgCycleTime" 0;
BA_DEF_DEF_  "GenSigStartValue" 0;
BA_ "GenMsgCycleTime" BO_ 291 100;
BA_ "GenMsgStartDelayTime" BO_ 291 10;
BA_ "GenSigStartValue" SG_ 291 speed 65;
BA_ "GenSigCycleTime" SG_ 291 speed 65;
VAL_ 291 mode 0 "Park" 1 "Reverse" ;
SIG_VALTYPE_ 291 speed : 1;
SG_MUL_VAL_ 291 right left 1-1, 3-5;
"""
NUMBER = re.compile(r"(?<![\w.])[-+]?\d+(?:\.\d+)?(?:[eE][-+]?\d+)?(?![\w.])|(?<=\bm)\d+")
# The limits of bits, bytes, words and doubles, long numbers, and strings that are not numbers.
EDGES = (
    *("0", "1", "-1", "7", "8", "63", "64", "65", "255", "65535", "65536", "2147483648", "4294967295", "4294967296"),
    *("18446744073709551616", "99999999999", "1000000000", "9" * 30, "9" * 400, "9" * 5000, "3.4E+38", "-3.4E+38"),
    *(
        "1e308",
        "1e309",
        "1e-400",
        "1E400",
        "1E999999",
        "-1E999999",
        "1E-999999",
        "1E99999999999999999999",
        "0.1",
        "1.5",
    ),
    *(
        "123456789012345678901234567890.5",
        "0.000000001",
        "1E5",
        "1E+5",
        ".5",
        "1.",
        "-0",
        "00000000",
        "1E",
        "E5",
        "--1",
    ),
    *("nan", "inf", "0-4294967295", "-"),
)


@pytest.fixture(autouse=True)
def canmatrix():
    """Skips the test if canmatrix is missing, the library that Debian packages."""
    pytest.importorskip("canmatrix", reason="canmatrix is not installed")


def mutated(seed):
    """Returns the contents of a DBC file in which one to three numbers are replaced."""
    lot = random.Random(seed)
    text = lot.choice([MORE, *((HERE / name).read_text() for name in ("car.dbc", "rest.dbc"))])
    for one in sorted(lot.sample([*NUMBER.finditer(text)], lot.randint(1, 3)), key=lambda found: -found.start()):
        whole, part = lot.randint(-(10 ** lot.randint(1, 40)), 10**40), lot.uniform(-1, 1) * 10 ** lot.randint(
            -320, 308
        )
        new = lot.choice(EDGES) if lot.random() < 0.8 else repr(lot.choice([whole, part]))
        text = text[: one.start()] + new + text[one.end() :]
    return text


def used(path):
    """Reads a file, then prints, encodes and decodes its messages. Raises DatabaseError if the package raises it."""
    database = load_database(path, library="canmatrix")
    assert str(database)
    for message in database.messages:
        try:
            frame = database.encode(message.name, {})
        except DatabaseError as fault:
            assert re.match(rf"({re.escape(str(path))}:\d+: )?", str(fault))
            continue
        for data in (frame.data, b"\xff" * len(frame.data), b"\x7f" * len(frame.data)):
            one = Frame(frame.arbitration_id, data, frame.is_extended_id, is_fd=frame.is_fd)
            assert str(database.decode(one)).startswith(f"{message.name}: ")


def tried(folder, seeds, results):
    """Tries files in a separate process. Puts errors into `results`, also if the files use more than 100 MB, and
    finally None."""
    resource.setrlimit(resource.RLIMIT_AS, (1 << 30, 1 << 30))
    path = folder / "x.dbc"
    # This first call imports the modules, so that their memory is not counted.
    path.write_text(MORE)
    used(path)
    before = resource.getrusage(resource.RUSAGE_SELF).ru_maxrss
    for seed in seeds:
        path.write_text(mutated(seed))
        signal.alarm(60)
        start = time.process_time()
        try:
            used(path)
        except DatabaseError as fault:
            if not re.match(rf"{re.escape(str(path))}:\d+: ", str(fault)):
                results.put(f"seed {seed}: no line: {fault}")
        except Exception as fault:
            results.put(f"seed {seed}: {type(fault).__name__}: {fault}")
        if time.process_time() - start > 1:
            results.put(f"seed {seed}: {time.process_time() - start:.1f} seconds")
    signal.alarm(0)
    taken = (resource.getrusage(resource.RUSAGE_SELF).ru_maxrss - before) / 1000
    if taken > 100:
        results.put(f"{taken:.0f} MB")
    results.put(None)


@pytest.mark.parametrize("count", [200, pytest.param(5000, marks=pytest.mark.slow)])
def test_any_numbers(tmp_path, count):
    queue = multiprocessing.get_context("spawn").Queue()
    child = multiprocessing.get_context("spawn").Process(target=tried, args=(tmp_path, range(count), queue))
    child.start()
    try:
        wrong = [*iter(lambda: queue.get(timeout=280), None)]
    finally:
        child.kill()
        child.join()
    assert wrong == []


def written(folder, text):
    path = folder / "x.dbc"
    path.write_text(text)
    return path


def test_a_float_with_the_limits_of_floats(tmp_path):
    path = written(tmp_path, f'{HEAD} SG_ s : 0|32@1- (1,0) [-3.4E+38|3.4E+38] "" TESTER\nSIG_VALTYPE_ 291 s : 1;\n')
    database = load_database(path, library="canmatrix")
    assert "s: -3.4e+38 to 3.4e+38; starts as 0" in str(database)
    assert database.decode(database.encode("M", {"s": 1.5e38})).value("s") == pytest.approx(1.5e38)


@pytest.mark.parametrize(
    "line, said",
    [
        (' SG_ s : 0|8@1+ (1,1E999999) [0|0] "" TESTER', "1E999999 is beyond the numbers of signals"),
        (' SG_ s : 0|8@1+ (1,0) [0|1e-9999] "" TESTER', "1e-9999 is beyond the numbers of signals"),
        (
            f' SG_ s : 0|8@1+ ({"1" * 500},0) [0|0] "" TESTER',
            "111111111111 .. of 500 characters is beyond the numbers of signals",
        ),
        (' SG_ s : 0|99999999999@1+ (1,0) [0|0] "" TESTER', "signal s is past the 524,280 bits that are read"),
        (' SG_ s : 99999999999|8@1+ (1,0) [0|0] "" TESTER', "signal s is past the 524,280 bits that are read"),
        (' SG_ s m0M : 0|524281@1+ (1,0) [0|0] "" TESTER', "signal s is past the 524,280 bits that are read"),
        ("BO_ 292 N: 99999999999 ECU", "message N has 99,999,999,999 bytes, and at most 65,535 are read"),
        ('BA_ "GenMsgCycleTime" BO_ 291 nan;', "GenMsgCycleTime is a number, not nan"),
        ('BA_ "GenSigStartValue" SG_ 291 s -inf;', "GenSigStartValue is a number, not -inf"),
        ('BA_DEF_DEF_ "GenSigStartValue" inf;', "GenSigStartValue is a number, not inf"),
        ('BA_ "GenMsgCycleTime" BO_ 291 1E9999;', "1E9999 is beyond the numbers of signals"),
    ],
)
def test_a_line_that_is_refused(tmp_path, line, said):
    path = written(tmp_path, f"{HEAD}{line}\n")
    with pytest.raises(DatabaseError) as fault:
        load_database(path, library="canmatrix")
    assert str(fault.value) == f"{path}:6: canmatrix can't read it: {said}" and fault.value.path == str(path)


def test_a_fault_whose_line_the_library_does_not_say(tmp_path):
    line = 'BA_ "GenSigCycleTime" SG_ 291 s 1.5;'
    signal_line = ' SG_ s : 0|8@1+ (1,0) [0|0] "" TESTER'
    path = written(tmp_path, f"{HEAD}{signal_line}\n" + 'BA_ "GenSigStartValue" SG_ 291 s 1;\n' * 20 + f"{line}\n" * 2)
    with pytest.raises(DatabaseError, match=rf"^{path}:27: canmatrix can't read it: {line}: invalid literal for int"):
        load_database(path, library="canmatrix")


def test_numbers_in_texts_are_none(tmp_path):
    """Numbers inside strings are not checked, even if a string has several lines or escaped quotes."""
    text = 'CM_ SG_ 291 s "1E999999 \\" 1E999999\nand 1E999999\n BO_ 1 N: 99999999999 ECU\n1E999999";\n'
    path = written(tmp_path, f'{HEAD} SG_ s : 0|8@1+ (1,0) [0|0] "1E999999" TESTER\n{text}')
    assert [one.name for one in load_database(path, library="canmatrix").messages] == ["M"]
    path = written(tmp_path, f"{path.read_text()}BA_ 1E999999;\n")
    with pytest.raises(DatabaseError, match=f"^{path}:11: canmatrix can't read it: 1E999999 is beyond"):
        load_database(path, library="canmatrix")


def test_a_file_without_lines(tmp_path):
    path = tmp_path / "x.dbc"
    path.symlink_to("/dev/zero")
    with pytest.raises(DatabaseError, match=f"^{path}:1: canmatrix can't read it: a line of {MOST_LINE:,} bytes"):
        load_database(path, library="canmatrix")


def test_ranges_of_multiplexers(tmp_path):
    """The ranges of multiplexers are limited, because cantools expands them into lists."""
    path = written(tmp_path, f"{HEAD}SG_MUL_VAL_ 291 s t 1-1, 0-65536;\n")
    check_numbers(str(path))
    check_numbers(str(path), 65_537)
    with pytest.raises(LineFault, match="a range has more than 65,536 values") as fault:
        check_numbers(str(path), 65_536)
    assert fault.value.line == 6


@pytest.mark.parametrize(
    "value, wanted",
    [
        ("1E27", 10**27),
        ("1E28", 1e28),
        ("1E400", float("inf")),
        ("-3.4E+38", -3.4e38),
        ("1E-400", 0.0),
        ("5.0", 5),
        ("0.5", 0.5),
    ],
)
def test_whole_numbers_are_int(value, wanted):
    found = plain(Decimal(value))
    assert found == wanted and type(found) is type(wanted)
