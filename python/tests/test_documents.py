"""The Python code in the documents runs exactly as printed."""

import importlib.util
import re
import shutil
import subprocess
import sys
from pathlib import Path

from canbusd._library import library
from canbusd.server import Server

CLONE = Path(__file__).resolve().parents[2]
# The first test in each of these documents fails without its faults.
DOCUMENTS = {"readme": "README.md", "guide": "docs/GUIDE.md"}


def blocks(path):
    """Returns the Python code blocks in a document."""
    return re.findall(r"^```python\n(.*?)^```$", (CLONE / path).read_text(encoding="utf-8"), re.M | re.S)


def found_library():
    """Returns the path of libcanbusd, or None if the library is not built."""
    try:
        return library.find_library()
    except library.LibraryNotFound:
        return None


def test_the_tests_of_the_documents_need_their_faults(installed, tmp_path):
    for name, path in DOCUMENTS.items():
        text = next(block for block in blocks(path) if "def test_" in block)
        (tmp_path / f"test_{name}.py").write_text(text)
        text = text.replace('canbusd.bus_off("ecu")', "pass")
        text = re.sub(r", faults=Faults\(\)\.\w+\(.*?\)+$", ")", text, flags=re.M)
        text = re.sub(r"recv\((timeout=)?5\)", "recv(0.5)", text)
        (tmp_path / f"test_{name}_without.py").write_text(text)
    words = ["-m", "pytest", "-q", "-rA", "-p", "no:cacheprovider", f"--basetemp={tmp_path}/runs"]
    done = subprocess.run(
        [sys.executable, *words], cwd=tmp_path, env=installed, capture_output=True, text=True, check=False
    )
    found = {name: outcome for outcome, name in re.findall(r"^(\w+) test_(\w+)\.py::", done.stdout, re.M)}
    passed = {name: "PASSED" for name in DOCUMENTS}
    assert found == {**passed, **{f"{name}_without": "FAILED" for name in DOCUMENTS}}, done.stdout


def test_the_code_of_the_package(installed):
    code = blocks("docs/PYTHON.md")
    libcanbusd = found_library()
    runs = [
        block
        for block in code
        if ("hypothesis" not in block or importlib.util.find_spec("hypothesis"))
        and ("candump" not in block or shutil.which("candump"))
        and ("LocalBus" not in block or libcanbusd)
    ]
    program = "\n".join(["from canbusd import Bench, Faults, Server", *runs])
    with Server("can0,can1") as server:
        env = {**installed, "CANBUSD_ADDRESS": server.address}
        env |= {"CANBUSD_LIBRARY": libcanbusd} if libcanbusd else {}
        done = subprocess.run([sys.executable, "-c", program], env=env, capture_output=True, text=True, check=False)
    assert done.returncode == 0, done.stderr
    assert re.match("Timestamp: .* ID: +0?123 .* 01 02 03 ", done.stdout)
    assert len(code) == 12
