"""Compares canbusd-run with a real kernel. The programs in run_c/ also pass on the kernel. The kernel's answers to the
cases in kernel/ are stored in answers.txt. Cases with a different answer are listed in differences.txt, each with the
line in LIMITS (canbusd-run.1) that documents it."""

import concurrent.futures
import os
import re
import shutil
import subprocess

import pytest

from running import FAST, FLAGS, compiled, environment, needs_gcc, passes
from serving import ROOT, serving

KERNEL = os.path.join(ROOT, "canrun", "tests", "kernel")
#: The programs whose checks also pass on the kernel.
SAME = (
    "calls",
    "faults",
    "options",
    "filters",
    "own",
    "epoll",
    "fork",
    "signals",
    "bcm",
    "isotp",
    "isotp_state",
    "j1939",
    "edges",
    "devices",
    "rows",
    "passed_by",
    "wrote_past",
)
#: How many servers share the cases. They run in parallel, because a case spends most of its time waiting.
LOTS = 12


def answers(text):
    """Parses a string of cases and their answers."""
    return dict(re.findall(r"^(\w+:\w+):(.*)$", text, re.M))


def file_of(name, folder=KERNEL):
    with open(os.path.join(folder, name), encoding="utf-8") as file:
        return file.read()


def differences(folder=KERNEL):
    """Returns the expected differences: the lines of LIMITS, and the cases with their answers."""
    text = re.sub(r"^#.*\n", "", file_of("differences.txt", folder), flags=re.M)
    return re.findall(r"^(?!\w+:\w+:)(.+)$", text, re.M), answers(text)


def plain(page):
    """Returns the words of a manual page, without markup."""
    return " ".join(re.sub(r"\\f.|\\(?=-)|^\.\S+", "", page, flags=re.M).split())


def probe(folder, *more, flags=()):
    """Compiles the program with the cases in a folder, and optionally the cases in other folders."""
    path = os.path.join(folder, "probe")
    sources = [
        os.path.join(of, name) for of in (KERNEL, *more) for name in sorted(os.listdir(of)) if name.endswith(".c")
    ]
    subprocess.run(["gcc", *FLAGS, "-o", path, *sources, *flags], check=True)
    return path


def answered(program, cases, options=(*FAST, "can0,can1", "vcan0"), settings=(), run_options=(), **how):
    """Runs these cases on a new server, and returns the answers of canbusd-run."""
    with serving(*options) as server:
        how = {"env": environment(server, **dict(settings)), "options": run_options, **how}
        written = passes(server, program, *cases, patience=300, **how)
        server.end()
    return answers(written)


def unlike(program, cases, folder, **how):
    """Returns the cases whose answers are neither the kernel's nor those in differences.txt."""
    kernel = answers(file_of("answers.txt", folder))
    assert cases == list(kernel), "answers.txt is of other cases: canrun/tests/kernel/answers renews it"
    with concurrent.futures.ThreadPoolExecutor(LOTS) as pool:
        lots = pool.map(lambda number: answered(program, cases[number::LOTS], **how), range(LOTS))
        got = {case: answer for lot in lots for case, answer in lot.items()}
    expected = {**kernel, **differences(folder)[1]}
    return [
        f"{case}\n  kernel  {kernel[case]}\n  wanted  {expected[case]}\n  answered{got.get(case)}"
        for case in cases
        if got.get(case) != expected[case]
    ]


def boots(*words):
    """Returns the output of a command that boots a kernel."""
    if not all(shutil.which(tool) for tool in ("gcc", "qemu-system-x86_64", "busybox", "cpio")):
        pytest.skip("no gcc, or none of `apt-get install qemu-system-x86 busybox-static cpio`")
    booted = subprocess.run(words, capture_output=True, text=True, timeout=1200, check=False)
    if booted.returncode == 2:
        pytest.skip(booted.stderr.strip())
    return booted.stdout


@needs_gcc
def test_answers(tmp_path):
    """canbusd-run answers every case as the kernel does, or as differences.txt says"""
    program = probe(str(tmp_path))
    cases = subprocess.run([program, "--list"], stdout=subprocess.PIPE, text=True, check=True).stdout.split()
    wrong = unlike(program, cases, KERNEL)
    assert not wrong, "\n".join(wrong)


def check_differences(folder):
    """Fails unless every difference is documented in LIMITS, and still occurs."""
    limits = plain(file_of("../../../canbusd-run.1").split(".SH LIMITS")[1].split(".SH ENVIRONMENT")[0])
    lines, cases = differences(folder)
    kernel = answers(file_of("answers.txt", folder))
    assert lines and not [line for line in lines if line not in limits]
    assert not [case for case, answer in cases.items() if kernel.get(case, answer) == answer]


def test_differences():
    """every difference is documented in LIMITS, and still occurs"""
    check_differences(KERNEL)


@pytest.mark.slow
def test_recorded():
    """answers.txt contains the answers that the kernel gives now"""
    booted = boots(os.path.join(KERNEL, "answers"))
    assert answers(booted) == answers(file_of("answers.txt"))


@pytest.mark.slow
def test_programs(tmp_path):
    """on the kernel the programs of run_c/ end with status 0"""
    words = [compiled(name, str(tmp_path), "-static") for name in SAME]
    booted = boots(os.path.join(KERNEL, "boot"), *words)
    assert re.findall(r"^status (\d+) of (\w+)$", booted, re.M) == [("0", name) for name in SAME], booted
