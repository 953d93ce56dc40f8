"""The documents, tried as a newcomer would: every link, and the commands in README, the guide and the manual page
exactly as written. The commands run in a clone of the last commit, without the command rt on the PATH. If CANBUSD names
a program, the clone uses this program in place of its own.
"""

import contextlib
import glob
import hashlib
import os
import re
import shutil
import signal
import socket
import subprocess
import tempfile

import pytest

from serving import ROOT, WAIT, come_true

# These commands of README run until Ctrl-C ends them.
ENDLESS = ("./canbusd serve", "./canbusd-run candump", "./canbusd dump", "./canbusd watch")
# These commands need python-can.
PACKAGE = ("./canbusd dump", "./canbusd watch")


class Clone:
    """A clone of the last commit, and the actions that a newcomer performs in it."""

    def __init__(self, folder):
        self.folder = str(folder)
        self.environment = {
            "PATH": "/usr/bin:/bin",
            "HOME": "/nonexistent",
            "LC_ALL": "C.UTF-8",
            "PYTHONDONTWRITEBYTECODE": "1",
            # pytest in the clone keeps its temporary folders here, so that it does not remove the folders of other
            # runs.
            "PYTEST_DEBUG_TEMPROOT": os.path.dirname(self.folder),
        }
        subprocess.run(["git", "clone", "-q", ROOT, self.folder], check=True)

    def put_program(self, path):
        """Replaces the program in the clone with this one, as if it had been built from the clone's sources."""
        shutil.copy(path, os.path.join(self.folder, "dist", "canbusd"))
        sources = subprocess.check_output([os.path.join(self.folder, "scripts", "program"), "sources"], text=True)
        with open(path, "rb") as file:
            program = hashlib.sha256(file.read()).hexdigest()
        with open(os.path.join(self.folder, "dist", "BUILT"), "w", encoding="ascii") as file:
            file.write(f"sources {sources}kit none\nprogram {program}\n")

    def read(self, name):
        with open(os.path.join(self.folder, name), encoding="utf-8") as file:
            return file.read()

    def blocks(self, name):
        """Returns the blocks of code in a document: lines after an empty line that are indented by four spaces."""
        return [
            [line[4:] for line in block.splitlines()]
            for block in re.findall(r"(?:(?<=\n\n)|\A)((?:    .*\n)+)", self.read(name))
        ]

    def anchors(self, name):
        """Returns the anchors of a document's headings, as GitHub generates them."""
        headings = re.findall(r"^#+ (.*)$", self.read(name), re.M)
        return {re.sub(r"[^\w\- ]", "", heading.lower()).replace(" ", "-") for heading in headings}

    def shell(self, command, timeout=60):
        """Returns the status and the output of a command."""
        done = subprocess.run(
            ["bash", "-c", command],
            cwd=self.folder,
            env=self.environment,
            stdin=subprocess.DEVNULL,
            stdout=subprocess.PIPE,
            stderr=subprocess.STDOUT,
            text=True,
            timeout=timeout,
            check=False,
        )
        return done.returncode, done.stdout

    def has_python_can(self):
        return self.shell("python3 -c 'import can, pytest'")[0] == 0

    @contextlib.contextmanager
    def running(self, command, says=True):
        """A command that runs until Ctrl-C ends it, with its output. If `says` is true, the block starts after the
        first line of output."""
        with tempfile.TemporaryFile("w+") as output:
            child = subprocess.Popen(
                ["bash", "-c", command],
                cwd=self.folder,
                env=self.environment,
                stdin=subprocess.DEVNULL,
                stdout=output,
                stderr=subprocess.STDOUT,
                start_new_session=True,
            )

            def written():
                output.seek(0)
                return output.read()

            try:
                assert not says or come_true(written), f"{command}: it writes nothing"
                yield child, written
            finally:
                os.killpg(child.pid, signal.SIGINT)
                child.wait(WAIT)


def needs_port(number):
    """Skips a test if the port on which its commands listen is already in use."""
    with socket.socket() as one:
        one.setsockopt(socket.SOL_SOCKET, socket.SO_REUSEADDR, 1)
        try:
            one.bind(("127.0.0.1", number))
        except OSError as fault:
            pytest.skip(f"127.0.0.1:{number}, which the documents name, can't be had: {fault.strerror}")


@pytest.fixture
def clone(tmp_path):
    clone = Clone(tmp_path / "clone")
    if "CANBUSD" in os.environ:
        clone.put_program(os.environ["CANBUSD"])
    return clone


@pytest.fixture
def python_can(clone):
    """Skips tests of the package if python-can is not installed."""
    if not clone.has_python_can():
        pytest.skip("python-can and pytest are not installed")


def test_links(clone):
    """Every link in a document leads to an existing file. If the link names a heading, the file has that heading."""
    documents = [
        os.path.relpath(path, clone.folder)
        for path in glob.glob(os.path.join(clone.folder, "**", "*.md"), recursive=True)
    ]
    for name in documents:
        for link in re.findall(r"\]\(([^)\s]+)\)", clone.read(name)):
            place, _, anchor = link.partition("#")
            if re.match("https?:", place):
                continue
            target = os.path.normpath(os.path.join(os.path.dirname(name), place)) if place else name
            assert os.path.exists(os.path.join(clone.folder, target)), f"{name}: {link}"
            assert not anchor or anchor in clone.anchors(target), f"{name}: {link}: no such heading"


def test_files_that_are_named(clone):
    """Every path of the repository that a document names exists."""
    for name in [
        "README.md",
        "canbusd.1",
        "canbusd-run.1",
        *(f"docs/{one}" for one in os.listdir(os.path.join(clone.folder, "docs")) if one.endswith(".md")),
    ]:
        for path in re.findall(
            r"\b((?:scripts|contrib|tools|tests|examples|docs|benches|dist|python)/[\w./-]*\w)", clone.read(name)
        ):
            assert os.path.exists(os.path.join(clone.folder, path)), f"{name}: {path}"


def test_commands_of_readme(clone, fixed_ports):
    """All commands work, in the order of the document. Commands that run until Ctrl-C run together."""
    needs_port(29536)
    needs_port(8029)
    server = None
    with contextlib.ExitStack() as endless:
        for line in (line for block in clone.blocks("README.md") for line in block):
            if not line.startswith("./canbusd"):
                continue
            if line.startswith(PACKAGE) and not clone.has_python_can():
                continue
            if line.startswith("./canbusd-run") and not shutil.which(line.split()[1], path=clone.environment["PATH"]):
                continue
            if line.startswith(ENDLESS):
                # A dump writes nothing before the first frame.
                child, _ = endless.enter_context(clone.running(line, says="dump" not in line))
                server = server or child
            else:
                status, written = clone.shell(line)
                assert status == 0, f"{line}: {written}"
    assert server and server.returncode == 0, "the server's end"


def test_what_readme_says_that_is_printed(clone):
    """The first command in README prints the block after it, and needs no packages. The second block equals the script
    in the repository."""
    first, printed, second = clone.blocks("README.md")[:3]
    assert clone.shell(f"env -i PATH=/usr/bin:/bin {first[0]}") == (0, "\n".join([*printed, ""]))
    assert len(first) == 1 and os.access(os.path.join(clone.folder, second[0]), os.X_OK)
    assert len(clone.read("README.md").splitlines()) <= 100
    proofs = re.search("^## What is proved\n\n(.*?)\n\n`make install", clone.read("README.md"), re.M | re.S)[1]
    assert len(proofs.split()) <= 150


def test_the_test_of_readme(clone, python_can):
    """The test in README passes, and it fails without its faults."""
    code = re.search(r"^```python\n(.*?)^```$", clone.read("README.md"), re.M | re.S)[1]
    commands = next(block for block in clone.blocks("README.md") if "test_bus_off.py" in block[-1])
    for text, passes in ((code, True), (code.replace('canbusd.bus_off("ecu")', "pass"), False)):
        with open(os.path.join(clone.folder, "test_bus_off.py"), "w", encoding="utf-8") as file:
            file.write(text)
        status, written = clone.shell("\n".join(commands))
        assert (status == 0 and "1 passed" in written) is passes, written


def test_examples_of_the_guide(clone):
    """Every command works on the examples in the repository, and prints the output shown in the guide."""
    found = clone.blocks("docs/GUIDE.md")
    tried = set()
    for k, block in enumerate(found):
        command = re.fullmatch(r"\./canbusd bench (?:--\S+ (?:\S+ )?)*\S+ < examples/(\w+)\.bench", block[0])
        if not command:
            continue
        status, written = clone.shell(block[0])
        wanted = clone.read(f"examples/{command[1]}.out")
        assert status == 0 and written == wanted, f"{block[0]}: {written}"
        if found[k + 1][0].startswith("1 < "):
            assert "\n".join(found[k + 1]) in wanted, f"what {command[1]} shows"
        tried.add(command[1])
        for line in block[1:]:
            assert clone.shell(line)[0] == 0, line
    stored = {
        os.path.basename(path)[: -len(".bench")]
        for path in glob.glob(os.path.join(clone.folder, "examples", "*.bench"))
    }
    assert tried == stored, f"{stored - tried} are not in the guide"


def test_dialogues_of_the_guide(clone):
    """Every command after a prompt prints the output shown in the guide. Blocks with a server are left out."""
    with open(os.path.join(clone.folder, "my.script"), "w", encoding="ascii") as file:
        file.write("0 good\n5 local crc can2\n")
    tried = 0
    for block in clone.blocks("docs/GUIDE.md"):
        text = "\n".join(block) + "\n"
        if not text.startswith("$ ") or re.search("serve|logs/|pytest|watch", text):
            continue
        for command, wanted in re.findall(r"^\$ (.*)\n((?:(?!\$ ).*\n)*)", text, re.M):
            # If no command has written this file, the reader is expected to write it.
            path = os.path.join(clone.folder, command.split()[1])
            if command.startswith("cat ") and not os.path.exists(path):
                with open(path, "w", encoding="ascii") as file:
                    file.write(wanted)
            written = clone.shell(command)[1]
            # The block leaves out what the bench wrote before the fault.
            assert written == wanted or (
                wanted.startswith("canbusd: ") and written.endswith(wanted)
            ), f"{command}: {written}"
            tried += 1
    assert tried >= 5, f"only {tried} commands"


def test_commands_of_the_package(clone, python_can, fixed_ports):
    """With the guide's commands, a dump prints the frames that are sent, and a status shows the interfaces."""
    needs_port(29536)
    dump, send, status = next(
        block for block in clone.blocks("docs/GUIDE.md") if any(" dump " in line for line in block)
    )
    with contextlib.ExitStack() as both:
        both.enter_context(clone.running("exec ./canbusd serve can0,can1"))
        _, dumped = both.enter_context(clone.running(f"exec {dump}", says=False))

        def is_dumped():
            assert clone.shell(send)[0] == 0, send
            return "123   [4]  11 22 33 44" in dumped()

        assert come_true(is_dumped), f"{dump}: {dumped()}"
        written = clone.shell(status)[1]
        assert all(re.search(rf"^ *{name} +active", written, re.M) for name in ("can0", "can1")), written


def test_examples_of_the_manual_page(clone):
    """The run and its audit work as shown, and mandoc or man finds no mistake in the page."""
    page = clone.read("canbusd.1")
    examples = [
        block.replace("\\e", "\\").replace("\\-", "-")
        for block in re.findall(r"\.nf\n(.*?)\.fi\n", page[page.index(".SH EXAMPLES") :], re.S)
    ]
    status, written = clone.shell(examples[0].replace("canbusd ", "./canbusd "))
    assert status == 0 and written == examples[1] + "ok 6 entries\n", written
    if shutil.which("man"):
        warnings = subprocess.run(
            ["man", "--warnings", "-l", os.path.join(clone.folder, "canbusd.1")],
            stdout=subprocess.DEVNULL,
            stderr=subprocess.PIPE,
            text=True,
            env={**os.environ, "MANWIDTH": "100", "LC_ALL": "C.UTF-8"},
            check=False,
        )
        assert warnings.stderr == "", warnings.stderr


RAW = "feed 1 < open can0 >< rawmode >\n"
# The refusals in the manual page. Each has options for the bench, and lines whose last reply on can0,can1 is this
# refusal.
REFUSED = {
    "empty message": ("", "feed 1 < >"),
    "message too long": ("", f"feed 1 < echo{' ' * 1020}>"),
    "unknown command": ("", "feed 1 < ECHO >"),
    "wrong state": ("", "feed 1 < send 123 0 >"),
    "mode not supported": ("", RAW + "feed 1 < controlmode >"),
    "bad word count": ("", RAW + "feed 1 < send 123 2 1122 >"),
    "bad id": ("", RAW + "feed 1 < send 1234 0 >"),
    "bad length": ("", RAW + "feed 1 < fdframes 1 >< sendfd 123 C 1 2 3 4 5 6 7 8 9 A B C >"),
    "bad byte": ("", RAW + "feed 1 < send 123 1 100 >"),
    "bad number": ("", RAW + "feed 1 < join 2 >"),
    "invalid filter": ("", RAW + "feed 1 < filter 1 12345678 FFFFFFFF >"),
    "too many filters": ("", RAW + "feed 1 < filter 513 >"),
    "no such interface": ("", "feed 1 < open can2 >"),
    "fd frames off": ("", RAW + "feed 1 < sendfd 123 0 >"),
    "no buffers": ("--txqueue 1 ", RAW + "feed 1 < send 123 0 >< send 123 0 >"),
    "bus off": ("", RAW + "feed 1 < send 123 0 >\n" + "attempt\n" * 32 + "feed 1 < send 123 0 >"),
    "interface down": ("", RAW + "feed 1 < down >< send 123 0 >"),
    "not bus off": ("", RAW + "feed 1 < restart >"),
    "record full": ("--limit 1 ", RAW + "feed 1 < close >"),
    "bad rule": ("", RAW + "feed 1 < fault next 0 good >"),
    "too many rules": ("", RAW + "feed 1 " + "< fault always good >" * 65),
}
# A server sends the first of these messages only to its 65th client. No client can provoke the second one.
NOT_TRIED = {"too many sessions", "no memory"}


def last_reply(clone, options, lines):
    """Returns the last line that a bench on can0,can1 writes for these lines if every attempt fails."""
    with open(os.path.join(clone.folder, "all.script"), "w", encoding="ascii") as file:
        file.write("".join(f"{number} global bit\n" for number in range(32)))
    with open(os.path.join(clone.folder, "refused.bench"), "w", encoding="ascii") as file:
        file.write(f"session 1\n{lines}\n")
    status, written = clone.shell(f"./canbusd bench {options}can0,can1@all.script <refused.bench")
    assert status == 0, written
    return written.splitlines()[-1]


def test_refusals_of_the_manual_page(clone):
    """The page lists exactly the refusals that clients can provoke, and the right maximum number of filters in a
    message."""
    page = clone.read("canbusd.1")
    listed = re.findall(r"^\.TP\n\\fB(.*)\\fR$", page[page.index(".SH REFUSALS") : page.index(".SH LIMITS")], re.M)
    assert sorted(listed) == sorted(REFUSED.keys() | NOT_TRIED), f"listed are {listed}"
    for text, (options, lines) in REFUSED.items():
        assert re.fullmatch(rf"1 (< ok >)*< error {text} >", last_reply(clone, options, lines)), text
    rooms = re.findall(r"(\d+)(?: filters)? such as\s+\\fB(\w+ \w+)\\fR", page)
    assert len(rooms) == 3, f"rooms for filters: {rooms}"
    for count, words in ((int(count), words) for count, words in rooms):
        for more, reply in ((0, "1 < ok >"), (1, "1 < error message too long >")):
            filters = f"< filter {count + more}{f' {words}' * (count + more)} >"
            assert last_reply(clone, "", f"{RAW}feed 1 {filters}") == reply, f"{count + more} filters {words}"


def test_targets_without_the_toolchain(clone):
    """make install and make uninstall work even if PREFIX contains a space. The other targets report the missing tools."""
    status, written = clone.shell(
        'make install PREFIX="$PWD/a place" && cd / && "$OLDPWD/a place/bin/canbusd" --version && '
        '"$OLDPWD/a place/bin/canbusd" report --help && "$OLDPWD/a place/bin/candump2bench" --help'
    )
    assert status == 0, written
    assert clone.shell('make uninstall PREFIX="$PWD/a place"')[0] == 0, "make uninstall"
    left = [
        os.path.join(folder, name)
        for folder, _, names in os.walk(os.path.join(clone.folder, "a place"))
        for name in names
    ]
    assert not left, f"left: {left}"
    for target in ("all", "test", "test PART=unproved", "verify-dist"):
        status, written = clone.shell(f"make -s {target}")
        assert status != 0, f"make {target}: status 0"
        assert re.fullmatch(r"canbusd: .* the command rt .*\nmake: \*\*\* .*\n", written), f"make {target}: {written}"


def test_a_changed_source(clone):
    """./canbusd names the changed file. The command that it prints restores the committed program."""
    source = "crates/can_confine/src/counters.rt"
    with open(os.path.join(clone.folder, source), "a", encoding="utf-8") as file:
        file.write("// a change\n")
    status, written = clone.shell("./canbusd --version")
    assert status == 1 and f"  changed: {source}\n" in written, written
    shown = re.search("`(git checkout .*)`", written)
    assert shown and clone.shell(shown[1])[0] == 0, f"git checkout: {written}"
    status, written = clone.shell("./canbusd --version")
    assert status == 0, written
