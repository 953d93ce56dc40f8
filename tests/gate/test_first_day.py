"""From the first line of README to a passing test: first_day.sh in this folder runs in a clone, and takes each route on
a fresh minimal Debian 12 and 13. BASES names a folder with a debootstrap of bookworm and of trixie (debootstrap
--variant=minbase). Without BASES, the tests create them. The tests need a network.
"""

import os
import shutil
import subprocess

import pytest

from serving import program
from test_docs import Clone, needs_port

# Each test has separate mounts and processes, which end when the command of the test ends.
ENTER = 'mount -t proc proc "$0/proc" && mount --rbind /dev "$0/dev" && exec chroot "$0" "$@"'


@pytest.fixture(scope="module", params=["bookworm", "trixie"])
def base(request, tmp_path_factory):
    """A Debian system that has only its minimal packages."""
    if "BASES" in os.environ:
        return os.path.join(os.environ["BASES"], request.param)
    folder = tmp_path_factory.mktemp("base") / request.param
    subprocess.run(["debootstrap", "--variant=minbase", request.param, folder], check=True)
    return folder


def test_first_day_in_a_clone(tmp_path, fixed_ports):
    """With the installed packages, the commands and the test in README work, and so do the page and the server commands
    in the guide."""
    needs_port(29536)
    clone = Clone(tmp_path / "clone")
    clone.put_program(program())
    if not clone.has_python_can():
        pytest.skip("python-can and pytest are not installed")
    status, written = clone.shell("tests/gate/first_day.sh here", timeout=300)
    assert status == 0 and written.endswith("the first day went well\n"), written


@pytest.mark.slow
@pytest.mark.root
@pytest.mark.skipif(not shutil.which("debootstrap"), reason="not installed: debootstrap")
@pytest.mark.parametrize("route", ["path", "venv", "pipx", "user", "pip", "check"])
def test_first_day(base, route, tmp_path):
    debian = tmp_path / "debian"
    subprocess.run(["cp", "-a", base, debian], check=True)
    (debian / "etc" / "hosts").write_text("127.0.0.1 localhost\n", encoding="ascii")
    Clone(debian / "root" / "canbusd").put_program(program())
    environment = ["PATH=/usr/sbin:/usr/bin:/sbin:/bin", "HOME=/root", "LC_ALL=C.UTF-8"]
    script = ["sh", "-c", "cd /root/canbusd && exec tests/gate/first_day.sh $0", route]
    done = subprocess.run(
        ["unshare", "--mount", "--pid", "--fork", "sh", "-c", ENTER, debian, "env", "-i", *environment, *script],
        stdin=subprocess.DEVNULL,
        stdout=subprocess.PIPE,
        stderr=subprocess.STDOUT,
        text=True,
        check=False,
    )
    shutil.rmtree(debian, ignore_errors=True)
    if done.returncode == 77:
        pytest.skip("pip finds no packages")
    assert done.returncode == 0 and done.stdout.endswith("the first day went well\n"), done.stdout
