"""Records that a server writes while it runs, and the files that are in its folder at that time."""

import os
import re

from commands import call
from record_events import audit
from serving import program

# The first two lines of a record that a server writes while it runs.
FRONT = "canbus record 4\nbus 2 always 0000 10 4294967294 0\n"


def cut_audit(path, is_replayed=True):
    """Returns the number of entries in a record, and whether the record was cut off. The audit reports both, and the
    model confirms them."""
    status, said, errors = call(program(), "audit", "--cut", path)
    assert status == 0, f"{said}{errors}"
    if is_replayed:
        with open(path, "rb") as file:
            assert audit(file.read(), cut=True) == said.rstrip("\n")
    found = re.fullmatch(r"ok (\d+) entries(, then cut off)?\n", said)
    return int(found[1]), bool(found[2])


def names_in(folder):
    """Returns the names of the files in a folder, without the server's messages. A faults file counts only if it is not
    empty."""
    names = set(os.listdir(folder)) - {"stderr"}
    growing = {name for name in names if name.endswith(".rec.faults.new")}
    return sorted(names - {name for name in growing if not os.lstat(os.path.join(folder, name)).st_size})
