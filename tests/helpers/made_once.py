"""Folders that take long to create: each is created once per pytest run, even if several processes run the tests."""

import fcntl
import os
import shutil


def made_once(request, name, make):
    """Returns the folder with this name. The first test that requests the folder fills it with `make`. Later tests must
    not change it."""
    shared = request.getfixturevalue("tmp_path_factory").getbasetemp()
    if hasattr(request.config, "workerinput"):
        # With pytest-xdist, each process has a separate folder within the folder of the pytest run.
        shared = shared.parent
    folder = shared / f"made-{name}"
    with open(f"{folder}.lock", "w", encoding="ascii") as lock:
        fcntl.flock(lock, fcntl.LOCK_EX)
        if not os.path.exists(f"{folder}.done"):
            # An earlier attempt that failed may have left files.
            shutil.rmtree(folder, ignore_errors=True)
            folder.mkdir()
            make(folder)
            open(f"{folder}.done", "x", encoding="ascii").close()
    return folder
