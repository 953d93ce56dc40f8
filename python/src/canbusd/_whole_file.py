"""Files that are written completely or not at all. The old content stays until the new content is complete, and also
after an error."""

import contextlib
import errno
import os
import secrets
import shutil
import stat
import tempfile
from collections.abc import Iterator
from typing import BinaryIO, Optional, Union

Path = Union[str, "os.PathLike[str]"]
#: The folder with the open file descriptors of this process.
OWN_FILES = "/proc/self/fd"
#: The errors that file systems such as NFS and FAT return because they can't create a file without a name.
NAMES_ONLY = (errno.EOPNOTSUPP, errno.EISDIR)


@contextlib.contextmanager
def replaced(path: Path, is_synced: bool = True) -> Iterator[BinaryIO]:
    """Yields a file for the new content of this path, which replaces the old content when the `with` block ends. If
    `is_synced` is true, the new content is then on the disk.

    If the block raises an exception, or the process is killed, the old file stays unchanged, and no temporary file
    remains. The file keeps its permissions and, if possible, its owner. A file without write permission is refused. A
    FIFO or a device is written when the block ends. A symbolic link to a file is refused: a new file would replace the
    link, and somebody else may have chosen its target.
    """
    with named(path):
        old = checked(path)
        with renamed(path, old, is_synced) if old is None or stat.S_ISREG(old.st_mode) else copied(path) as file:
            yield file


@contextlib.contextmanager
def named(path: Path, is_its: bool = False) -> Iterator[None]:
    """Adds this path to an OSError that has no path. If `is_its` is true, this path also replaces another path in the
    error."""
    try:
        yield
    except OSError as fault:
        if is_its or fault.filename is None:
            fault.filename = os.fspath(path)
        raise


def checked(path: Path) -> Optional[os.stat_result]:
    """Returns the status of the file at this path, or None if there is no file. Raises OSError for a symbolic link to a
    file, and for a file without write permission."""
    try:
        old = os.stat(path)
    except FileNotFoundError:
        old = None
    if os.path.islink(path) and (old is None or stat.S_ISREG(old.st_mode)):
        raise OSError(errno.ELOOP, f"this is a link to {os.readlink(path)}: name that file itself", os.fspath(path))
    if old is not None and stat.S_ISREG(old.st_mode):
        os.close(os.open(path, os.O_WRONLY | os.O_NOFOLLOW | os.O_NONBLOCK))
    return old


@contextlib.contextmanager
def renamed(path: Path, old: Optional[os.stat_result], is_synced: bool) -> Iterator[BinaryIO]:
    """Yields a new file in the folder of this path, and renames the file to this path when the `with` block ends."""
    name = f".canbusd-{secrets.token_hex(8)}"
    with contextlib.ExitStack() as stack:
        with named(path, is_its=True):
            folder = os.open(os.path.dirname(path) or ".", os.O_PATH | os.O_DIRECTORY)
            stack.callback(os.close, folder)
            draft, is_there = drafted(folder, name)
            stack.callback(os.close, draft)
        stack.callback(remove, folder, name)
        with open(draft, "wb", closefd=False) as file:
            yield file
        with named(path, is_its=True):
            if old is not None:
                with contextlib.suppress(PermissionError):
                    os.fchown(draft, old.st_uid, old.st_gid)
                os.fchmod(draft, stat.S_IMODE(old.st_mode) & 0o777)
            if is_synced:
                os.fsync(draft)
            if not is_there:
                os.link(f"{OWN_FILES}/{draft}", name, dst_dir_fd=folder)
            os.rename(name, os.path.basename(path), src_dir_fd=folder, dst_dir_fd=folder)


def drafted(folder: int, name: str) -> tuple[int, bool]:
    """Opens a new file in a folder. Returns its file descriptor, and whether it has this name. The file is given the
    name only if the file system can't create files without a name."""
    # Without the folder OWN_FILES, a file that was created without a name can't be given a name later.
    if os.path.exists(OWN_FILES):
        try:
            return os.open(".", os.O_TMPFILE | os.O_WRONLY, 0o666, dir_fd=folder), False
        except OSError as fault:
            if fault.errno not in NAMES_ONLY:
                raise
    return os.open(name, os.O_CREAT | os.O_EXCL | os.O_NOFOLLOW | os.O_WRONLY, 0o666, dir_fd=folder), True


def remove(folder: int, name: str) -> None:
    """Removes a file from a folder if it exists."""
    with contextlib.suppress(FileNotFoundError):
        os.unlink(name, dir_fd=folder)


@contextlib.contextmanager
def copied(path: Path) -> Iterator[BinaryIO]:
    """Yields a temporary file, and copies its content to this path when the `with` block ends."""
    with tempfile.TemporaryFile() as draft:
        with open(draft.fileno(), "wb", closefd=False) as file:
            yield file
        draft.seek(0)
        with open(os.open(path, os.O_WRONLY), "wb") as target:
            shutil.copyfileobj(draft, target)
