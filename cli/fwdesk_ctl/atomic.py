"""Files that are there whole or not at all, and a folder that one process changes at a time."""
import contextlib
import errno
import fcntl
import os
import shutil
import stat
import time
from collections.abc import Iterable, Iterator
from pathlib import Path

from fwdesk_ctl.errors import Locked, NotDone

LOCK = ".lock"


def synced(folder: Path) -> None:
    """What was renamed within a folder stays so when the power is lost."""
    held = os.open(folder, os.O_RDONLY)
    try:
        os.fsync(held)
    finally:
        os.close(held)


def placed(
    path: Path, pieces: Iterable[bytes], mode: int = 0o644, group: str | None = None
) -> None:
    """A file with these bytes, this mode and this group; a kill leaves the one before it. Nobody but its owner reads it before
    its mode is set. NotDone where it can't be written."""
    beside = path.with_name(f".{path.name}.new")
    try:
        beside.unlink(missing_ok=True)
        opened = os.open(beside, os.O_WRONLY | os.O_CREAT | os.O_EXCL, 0o600)
        with open(opened, "wb") as file:
            for it in pieces:
                file.write(it)
            file.flush()
            if group:
                shutil.chown(beside, group=group)
            os.fchmod(file.fileno(), mode)
            os.fsync(file.fileno())
        os.replace(beside, path)
    except OSError as error:
        with contextlib.suppress(OSError):
            beside.unlink(missing_ok=True)
        raise NotDone(f"cannot write {path}: {error.strerror}") from None
    synced(path.parent)


def copy_file(source: Path, new: Path, owner: os.stat_result | None = None) -> None:
    """Makes a new file, for its owner alone, with the bytes of a regular one; they are on the disk then. Symbolic links are
    followed at neither name."""
    flags = os.O_NOFOLLOW | os.O_CLOEXEC
    with contextlib.ExitStack() as opened:
        given = os.open(source, os.O_RDONLY | os.O_NONBLOCK | flags)
        reads = opened.enter_context(open(given, "rb"))
        if not stat.S_ISREG(os.fstat(given).st_mode):
            raise NotDone(f"{source} is no regular file: look who made it")
        made = os.open(new, os.O_WRONLY | os.O_CREAT | os.O_EXCL | flags, 0o600)
        writes = opened.enter_context(open(made, "wb"))
        shutil.copyfileobj(reads, writes, 1 << 20)
        writes.flush()
        if owner:
            os.fchown(made, owner.st_uid, owner.st_gid)
        os.fsync(made)


def open_lock(folder: Path, name: str = LOCK) -> int:
    """A lock file of a folder, which its owner alone may open: whoever may read a file may lock it."""
    held = os.open(folder / name, os.O_RDONLY | os.O_CREAT | os.O_NOFOLLOW | os.O_CLOEXEC, 0o600)
    # (nothing is written where it is right: the disk may be mounted for reading alone by now)
    if os.fstat(held).st_mode & 0o777 != 0o600:
        os.fchmod(held, 0o600)
    return held


@contextlib.contextmanager
def alone(folder: Path, seconds: float | None = 0, name: str = LOCK) -> Iterator[None]:
    """Nobody else changes what is in a folder by these programs meanwhile; a kill ends that.

    It is waited for so many seconds, or with None for as long as it takes. Locked where that isn't enough.
    """
    held = open_lock(folder, name)
    try:
        wait_for_lock(held, folder, seconds)
        yield
    finally:
        os.close(held)


def wait_for_lock(held: int, folder: Path, seconds: float | None) -> None:
    if seconds is None:
        fcntl.flock(held, fcntl.LOCK_EX)
        return
    until = time.monotonic() + seconds
    while True:
        try:
            fcntl.flock(held, fcntl.LOCK_EX | fcntl.LOCK_NB)
            return
        except OSError as error:
            if error.errno not in (errno.EAGAIN, errno.EACCES):
                raise
        if time.monotonic() >= until:
            raise Locked(f"another program is changing {folder}: try again")
        time.sleep(0.02)
