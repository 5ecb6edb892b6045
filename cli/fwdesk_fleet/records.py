"""The fleets' records: made, copied, verified, put back.

A fleet's folder is its own user's, and root works in it. So nothing in it is followed that is a symbolic link, and no
file in it is opened for writing that was there before."""
import contextlib
import stat
import subprocess
import tempfile
import time
from collections.abc import Iterator
from pathlib import Path

from fwdesk_ctl import atomic
from fwdesk_ctl.atomic import copy_file
from fwdesk_ctl.client import Desk
from fwdesk_ctl.connection import find_near
from fwdesk_ctl.errors import NotDone, Refused, Unreached
from fwdesk_fleet import places, units
from fwdesk_fleet.fleets import Fleet

BOTH = ("desk.db", "desk.db-wal")
ANSWERS = 600  # seconds that a server is waited for that opens its database


def is_there(file: Path) -> bool:
    """Whether there is a file of this name. NotDone for a symbolic link, a folder or a device."""
    try:
        mode = file.lstat().st_mode
    except FileNotFoundError:
        return False
    if not stat.S_ISREG(mode):
        raise NotDone(f"{file} is no regular file: look who made it")
    return True


def is_filled(file: Path) -> bool:
    return is_there(file) and file.lstat().st_size > 0


def place_records(folder: Path, fleet: Fleet) -> None:
    """Copies the records in a folder into a fleet's own, for its user. The log comes before the database, so that no
    database is there without it, whenever this is cut short."""
    owner = fleet.folder.lstat()
    for name in reversed(BOTH):
        if not is_there(folder / name):
            continue
        new = fleet.folder / f"{name}.new"
        new.unlink(missing_ok=True)
        copy_file(folder / name, new, owner)
        new.rename(fleet.folder / name)
        atomic.synced(fleet.folder)


def make_desk(fleet: Fleet, was_there: bool) -> bool:
    """The one place where a database is made; answers whether records are kept that are there: so a fleet that was
    removed comes back with them."""
    fleet.folder.mkdir(parents=True, exist_ok=True)
    desk = fleet.folder / BOTH[0]
    if is_filled(desk):
        return True
    if was_there:
        raise NotDone(
            f"{fleet.name} was here before, and {desk} isn't: mount or restore it. `--anew` makes an empty one"
        )
    # (in a folder that is root's, since the program follows what is in it)
    with tempfile.TemporaryDirectory(prefix=".new-", dir=places.RECORDS) as folder:
        # (without the package there is none, and the desk gets the program's own pages, of 4,096 bytes)
        if is_there(places.EMPTY):
            copy_file(places.EMPTY, Path(folder, BOTH[0]))
        words = [str(fleet.program), "verify", "--db", f"{folder}/{BOTH[0]}"]
        ran = subprocess.run(words, stdin=subprocess.DEVNULL, stdout=subprocess.DEVNULL)
        if ran.returncode:
            raise NotDone(f"{fleet.program} makes no database: status {ran.returncode}")
        place_records(Path(folder), fleet)
    return False


@contextlib.contextmanager
def standing_still(fleet: Fleet) -> Iterator[None]:
    """The fleet's unit is stopped, and started again however this ends. Its requests wait in the proxy meanwhile."""
    began = time.monotonic()
    units.systemctl("stop", fleet.unit)
    try:
        yield
    finally:
        units.systemctl("reset-failed", fleet.unit)
        is_done, output = units.systemctl("start", fleet.unit)
    if not is_done:
        raise NotDone(f"{fleet.unit}: {output}")
    seconds = wait_for_answer(fleet, began)
    print(f"{fleet.name} answers again, {seconds:.1f} s after it was stopped")


def wait_for_answer(fleet: Fleet, began: float) -> float:
    """The seconds since then until it answers through the proxy."""
    desk = Desk(f"{find_near()}/fleets/{fleet.name}")
    while time.monotonic() < began + ANSWERS:
        try:
            desk.get("/rest/v1/targets", limit=1)
            return time.monotonic() - began
        except (Refused, Unreached):
            time.sleep(0.2)
        finally:
            desk.close()
    raise NotDone(f"{fleet.name} doesn't answer: journalctl -u {fleet.unit}")


def copy_records(fleet: Fleet, folder: Path) -> None:
    """Copies a fleet's records into a new folder, with a link to the program that they were made with."""
    folder.mkdir(parents=True)
    for name in BOTH:
        if is_there(fleet.folder / name):
            copy_file(fleet.folder / name, folder / name)
    (folder / "program").symlink_to(fleet.program.resolve())
    atomic.synced(folder)


def check_trust(folder: Path) -> None:
    """A backup's program is run by root, and serves the fleet afterwards: nobody but root may have changed either."""
    for place in (folder, (folder / "program").resolve()):
        found = place.stat()
        if found.st_uid != 0 or found.st_mode & 0o022:
            raise NotDone(f"{place} may be changed by others than root: chown root, chmod go-w")


def verify(folder: Path) -> None:
    """A copy is whole, says the program that it was made with. NotDone otherwise."""
    desk = folder / BOTH[0]
    if not is_filled(desk):
        raise NotDone(f"{desk} isn't there, or is empty")
    ran = subprocess.run(
        [folder / "program", "verify", "--db", desk],
        stdin=subprocess.DEVNULL,
        stdout=subprocess.PIPE,
        stderr=subprocess.STDOUT,
        text=True,
        errors="replace",
    )
    if ran.returncode:
        raise NotDone(f"{desk}: {ran.stdout.strip()}")


def put_back(fleet: Fleet, folder: Path) -> Path:
    """Puts the records of a backup in the place of the fleet's own, and answers where these are now. The log goes
    after the database: the unit starts no log alone, whenever this is cut short."""
    before = fleet.folder / time.strftime("before-%Y%m%d-%H%M%S")
    before.mkdir()
    for name in BOTH:
        if is_there(fleet.folder / name):
            (fleet.folder / name).rename(before / name)
    atomic.synced(fleet.folder)
    place_records(folder, fleet)
    return before
