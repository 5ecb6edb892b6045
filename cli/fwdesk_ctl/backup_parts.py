"""What a backup of the service has beside the database: a list of places, as one archive, and the sums of it all."""
import contextlib
import hashlib
import json
import os
import shutil
import tarfile
from collections.abc import Iterator
from pathlib import Path

from fwdesk_ctl.atomic import synced
from fwdesk_ctl.errors import NotDone, Wrong

DESK, FILES, MANIFEST, FORM = "desk.db", "files.tar", "manifest.json", 1
# certificate, key, operators, rules; holds; orders and what became of them; and of systemd the timers of orders and quiet
# hours, which units are enabled, and settings of one's own
PLACES = (
    "etc/fwdesk/**/*",
    "var/lib/fwdesk-brake/**/*",
    "var/lib/fwdesk-clock/**/*",
    "etc/systemd/system/fwdesk-at-*.timer",
    "etc/systemd/system/fwdesk-quiet.timer",
    "etc/systemd/system/*.wants/fwdesk*",
    "etc/systemd/system/fwdesk*.d/*.conf",
    "etc/systemd/system/haproxy*.service.d/fwdesk*.conf",
)
PASSING = (".new", ".restoring")  # ends of names of files that are there for a moment
LOCKS = ("lock", ".lock")  # files that have nothing in them
UNDER_WAY = "var/lib/fwdesk-restoring"  # it is there while a restore isn't whole


def places_in(root: Path) -> list[Path]:
    """The files and links of all places, as paths below a root."""
    found = {it for place in PLACES for it in root.glob(place) if it.is_symlink() or it.is_file()}
    stays = [it for it in found if not it.name.endswith(PASSING) and it.name not in LOCKS]
    return sorted(it.relative_to(root) for it in stays)


def desk_folder(root: Path) -> Path:
    """Where the desk's file is: the folder of a user that is made for the service, or by hand."""
    private = root / "var/lib/private/fwdesk"
    by_hand = root / "var/lib/fwdesk"
    return by_hand if by_hand.is_dir() and not private.is_dir() else private


def sum_of(file: Path) -> str:
    """The SHA-256 of a file."""
    with open(file, "rb") as it:
        return hashlib.file_digest(it, "sha256").hexdigest()


def pack(root: Path, archive: Path) -> int:
    """Puts all places into an archive, with owners and modes; gives their number."""
    found = places_in(root)
    with tarfile.open(archive, "w", format=tarfile.PAX_FORMAT) as tar:
        for it in found:
            tar.add(root / it, str(it), recursive=False)
    return len(found)


def flush(folder: Path) -> None:
    """Has all files of a folder on the disk."""
    for it in folder.iterdir():
        with open(it, "rb") as file:
            os.fsync(file.fileno())
    synced(folder)


def write_manifest(folder: Path, told: dict) -> None:
    sums = {
        name: sum_of(folder / name)
        for name in (DESK, f"{DESK}-wal", FILES)
        if (folder / name).exists()
    }
    (folder / MANIFEST).write_text(
        json.dumps({"form": FORM, **told, "sha256": sums}, indent=1) + "\n"
    )


def read_manifest(folder: Path) -> dict:
    """What a backup says of itself, once each of its files has the sum that it says; raises Wrong where it is none, and
    NotDone where a file of it was changed."""
    try:
        told = json.loads((folder / MANIFEST).read_text())
        form, sums = told["form"], told["sha256"]
    except (OSError, ValueError, KeyError, TypeError):
        raise Wrong(
            f"{folder} is no backup of fwdesk-ctl: it has no {MANIFEST} that can be read"
        ) from None
    if form != FORM:
        raise Wrong(f"{folder} is a backup of form {form}, and this fwdesk-ctl reads form {FORM}")
    for name, wanted in sums.items():
        if not (folder / name).is_file() or sum_of(folder / name) != wanted:
            raise NotDone(
                f"{folder / name} is missing or isn't what was backed up: its SHA-256 differs"
            )
    return told


@contextlib.contextmanager
def new_folder(folder: Path) -> Iterator[Path]:
    """A folder that is there whole or not at all: it is filled under another name, for its owner alone."""
    if folder.exists():
        raise Wrong(f"{folder} is there already: a backup is a new folder")
    folder.parent.mkdir(parents=True, exist_ok=True)
    beside = folder.with_name(f".{folder.name}.new")
    shutil.rmtree(beside, ignore_errors=True)
    beside.mkdir(mode=0o700)
    try:
        yield beside
        flush(beside)
        beside.rename(folder)
        synced(folder.parent)
    except BaseException:
        shutil.rmtree(beside, ignore_errors=True)
        raise
