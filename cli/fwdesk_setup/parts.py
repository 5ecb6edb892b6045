"""The proxy's parts as it reads them: a checked copy of what the package brought.

HAProxy never reads the package's own files. They are copied, together with the page that they name; both stages are
checked with the operator's own files; then one link leads to the copy. So a start of HAProxy in the middle of an
upgrade, after one that isn't valid, or after a downgrade finds what was checked."""
import hashlib
import os
import re
import shutil
from pathlib import Path

from fwdesk_ctl.operators import check_words
from fwdesk_setup import places
from fwdesk_setup.errors import NotDone
from fwdesk_setup.files import point_to, sync_folder
from fwdesk_setup.run import run

STAGES = ("edge", "desks")
COPY = re.compile("[0-9a-f]{16}")  # the name of a copy


def files_of(folder: Path) -> list[Path]:
    return sorted(it for it in folder.rglob("*") if it.is_file())


def digest_of(folders: list[Path]) -> str:
    """One digest of all files of some folders, by their names and contents."""
    digest = hashlib.sha256()
    for folder in folders:
        for file in files_of(folder):
            name = f"{folder.name}/{file.relative_to(folder)}"
            digest.update(f"{name}\0{file.stat().st_size}\0".encode() + file.read_bytes())
    return digest.hexdigest()[:16]


def current() -> str | None:
    """The name of the copy in use."""
    return os.readlink(places.CURRENT) if places.CURRENT.is_symlink() else None


def copy() -> str:
    """Copies the package's parts, and gives the copy's name, which is that of their contents."""
    page = places.SHARE / "page"
    sources = [*(places.SHARE / "haproxy" / it for it in STAGES), page]
    if missing := [str(it) for it in sources if not it.is_dir()]:
        raise NotDone(f"{', '.join(missing)}: not there; the package isn't whole")
    name = digest_of(sources)
    made = places.COPIES / name
    if made.is_dir():
        return name
    places.COPIES.mkdir(mode=0o755, parents=True, exist_ok=True)
    unfinished = places.COPIES / ".unfinished"
    shutil.rmtree(unfinished, ignore_errors=True)
    for it in sources:
        shutil.copytree(it, unfinished / it.name)
    for stage in STAGES:
        for file in files_of(unfinished / stage):
            text = file.read_text(encoding="utf-8")
            file.write_text(text.replace(str(page), str(made / "page")), encoding="utf-8")
    for it in files_of(unfinished):
        with open(it, "rb") as held:
            os.fsync(held.fileno())
    os.replace(unfinished, made)
    sync_folder(places.COPIES)
    return name


def faults(name: str, own: Path | None = None) -> str:
    """What HAProxy says against a copy with the operator's own files; nothing where both stages are valid."""
    for stage in STAGES:
        parts = places.COPIES / name / stage
        status, said = run(*check_words(own or places.OWN, parts))
        if status:
            alerts = [it for it in said.splitlines() if "[ALERT]" in it or "[WARNING]" not in it]
            return "\n".join(alerts[:12])
    return ""


def use(name: str) -> None:
    """Has HAProxy read a copy from its next start on."""
    if current() == name:
        return
    point_to(places.CURRENT, name)


def forget_older(*kept: str | None) -> None:
    """Removes copies that nobody goes back to. The page of 1.0.0, which is no copy of these, stays for --undo."""
    for it in places.COPIES.iterdir():
        if COPY.fullmatch(it.name) and it.name not in kept:
            shutil.rmtree(it, ignore_errors=True)
