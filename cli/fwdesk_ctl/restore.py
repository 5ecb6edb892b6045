"""Restores the service from a backup, on this machine or on another one.

    fwdesk-ctl restore FOLDER [--dry-run]

For root. The package is installed (and fwdesk-setup needn't have run). Everything is compared, verified and laid ready
first; HAProxy checks the restored configuration; what is there now is backed up to /var/backups/fwdesk/before-TIME, which
`restore` takes too. Then the service stops, the database and each other file is replaced, and all is started. Files of
these places that the backup doesn't have go: scheduled commands of another server aren't kept. Devices that trust the backed
up certificate come back once the name or address leads here.

Where it fails before the replacing, nothing is changed; where a file can't be replaced, what was there is put back. After
a kill or a loss of power the same command again makes it whole."""
import argparse
import contextlib
import os
import shutil
import subprocess
import sys
import tarfile
import tempfile
from collections.abc import Iterator
from pathlib import Path

from fwdesk_ctl import backup, desk_copy, operators
from fwdesk_ctl import backup_parts as parts
from fwdesk_ctl.atomic import copy_file, placed, synced
from fwdesk_ctl.client import Desk
from fwdesk_ctl.errors import NotDone, Wrong

ENDS = ".restoring"  # of the name of a file that is laid ready
ASIDE = "var/backups/fwdesk"


def options(parser: argparse.ArgumentParser) -> None:
    parser.add_argument("folder", metavar="FOLDER", type=Path)
    parser.add_argument(
        "--dry-run", action="store_true", help="compare, verify and check, and change nothing"
    )
    parser.add_argument(
        "--root", metavar="FOLDER", type=Path, default=Path("/"), help=argparse.SUPPRESS
    )
    in_use = operators.parts_in_use()
    parser.add_argument("--parts", type=Path, default=in_use, help=argparse.SUPPRESS)


def members_of(archive: Path) -> list[tarfile.TarInfo]:
    """The files of a backup; raises NotDone where one isn't of its places."""
    with tarfile.open(archive) as tar:
        found = tar.getmembers()
    for it in found:
        name = Path(it.name)
        is_known = any(is_within(name, place) for place in parts.PLACES)
        if ".." in name.parts or not (it.isfile() or it.issym()) or not is_known:
            raise NotDone(f"{archive} has {it.name}, which is no file of the service")
    return found


def is_within(name: Path, place: str) -> bool:
    """Whether a path below the root is one of a place."""
    if place.endswith("/**/*"):
        return str(name).startswith(place.removesuffix("**/*"))
    return name.match(place) and len(name.parts) == place.count("/") + 1


def ready(path: Path) -> Path:
    """Where a file is laid ready: beside its place."""
    return path.with_name(f".{path.name}{ENDS}")


def own(file: Path, member: tarfile.TarInfo) -> None:
    """Gives a file the owner, by name, and the mode that it had; only root can give it to somebody."""
    if os.geteuid() == 0:
        try:
            shutil.chown(file, member.uname or member.uid, member.gname or member.gid)
        except LookupError as error:
            raise NotDone(
                f"{member.name}: {error}: install the package of its owner first"
            ) from None
    file.chmod(member.mode & 0o777)


def lay_ready(root: Path, archive: Path, members: list[tarfile.TarInfo]) -> None:
    """Puts each file beside its place."""
    with tarfile.open(archive) as tar:
        for it in members:
            file = ready(root / it.name)
            file.parent.mkdir(parents=True, exist_ok=True)
            file.unlink(missing_ok=True)
            if it.issym():
                file.symlink_to(it.linkname)
                continue
            source = tar.extractfile(it)
            assert source
            with open(os.open(file, os.O_WRONLY | os.O_CREAT | os.O_EXCL, 0o600), "wb") as out:
                shutil.copyfileobj(source, out)
                out.flush()
                os.fsync(out.fileno())
            own(file, it)


def lay_desk_ready(root: Path, folder: Path, looks: bool) -> Path | None:
    """Puts the desk beside its place, for the folder's owner; None where the backup has none. The program has looked
    at it."""
    if not (folder / parts.DESK).exists():
        return None
    place = parts.desk_folder(root)
    if not place.is_dir():
        place.parent.mkdir(mode=0o700, parents=True, exist_ok=True)
        place.mkdir(mode=0o700)
    with own_folder(place) as made:
        # (until it is stopped the service's user may put symbolic links into its folder)
        for it in (parts.DESK, desk_copy.log_of(Path(parts.DESK)).name):
            if (folder / it).exists():
                copy_file(folder / it, made / it)
        desk_copy.merge(made / parts.DESK)
        if looks:
            desk_copy.verify(made / parts.DESK)
        file = ready(place / parts.DESK)
        file.unlink(missing_ok=True)
        copy_file(made / parts.DESK, file, place.stat())
    return file


@contextlib.contextmanager
def own_folder(place: Path) -> Iterator[Path]:
    """A folder beside a place that nobody else may write to. What a kill left of it goes at the next time."""
    folder = place.with_name(f".{place.name}{ENDS}")
    shutil.rmtree(folder, ignore_errors=True)
    folder.mkdir(mode=0o700)
    try:
        yield folder
    finally:
        shutil.rmtree(folder, ignore_errors=True)


def unpack(archive: Path, members: list[tarfile.TarInfo], folder: Path) -> None:
    """Puts the files of an archive below a folder, for this process alone."""
    with tarfile.open(archive) as tar:
        for it in (one for one in members if one.isfile()):
            source, file = tar.extractfile(it), folder / it.name
            assert source
            file.parent.mkdir(parents=True, exist_ok=True)
            file.write_bytes(source.read())


def lead_within(conf: Path, within: Path) -> None:
    """Has the operator's own files name what was unpacked: on a new machine nothing is at its place yet."""
    for it in conf.glob("*.cfg"):
        text = it.read_text(encoding="utf-8")
        for place in ("/etc/fwdesk/", "/var/lib/fwdesk-brake/"):
            text = text.replace(place, f"{within}{place}")
        it.write_text(text, encoding="utf-8")


def check_proxy(order: argparse.Namespace, members: list[tarfile.TarInfo], archive: Path) -> None:
    """Has HAProxy check the restored configuration, where it is the package's and HAProxy is installed."""
    if not (order.parts / "edge").is_dir() or not shutil.which("haproxy"):
        print(
            "HAProxy's configuration isn't checked: fwdesk's part of it isn't here", file=sys.stderr
        )
        return
    with tempfile.TemporaryDirectory(prefix="fwdesk-restore-") as folder:
        within = Path(folder)
        unpack(archive, members, within)
        conf = within / "etc/fwdesk/haproxy.d"
        if not conf.is_dir():
            return
        lead_within(conf, within)
        own_places = {"FWDESK_CERTIFICATE": within / "etc/fwdesk/server.pem"}
        own_places["FWDESK_HELD"] = within / "var/lib/fwdesk-brake/held.map"
        there = {key: str(it) for key, it in own_places.items() if it.exists()}
        if told := operators.complaint(conf, order.parts, **there):
            raise NotDone(
                f"HAProxy refuses the configuration of the backup: {told}; nothing is changed"
            )


def put(root: Path, names: list[str], desk: Path | None) -> None:
    """Replaces everything: each file in one step, the desk last."""
    for name in names:
        os.replace(ready(root / name), root / name)
    for it in set(map(str, parts.places_in(root))) - set(names):
        (root / it).unlink()
    for folder in {(root / it).parent for it in names}:
        synced(folder)
    if desk:
        place = parts.desk_folder(root) / parts.DESK
        if place.is_file() and not place.is_symlink():
            # its log goes into it first, so that no log is ever beside another desk
            try:
                desk_copy.merge(place)
            except NotDone:
                # a damaged one; both files were copied aside
                desk_copy.log_of(place).unlink(missing_ok=True)
        else:
            desk_copy.log_of(place).unlink(missing_ok=True)
        os.replace(desk, place)
        synced(place.parent)


def lay_proxy_parts() -> None:
    """Has HAProxy find its parts: the backup has none, since they are the package's."""
    if shutil.which("fwdesk-setup"):
        ran = subprocess.run(["fwdesk-setup", "--lay-parts"], capture_output=True, text=True)
        if ran.returncode:
            raise NotDone(f"all is restored, but HAProxy doesn't start: {ran.stderr.strip()}")


def start(names: list[str]) -> None:
    """Has systemd take what was restored."""
    desk_copy.systemctl("daemon-reload")
    timers = [
        Path(it).name for it in names if it.endswith(".timer") and Path(it).parent.name == "system"
    ]
    enabled = [
        Path(it).name for it in names if ".wants/" in it and it.endswith((".timer", ".socket"))
    ]
    for it in sorted({*timers, *enabled}):
        desk_copy.systemctl("restart", it)
    desk_copy.systemctl("start", desk_copy.UNIT)
    lay_proxy_parts()
    # the one before the desk has the holds; it is started by the other one where it doesn't run
    desk_copy.systemctl("try-restart", "haproxy-desks.service", must=False)
    if desk_copy.systemctl("is-enabled", "haproxy.service", must=False) == "enabled":
        desk_copy.systemctl("restart", "haproxy.service")


def replace(root: Path, folder: Path, looks: bool) -> list[str]:
    """Lays ready, and replaces; gives the names of the files. The service is stopped, but not started."""
    archive = folder / parts.FILES
    members = members_of(archive)
    lay_ready(root, archive, members)
    desk = lay_desk_ready(root, folder, looks)
    desk_copy.systemctl("stop", desk_copy.UNIT)
    under_way = root / parts.UNDER_WAY
    under_way.parent.mkdir(parents=True, exist_ok=True)
    placed(under_way, [f"{folder.absolute()}\n".encode()])
    names = [it.name for it in members]
    put(root, names, desk)
    under_way.unlink()
    synced(under_way.parent)
    return names


def clear(root: Path) -> None:
    """Takes away what was laid ready and isn't needed."""
    for place in (*parts.PLACES, "var/lib/private/fwdesk/*", "var/lib/fwdesk/*"):
        for it in root.glob(place.rpartition("/")[0] + f"/.*{ENDS}*"):
            it.unlink(missing_ok=True)


def restore(order: argparse.Namespace, aside: Path) -> list[str]:
    """The replacing, with what was there put back where it fails."""
    is_second_try = (order.root / parts.UNDER_WAY).exists()
    try:
        if not is_second_try:
            backup.make(order.root, aside, looks=False)
        return replace(order.root, order.folder, looks=True)
    except (OSError, NotDone) as error:
        clear(order.root)
        if (order.root / parts.UNDER_WAY).exists() and not is_second_try:
            replace(order.root, aside, looks=False)
            start([])
            raise NotDone(f"{error}; what was there is put back") from None
        desk_copy.systemctl("start", desk_copy.UNIT, must=False)
        raise NotDone(f"{error}; nothing is changed") from None


def name_aside(folder: Path) -> Path:
    """A new folder for what is there now, by the time; by a number too where one of this second is there."""
    name = f"before-{backup.stamp()}"
    tried = [folder / name, *(folder / f"{name}-{number}" for number in range(2, 100))]
    return next((it for it in tried if not it.exists()), tried[-1])


def run(_: Desk, order: argparse.Namespace) -> None:
    if not order.folder.is_dir():
        raise Wrong(f"there is no folder {order.folder}")
    told, archive = parts.read_manifest(order.folder), order.folder / parts.FILES
    check_proxy(order, members_of(archive), archive)
    words = f"of {told['host']}, {told['made']}: {told['bytes']:,} bytes of records, {told['files']} files"
    if order.dry_run:
        with tempfile.TemporaryDirectory(prefix="fwdesk-restore-") as folder:
            if (order.folder / parts.DESK).exists():
                desk_copy.verify(Path(shutil.copy(order.folder / parts.DESK, folder)))
        print(f"it can be restored: {words}")
        return
    aside = name_aside(order.root / ASIDE)
    names = restore(order, aside)
    start(names)
    print(f"restored: {words}")
    if aside.exists():
        print(f"what was there is in {aside}", file=sys.stderr)
