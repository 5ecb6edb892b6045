"""Backs up the service: the database, key and certificate, operators, holds, scheduled commands and quiet hours.

    fwdesk-ctl backup FOLDER [--keep N] [--json]

FOLDER is made new, for its owner alone, and is there whole or not at all. With --keep, FOLDER holds one folder a backup,
named by its time, and the newest N stay. For root, on the server's machine. fwdesk-backup.timer runs it each night.

The program stands still while its two files are copied, and nobody is refused. The copy is then
brought into one file and looked at by `fwdesk verify`. FOLDER has desk.db, files.tar (`tar tf` lists it) and
manifest.json with the sums that `restore` compares. It has passwords' digests and the certificate's key: keep it as such.
Files of nginx (/srv/firmware) aren't in it, and neither are many fleets: fwdesk-fleet backup takes each."""
import argparse
import json
import re
import shutil
import socket
import sys
import time
from pathlib import Path

from fwdesk_ctl import backup_parts as parts
from fwdesk_ctl import desk_copy
from fwdesk_ctl.atomic import synced
from fwdesk_ctl.client import Desk
from fwdesk_ctl.errors import NotDone, Wrong

STAMP = re.compile(r"\d{8}T\d{6}Z")


def options(parser: argparse.ArgumentParser) -> None:
    parser.add_argument("folder", metavar="FOLDER", type=Path)
    parser.add_argument("--keep", metavar="N", type=int)
    parser.add_argument("--json", action="store_true")
    parser.add_argument(
        "--root", metavar="FOLDER", type=Path, default=Path("/"), help=argparse.SUPPRESS
    )


def stamp() -> str:
    """The moment, as a folder's name."""
    return time.strftime("%Y%m%dT%H%M%SZ", time.gmtime())


def fill(root: Path, folder: Path, looks: bool) -> dict:
    """Fills a folder with a backup, and gives what it has. Where nobody looks the desk may be damaged or missing."""
    began, desk, to = time.monotonic(), parts.desk_folder(root) / parts.DESK, folder / parts.DESK
    stood_still = desk_copy.copy_pair(desk, to) if looks or desk.exists() else 0.0
    if looks:
        desk_copy.merge(to)
        desk_copy.verify(to)
    count = parts.pack(root, folder / parts.FILES)
    told = {
        "made": time.strftime("%Y-%m-%dT%H:%M:%SZ", time.gmtime()),
        "host": socket.gethostname(),
        "program": desk_copy.version(),
        "bytes": to.stat().st_size if to.exists() else 0,
        "files": count,
        "seconds": round(time.monotonic() - began, 2),
        "stood_still": round(stood_still, 3),
    }
    parts.write_manifest(folder, told)
    for it in folder.iterdir():
        it.chmod(0o600)
    return told


def make(root: Path, folder: Path, looks: bool = True) -> dict:
    """A backup in a new folder."""
    if (root / parts.UNDER_WAY).exists():
        raise NotDone(
            f"a restore was cut short: fwdesk-ctl restore {(root / parts.UNDER_WAY).read_text().strip()}"
        )
    with parts.new_folder(folder) as beside:
        return fill(root, beside, looks)


def prune(folder: Path, keep: int) -> None:
    """Takes the oldest backups away, so that `keep` stay; what isn't a backup of this verb is left alone."""
    own = sorted(
        it for it in folder.iterdir() if STAMP.fullmatch(it.name) and (it / parts.MANIFEST).exists()
    )
    for it in own[:-keep]:
        # (under another name first: what is half taken away is no backup)
        gone = it.rename(it.with_name(f".{it.name}.gone"))
        shutil.rmtree(gone)
    for it in folder.glob(".*Z.gone"):
        shutil.rmtree(it)
    synced(folder)


def run(_: Desk, order: argparse.Namespace) -> None:
    if order.keep is not None and order.keep < 1:
        raise Wrong("--keep is 1 or more")
    folder = order.folder / stamp() if order.keep else order.folder
    told = make(order.root, folder.absolute())
    if order.keep:
        prune(order.folder, order.keep)
    if order.json:
        print(json.dumps({"folder": str(folder), **told}))
    else:
        print(folder)
        words = f"{told['bytes']:,} bytes of records, verified, and {told['files']} files"
        still = f"the program stood still for {told['stood_still']} s"
        print(f"{words}, in {told['seconds']} s; {still}", file=sys.stderr)
