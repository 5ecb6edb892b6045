"""Tests of fwdesk-fleet's work in a folder that is a fleet's own user's: symbolic links there lead root nowhere."""
import contextlib
import os
import stat
import tempfile
from pathlib import Path

from fwdesk_ctl.errors import NotDone
from fwdesk_fleet import places, records
from fwdesk_fleet.fleets import Fleet

NOBODY = 65534
# makes a database where it is told to, as the program does
PROGRAM = '#!/bin/sh\nfor it; do :; done\necho records > "$it"\necho log > "$it-wal"\n'


@contextlib.contextmanager
def made_fleet():
    """A fleet in a folder of its own user's, where root may give files away; and the folder of all that."""
    with tempfile.TemporaryDirectory() as folder:
        kept = vars(places).copy()
        root = Path(folder)
        places.FLEETS, places.RECORDS = root / "fleets", root / "records"
        places.FLEETS.mkdir()
        fleet = Fleet("acme", 20001)
        fleet.folder.mkdir(parents=True)
        fleet.program.write_text(PROGRAM)
        fleet.program.chmod(0o755)
        if os.geteuid() == 0:
            os.chown(fleet.folder, NOBODY, NOBODY)
        try:
            yield fleet, root
        finally:
            vars(places).update(kept)


def made_backup(root):
    folder = root / "backup"
    folder.mkdir(mode=0o700)
    (folder / "desk.db").write_text("restored")
    (folder / "program").symlink_to(root / "fleets/acme.program")
    return folder


def fails(does, *words):
    try:
        does(*words)
    except (NotDone, OSError):
        return True
    return False


def test_a_restore_writes_through_no_link():
    with made_fleet() as (fleet, root):
        secret, folder = root / "secret", made_backup(root)
        secret.write_text("root's")
        # what a program that was taken over may leave in its folder
        for name in ("desk.db", "desk.db-wal", "desk.db.new", "desk.db-wal.new"):
            (fleet.folder / name).symlink_to(secret)
        fails(records.put_back, fleet, folder)
        for name in ("desk.db", "desk.db-wal"):
            (fleet.folder / name).unlink(missing_ok=True)
        for it in fleet.folder.glob("before-*"):
            it.rmdir()
        records.put_back(fleet, folder)
        desk = fleet.folder / "desk.db"
        assert desk.read_text() == "restored" and not desk.is_symlink()
        assert stat.S_IMODE(desk.stat().st_mode) == 0o600
        assert desk.stat().st_uid == fleet.folder.stat().st_uid
        assert secret.read_text() == "root's" and secret.stat().st_uid == os.geteuid()


def test_a_backup_reads_through_no_link():
    with made_fleet() as (fleet, root):
        secret = root / "secret"
        secret.write_text("root's")
        (fleet.folder / "desk.db").symlink_to(secret)
        assert fails(records.copy_records, fleet, root / "backup")
        assert not (root / "backup/desk.db").exists()


def test_a_new_desk_is_made_through_no_link():
    with made_fleet() as (fleet, root):
        target = root / "target"
        for name in ("desk.db", "desk.db-wal"):
            (fleet.folder / name).symlink_to(target)
        fails(records.make_desk, fleet, False)
        assert not target.exists(), "the program wrote where a link led"
        for name in ("desk.db", "desk.db-wal"):
            (fleet.folder / name).unlink()
        assert records.make_desk(fleet, False) is False
        for name in ("desk.db", "desk.db-wal"):
            assert (fleet.folder / name).stat().st_uid == fleet.folder.stat().st_uid
        assert records.make_desk(fleet, True) is True, "records that are there are kept"
        assert not list(places.RECORDS.glob(".new-*"))


def test_records_that_are_gone_are_not_made_anew():
    with made_fleet() as (fleet, _):
        assert fails(records.make_desk, fleet, True)


def test_a_backup_that_others_may_change_is_not_run():
    if os.geteuid() != 0:
        return
    with made_fleet() as (fleet, root):
        folder = made_backup(root)
        records.check_trust(folder)
        for place, mode in ((folder, 0o777), (root / "fleets/acme.program", 0o775)):
            kept = place.stat().st_mode
            place.chmod(mode)
            assert fails(records.check_trust, folder), place
            place.chmod(kept)
        os.chown(folder, NOBODY, NOBODY)
        assert fails(records.check_trust, folder)


def test_a_desk_is_made_in_the_packages_empty_database():
    with made_fleet() as (fleet, root):
        places.EMPTY = root / "empty.db"
        places.EMPTY.write_text("pages of 2,048 bytes\n")
        fleet.program.write_text(PROGRAM.replace("echo records >", "echo records >>"))
        assert records.make_desk(fleet, False) is False
        assert (fleet.folder / "desk.db").read_text() == "pages of 2,048 bytes\nrecords\n"
