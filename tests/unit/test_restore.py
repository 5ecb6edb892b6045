"""Tests of fwdesk-ctl restore's work in the folder of the service's user: symbolic links there lead root nowhere."""
import contextlib
import os
import stat
import tempfile
from pathlib import Path

from fwdesk_ctl import backup_parts, desk_copy, restore

NOBODY = 65534
READY = ".desk.db.restoring"


@contextlib.contextmanager
def made_service(looks):
    """The folders of a service and of a backup, and a file of root's; `looks` is called where the copy is looked at."""
    with tempfile.TemporaryDirectory() as folder:
        root, kept = Path(folder), vars(desk_copy).copy()
        place, backup, secret = root / "var/lib/private/fwdesk", root / "backup", root / "secret"
        for it in (place, backup):
            it.mkdir(parents=True)
        if os.geteuid() == 0:
            os.chown(place, NOBODY, NOBODY)
        (backup / backup_parts.DESK).write_text("restored")
        secret.write_text("root's")
        secret.chmod(0o644)
        desk_copy.merge = desk_copy.verify = lambda _: looks(place, secret)
        try:
            yield root, place, backup, secret
        finally:
            vars(desk_copy).update(kept)


def plant(place, secret):
    """Puts links to where root's next file is to be, as a program may that was taken over."""
    for name in (READY, f"{READY}-wal"):
        (place / name).unlink(missing_ok=True)
        (place / name).symlink_to(secret)


def test_a_restore_follows_no_link_of_the_services_user():
    with made_service(plant) as (root, place, backup, secret):
        plant(place, secret)
        ready = restore.lay_desk_ready(root, backup, looks=True)
        assert ready == place / READY and not ready.is_symlink()
        assert ready.read_text() == "restored"
        assert stat.S_IMODE(ready.stat().st_mode) == 0o600
        assert ready.stat().st_uid == place.stat().st_uid
        assert secret.read_text() == "root's"
        assert secret.stat().st_uid == os.geteuid() and stat.S_IMODE(secret.stat().st_mode) == 0o644
        assert [it.name for it in place.parent.iterdir()] == [place.name]


def test_a_desk_that_is_a_link_is_replaced_and_its_target_is_not_opened():
    opened = []
    with made_service(lambda *_: opened.append(1)) as (root, place, backup, secret):
        for name in (backup_parts.DESK, f"{backup_parts.DESK}-wal"):
            (place / name).symlink_to(secret)
        ready = restore.lay_desk_ready(root, backup, looks=True)
        opened.clear()
        restore.put(root, [], ready)
        desk = place / backup_parts.DESK
        assert not desk.is_symlink() and desk.read_text() == "restored"
        assert [it.name for it in place.iterdir()] == [desk.name], "a log is beside another desk"
        assert opened == [] and secret.read_text() == "root's"
