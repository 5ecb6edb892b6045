"""Tests of the empty database that a new desk is made in, and of what puts it there."""
import contextlib
import sqlite3
import subprocess
import tempfile
from pathlib import Path

from harness.asserting import same
from crate_graph import ROOT

MAKES = ROOT / "tools/gen/empty-database"
SCRIPT = ROOT / "deploy/bin/empty-desk"


@contextlib.contextmanager
def placed():
    """A folder for a desk, the template, and the call that puts the one into the other."""
    with tempfile.TemporaryDirectory() as room:
        folder, template, script = Path(room, "desk"), Path(room, "empty.db"), Path(room, "script")
        folder.mkdir()
        subprocess.run([MAKES, template], check=True)
        text = SCRIPT.read_text(encoding="utf-8")
        assert text.count("/usr/share/fwdesk/empty.db") == 1
        script.write_text(text.replace("/usr/share/fwdesk/empty.db", str(template)))
        put = lambda: subprocess.run(["sh", script, folder], stderr=subprocess.DEVNULL).returncode
        yield folder, template, put


def names(folder):
    return sorted(it.name for it in folder.iterdir())


def test_the_template():
    with placed() as (_, template, _):
        same(template.stat().st_size, 2048)
        opened = sqlite3.connect(template)
        same(opened.execute("PRAGMA page_size").fetchone(), (2048,))
        same(opened.execute("PRAGMA integrity_check").fetchone(), ("ok",))
        same(opened.execute("SELECT count(*) FROM sqlite_schema").fetchone(), (0,))
        opened.close()
        same(subprocess.run([MAKES, template], stderr=subprocess.DEVNULL).returncode, 1)


def test_a_new_desk_gets_it():
    with placed() as (folder, template, put):
        # a copy that was cut short the last time is no hindrance
        (folder / "desk.db.new").write_bytes(b"SQL")
        same(put(), 0)
        same(names(folder), ["desk.db"])
        same((folder / "desk.db").read_bytes(), template.read_bytes())
        same((folder / "desk.db").stat().st_mode & 0o777, 0o600)


def test_what_is_there_stays():
    for name in ("desk.db", "desk.db-wal"):
        with placed() as (folder, _, put):
            (folder / name).write_bytes(b"")
            same(put(), 0)
            same(names(folder), [name])
            same((folder / name).read_bytes(), b"")


def test_without_a_template_nothing_is_there():
    with placed() as (folder, template, put):
        template.unlink()
        assert put() != 0
        assert "desk.db" not in names(folder)
