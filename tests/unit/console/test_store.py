"""The records: whole or not at all, with a cap of rows, put aside where they can't be used, and done without where the disk is full."""
import asyncio
import contextlib
import resource
import sqlite3

import pytest
from fakes import play
from fwdesk_console import store as records
from fwdesk_console.store import Store


@contextlib.contextmanager
def full_disk():
    """No file grows beyond 1,000 bytes, as on a disk that is full."""
    before = resource.getrlimit(resource.RLIMIT_FSIZE)
    resource.setrlimit(resource.RLIMIT_FSIZE, (1000, before[1]))
    try:
        yield
    finally:
        resource.setrlimit(resource.RLIMIT_FSIZE, before)


def test_a_file_that_is_torn_is_put_aside_and_told(tmp_path):
    (tmp_path / "console.db").write_bytes(b"SQLite format 3\0" + b"\7" * 5000)

    async def course(stand):
        assert list(tmp_path.glob("console.db.aside-*"))
        await stand.look()
        assert "the records of before can't be used" in stand.words("console")
        assert (await stand.get("/fwdesk/state"))[0] == 200

    play(tmp_path, course)


@pytest.mark.parametrize("version", [0, 2, 99])
def test_a_file_of_another_version_is_put_aside(tmp_path, version):
    path = tmp_path / "console.db"
    db = sqlite3.connect(path)
    db.executescript(f"create table other(a); pragma user_version={version};")
    db.close()
    store = Store(str(path))
    assert store.put_aside and sqlite3.connect(store.put_aside).execute("select * from other")
    assert store.all("select * from audit") == []


def test_a_file_cut_in_half_is_put_aside(tmp_path):
    path = tmp_path / "console.db"
    store = Store(str(path))
    store.write([("insert into device values(?,1,1,1,1)", [(f"d{n}",) for n in range(3000)])])
    store.close()
    data = path.read_bytes()
    path.write_bytes(data[: len(data) // 2])
    assert Store(str(path)).put_aside


def test_what_sqlite_says_in_lines_is_one_line_of_the_journal(tmp_path, caplog):
    path = tmp_path / "console.db"
    store = Store(str(path))
    store.write([("insert into device values(?,1,1,1,1)", [(f"d{n}",) for n in range(3000)])])
    store.close()
    data = path.read_bytes()
    path.write_bytes(data[:8192] + b"\x5a" * (len(data) - 8192))
    assert Store(str(path)).put_aside
    assert caplog.messages and all("\n" not in it for it in caplog.messages), caplog.messages


def test_a_write_is_whole_or_not_at_all(tmp_path):
    store = Store(str(tmp_path / "console.db"))
    rows = [
        ("insert into device values(?,1,1,1,1)", [("a",), ("b",)]),
        ("insert into no values(1)", [()]),
    ]
    assert not store.write(rows)
    assert store.problem and store.all("select * from device") == []


def test_rows_have_a_cap_and_guesses_push_out_no_orders(tmp_path):
    store = Store(str(tmp_path / "console.db"), rows=1000)
    insert = "insert into audit(at,status,address,who,method,path) values(?,?,'a','w','POST','/')"
    store.write([(insert, [(n, 200) for n in range(400)])])
    store.write([(insert, [(n, 401) for n in range(5000)])])
    store.prune()
    counts = dict(store.db.execute("select status, count(*) from audit group by status").fetchall())
    assert counts == {200: 400, 401: 250}
    store.write([(insert, [(n, 200) for n in range(5000)])])
    store.prune()
    assert store.one("select count(*) n from audit")["n"] == 1000


def test_many_lines_at_once_are_pruned_soon(tmp_path):
    """However many guess: it doesn't take ten minutes until the cap is kept."""

    async def course(stand):
        watching = asyncio.create_task(stand.service.watch.keep())
        await asyncio.sleep(0.2)
        for n in range(4000):
            stand.hear(f'audit 200 192.0.2.7 "anna" POST /rest/v1/targets/{n}\n')
        stand.service.ear.flush()
        count = lambda: stand.service.store.one("select count(*) n from audit")["n"]
        assert count() == 4000
        for _ in range(100):
            await asyncio.sleep(0.1)
            if count() <= 1000:
                break
        watching.cancel()
        assert count() == 1000

    play(tmp_path, course, rows=1000, pause=0.05, every=1.0)


def test_an_event_has_a_number_of_its_own_also_after_pruning_and_a_restart(tmp_path):
    store = Store(str(tmp_path / "console.db"), rows=1000)
    for _ in range(5):
        last = store.next_event()
    store.prune()
    store.close()
    assert Store(str(tmp_path / "console.db")).next_event() == last + 1


def test_a_full_disk_is_told_and_answers_go_on(tmp_path):
    async def course(stand):
        await stand.look()
        stand.service.store.db.execute("pragma query_only=1")
        stand.desk.rollouts[0]["status"] = "paused"
        await stand.look(10)
        state = (await stand.get("/fwdesk/state?rollout=1"))[2]
        assert state["rollout"]["status"] == "paused" and "readonly" in state["kept"]
        assert state["events"][0]["kind"] == "paused"
        assert [way for way, _ in stand.service.history.waiting] == ["webhook 1"]
        stand.service.store.db.execute("pragma query_only=0")
        stand.service.store.prune()
        assert (await stand.get("/fwdesk/state"))[2]["kept"] is None

    play(tmp_path, course, webhooks=("http://127.0.0.1:9/",))


INSERT = "insert into device values(?,1,1,1,1)"


@pytest.mark.parametrize("known", [0, 3000])
def test_begun_on_a_full_disk_it_has_what_was_kept_and_keeps_again_once_there_is_room(
    tmp_path, monkeypatch, known
):
    path, count = tmp_path / "console.db", "select count(*) n from device"
    if known:
        store = Store(str(path))
        store.write([(INSERT, [(f"d{n}",) for n in range(known)])])
        last = store.next_event()
        store.prune()
        store.close()
    with full_disk():
        store = Store(str(path))
        assert not store.put_aside and store.one(count)["n"] == known
        assert store.next_event() == (last + 1 if known else 1)
        assert not store.do(INSERT, "new") and store.one(count)["n"] == known
        assert store.problem
        # tried again while it is full
        monkeypatch.setattr(records, "AGAIN", -1.0)
        assert not store.do(INSERT, "new") and store.problem
    assert store.do(INSERT, "new") and not store.problem
    assert store.one(count)["n"] == known + 1
    store.close()
    assert Store(str(path)).one(count)["n"] == known + 1
    assert not list(tmp_path.glob("*.aside-*"))


def test_begun_on_a_full_disk_the_console_answers_and_tells_it(tmp_path):
    async def course(stand):
        await stand.look()
        stand.service.store.write([(INSERT, [(f"d{n}",) for n in range(3000)])])
        with full_disk():
            await stand.anew()
            stand.desk.rollouts[0]["status"] = "paused"
            await stand.look(10)
            stand.service._look_at_records()
            state = (await stand.get("/fwdesk/state?rollout=1"))[2]
            assert state["rollout"]["status"] == "paused" and state["kept"]
            assert state["events"][0]["kind"] == "paused"
            assert "what is seen isn't kept" in stand.words("console")
            assert len(stand.service.history.waiting) == 2

    play(tmp_path, course, webhooks=("http://127.0.0.1:9/",))
