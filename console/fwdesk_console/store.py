"""The console's own records, in SQLite. To lose them loses history, never a state: what is, is looked at anew."""
import json
import logging
import secrets
import sqlite3
import time
from collections.abc import Sequence
from pathlib import Path
from typing import Any

from .texts import clean

Row = dict[str, Any]
Writes = Sequence[tuple[str, Sequence[Sequence[Any]]]]

VERSION = 1
SCHEMA = """
create table meta(key text primary key, value text) without rowid;
create table audit(id integer primary key, at real, status int, address text, who text, method text, path text);
create table event(id integer primary key, at real, kind text, rollout int, grp int, who text, parts text, more text);
create table rollout(id integer primary key, status text, since real, seen_from real, sums text, changed real,
  still int, tabled text, acts text);
create table device(id text primary key, dset int, rollout int, action int, at real) without rowid;
create table report(device text, action int, at real, primary key(device, action)) without rowid;
create table outbox(id integer primary key, way text, event int, tries int, due real);
create index event_rollout on event(rollout, id);
create index report_at on report(at);
create index audit_refused on audit(id) where status >= 400;
"""
# what SQLite says of a disk that is full, broken or not to be written to: the file itself may be whole
OF_DISK = (
    sqlite3.SQLITE_FULL,
    sqlite3.SQLITE_IOERR,
    sqlite3.SQLITE_CANTOPEN,
    sqlite3.SQLITE_READONLY,
    sqlite3.SQLITE_BUSY,
)
AGAIN = 5.0  # seconds between two tries to open a file that the disk refused
REFUSED_PART = 4  # what was refused may fill a quarter of the audit, so that guesses don't push out what was done


def is_of_disk(error: Exception) -> bool:
    """Whether the disk refuses, and not what the file has."""
    return getattr(error, "sqlite_errorcode", 0) & 0xFF in OF_DISK


def create(db: sqlite3.Connection) -> None:
    """The tables of a file that is new, all or none."""
    about = f"('name', '{secrets.token_hex(6)}'), ('begun', '{time.time()}')"
    tables = f"{SCHEMA} insert into meta values {about};"
    db.executescript(f"begin; {tables} pragma user_version={VERSION}; commit;")


def check(db: sqlite3.Connection) -> None:
    """Refuses a file that can't be used."""
    found = int(db.execute("pragma user_version").fetchone()[0])
    if found != VERSION:
        raise ValueError(f"it is of version {found}, and {VERSION} is read")
    if (told := db.execute("pragma quick_check(1)").fetchone()[0]) != "ok":
        raise sqlite3.DatabaseError(told)
    if not db.execute("select value from meta where key='name'").fetchone():
        raise sqlite3.DatabaseError("it has no name")


class Store:
    """Writes whole or not at all. Where the disk refuses it is said, kept in `problem`, and the console goes on."""

    def __init__(self, path: str, rows: int = 100_000):
        self.path, self.rows, self.problem, self.put_aside = path, rows, "", ""
        self.grown = 0  # rows written since the last pruning
        self._said = -1e9
        self._refusal, self._tried = "", 0.0  # of the disk, to open the file
        self._event = 0
        try:
            self.db = self._begin()
        except sqlite3.Error as error:
            if not is_of_disk(error):
                raise
            self._refusal, self._tried = str(error), time.monotonic()
            self.problem = self._refusal
            logging.error("%s can't be opened (%s): nothing is kept", path, clean(self._refusal))
            self.db = self._open_nothing()
        self._note_numbers()

    def _begin(self) -> sqlite3.Connection:
        """The file, or a new one where it can't be used."""
        try:
            return self._open()
        except (sqlite3.DatabaseError, ValueError) as error:
            if is_of_disk(error):
                # a full disk has no room for the log's index, a file that is done without here
                return self._open("exclusive")
            self._move_aside(str(error))
        return self._open()

    def _note_numbers(self) -> None:
        self.name = str(self.one("select value from meta where key='name'")["value"])
        kept = self.all("select value from meta where key='event'")
        last = int(self.one("select coalesce(max(id), 0) n from event")["n"])
        self._event = max([self._event, last, *(int(it["value"]) for it in kept)])

    def _open(self, locking: str = "normal") -> sqlite3.Connection:
        db = sqlite3.connect(self.path, isolation_level=None, timeout=1)
        try:
            db.row_factory = sqlite3.Row
            db.execute(f"pragma locking_mode={locking}")
            db.execute("pragma journal_mode=wal")
            db.execute("pragma synchronous=normal")
            db.execute("pragma trusted_schema=off")
            found = int(db.execute("pragma user_version").fetchone()[0])
            if found == 0 and not db.execute("select count(*) from sqlite_master").fetchone()[0]:
                create(db)
            check(db)
            return db
        except BaseException:
            db.close()
            raise

    @staticmethod
    def _open_nothing() -> sqlite3.Connection:
        """Tables without a row, which take none."""
        db = sqlite3.connect(":memory:", isolation_level=None)
        db.row_factory = sqlite3.Row
        create(db)
        db.execute("pragma query_only=1")
        return db

    def _is_open(self) -> bool:
        """Whether the file is open; where the disk refused it is tried again now and again."""
        if self._refusal and time.monotonic() - self._tried > AGAIN:
            self._tried = time.monotonic()
            try:
                opened = self._begin()
            except sqlite3.Error as error:
                self._refusal = str(error)
                return False
            self.db.close()
            self.db, self._refusal = opened, ""
            self._note_numbers()
        return not self._refusal

    def _move_aside(self, why: str) -> None:
        """The file of before stays, beside: with a time in its name, and with what SQLite has beside it."""
        self.put_aside = f"{self.path}.aside-{int(time.time())}"
        said = clean(why)  # SQLite says some things in several lines
        logging.error("%s can't be used (%s): it is put aside, and begun anew", self.path, said)
        for it in ("", "-wal", "-shm"):
            if Path(self.path + it).exists():
                Path(self.path + it).rename(self.put_aside + it)

    def close(self) -> None:
        self.db.close()

    def next_event(self) -> int:
        """The number of the next event; each is given once, also where the disk is full."""
        self._event += 1
        return self._event

    def write(self, writes: Writes) -> bool:
        """All of it, or nothing; whether it is kept."""
        if not self._is_open():
            self.problem = self._refusal
            return False
        try:
            before = self.db.total_changes
            self.db.execute("begin immediate")
            for sql, rows in writes:
                self.db.executemany(sql, rows)
            self.db.execute("commit")
        except sqlite3.Error as error:
            if self.db.in_transaction:
                self.db.execute("rollback")
            self.problem = str(error)
            if time.monotonic() - self._said > 60:
                self._said = time.monotonic()
                logging.error("%s: not kept: %s", self.path, error)
            return False
        if self.db.total_changes > before:  # what changes nothing is taken by a full disk too
            self.problem = ""
            self.grown += self.db.total_changes - before
        return True

    def do(self, sql: str, *values: Any) -> bool:
        return self.write([(sql, [values])])

    def all(self, sql: str, *values: Any) -> list[Row]:
        return [dict(it) for it in self.db.execute(sql, values)]

    def one(self, sql: str, *values: Any) -> Row:
        """The first row; there has to be one."""
        return self.all(sql, *values)[0]

    def events(self, where: str, *values: Any) -> list[Row]:
        rows = self.all(
            f'select id,at,kind,rollout,grp as "group",who,parts,more from event {where}', *values
        )
        return [
            {**it, "parts": json.loads(it["parts"]), "more": json.loads(it["more"])} for it in rows
        ]

    def prune(self) -> None:
        """Keeps so many rows of each kind, the newest. It is time for it at the latest once a tenth of them was written."""
        oldest = "(select id from {0} order by id desc limit 1 offset {1})"
        refused = f"(select id from audit where status >= 400 order by id desc limit 1 offset {self.rows // REFUSED_PART})"
        self.write(
            [
                (f"delete from audit where status >= 400 and id <= {refused}", [()]),
                *(
                    (f"delete from {it} where id <= {oldest.format(it, self.rows)}", [()])
                    for it in ("audit", "event", "outbox")
                ),
                (
                    "delete from report where at <= (select at from report order by at desc limit 1 "
                    f"offset {self.rows})",
                    [()],
                ),
                ("insert or replace into meta values('event', ?)", [(str(self._event),)]),
            ]
        )
        self.grown = 0

    def is_to_prune(self) -> bool:
        return self.grown > self.rows // 10
