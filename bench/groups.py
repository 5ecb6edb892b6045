"""The groups part of `run`: rollouts whose groups are defined one by one beside even ones, and older files,
which the program migrates.

A full file of version 1 is made by the system's SQLite, with the texts that a kept case has, and once migrated by the
program; one of version 2 is the migrated one without what version 3 has more. The files are opened by turns, each time
as a copy, by the order that shows little, `report`.
"""
import hashlib
import os
import shutil
import sqlite3
import tempfile

import desk
import rollouts
from verifying import run_order

TARGETS, ROLLOUTS, GROUPS, MEMBERS = 10_000, 1000, 50, 50
# of each of the groups, so that they are of nearly one size
PERCENTAGES = tuple(100 // left for left in range(GROUPS, 0, -1))
# what is asked at most: of a rollout beside an even one, and of an opening beside that of the migrated file
CREATING, MIGRATING = 1.2, 1.5
# a case of a file of version 1, row by row
KEPT = os.path.join(desk.HERE, "..", "tests", "wire", "database", "of_version_1_ten_devices.case")


def told(ratio, bound):
    """The bound, and whether it is met."""
    return f"{bound}: {'met' if ratio <= bound else 'NOT MET'}"


# ---- creating


def create(folder, programs, turns):
    """The seconds of each program for rollouts in even groups and for ones in defined groups,
    by turns over the same file."""
    taken = {name: ([], []) for name in programs}
    master = os.path.join(folder, "ready.db")
    rollouts.READY.make(master)
    with rollouts.Sides(folder, master, programs, None) as sides:
        sides.ask_all(rollouts.polls(TARGETS, rollouts.WARM, lambda _: 0))
        for number in range(1, 2 * turns + 1):
            is_defined = number % 2 == 0
            plan = rollouts.Plan(number, GROUPS, percentages=PERCENTAGES if is_defined else ())
            for name, seconds in sides.ask_all([(plan.creating(), plan.created(TARGETS))]).items():
                taken[name][is_defined].append(seconds)
    return taken


def print_creating(taken, turns):
    """The table of what was created."""
    print(f"\nCreateRollout of {TARGETS} members in {GROUPS} groups; least of {turns} turns\n")
    print("| | even (ms) | defined one by one (ms) | ratio | asked |\n|---|---|---|---|---|")
    for name, (even, defined) in taken.items():
        ratio = min(defined) / min(even)
        print(
            f"| {name} | {1000 * min(even):.1f} | {1000 * min(defined):.1f} | {ratio:.2f} | "
            f"{told(ratio, CREATING) if name == 'fwdesk' else ''} |"
        )


# ---- migrating


def texts_of_version_1():
    """The texts that make the tables of version 1."""
    with open(KEPT, encoding="utf-8") as lines:
        return [line.removeprefix("sql ") for line in lines if line.startswith("sql CREATE TABLE ")]


def fill_rollout(db, rollout, ids, is_started):
    """A rollout of the targets of these ids, of which each is a group; its first group is started, or none is."""
    db.execute(
        "INSERT INTO rollout VALUES (?,?,1,'name==*',?,50,100,1,?,0)",
        (rollout, f"ro{rollout}", GROUPS, is_started),
    )
    places = list(enumerate(ids, 1))
    db.executemany(
        "INSERT INTO member VALUES (?,?,?)", [(rollout, place, it) for place, it in places]
    )
    db.executemany(
        "INSERT INTO rollout_group VALUES (?,?,?,?,?,0,0,0)",
        [(rollout, k, k, k, is_started and k == 1) for k in range(1, GROUPS + 1)],
    )
    if is_started:
        before = (rollout - 1) * MEMBERS
        db.executemany(
            "INSERT INTO action VALUES (?,?,?,?,0,0,0,0)",
            [(before + place, rollout, place, it) for place, it in places],
        )
        db.execute("INSERT INTO offer VALUES (?,?,0) ON CONFLICT DO NOTHING", (ids[0], before + 1))


def make_version_1(path, is_started):
    """A full file of version 1, of rollouts that are all started, or of which none is."""
    db = sqlite3.connect(path, isolation_level=None)
    db.execute("PRAGMA journal_mode=WAL")
    db.execute("PRAGMA synchronous=OFF")
    for text in texts_of_version_1():
        db.execute(text)
    db.execute("BEGIN")
    db.execute("INSERT INTO desk VALUES (1,'fwdesk',1,0)")
    db.execute("INSERT INTO module VALUES (1,'app','os','1')")
    db.execute("INSERT INTO dset VALUES (1,'r1','1')")
    db.execute("INSERT INTO set_module VALUES (1,1,1)")
    ids = [f"dev-{k:06d}" for k in range(1, TARGETS + 1)]
    db.executemany(
        "INSERT INTO target VALUES (?,'Valve',?)",
        [(it, hashlib.sha256(it.encode()).digest()) for it in ids],
    )
    for rollout in range(1, ROLLOUTS + 1):
        first = (rollout - 1) * MEMBERS % TARGETS
        fill_rollout(db, rollout, ids[first : first + MEMBERS], is_started)
    db.execute("COMMIT")
    close(db)


def close(db):
    """Closes a file that has all of its log."""
    db.execute("PRAGMA wal_checkpoint(TRUNCATE)")
    db.close()


def opened(program, path):
    """The processor seconds that an opening takes, and the MiB."""
    seconds, memory = run_order(program, ["report", "--db", path, "--rollout", "1"])
    return seconds, memory / 1024


def opened_copy(program, master):
    """The same of a copy of a file."""
    path = master + "-copy"
    desk.remove(path)
    shutil.copyfile(master, path)
    found = opened(program, path)
    desk.remove(path)
    return found


def migrated(program, old):
    """A copy of a file of version 1 that the program has migrated, which agrees, and whose groups all have the
    thresholds of their rollouts."""
    path = old + "-migrated"
    shutil.copyfile(old, path)
    opened(program, path)
    run_order(program, ["verify", "--db", path])
    db = sqlite3.connect(path, isolation_level=None)
    found = db.execute(
        "SELECT version, (SELECT count(*) FROM group_rule WHERE percentage IS NULL AND success = 50 AND "
        "error = 100) FROM desk"
    ).fetchall()
    whole = db.execute("PRAGMA integrity_check").fetchall()
    close(db)
    if found != [(3, ROLLOUTS * GROUPS)] or whole != [("ok",)]:
        raise SystemExit(
            f"{program}: a migrated file has version and rules {found}, integrity_check {whole}"
        )
    return path


def of_version_2(new):
    """A copy of a file of version 3 without numbers, as one of version 2."""
    path = new + "-2"
    shutil.copyfile(new, path)
    db = sqlite3.connect(path, isolation_level=None)
    db.executescript("DROP TABLE feedback_number; UPDATE desk SET version = 2")
    close(db)
    return path


def print_migrating(folder, program, turns):
    """The table of openings, a file to a row."""
    print(
        f"\nOpening and migrating older files, {ROLLOUTS} rollouts of {GROUPS} groups; "
        f"least of {turns} turns, processor seconds\n"
    )
    print(
        "| | migrated before (s) | MiB | of version | (s) | MiB | ratio | asked |\n|---|---|---|---|---|---|---|---|"
    )
    for called, is_started in ("none started", False), ("all started", True):
        old = os.path.join(folder, f"{is_started}.db")
        make_version_1(old, is_started)
        new = migrated(program, old)
        taken = [
            [opened_copy(program, path) for path in (new, old, of_version_2(new))]
            for _ in range(turns)
        ]
        (before, *after), (lean, *full) = (
            [kind(it[k][what] for it in taken) for k in range(3)]
            for what, kind in enumerate((min, max))
        )
        for version, (seconds, memory) in enumerate(zip(after, full), 1):
            ratio = seconds / before
            print(
                f"| {called} | {before:.2f} | {lean:.1f} | {version} | {seconds:.2f} | {memory:.1f} | {ratio:.2f} | "
                f"{told(ratio, MIGRATING)} |"
            )


def run(program, folder, turns):
    """Measures and prints."""
    with tempfile.TemporaryDirectory(dir=folder) as place:
        print_creating(create(place, {"fwdesk": program, "C": desk.TWIN}, turns), turns)
        print_migrating(place, program, turns)
