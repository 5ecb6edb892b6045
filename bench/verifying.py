"""The verify part of `run`: what `fwdesk verify` takes above an order that opens the same file and shows little,
`report`.

Each desk is a file that the program made, filled by the system's SQLite with rows that agree. Both orders are run by
turns, and the least of their processor times is taken, so that a busy machine changes little. Less that of `report`,
`verify` is held to a share of it.
"""
import hashlib
import os
import random
import sqlite3
import subprocess
import tempfile
from dataclasses import dataclass

KINDS = [  # how an action ends: its share, its outcome, and the kinds and words of its history
    (0.60, 1, [(0, 0), (0, 2), (0, 3)]),
    (0.70, 2, [(0, 0), (0, 4)]),
    (0.75, 3, [(0, 0), (1, 5), (1, 3)]),
    (0.80, 3, [(0, 0)]),
    (1.00, 0, [(0, 0)]),
]


@dataclass(frozen=True)
class Full:
    """How full a desk is: artifacts of 1 MiB, rollouts of so many members in groups,
    of which the last rollout's last one waits.

    Or all groups are started, and nobody has said anything, so that each member is offered its action.
    """

    name: str
    artifacts: int
    rollouts: int
    members: int
    groups: int = 2
    is_offered: bool = False

    def is_started(self, rollout, group):
        return self.is_offered or rollout < self.rollouts or group < self.groups

    def last_place(self, group):
        return self.members * group // self.groups


SMALL = Full("small: 2 rollouts of 5", 1, 2, 5)
HALF = Full("10 rollouts of 10,000, 50 artifacts", 50, 10, 10_000)
WHOLE = Full("20 rollouts of 10,000, 100 artifacts", 100, 20, 10_000)
OFFERS = Full("10,000 offers in 50 groups", 1, 1, 10_000, 50, True)
CONTENTS = Full("256 artifacts", 256, 1, 2)
# what is asked: of the seconds and MiB above `report`, and of the share of the opening
BOUNDS = {
    SMALL: ("10 ms", lambda above, share, more: above <= 0.010),
    HALF: ("", None),
    WHOLE: ("0.7 of the opening, 20 MiB", lambda above, share, more: share <= 0.7 and more <= 20),
    OFFERS: ("1.0 of the opening", lambda above, share, more: share <= 1.0),
    CONTENTS: ("a piece of 64 KiB, beside 1 MiB", lambda above, share, more: more <= 1.0625),
}


def run_order(program, words):
    """Seconds of processor time, and the peak memory in KiB."""
    child = subprocess.Popen([*program.split(), *words], stdout=subprocess.PIPE)
    told = child.stdout.read()
    _, status, used = os.wait4(child.pid, 0)
    child.returncode = os.waitstatus_to_exitcode(status)
    if child.returncode or (words[0] == "verify" and told != b"ok\n"):
        raise SystemExit(f"{program} {words}: {told[:200]}")
    return used.ru_utime + used.ru_stime, used.ru_maxrss


def fill(path, full):
    """Fills a new desk with rows that agree."""
    db = sqlite3.connect(path, isolation_level=None)
    db.execute("PRAGMA synchronous=OFF")
    db.execute("BEGIN")
    db.executemany(
        "INSERT INTO module VALUES (?,?,?,?)", [(k, f"app-{k}", "os", "1") for k in range(1, 1001)]
    )
    db.execute("INSERT INTO dset VALUES (1,'r1','1')")
    db.execute("INSERT INTO set_module VALUES (1,1,1)")
    for k in range(1, full.artifacts + 1):
        contents = random.Random(k).randbytes(1 << 20)
        db.execute(
            "INSERT INTO artifact VALUES (?,?,?,?,?)",
            (k, k, f"f{k}.bin", len(contents), hashlib.sha256(contents).digest()),
        )
        db.executemany(
            "INSERT INTO piece VALUES (?,?,?)",
            [(k, s + 1, contents[s << 16 : (s + 1) << 16]) for s in range(16)],
        )
    ids = [f"dev-{k:06d}" for k in range(1, full.members + 1)]
    db.executemany(
        "INSERT INTO target VALUES (?,'Valve',?)",
        [(it, hashlib.sha256(it.encode()).digest()) for it in ids],
    )
    chance, offers, number = random.Random(7), {}, 0
    for rollout in range(1, full.rollouts + 1):
        number = fill_rollout(db, full, rollout, ids, chance, offers, number)
    db.executemany("INSERT INTO offer VALUES (?,?,0)", sorted(offers.items()))
    db.execute("COMMIT")
    db.execute("PRAGMA wal_checkpoint(TRUNCATE)")
    db.close()


def fill_rollout(db, full, rollout, ids, chance, offers, number):
    """One started rollout with its actions and their histories; answers the number of its last action."""
    counts, group = {}, 1
    db.execute(
        "INSERT INTO rollout VALUES (?,?,1,'name==*',?,50,100,1,1,0)",
        (rollout, f"ro{rollout}", full.groups),
    )
    db.executemany(
        "INSERT INTO member VALUES (?,?,?)",
        [(rollout, place, it) for place, it in enumerate(ids, 1)],
    )
    for place, it in enumerate(ids, 1):
        number += 1
        group += place > full.last_place(group)
        started = full.is_started(rollout, group)
        drawn = chance.random()
        speaks = started and not full.is_offered
        outcome, said = (
            next((o, es) for share, o, es in KINDS if drawn < share) if speaks else (0, [])
        )
        counts[group, outcome] = counts.get((group, outcome), 0) + 1
        if started and not outcome:
            offers.setdefault(it, number)
        notes = sum(word < 3 for _, word in said)
        db.execute(
            "INSERT INTO action VALUES (?,?,?,?,0,?,?,?)",
            (number, rollout, place, it, outcome, notes, len(said)),
        )
        db.executemany(
            "INSERT INTO feedback VALUES (?,?,?,?,'')",
            [(number, s, kind, word) for s, (kind, word) in enumerate(said, 1)],
        )
    for group in range(1, full.groups + 1):
        places = full.last_place(group - 1) + 1, full.last_place(group)
        ended = [counts.get((group, outcome), 0) for outcome in (1, 2, 3)]
        db.execute(
            "INSERT INTO rollout_group VALUES (?,?,?,?,?,?,?,?)",
            (rollout, group, *places, full.is_started(rollout, group), *ended),
        )
        db.execute("INSERT INTO group_rule VALUES (?,?,NULL,50,100)", (rollout, group))
    return number


def run(program, folder, turns):
    """Makes each desk, runs both orders over it, and prints a table."""
    print(
        f"\nverify, beside an order that opens the same file; least of {turns} turns, processor seconds"
    )
    print(f"{'':38} {'report':>8} {'verify':>8} {'above':>8} {'share':>6} {'MiB above':>10}")
    for full, (bound, is_met) in BOUNDS.items():
        with tempfile.TemporaryDirectory(dir=folder) as place:
            path = f"{place}/desk.db"
            subprocess.run(
                [*program.split(), "run", "--db", path, "--interface", "mgmt"],
                stdin=subprocess.DEVNULL,
                check=True,
            )
            fill(path, full)
            orders = [["report", "--db", path, "--rollout", "1"], ["verify", "--db", path]]
            taken = [[run_order(program, order) for order in orders] for _ in range(turns)]
            opening, verifying = (min(it[k][0] for it in taken) for k in (0, 1))
            more = (max(it[1][1] for it in taken) - max(it[0][1] for it in taken)) / 1024
            share = (verifying - opening) / opening
            met = (
                f"{bound}: {'met' if is_met(verifying - opening, share, more) else 'not met'}"
                if is_met
                else ""
            )
            print(
                f"{full.name:38} {opening:8.3f} {verifying:8.3f} {verifying - opening:8.3f} {share:6.2f} "
                f"{more:10.1f}  {met}"
            )
