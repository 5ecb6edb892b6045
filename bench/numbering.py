"""The numbers part of `run`: feedback with a number beside the same feedback without one,
of one program over two copies of a file.

Both copies stand open at the same time and take turns every ten requests, as those of the rollouts do (rollouts.py).
The least of the turns counts. Where a program of before is named, which knows no numbers, it takes turns with them over
a third copy. The file is of version 2, so that both programs open it.
"""
import os
import sqlite3
import tempfile

import desk
import rollouts

# what is asked of feedback with a number, beside the same without one, and of which rows
ASKED = 1.1
FIRST, SECOND, LAST, OUTCOME = BOUND = (
    "the first note of an action",
    "its second note",
    "its 99th note",
    "the outcome behind two notes",
)
FLEET = rollouts.THOUSAND
FEW, MANY = range(1, 101), range(101, 121)
WITHOUT, WITH, BEFORE = "without", "with", "before"
OLD = desk.reply("410 Gone", '{"error":"old_number","number":22}')


def history(device, count, has_numbers):
    """The request for all notes of a device's action, and the reply to it."""
    numbered = (f',"number":{it}' if has_numbers else "" for it in range(1, count + 1))
    said = '"details":["at work"],"execution":"proceeding","finished":"none"'
    content = (
        f'{{{said},"id":{place},"kind":"deployment"{it}}}' for place, it in enumerate(numbered, 1)
    )
    path = f"/rest/v1/targets/{desk.target(device)[0]}/actions/{device}/status?limit=500"
    body = f'{{"content":[{",".join(content)}],"size":{count},"total":{count}}}'
    return f"GET {path} HTTP/1.1\r\n\r\n".encode(), desk.reply("200 OK", body)


def measure(sides, take):
    """Takes what the sides need for feedback of each kind, all of them or the one with numbers alone."""

    def asked(pair_of, devices):
        """Seconds for a request of each of the devices, which is told by the device and by whether it has a number."""
        return sides.ask_each(
            {name: [pair_of(it, name == WITH) for it in devices] for name in sides.asked}
        )

    def reported(report, given, devices):
        return asked(
            lambda it, has_number: (report(it, it, given if has_number else None), rollouts.DONE),
            devices,
        )

    def numbered(given, reply):
        return sides.ask_each({WITH: [(rollouts.noting(it, it, given), reply) for it in MANY]})

    sides.ask_all(rollouts.polls(FLEET.targets, rollouts.WARM, rollouts.first_action(FLEET)))
    take(FIRST, reported(rollouts.noting, 1, FEW))
    take(SECOND, reported(rollouts.noting, 2, FEW))
    for given in range(1, 99):
        reported(rollouts.noting, given, MANY)
    take(LAST, reported(rollouts.noting, 99, MANY))
    take(OUTCOME, reported(rollouts.ending, 3, FEW))
    take("the same outcome again", reported(rollouts.ending, 3, FEW))
    take(
        "the history of 99 notes", asked(lambda it, has_numbers: history(it, 99, has_numbers), MANY)
    )
    take("the last note again", numbered(99, rollouts.DONE))
    take("a note that comes late", numbered(98, OLD))


def master_of(folder):
    """The fleet's file, of version 2."""
    path = os.path.join(folder, "numbers.db")
    FLEET.make(path)
    db = sqlite3.connect(path, isolation_level=None)
    db.executescript(
        "DROP TABLE feedback_number; UPDATE desk SET version = 2; PRAGMA wal_checkpoint(TRUNCATE)"
    )
    db.close()
    return path


def ratio_of(least, one, other, bound=None):
    """One figure beside the other, and whether the bound is met."""
    if one not in least or other not in least:
        return ""
    ratio = least[one] / least[other]
    met = f", {bound}: {'met' if ratio <= bound else 'NOT MET'}" if bound else ""
    return f"{ratio:.2f}{met}"


def print_table(title, taken):
    """A row to each kind of feedback."""
    print(
        f"\n{title}\n\n| | without (us) | with (us) | ratio, asked | before (us) | without beside before |\n"
        "|---|---|---|---|---|---|"
    )
    for row, turns in taken.items():
        least = {name: 1e6 * min(it[name] for it in turns) for name in turns[0]}
        without, given, before = (
            f"{least[name]:.0f}" if name in least else "" for name in (WITHOUT, WITH, BEFORE)
        )
        ratio = ratio_of(least, WITH, WITHOUT, ASKED if row in BOUND else None)
        print(
            f"| {row} | {without} | {given} | {ratio} | {before} | {ratio_of(least, WITHOUT, BEFORE)} |"
        )


def run(program, folders, turns, before=None):
    """Measures and prints, in each of the folders."""
    programs = {WITHOUT: program, WITH: program, **({BEFORE: before} if before else {})}
    for folder in folders:
        taken = {}
        with tempfile.TemporaryDirectory(dir=folder) as place:
            master = master_of(place)
            for _ in range(turns):
                with rollouts.Sides(place, master, programs, None) as sides:
                    measure(sides, lambda row, seconds: taken.setdefault(row, []).append(seconds))
        print_table(
            f"Feedback with and without numbers, in {folder}; each the least of {turns} turns' medians",
            taken,
        )
