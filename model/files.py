"""Files: targets that are read from CSV, the report of a rollout, and the table of its actions."""
import hashlib

from . import texts
from .commands import TargetRow
from .csv_reader import records
from .refusals import Refused

HEADER = [b"controllerid", b"name", b"token", b"tags"]


def wrong(record, before):
    """Why a record is no target, or None."""
    if len(record) != 4:
        return f"it has {len(record)} fields"
    try:
        name, title, token, tags = [it.decode("utf-8") for it in record]
    except UnicodeDecodeError:
        return "it isn't UTF-8"
    tags = tags.split(" ") if tags else []
    rules = {
        f"{name!r} is no id": texts.is_word(name),
        f"{name} came before": name not in before,
        "the name breaks its rule": texts.is_text(title),
        "the token breaks its rule": texts.is_token(token),
        "a tag breaks its rule": all(map(texts.is_word, tags)),
        "a tag is repeated": len(set(tags)) == len(tags),
        f"it has {len(tags)} tags": len(tags) <= texts.TAGS,
    }
    return next((why for why, holds in rules.items() if not holds), None)


def row(record):
    name, title, token, tags = [it.decode() for it in record]
    return TargetRow(name, title, hashlib.sha256(token.encode()).hexdigest(), tuple(tags.split()))


def read_targets(text):
    """The rows of a file of targets. A fault is told by its record, of which the header is 1, and the whole file 0."""
    if not text.endswith(b"\n"):
        raise Refused(14, "the file is empty or doesn't end in a line feed", 0)
    found = records(text)
    if not found or found[0] != HEADER:
        raise Refused(14, "the first record isn't the header", 1)
    before = set()
    for number, record in enumerate(found[1:], 2):
        if why := wrong(record, before):
            raise Refused(14, f"record {number}: {why}", number)
        before.add(record[0].decode())
    return tuple(map(row, found[1:]))


def report(rollout, groups):
    """The report of a rollout, of the objects that show it and its groups."""
    word = rollout["status"]
    lines = [
        f"rollout {rollout['id']} {rollout['name']}",
        f"state {word}",
        "group  size    ok   bad  gone  open state",
    ]
    counts = [[it[what] for what in ("size", "ok", "bad", "gone")] for it in groups]
    counts = [[size, *final, size - sum(final)] for size, *final in counts]
    each = [(f"{it['id']:5}", numbers, it["status"]) for it, numbers in zip(groups, counts)]
    each.append(("total", map(sum, zip(*counts)), word))
    lines += [
        first + "".join(f"{it:6}" for it in numbers) + f" {last}" for first, numbers, last in each
    ]
    return "".join(f"{it}\n" for it in lines).encode()


def actions_table(actions):
    """A line an action, in order of numbers."""
    rows = [("action", "controllerid", "group", "state"), *actions]
    return "".join(",".join(map(str, it)) + "\n" for it in rows).encode()
