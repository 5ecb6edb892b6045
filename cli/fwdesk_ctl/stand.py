"""Whether a rollout stands still, and what is said of it: how many have reported no result, how many are needed, and what
to do. A rollout of which a group waits for devices that never report stays `running` for ever."""
from collections.abc import Sequence

STANDS = 7  # the status of `wait` where the rollout stands still
BEGUN = ("running", "error", "finished")


def needed_in(group: dict) -> int:
    """How many members have to succeed until the next group starts: the desk compares 100*ok with success*size."""
    return -(-group["success"] * group["size"] // 100)


def open_in(group: dict) -> int:
    """How many members of a group have an offer and no result."""
    if group["status"] not in BEGUN:
        return 0
    return group["size"] - group["ok"] - group["bad"] - group["gone"]


def counts_of(rollout: dict, groups: Sequence[dict]) -> list:
    """What changes while a rollout goes on."""
    counts = [[it["status"], it["ok"], it["bad"], it["gone"]] for it in groups]
    return [rollout["status"], *counts]


def hours_in(seconds: float) -> str:
    """A time in words: 24 hours, 90 minutes, 2 seconds."""
    for size, word in ((3600, "hour"), (60, "minute"), (1, "second")):
        if seconds >= 2 * size or size == 1 or (seconds >= size and seconds % size == 0):
            count = round(seconds / size)
            return f"{count} {word}{'s'[:count != 1]}"
    return ""


def sentence(rollout: dict, groups: Sequence[dict], seconds: float) -> str:
    """Why a rollout stands still, and what to do, in a line."""
    number, begun = rollout["id"], [it for it in groups if it["status"] in BEGUN]
    last, waiting = begun[-1] if begun else None, sum(map(open_in, begun))
    cancel = f"fwdesk-ctl cancel-open {number}"
    if not last:
        return f"rollout {number}: no group has begun"
    if last["ok"] >= needed_in(last):
        return (
            f"rollout {number}: {waiting} of {rollout['totalTargets']} have reported no result for "
            f"{hours_in(seconds)}; it ends once they have, or are canceled: {cancel}"
        )
    more = f"fwdesk-ctl trigger {number} starts the next group, " if last is not groups[-1] else ""
    return (
        f"rollout {number}, group {last['id']}: {open_in(last)} of {last['size']} have reported no result for "
        f"{hours_in(seconds)}; {needed_in(last)} are needed, {last['ok']} succeeded: {more}{cancel} "
        "gives up those that are open"
    )
