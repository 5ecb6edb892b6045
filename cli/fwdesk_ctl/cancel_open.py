"""Cancels the open actions of a rollout, or of one of its groups.

    fwdesk-ctl cancel-open ROLLOUT [--group N] [--force] [--pause]

Before a rollout that mends another, cancel what the other left open: of several open actions a device is offered
the oldest. Each device is asked to give its action up, which it does at its next poll. With --force it isn't waited
for: the action ends at once, and what the device does all the same isn't counted. A rollout that runs may start a
group meanwhile: --pause pauses it first. Progress is on standard error. It may be interrupted: begun again, it
takes what is still open. Status 1 where something is left."""
import sys

from fwdesk_ctl.bulk import each, target
from fwdesk_ctl.rollout import open_of
from fwdesk_ctl.errors import NotDone, Refused

ROUNDS = 3
ENDED = ("wrong_state", "closed_action")


def options(parser):
    parser.add_argument("rollout", metavar="ROLLOUT", type=int)
    parser.add_argument("--group", metavar="N", type=int)
    parser.add_argument("--force", action="store_true")
    parser.add_argument("--pause", action="store_true")


def still(desk, order):
    """What is to be canceled yet: a device that has been asked is asked again only by force."""
    rows = open_of(desk, order.rollout, order.group)
    return [it for it in rows if order.force or it["state"] == "running"]


def cancel(desk, row, force):
    """Cancels one; the device may have ended it in the meantime, or somebody else asked."""
    path = target(row["controllerid"], "actions", row["action"])
    steps = [{}] * (row["state"] == "running") + [{"force": "true"}] * force
    for it in steps:
        try:
            desk.ask("DELETE", path, **it)
        except Refused as refusal:
            if refusal.name not in ENDED:
                raise


def run(desk, order):
    path = f"/rest/v1/rollouts/{order.rollout}"
    rollout = desk.get(path)
    if order.group is not None:
        desk.get(f"{path}/deploygroups/{order.group}")
    if rollout["status"] == "running" and order.pause:
        desk.post(f"{path}/pause")
    elif rollout["status"] == "running":
        print(
            f"rollout {order.rollout} runs, and may start a group meanwhile: --pause",
            file=sys.stderr,
        )
    for _ in range(ROUNDS):
        rows = still(desk, order)
        each(
            "canceled",
            rows,
            lambda it: it["controllerid"],
            lambda it: cancel(desk, it, order.force),
        )
        if not rows:
            return
    if left := still(desk, order):
        raise NotDone(f"{len(left)} are open yet")
