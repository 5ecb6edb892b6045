"""Waits until a rollout ends or stands still, and says by its status how.

    fwdesk-ctl wait ROLLOUT [--timeout SECONDS] [--every SECONDS] [--patience SECONDS] [--stands SECONDS] [--json]

Status 0: it is finished. 3: it is paused, told at once, so that a pipeline fails. 5: it is denied. 4: none of these
came within --timeout (default: no limit). 7: it stands still: it runs, and no device has reported a result for --stands
(default: 86400, a day; 0: never); told are how many are open, how many are needed, and what to do. 6: nobody answered
for --patience (default: 300); until then a server that is away, as in an upgrade, is asked again. Each change is told on
standard error. A rollout that is finished may have failed devices: --json tells the rollout and its groups as they then
are."""
import json
import sys
import time

from fwdesk_ctl.errors import DENIED, DONE, LATE, PAUSED, Refused, Unreached
from fwdesk_ctl.stand import STANDS, counts_of, sentence

ENDS = {"finished": DONE, "paused": PAUSED, "approval_denied": DENIED}
AWAY = (500, 502, 503, 504)


def options(parser):
    parser.add_argument("rollout", metavar="ROLLOUT", type=int)
    parser.add_argument("--timeout", metavar="SECONDS", type=float)
    parser.add_argument(
        "--every", metavar="SECONDS", type=float, default=5, help="between two looks (default: 5)"
    )
    parser.add_argument("--patience", metavar="SECONDS", type=float, default=300)
    parser.add_argument("--stands", metavar="SECONDS", type=float, default=86_400)
    parser.add_argument("--json", action="store_true")


def line(rollout, groups):
    """How far it is, in a line."""
    begun = [it for it in groups if it["status"] not in ("ready", "scheduled")]
    counts = (
        f"group {it['id']} {it['status']}: {it['ok']} ok, {it['bad']} bad of {it['size']}"
        for it in begun[-1:]
    )
    return ", ".join([f"rollout {rollout['id']} {rollout['status']}", *counts])


def look(desk, number):
    """The rollout and its groups; the connection is left to others."""
    path = f"/rest/v1/rollouts/{number}"
    seen = desk.get(path), desk.every(f"{path}/deploygroups")
    desk.close()
    return seen


def run(desk, order):
    began = answered = changed = time.monotonic()
    told, counts = "", None
    while True:
        try:
            rollout, groups = look(desk, order.rollout)
            answered = time.monotonic()
            if (said := line(rollout, groups)) != told:
                print(said, file=sys.stderr, flush=True)
            told = said
            if counts != (counts := counts_of(rollout, groups)):
                changed = answered
            stands = rollout["status"] == "running" and 0 < order.stands <= answered - changed
            if stands:
                print(sentence(rollout, groups, answered - changed), file=sys.stderr)
            if stands or rollout["status"] in ENDS:
                break
        except (Refused, Unreached) as error:
            away = isinstance(error, Unreached) or error.status in AWAY
            if not away or time.monotonic() - answered >= order.patience:
                raise
        left = order.every if order.timeout is None else began + order.timeout - time.monotonic()
        if left <= 0:
            return LATE
        time.sleep(min(order.every, left))
    if order.json:
        print(json.dumps({"rollout": rollout, "groups": groups}))
    return STANDS if stands else ENDS[rollout["status"]]
