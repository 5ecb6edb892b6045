"""Steers a rollout: start, pause, resume, trigger (its next group), approve, deny.

    fwdesk-ctl start|pause|resume|trigger|approve|deny ROLLOUT [--unless-open] [--json]

Of several open actions a device is offered the oldest. So `start` says which members have one of another
rollout, which they are handed first; with --unless-open it then starts nothing. `cancel-open` takes it back.
`pause` withdraws no offer: who has it open may still install it.

`trigger` reads first which group comes next, and says afterwards which one was started. Where the answer to an order
is lost, look before you press again: a second `trigger` would start one group more."""
import json
import sys

from fwdesk_ctl import rollout as rollouts
from fwdesk_ctl.rollout import is_begun, open_of
from fwdesk_ctl.errors import NotDone, Refused, Unreached
from fwdesk_ctl.terminal import make_printable


def options(parser):
    parser.add_argument("rollout", metavar="ROLLOUT", type=int)
    parser.add_argument(
        "--unless-open",
        action="store_true",
        help="of start: not where a member has an older one open",
    )
    parser.add_argument("--json", action="store_true", help="tell the rollout as it then is")


def members(desk, rollout):
    """The ids of a rollout's members."""
    groups = rollouts.groups_of(desk, rollout)
    paths = [f"/rest/v1/rollouts/{rollout}/deploygroups/{it['id']}/targets" for it in groups]
    return {it["controllerId"] for path in paths for it in desk.every(path)}


def older(desk, rollout):
    """A sentence for each rollout that some members have open actions of."""
    others = [it for it in desk.every("/rest/v1/rollouts") if it["status"] in ("running", "paused")]
    ours = members(desk, rollout) if others else set()
    for it in others:
        if count := sum(row["controllerid"] in ours for row in open_of(desk, it["id"])):
            yield make_printable(
                f"{count} of {len(ours)} are handed rollout {it['id']}, {it['name']}, first: cancel-open {it['id']}"
            )


def look_with(order):
    return rollouts.look_with(order.rollout)


def start_next_group(desk, rollout, looks_back):
    """Starts the group that comes next: says before which one that is, and afterwards which were started since. That
    are several where another operator, or the success of a group, started one in the same moment.
    """
    before = rollouts.groups_of(desk, rollout)
    waiting = [it for it in before if not is_begun(it)]
    if waiting:
        meant = f"group {waiting[0]['id']} of {len(before)}, {waiting[0]['size']} devices"
        print(f"rollout {rollout}: next is {meant}", file=sys.stderr, flush=True)
    desk.post(f"/rest/v1/rollouts/{rollout}/triggerNextGroup")
    if looks_back:
        tell_started(desk, rollout, {it["id"] for it in waiting})


def tell_started(desk, rollout, waited):
    """Says which of the groups that waited are started now. The command is done, whether that can be read or not."""
    try:
        groups = rollouts.groups_of(desk, rollout)
    except (Refused, Unreached) as error:
        print(
            f"rollout {rollout}: done; which group was started can't be read: {error}",
            file=sys.stderr,
        )
        return
    started = [it for it in groups if is_begun(it) and it["id"] in waited]
    for group in started:
        print(f"rollout {rollout}: started group {group['id']} of {len(groups)}", file=sys.stderr)
    if len(started) > 1:
        print(
            f"rollout {rollout}: {len(started)} groups were started in one moment", file=sys.stderr
        )


def run(desk, order):
    sentences = list(older(desk, order.rollout)) if order.verb == "start" else []
    for it in sentences:
        print(it, file=sys.stderr)
    if sentences and order.unless_open:
        raise NotDone(f"rollout {order.rollout} isn't started")
    if order.verb == "trigger":
        # an order for later is over once it is sent
        start_next_group(desk, order.rollout, not getattr(order, "is_scheduled", False))
    else:
        desk.post(f"/rest/v1/rollouts/{order.rollout}/{order.verb}")
    if order.json:
        print(json.dumps(desk.get(f"/rest/v1/rollouts/{order.rollout}")))
