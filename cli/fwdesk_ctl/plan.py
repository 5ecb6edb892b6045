"""Plans a rollout, and tells its number. Nobody is offered anything before `start`.

    fwdesk-ctl plan NAME --set ID --filter TEXT --success P --error P (--groups N | --group P[,success=P][,error=P]..)
                    [--dry-run] [--reuse] [--json]

--success   the next group starts where so many percent of the last one succeeded
--error     the rollout pauses where so many percent of a group failed
--groups    so many groups, of which no two sizes differ by more than one
--group     one group, of so many percent of the members that the groups before it leave, rounded up; it may have
            thresholds of its own, as in --group 1,error=1 --group 10 --group 100; the last one is of 100 percent
--dry-run   only tells how many members each group would have
--reuse     a rollout of this name is told where it is there already, with this set and this filter"""
import argparse
import json

from fwdesk_ctl.rollout import sizes
from fwdesk_ctl.errors import NotDone, Wrong

PATH = "/rest/v1/rollouts"
OWN = {"success": "successCondition", "error": "errorCondition"}


def options(parser):
    parser.add_argument("name")
    parser.add_argument("--set", metavar="ID", type=int, required=True)
    parser.add_argument("--filter", metavar="TEXT", required=True)
    parser.add_argument("--success", metavar="P", type=percent, required=True)
    parser.add_argument("--error", metavar="P", type=percent, required=True)
    cut = parser.add_mutually_exclusive_group(required=True)
    cut.add_argument("--groups", metavar="N", type=int)
    cut.add_argument("--group", metavar="P,..", action="append", type=group)
    for it in ("--dry-run", "--reuse", "--json"):
        parser.add_argument(it, action="store_true")


def look_with(order):
    return "fwdesk-ctl rollouts, or the same order with --reuse"


def percent(text):
    if not text.isdecimal() or not 1 <= int(text) <= 100:
        raise argparse.ArgumentTypeError(f"{text!r} is no percentage from 1 to 100")
    return int(text)


def condition(value):
    return {"condition": "THRESHOLD", "expression": str(value)}


def group(text):
    """A group as the desk takes it."""
    first, *rest = text.split(",")
    own = [it.partition("=") for it in rest]
    if wrong := [key for key, _, _ in own if key not in OWN]:
        raise argparse.ArgumentTypeError(f"{wrong[0]!r} is neither success nor error")
    return {
        "targetPercentage": percent(first),
        **{OWN[key]: condition(percent(value)) for key, _, value in own},
    }


def body_of(order):
    """The rollout as the desk takes it."""
    if order.group and order.group[-1]["targetPercentage"] != 100:
        raise Wrong("the last --group is of 100 percent, so that no member is left out")
    plan = {"name": order.name, "distributionSetId": order.set, "targetFilterQuery": order.filter}
    plan |= {OWN[key]: condition(getattr(order, key)) for key in OWN}
    return plan | ({"amountGroups": order.groups} if order.groups else {"groups": order.group})


def run(desk, order):
    plan = body_of(order)
    if order.dry_run:
        members = desk.get("/rest/v1/targets", q=order.filter, limit=1)["total"]
        cut = sizes(members, order)
        print(
            json.dumps({"members": members, "groups": cut})
            if order.json
            else " ".join(map(str, cut))
        )
        return
    there = (
        next((it for it in desk.every(PATH) if it["name"] == order.name), None)
        if order.reuse
        else None
    )
    if there and any(there[key] != plan[key] for key in ("distributionSetId", "targetFilterQuery")):
        raise NotDone(
            f"rollout {there['id']} is called {order.name}, and has another set or filter"
        )
    made = there or desk.post(PATH, plan)
    print(json.dumps(made) if order.json else made["id"])
