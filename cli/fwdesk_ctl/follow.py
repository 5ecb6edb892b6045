"""Gives a set to devices that join: to those that match a rule's filter, and are in no rollout of the set yet.

    fwdesk-ctl follow RULES [--dry-run]

A line of RULES is a rule: a name, and what `plan` takes. # begins a comment, and a stroke (-) is standard input:

    pumps --filter attribute.model==pump --set 3 --success 80 --error 20 --group 10 --group 100

Those that are new get a rollout, pumps-3-1, pumps-3-2 .., which is planned by the tag new-pumps and started; with
approval it is started by the first run after that. Where they are too few for all groups the first ones are left
out. It may end at any moment: the next run goes on, and gives nobody a set twice. While the rule's last rollout is
paused, or was denied, nothing more is planned, and the status is 1. A server has room for 1,000 rollouts: let a timer
run it once a day."""
import re

from fwdesk_ctl.bulk import each, target
from fwdesk_ctl.plan import PATH
from fwdesk_ctl.rules import body, rules_in
from fwdesk_ctl.steer import members
from fwdesk_ctl.errors import NotDone, Refused


def options(parser):
    parser.add_argument("rules", metavar="RULES")
    parser.add_argument(
        "--dry-run", action="store_true", help="only tell how many devices are new to each rule"
    )


def ids(desk, text):
    return {it["controllerId"] for it in desk.every("/rest/v1/targets", q=text)}


def tag_alone(desk, tag, due):
    """Lets these have the tag, and nobody else; answers how many of them have it."""
    there = ids(desk, f"tag=={tag}")
    each(
        f"{tag} off",
        sorted(there - due),
        str,
        lambda it: desk.ask("DELETE", target(it, "tags", tag)),
    )
    return len(due) - each(
        tag, sorted(due - there), str, lambda it: desk.ask("POST", target(it, "tags", tag))
    )


def follow(desk, rule, dry):
    """Does what a rule says, and answers a sentence about it."""
    tag, there = f"new-{rule.name}", [
        it for it in desk.every(PATH) if it["distributionSetId"] == rule.set
    ]
    own = [
        it for it in there if re.fullmatch(rf"{re.escape(rule.name)}-{rule.set}-[0-9]+", it["name"])
    ]
    last = own[-1] if own else {"status": "finished"}
    if last["status"] in ("paused", "approval_denied"):
        raise NotDone(
            f"{rule.name}: rollout {last['id']} is {last['status']}, so nothing more is planned"
        )
    if last["status"] not in ("ready", "waiting_for_approval"):
        given = [members(desk, it["id"]) for it in there if it["status"] != "approval_denied"]
        due = ids(desk, rule.filter).difference(*given)
        count = 0 if dry else tag_alone(desk, tag, due)
        if dry or not due:
            return f"{rule.name}: {len(due)} new"
        if not count:
            raise NotDone(f"{rule.name}: none of {len(due)} can be tagged {tag}")
        last = desk.post(PATH, body(rule, f"{rule.name}-{rule.set}-{len(own) + 1}", tag, count))
    if last["status"] == "waiting_for_approval" or dry:
        return f"{rule.name}: rollout {last['id']} is {last['status']}"
    desk.post(f"{PATH}/{last['id']}/start")
    tag_alone(desk, tag, set())
    return f"{rule.name}: {last['totalTargets']} devices by rollout {last['id']}"


def run(desk, order):
    told = []
    for rule in rules_in(order.rules):
        try:
            print(follow(desk, rule, order.dry_run), flush=True)
        except (NotDone, Refused) as why:
            told.append(str(why))
    if told:
        raise NotDone("; ".join(told))
