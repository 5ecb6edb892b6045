"""Plans a rollout like another one, with its filter, its groups and their thresholds, and tells its number.

    fwdesk-ctl copy ROLLOUT NAME [--set ID] [--filter TEXT] [--json]

--set      another set (default: that of ROLLOUT)
--filter   another filter, as that of a tag for a second try; the members are the targets that match it now

The percentage of a group isn't told by the server, only its size: it is the greatest that gives this size, of the
members that ROLLOUT has. Groups that were planned as even ones are planned so again."""
import argparse
import json

from fwdesk_ctl.plan import OWN, PATH, condition
from fwdesk_ctl.rollout import sizes
from fwdesk_ctl.errors import NotDone


def options(parser):
    parser.add_argument("rollout", metavar="ROLLOUT", type=int)
    parser.add_argument("name")
    parser.add_argument("--set", metavar="ID", type=int)
    parser.add_argument("--filter", metavar="TEXT")
    parser.add_argument(
        "--json", action="store_true", help="tell the rollout, not its number alone"
    )


def look_with(order):
    return "fwdesk-ctl rollouts"


def percentages(cut):
    """A percentage for each size, of what the sizes before it leave; None where there is none for one of them."""
    left, found = sum(cut), []
    for size in cut:
        fitting = [it for it in range(1, 101) if -(-left * it // 100) == size]
        found.append(max(fitting, default=None))
        left -= size
    return None if None in found else found


def groups_of(seen):
    """The groups as a plan has them."""
    cut = [it["size"] for it in seen]
    alike = len({(it["success"], it["error"]) for it in seen}) == 1
    if alike and cut == sizes(sum(cut), argparse.Namespace(groups=len(cut))):
        return {"amountGroups": len(cut)}
    found = percentages(cut)
    if not found:
        raise NotDone(
            f"no percentages give groups of {', '.join(map(str, cut))}: plan it by --group"
        )
    own = [{OWN[key]: condition(it[key]) for key in OWN} for it in seen]
    return {"groups": [{"targetPercentage": it} | one for it, one in zip(found, own)]}


def run(desk, order):
    old, seen = desk.get(f"{PATH}/{order.rollout}"), desk.every(
        f"{PATH}/{order.rollout}/deploygroups"
    )
    plan = {"name": order.name, "distributionSetId": order.set or old["distributionSetId"]}
    plan |= {"targetFilterQuery": order.filter or old["targetFilterQuery"]}
    plan |= {OWN[key]: condition(seen[0][key]) for key in OWN} | groups_of(seen)
    made = desk.post(PATH, plan)
    print(json.dumps(made) if order.json else made["id"])
