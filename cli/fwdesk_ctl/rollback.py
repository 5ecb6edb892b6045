"""Rolls back: the devices that succeeded in a rollout get the set that each had before, or one that is named.

    fwdesk-ctl rollback ROLLOUT                      tells what it would do, and changes nothing
    fwdesk-ctl rollback ROLLOUT --start [--to SET] [--canary P,P..] [--success P] [--error P] [--anyway] [--json]

--to       this set for all of them, whatever each had before
--canary   percentages of the first groups, as `ship` has them (default: all in one group)
--anyway   starts also where devices have an older rollout open, which they are offered first

The set before is that of the last action that a device finished before this one. Devices that finished a newer one since
are left out, and so are those that had none before. Each set gets a rollout, `rollback 3 to set 1`, planned by a tag,
started, and told by its number. The rollout itself has to be paused or finished. It is idempotent: after an interruption
the same command goes on, and no rollout is planned twice. What is still open in the rollout is for cancel-open."""
import argparse
import json
import sys
from collections import defaultdict
from collections.abc import Sequence
from dataclasses import dataclass, field

from fwdesk_ctl import canary, ship
from fwdesk_ctl.client import Desk
from fwdesk_ctl.errors import NotDone, Unreached, Wrong
from fwdesk_ctl.follow import ids, tag_alone
from fwdesk_ctl.plan import PATH
from fwdesk_ctl.rollout import actions


def options(parser: argparse.ArgumentParser) -> None:
    parser.add_argument("rollout", metavar="ROLLOUT", type=int)
    parser.add_argument("--to", metavar="SET", type=int)
    canary.options(parser, "", 90, 5)
    for it in ("--start", "--anyway", "--json"):
        parser.add_argument(it, action="store_true")


@dataclass
class Ways:
    """Where the devices of a rollout go: to which set each, and who is left out."""

    to: dict[int, set[str]] = field(default_factory=lambda: defaultdict(set))
    newer: set[str] = field(default_factory=set)
    without: set[str] = field(default_factory=set)
    open: int = 0


def is_own(name: str, number: int) -> bool:
    """Whether a rollout's name is one that a rollback of this rollout gives."""
    return name.startswith(f"rollback {number} to set ")


def finished(desk: Desk, rollouts: Sequence[dict]) -> dict[str, list[tuple[int, int]]]:
    """The actions that each device finished, as their numbers and sets; of rollouts that were started."""
    found = defaultdict(list)
    for it in rollouts:
        if it["status"] in ("running", "paused", "finished"):
            for row in actions(desk, it["id"]):
                if row["state"] == "finished":
                    found[row["controllerid"]].append((int(row["action"]), it["distributionSetId"]))
    return found


def find_ways(desk: Desk, rollout: dict, rollouts: Sequence[dict], to: int | None) -> Ways:
    """Where each device goes that succeeded in a rollout. Its own rollbacks aren't looked at."""
    ways, number = Ways(), rollout["id"]
    history = finished(desk, [it for it in rollouts if not is_own(it["name"], number)])
    for row in actions(desk, number):
        ways.open += row["state"] in ("running", "canceling")
        if row["state"] != "finished":
            continue
        name, own = row["controllerid"], int(row["action"])
        before = [
            it
            for it in sorted(history[name])
            if it[0] < own and it[1] != rollout["distributionSetId"]
        ]
        if any(it[0] > own for it in history[name]):
            ways.newer.add(name)
        elif to or before:
            ways.to[to or before[-1][1]].add(name)
        else:
            ways.without.add(name)
    return ways


def tell(desk: Desk, rollout: dict, ways: Ways, order: argparse.Namespace) -> None:
    """What it would do, in lines."""
    if order.json:
        told = {str(key): sorted(it) for key, it in sorted(ways.to.items())}
        print(
            json.dumps({"to": told, "newer": sorted(ways.newer), "without": sorted(ways.without)})
        )
        return
    for firmware, names in sorted(ways.to.items()):
        it = desk.get(f"/rest/v1/distributionsets/{firmware}")
        _, found = canary.cut(len(names), order.canary)
        cut = f", in groups of {' '.join(map(str, found))}" if len(found) > 1 else ""
        devices = f"{len(names)} device{'s'[:len(names) != 1]}"
        print(f"{devices} to set {firmware}, {it['name']} {it['version']}{cut}")
    for count, words in (
        (len(ways.newer), "with a newer rollout since: left out"),
        (len(ways.without), "without a set before: left out (--to SET gives them one)"),
        (ways.open, f"open yet: fwdesk-ctl cancel-open {rollout['id']}"),
    ):
        if count:
            print(f"{count} {words}")
    if not ways.to:
        print("there is nobody to roll back")


def plan(
    desk: Desk, name: str, tag: str, firmware: int, due: set[str], order: argparse.Namespace
) -> dict:
    """Plans the rollout of a set to these devices, by a tag that they alone have."""
    if tag_alone(desk, tag, due) != len(due):
        raise NotDone(
            f"{name}: not all of {len(due)} devices can be tagged {tag}; nothing is planned"
        )
    wanted, _ = canary.plan_of(name, firmware, f"tag=={tag}", len(due), order)
    return desk.post(PATH, wanted)


def go_back(desk: Desk, rollout: dict, ways: Ways, order: argparse.Namespace) -> Sequence[dict]:
    """Plans and starts what isn't yet; gives the rollouts."""
    made, number = [], rollout["id"]
    there = {it["name"]: it for it in desk.every(PATH) if is_own(it["name"], number)}
    sets = {*ways.to, *(it["distributionSetId"] for it in there.values())}
    for firmware in sorted(sets):
        name, tag = f"rollback {number} to set {firmware}", f"rollback-{number}-{firmware}"
        it = there.get(name) or plan(desk, name, tag, firmware, ways.to[firmware], order)
        if it["status"] == "waiting_for_approval":
            print(f"rollout {it['id']} waits for approval, then: the same again", file=sys.stderr)
        elif it["status"] == "ready":
            ship.start(desk, it["id"], order.anyway)
        made.append(desk.get(f"{PATH}/{it['id']}"))
        if made[-1]["status"] != "waiting_for_approval" and ids(desk, f"tag=={tag}"):
            tag_alone(desk, tag, set())
    return made


def run(desk: Desk, order: argparse.Namespace) -> None:
    rollout, rollouts = desk.get(f"{PATH}/{order.rollout}"), desk.every(PATH)
    if order.to == rollout["distributionSetId"]:
        raise Wrong(f"set {order.to} is the one that rollout {order.rollout} has")
    if order.to:
        desk.get(f"/rest/v1/distributionsets/{order.to}")
    ways = find_ways(desk, rollout, rollouts, order.to)
    if not order.start:
        tell(desk, rollout, ways, order)
        print("nothing is changed: --start does it", file=sys.stderr)
        return
    if rollout["status"] not in ("paused", "finished"):
        raise NotDone(
            f"rollout {rollout['id']} is {rollout['status']}, and may hand it to more devices: pause it first"
        )
    try:
        made = go_back(desk, rollout, ways, order)
    except (KeyboardInterrupt, Unreached):
        print("the same command again goes on", file=sys.stderr)
        raise
    if not made:
        raise NotDone("there is nobody to roll back")
    if order.json:
        print(json.dumps(made))
    for it in made if not order.json else []:
        print(it["id"])
        print(
            f"rollout {it['id']}, {it['name']}: {it['totalTargets']} devices, {it['status']}",
            file=sys.stderr,
        )
