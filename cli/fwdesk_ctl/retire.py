"""Retires devices: the tag `retired`, a token that nobody has, and what they have open canceled by force.

    fwdesk-ctl retire ID [ID]..

No call deletes a target, so filters leave retired devices out by tag!=retired. Name, other tags and attributes stay. An
action of a group that hasn't started can't be canceled yet: it is told, with status 1, and the same command again does
the rest. To bring a device back: fwdesk-ctl untag retired, then fwdesk-ctl token ID."""
import argparse
import secrets
import sys
from collections.abc import Sequence

from fwdesk_ctl import devices
from fwdesk_ctl.bulk import target
from fwdesk_ctl.cancel_open import ENDED
from fwdesk_ctl.client import Desk
from fwdesk_ctl.errors import NotDone, Refused, Unreached
from fwdesk_ctl.fleet_file import MOST_TAGS

TAG = "retired"


def options(parser: argparse.ArgumentParser) -> None:
    parser.add_argument("ids", metavar="ID", nargs="+")


def cancel(desk: Desk, name: str, action: dict) -> None:
    """Ends an action that has started without its device; one that ended meanwhile is ended."""
    steps: list[dict] = [{}] * (action["status"] == "running") + [{"force": "true"}]
    for query in steps:
        try:
            desk.ask("DELETE", target(name, "actions", action["id"]), **query)
        except Refused as refusal:
            if refusal.name not in ENDED:
                raise


def retire(desk: Desk, device: dict) -> Sequence[dict]:
    """Retires one device; gives its actions that can't be canceled yet."""
    name = device["controllerId"]
    tags = sorted({*device["tags"], TAG})
    if len(tags) > MOST_TAGS:
        raise NotDone(f"{name} has {MOST_TAGS} tags, and a desk takes no more: untag one first")
    # the token first: nobody reports on its actions meanwhile
    devices.put(desk, device, secrets.token_urlsafe(32), tags)
    for action in devices.open_actions(desk, name):
        if action["status"] != "scheduled":
            cancel(desk, name, action)
    return devices.open_actions(desk, name)


def run(desk: Desk, order: argparse.Namespace) -> None:
    found = [devices.find(desk, name) for name in dict.fromkeys(order.ids)]
    left = []
    try:
        for device in found:
            still = retire(desk, device)
            words = [
                f"action {it['id']} of rollout {it['rollout']}, group {it['group']}" for it in still
            ]
            left += words
            more = f"; can't be canceled yet: {', '.join(words)}" if words else ""
            print(f"{device['controllerId']} is retired{more}", file=sys.stderr)
    except (KeyboardInterrupt, Unreached):
        print("the same command again does the rest", file=sys.stderr)
        raise
    if left:
        raise NotDone(
            "groups that haven't started yet: the same again once they have, or deny or pause these rollouts"
        )
