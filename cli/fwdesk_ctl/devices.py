"""What the verbs for single devices ask and do: a device is put again with all but its token as it was."""
import json
from collections.abc import Sequence

from fwdesk_ctl.bulk import WORD, target
from fwdesk_ctl.client import Desk
from fwdesk_ctl.errors import NotDone, Refused, Wrong

PATH = "/rest/v1/targets"
OPEN = ("running", "canceling", "scheduled")


def find(desk: Desk, name: str) -> dict:
    """The device of this id; raises Wrong where it can't be one, NotDone where the desk has none."""
    if not WORD.fullmatch(name):
        raise Wrong(f"{name!r} is no id: 1 to 64 of A-Z a-z 0-9 . _ -")
    try:
        return desk.get(target(name))
    except Refused as refusal:
        if refusal.name != "not_found":
            raise
        raise NotDone(f"the desk has no device {name}") from None


def put(desk: Desk, device: dict, token: str, tags: list[str]) -> dict:
    """Puts a device again with this token and these tags, and gives what the desk then has. Its name stays, and so do its
    attributes and its history. Raises NotDone where somebody changed it meanwhile."""
    name = device["controllerId"]
    wanted = {"controllerId": name, "name": device["name"], "securityToken": token, "tags": tags}
    desk.read("POST", PATH, json.dumps([wanted]))
    found = desk.get(target(name))
    if (found["name"], sorted(found["tags"])) != (device["name"], sorted(tags)):
        raise NotDone(f"{name} was changed by somebody else meanwhile: look at its name and tags")
    return found


def open_actions(desk: Desk, name: str) -> Sequence[dict]:
    """The actions of a device that have no outcome yet."""
    return [it for it in desk.every(target(name, "actions")) if it["status"] in OPEN]
