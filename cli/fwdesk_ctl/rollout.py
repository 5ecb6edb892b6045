"""What several verbs ask and reckon of a rollout: the table of its actions, which one call returns whole, and how a
plan cuts its members into groups."""
import re

COLUMNS = ("action", "controllerid", "group", "state")
WAITING = ("ready", "scheduled")  # states of a group that isn't started


def actions(desk, rollout, group=None):
    """Its rows: `action`, `controllerid`, `group` and `state` of each."""
    path = f"/desk/v1/rollouts/{rollout}/actions"
    rows = desk.table(path, *COLUMNS)
    if not all(
        re.fullmatch("[0-9]{1,18}", row[key]) for row in rows for key in ("action", "group")
    ):
        raise desk.foreign("GET", path, "an action or a group of its table is no number")
    return [it for it in rows if group is None or int(it["group"]) == group]


def open_of(desk, rollout, group=None):
    """The rows of those that a device is handed, or asked to give up. Of a group that hasn't started none is open."""
    return [it for it in actions(desk, rollout, group) if it["state"] in ("running", "canceling")]


def groups_of(desk, rollout):
    """Its groups, in their order."""
    return desk.every(f"/rest/v1/rollouts/{rollout}/deploygroups")


def is_begun(group):
    """Whether a group was started."""
    return group["status"] not in WAITING


def look_with(rollout):
    """The command that shows the state of a rollout and of its last group that was started."""
    return f"fwdesk-ctl wait {rollout} --timeout 0"


def sizes(members, order):
    """How many members each group would have."""
    if order.groups:
        return [
            (it + 1) * members // order.groups - it * members // order.groups
            for it in range(order.groups)
        ]
    cut = []
    for it in order.group:
        cut.append(-(-(members - sum(cut)) * it["targetPercentage"] // 100))
    return cut
