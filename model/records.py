"""The records of a desk, changed by one step a command, without the list: what a program would keep."""
from . import filters
from .commands import (
    REJECTED,
    SUCCESS,
    AddArtifact,
    AddModule,
    AddSet,
    Approve,
    Cancel,
    CancelFeedback,
    CreateRollout,
    Deny,
    Feedback,
    Pause,
    PutAttributes,
    PutTargets,
    Resume,
    Start,
    Tag,
    TriggerNext,
    Untag,
)

CLOSED = ("closed", "canceled")


class Records:
    def __init__(self, approval):
        self.approval = approval
        self.modules, self.artifacts, self.sets = {}, {}, {}
        self.targets, self.rollouts, self.groups, self.actions, self.offers = {}, {}, {}, {}, {}
        self.actions_of = {}

    def kinds(self):
        """Each kind of records, by their numbers or names."""
        targets = {t: {**it, "tags": sorted(it["tags"])} for t, it in self.targets.items()}
        return {
            "approval": self.approval,
            "module": self.modules,
            "artifact": self.artifacts,
            "set": self.sets,
            "target": targets,
            "rollout": self.rollouts,
            "group": self.groups,
            "action": self.actions,
            "offer": self.offers,
        }

    def step(self, command):
        """Takes an accepted command."""
        STEPS[type(command)](self, command)

    def add(self, kind, it):
        kind[len(kind) + 1] = it

    # --- targets

    def put_targets(self, c):
        for it in c.rows:
            old = self.targets.get(it.id, {"attributes": {}})
            self.targets[it.id] = {
                **old,
                "id": it.id,
                "name": it.name,
                "digest": it.digest,
                "tags": set(it.tags),
            }

    def tag(self, c):
        self.targets[c.target]["tags"].add(c.tag)

    def untag(self, c):
        self.targets[c.target]["tags"].discard(c.tag)

    def put_attributes(self, c):
        self.targets[c.credential.id]["attributes"].update(c.attributes)

    # --- rollouts

    def create_rollout(self, c):
        tree = filters.read(c.filter)
        members = sorted(t for t, it in self.targets.items() if filters.matches(tree, it))
        approval = "waiting" if self.approval else "given"
        self.add(
            self.rollouts,
            {
                "name": c.name,
                "set": c.set,
                "filter": c.filter,
                "members": members,
                "started": False,
                "paused": False,
                "approval": approval,
            },
        )
        taken, size = 0, len(members)
        for number, rule in enumerate(c.plan, 1):
            if rule.percentage is None:
                last = number * size // len(c.plan)
            else:
                # (what is left of the rest, rounded down)
                last = size - (size - taken) * (100 - rule.percentage) // 100
            group = {
                "first": taken + 1,
                "last": last,
                "rule": rule,
                "started": False,
                "ok": 0,
                "bad": 0,
                "gone": 0,
            }
            self.groups[len(self.rollouts), number] = group
            taken = last

    def approve(self, c):
        self.rollouts[c.rollout]["approval"] = "given"

    def deny(self, c):
        self.rollouts[c.rollout]["approval"] = "denied"

    def start(self, c):
        it = self.rollouts[c.rollout]
        it["started"] = True
        for position, t in enumerate(it["members"], 1):
            g = next(
                g
                for (r, g), each in self.groups.items()
                if r == c.rollout and position <= each["last"]
            )
            self.add(
                self.actions,
                {
                    "rollout": c.rollout,
                    "group": g,
                    "target": t,
                    "canceling": False,
                    "outcome": "open",
                    "notes": 0,
                    "feedback": [],
                },
            )
            self.actions_of.setdefault(t, []).append(len(self.actions))
        self.start_group(c.rollout, 1)

    def start_group(self, r, g):
        group = self.groups[r, g]
        group["started"] = True
        for t in self.rollouts[r]["members"][group["first"] - 1 : group["last"]]:
            self.offer(t)

    def offer(self, t):
        """Writes what a target is offered: the lowest of its open started actions."""
        self.offers.pop(t, None)
        for a in self.actions_of.get(t, ()):
            it = self.actions[a]
            if it["outcome"] == "open" and self.groups[it["rollout"], it["group"]]["started"]:
                self.offers[t] = a, "cancel" if it["canceling"] else "deployment"
                return

    def last_started(self, r):
        return max(g for (of, g), it in self.groups.items() if of == r and it["started"])

    def go_on(self, r):
        """Starts the next group where the rollout isn't paused and the last started group succeeds."""
        g = self.last_started(r)
        group = self.groups[r, g]
        succeeds = 100 * group["ok"] >= group["rule"].success * (group["last"] - group["first"] + 1)
        if not self.rollouts[r]["paused"] and succeeds and (r, g + 1) in self.groups:
            self.start_group(r, g + 1)

    def pause(self, c):
        self.rollouts[c.rollout]["paused"] = True

    def resume(self, c):
        self.rollouts[c.rollout]["paused"] = False
        self.go_on(c.rollout)

    def trigger_next(self, c):
        self.start_group(c.rollout, self.last_started(c.rollout) + 1)

    # --- actions

    def end(self, a, outcome):
        """Gives an action its outcome, and pauses its rollout or goes on with it."""
        it = self.actions[a]
        r, group = it["rollout"], self.groups[it["rollout"], it["group"]]
        it["outcome"], it["canceling"] = outcome, False
        needed = group["rule"].error * (group["last"] - group["first"] + 1)
        began = 100 * group["bad"] >= needed
        group[outcome] += 1
        if 100 * group["bad"] >= needed and not began:
            self.rollouts[r]["paused"] = True
        self.offer(it["target"])
        self.go_on(r)

    def cancel(self, c):
        it = self.actions[c.action]
        if it["canceling"]:
            self.end(c.action, "gone")
        else:
            it["canceling"] = True
            self.offer(it["target"])

    def feedback(self, c):
        it = self.actions[c.action]
        numbers = [number for *_, number in it["feedback"] if number is not None]
        if it["outcome"] != "open" or c.number is not None and numbers and c.number <= numbers[-1]:
            return
        it["feedback"].append((c.kind, c.said, c.details, c.number))
        if c.said[0] in CLOSED:
            self.end(
                c.action, "gone" if c.kind == "cancel" else "ok" if c.said == SUCCESS else "bad"
            )
        elif c.kind == "cancel" and c.said == REJECTED:
            it["canceling"] = False
            self.offer(it["target"])
        else:
            it["notes"] += 1


STEPS = {
    AddModule: lambda it, c: it.add(it.modules, c),
    AddArtifact: lambda it, c: it.add(it.artifacts, c),
    AddSet: lambda it, c: it.add(it.sets, c),
    PutTargets: Records.put_targets,
    Tag: Records.tag,
    Untag: Records.untag,
    PutAttributes: Records.put_attributes,
    CreateRollout: Records.create_rollout,
    Approve: Records.approve,
    Deny: Records.deny,
    Start: Records.start,
    Pause: Records.pause,
    Resume: Records.resume,
    TriggerNext: Records.trigger_next,
    Cancel: Records.cancel,
    Feedback: Records.feedback,
    CancelFeedback: Records.feedback,
}
