"""The records that a list amounts to, each by its definition; records.py has the same by one step a command."""
from . import machine
from .machine import BAD, GONE, OK


def rollout(h, r):
    it = machine.rollouts(h)[r - 1]
    given = (
        "denied" if machine.is_denied(h, r) else "given" if machine.is_given(h, r) else "waiting"
    )
    return {
        "name": it.name,
        "set": it.set,
        "filter": it.filter,
        "members": list(machine.members(h, r)),
        "approval": given,
        "started": machine.is_started(h, r),
        "paused": machine.paused(h, r),
    }


def group(h, r, g):
    first, last = machine.group_bounds(h, r)[g - 1]
    return {
        "first": first,
        "last": last,
        "rule": machine.plan(h, r)[g - 1],
        "started": machine.group_started(h, r, g),
        **{what: machine.count(h, r, g, what) for what in (OK, BAD, GONE)},
    }


def action(h, a):
    return {
        "rollout": machine.rollout_of(h, a),
        "group": machine.group_of(h, a),
        "target": machine.target_of(h, a),
        "canceling": machine.canceling(h, a),
        "outcome": machine.outcome(h, a),
        "notes": machine.notes(h, a),
        "feedback": [
            (it.kind, it.said, it.details, it.number)
            for it in (p.last for p in machine.history(h, a))
        ],
    }


def records(h):
    """Each kind of records, by their numbers or names."""
    numbers = range(1, len(machine.rollouts(h)) + 1)
    return {
        "approval": machine.approval(h),
        "module": dict(enumerate(machine.modules(h), 1)),
        "artifact": dict(enumerate(machine.artifacts(h), 1)),
        "set": dict(enumerate(machine.sets(h), 1)),
        "target": {
            t: {**machine.target(h, t), "digest": machine.rows(h)[t].digest}
            for t in machine.targets(h)
        },
        "rollout": {r: rollout(h, r) for r in numbers},
        "group": {(r, g): group(h, r, g) for r in numbers for g in machine.groups(h, r)},
        "action": {a: action(h, a) for a in range(1, len(machine.actions(h)) + 1)},
        "offer": {t: it for t in machine.targets(h) if (it := machine.offer(h, t))},
    }
