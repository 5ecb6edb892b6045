"""The verdict on a command at a list: the first refusal that applies, in the order of its row, or none.

And what is answered: an accepted command's reply, or what a query shows. A refusal is raised with its reason.
"""
import hashlib

from . import texts
from .commands import (
    REJECTED,
    SUCCESS,
    AddArtifact,
    AddModule,
    AddSet,
    Approve,
    Cancel,
    CancelFeedback,
    CreateRollout,
    Deny,
    Feedback,
    Pause,
    PutAttributes,
    PutTargets,
    Resume,
    Start,
    Tag,
    TriggerNext,
    Untag,
)
from .machine import (
    BAD,
    GONE,
    OK,
    OPEN,
    action_started,
    action_word,
    actions_of,
    artifacts,
    artifacts_of,
    attributes,
    bearer,
    bounds,
    canceling,
    greatest,
    group_started,
    groups,
    is_note,
    is_there,
    locked,
    matching,
    modules,
    notes,
    outcome,
    rollout_word,
    rollouts,
    rows,
    same,
    sets,
    tags,
)
from .refusals import must


def module_is_there(h, m):
    must(m <= len(modules(h)), 3, f"there is no module {m}")


def target_is_there(h, t):
    must(is_there(h, t), 3, f"there is no target {t}")


def rollout_is_there(h, r):
    must(r <= len(rollouts(h)), 3, f"there is no rollout {r}")


def has_action(h, t, a):
    target_is_there(h, t)
    must(a in actions_of(h, t), 3, f"{t} has no action {a}")


def is_known(h, credential):
    must(is_there(h, credential.id), 2, f"there is no target {credential.id}")
    must(
        rows(h)[credential.id].digest == credential.digest,
        2,
        f"the token isn't that of {credential.id}",
    )


def is_in(h, r, *words):
    rollout_is_there(h, r)
    must(
        rollout_word(h, r) in words,
        7,
        f"rollout {r} is {rollout_word(h, r)}, not {' or '.join(words)}",
    )


def add_module(h, c):
    must(c not in modules(h), 5, f"there is a module {c.name} {c.type} {c.version}")
    must(len(modules(h)) < texts.MODULES, 10, f"there are {texts.MODULES} modules")


def add_artifact(h, c):
    module_is_there(h, c.module)
    must(not locked(h, c.module), 6, f"a set names module {c.module}")
    names = [artifacts(h)[it - 1].filename for it in artifacts_of(h, c.module)]
    must(c.filename not in names, 5, f"module {c.module} has a file {c.filename}")
    must(
        len(names) < texts.ARTIFACTS_OF_MODULE,
        10,
        f"module {c.module} has {texts.ARTIFACTS_OF_MODULE} artifacts",
    )
    must(len(artifacts(h)) < texts.ARTIFACTS, 10, f"there are {texts.ARTIFACTS} artifacts")
    must(
        c.sha256 in (None, hashlib.sha256(c.contents).hexdigest()),
        13,
        "the file has another SHA-256",
    )


def add_set(h, c):
    for m in c.modules:
        module_is_there(h, m)
    names = [(it.name, it.version) for it in sets(h)]
    must((c.name, c.version) not in names, 5, f"there is a set {c.name} {c.version}")
    must(len(sets(h)) < texts.SETS, 10, f"there are {texts.SETS} sets")


def put_targets(h, c):
    new = {it.id for it in c.rows if not is_there(h, it.id)}
    must(
        len(rows(h)) + len(new) <= texts.TARGETS,
        10,
        f"there would be {len(rows(h)) + len(new)} targets",
    )


def tag(h, c):
    target_is_there(h, c.target)
    must(
        c.tag in tags(h, c.target) or len(tags(h, c.target)) < texts.TAGS,
        10,
        f"{c.target} has {texts.TAGS} tags",
    )


def untag(h, c):
    target_is_there(h, c.target)


def put_attributes(h, c):
    is_known(h, c.credential)
    count = len(attributes(h, c.credential.id) | dict(c.attributes))
    must(count <= texts.ATTRIBUTES, 10, f"{c.credential.id} would have {count} attributes")


def create_rollout(h, c):
    size = len(matching(h, c.filter))
    must(c.set <= len(sets(h)), 3, f"there is no set {c.set}")
    must(c.name not in [it.name for it in rollouts(h)], 5, f"there is a rollout {c.name}")
    empty = [g for g, (first, last) in enumerate(bounds(size, c.plan), 1) if last < first]
    must(
        not empty,
        12,
        f"{size} targets match, so group {empty and empty[0]} of {len(c.plan)} would be empty",
    )
    must(len(rollouts(h)) < texts.ROLLOUTS, 10, f"there are {texts.ROLLOUTS} rollouts")


def trigger_next(h, c):
    is_in(h, c.rollout, "running")
    left = [g for g in groups(h, c.rollout) if not group_started(h, c.rollout, g)]
    must(left, 7, f"each group of rollout {c.rollout} has started")


def cancel(h, c):
    has_action(h, c.target, c.action)
    must(outcome(h, c.action) == OPEN, 8, f"action {c.action} is {action_word(h, c.action)}")
    must(action_started(h, c.action), 7, f"action {c.action} is scheduled")
    must(
        c.force or not canceling(h, c.action),
        7,
        f"action {c.action} is canceling, and nothing forces it",
    )


def outcome_of(c):
    """The outcome that a final feedback gives."""
    if is_note(c) or c.said == REJECTED:
        return OPEN
    return GONE if isinstance(c, CancelFeedback) else OK if c.said == SUCCESS else BAD


def feedback(h, c):
    a = c.action
    is_known(h, c.credential)
    its = a in actions_of(h, c.credential.id) and action_started(h, a)
    must(its, 3, f"{c.credential.id} has no started action {a}")
    if outcome(h, a) != OPEN:
        must(outcome_of(c) == outcome(h, a), 8, f"action {a} is {action_word(h, a)} already")
        return
    if c.number is not None and c.number <= greatest(h, a):
        again = c.number == greatest(h, a) and same(c, bearer(h, a))
        must(
            again,
            22,
            f"action {a} has feedback by number {greatest(h, a)}, and this is number {c.number}",
        )
        return
    must(
        isinstance(c, Feedback) or canceling(h, a),
        7,
        f"action {a} is {action_word(h, a)}, not canceling",
    )
    must(not is_note(c) or notes(h, a) < texts.NOTES, 10, f"action {a} has {texts.NOTES} notes")


RULES = {
    AddModule: add_module,
    AddArtifact: add_artifact,
    AddSet: add_set,
    PutTargets: put_targets,
    Tag: tag,
    Untag: untag,
    PutAttributes: put_attributes,
    CreateRollout: create_rollout,
    Approve: lambda h, c: is_in(h, c.rollout, "waiting_for_approval"),
    Deny: lambda h, c: is_in(h, c.rollout, "waiting_for_approval"),
    Start: lambda h, c: is_in(h, c.rollout, "ready"),
    Pause: lambda h, c: is_in(h, c.rollout, "running"),
    Resume: lambda h, c: is_in(h, c.rollout, "paused"),
    TriggerNext: trigger_next,
    Cancel: cancel,
    Feedback: feedback,
    CancelFeedback: feedback,
}


def verdict(h, c):
    """Raises the first refusal that applies."""
    RULES[type(c)](h, c)
