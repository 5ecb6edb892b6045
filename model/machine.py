"""The rollout machine: all is said of a list `h` of accepted commands, and of its prefixes. Nothing else is kept.

`p` and `q` are prefixes of `h`, and `p.before` is `p` without its last command. `r` is a rollout, `g` one of its
groups, `a` an action, `t` a target, all by their numbers, which count from 1, or names.
"""
from . import filters
from .commands import (
    FAILURE,
    GIVEN_UP,
    REJECTED,
    SUCCESS,
    AddArtifact,
    AddModule,
    AddSet,
    Approve,
    Cancel,
    CancelFeedback,
    CreateRollout,
    Deny,
    Feedback,
    Make,
    Pause,
    PutAttributes,
    PutTargets,
    Resume,
    Start,
    Tag,
    TriggerNext,
    Untag,
)
from .lists import CommandList, by, some_prefix

OPEN, OK, BAD, GONE = "open", "ok", "bad", "gone"
DEPLOYMENT, CANCEL = "deployment", "cancel"
MODULES, ARTIFACTS, SETS, TARGETS, ROLLOUTS, STARTS = (
    "modules",
    "artifacts",
    "sets",
    "targets",
    "rollouts",
    "starts",
)


def of_target(t):
    return "target", t


def of_rollout(r, *_):
    return "rollout", r


def of_plan(r, *_):
    return "plan", r


def of_action(a):
    return "action", a


def always(subject):
    return lambda *_: subject


# --- numbers: the k-th of its kind has number k


def numbered(h, subject):
    return [p.last for p in h.prefixes(subject)]


@by(always(MODULES))
def modules(h):
    return numbered(h, MODULES)


@by(always(ARTIFACTS))
def artifacts(h):
    return numbered(h, ARTIFACTS)


@by(always(SETS))
def sets(h):
    return numbered(h, SETS)


@by(always(ROLLOUTS))
def rollouts(h):
    return numbered(h, ROLLOUTS)


def approval(h):
    """Whether new rollouts wait for approval."""
    return h.course.commands[0].approval


@by(lambda m: SETS)
def locked(h, m):
    """A set names the module."""
    return any(m in it.modules for it in sets(h))


@by(lambda m: ARTIFACTS)
def artifacts_of(h, m):
    """The numbers of a module's artifacts."""
    return [number for number, it in enumerate(artifacts(h), 1) if it.module == m]


# --- targets


@by(always(TARGETS))
def rows(h):
    """The last row that names each target."""
    return {row.id: row for p in h.prefixes(TARGETS) for row in p.last.rows}


def is_there(h, t):
    return t in rows(h)


@by(always(TARGETS))
def targets(h):
    """The names of the targets that are there, in byte order."""
    return sorted(rows(h))


@by(of_target)
def tags(h, t):
    """Of each tag the last command about it and the target decides; a row speaks of all of them."""
    found = set()
    for p in h.prefixes(of_target(t)):
        if isinstance(p.last, PutTargets):
            found = set(rows(p)[t].tags)
        elif isinstance(p.last, Tag):
            found = found | {p.last.tag}
        elif isinstance(p.last, Untag):
            found = found - {p.last.tag}
    return sorted(found)


@by(of_target)
def attributes(h, t):
    """The value that was last given to each key."""
    given = [p.last for p in h.prefixes(of_target(t)) if isinstance(p.last, PutAttributes)]
    return {key: value for it in given for key, value in it.attributes}


def target(h, t):
    """What a filter looks at."""
    return {"id": t, "name": rows(h)[t].name, "tags": tags(h, t), "attributes": attributes(h, t)}


def matching(h, text):
    """The targets that match a filter, in byte order of their names."""
    tree = filters.read(text)
    return [t for t in targets(h) if filters.matches(tree, target(h, t))]


# --- members and groups


@by(of_plan)
def members(h, r):
    """The targets that matched just before the rollout was created."""
    created = h.prefixes(of_plan(r))[0]
    return matching(created.before, created.last.filter)


def plan(h, r):
    return rollouts(h)[r - 1].plan


def bounds(size, groups):
    """First and last position of each group: alike, or by percentages of what those before leave, rounded up."""
    if groups[0].percentage is None:
        n = len(groups)
        return [((i - 1) * size // n + 1, i * size // n) for i in range(1, n + 1)]
    found, last = [], 0
    for it in groups:
        first, last = last + 1, last + ((size - last) * it.percentage + 99) // 100
        found.append((first, last))
    return found


@by(of_plan)
def group_bounds(h, r):
    return bounds(len(members(h, r)), plan(h, r))


def group_size(h, r, g):
    first, last = group_bounds(h, r)[g - 1]
    return last - first + 1


def groups(h, r):
    """The numbers of its groups."""
    return range(1, len(plan(h, r)) + 1)


# --- actions: a started rollout has one for each member, numbered on from those that were started earlier


def started_rollouts(h):
    return [p.last.rollout for p in h.prefixes(STARTS)]


@by(always(STARTS))
def actions(h):
    """The rollout and the position of each action."""
    return [
        (r, position) for r in started_rollouts(h) for position in range(1, len(members(h, r)) + 1)
    ]


def rollout_of(h, a):
    return actions(h)[a - 1][0]


def target_of(h, a):
    r, position = actions(h)[a - 1]
    return members(h, r)[position - 1]


def group_of(h, a):
    r, position = actions(h)[a - 1]
    return next(g for g, (_, last) in enumerate(group_bounds(h, r), 1) if position <= last)


@by(always(STARTS))
def first_action(h, r):
    """The number of the rollout's first action."""
    earlier = started_rollouts(h)[: started_rollouts(h).index(r)]
    return 1 + sum(len(members(h, it)) for it in earlier)


@by(always(STARTS))
def actions_by_target(h):
    found = {}
    for a in range(1, len(actions(h)) + 1):
        found.setdefault(target_of(h, a), []).append(a)
    return found


def actions_of(h, t):
    return actions_by_target(h).get(t, [])


# --- what devices said of an action, and what became of it


@by(of_action)
def outcome(h, a):
    """The first command on the action that gives it an outcome decides."""
    return next((it for it in (gives(p, a) for p in h.prefixes(of_action(a))) if it != OPEN), OPEN)


def gives(p, a):
    """The outcome that the last command of a list gives the action, if nothing gave it one before."""
    if isinstance(p.last, Feedback):
        return {SUCCESS: OK, FAILURE: BAD}.get(p.last.said, OPEN)
    if isinstance(p.last, CancelFeedback):
        return GONE if p.last.said in (SUCCESS, GIVEN_UP) else OPEN
    return GONE if p.last.force and canceling(p.before, a) else OPEN


@by(of_action)
def canceling(h, a):
    """It is open, and the last among its Cancel and its feedback that rejects one is a Cancel."""
    rejecting = {
        p.length
        for p in history(h, a)
        if isinstance(p.last, CancelFeedback) and p.last.said == REJECTED
    }
    about = [
        p.last
        for p in h.prefixes(of_action(a))
        if isinstance(p.last, Cancel) or p.length in rejecting
    ]
    return outcome(h, a) == OPEN and bool(about) and isinstance(about[-1], Cancel)


@by(of_action)
def is_repeat(p, a):
    """The last command is feedback on an action that has an outcome already, or its greatest number once more."""
    if outcome(p.before, a) != OPEN:
        return True
    return (
        p.last.number is not None
        and p.last.number == greatest(p.before, a)
        and same(p.last, bearer(p.before, a))
    )


def same(one, other):
    return (one.kind, one.said, one.details) == (other.kind, other.said, other.details)


@by(of_action)
def history(h, a):
    """The prefixes that end in its feedback, without repeats."""
    said = [p for p in h.prefixes(of_action(a)) if isinstance(p.last, (Feedback, CancelFeedback))]
    return [p for p in said if not is_repeat(p, a)]


def bearer(h, a):
    """The feedback that bears the greatest number, if there is one."""
    return max(
        (p.last for p in history(h, a) if p.last.number is not None),
        key=lambda it: it.number,
        default=None,
    )


def greatest(h, a):
    """The greatest number that was accepted on the action, or 0."""
    return bearer(h, a).number if bearer(h, a) else 0


def is_note(feedback):
    """It ends neither the action nor a cancel."""
    ends = {Feedback: (SUCCESS, FAILURE), CancelFeedback: (SUCCESS, GIVEN_UP, REJECTED)}
    return feedback.said not in ends[type(feedback)]


@by(of_action)
def notes(h, a):
    return sum(is_note(p.last) for p in history(h, a))


# --- counts, pauses and starts of a rollout


@by(of_rollout)
def outcomes(h, r, g):
    """The outcome of each member's action in a group of a started rollout."""
    first, last = group_bounds(h, r)[g - 1]
    return [outcome(h, first_action(h, r) - 1 + it) for it in range(first, last + 1)]


def count(h, r, g, what):
    return outcomes(h, r, g).count(what) if is_started(h, r) else 0


def success(h, r, g):
    return 100 * count(h, r, g, OK) >= plan(h, r)[g - 1].success * group_size(h, r, g)


def error(h, r, g):
    return 100 * count(h, r, g, BAD) >= plan(h, r)[g - 1].error * group_size(h, r, g)


def is_created(h, r):
    return r <= len(rollouts(h))


@some_prefix(of_rollout)
def is_started(p, r):
    return p.last == Start(r)


@by(of_rollout)
def pauses(q, r):
    """The list ends in a pause of the rollout, or some group's error begins with its last command."""
    begins = is_created(q.before, r) and any(
        error(q, r, g) and not error(q.before, r, g) for g in groups(q, r)
    )
    return q.last == Pause(r) or begins


@by(of_rollout)
def paused(h, r):
    """Some prefix pauses it, and no resume of it follows."""
    for q in reversed(h.prefixes(of_rollout(r))):
        if pauses(q, r):
            return True
        if q.last == Resume(r):
            return False
    return False


@some_prefix(of_rollout)
def group_started(p, r, g):
    """Group 1 starts with the rollout. Another one starts where the group before it is started and succeeds while
    nothing is paused, or where a trigger starts the next one."""
    if g == 1:
        return p.last == Start(r)
    if not group_started(p, r, g - 1):
        return False
    if not paused(p, r) and success(p, r, g - 1):
        return True
    return (
        p.last == TriggerNext(r)
        and group_started(p.before, r, g - 1)
        and not group_started(p.before, r, g)
    )


def action_started(h, a):
    return group_started(h, rollout_of(h, a), group_of(h, a))


def started_actions(h, t):
    return [a for a in actions_of(h, t) if action_started(h, a)]


def offer(h, t):
    """The action that is offered to a target, as a deployment or as a cancel, or None."""
    a = next((a for a in started_actions(h, t) if outcome(h, a) == OPEN), None)
    return a and (a, CANCEL if canceling(h, a) else DEPLOYMENT)


# --- state words: the first that applies


def is_given(h, r):
    """Nothing waits for an approval of the rollout, and it wasn't denied."""
    return not approval(h) or any(p.last == Approve(r) for p in h.prefixes(of_rollout(r)))


def is_denied(h, r):
    return any(p.last == Deny(r) for p in h.prefixes(of_rollout(r)))


def is_final(h, r, g):
    return OPEN not in outcomes(h, r, g)


@by(of_rollout)
def rollout_word(h, r):
    if is_denied(h, r):
        return "approval_denied"
    if not is_given(h, r):
        return "waiting_for_approval"
    if not is_started(h, r):
        return "ready"
    if all(group_started(h, r, g) and is_final(h, r, g) for g in groups(h, r)):
        return "finished"
    return "paused" if paused(h, r) else "running"


@by(of_rollout)
def group_word(h, r, g):
    if not is_started(h, r):
        return "ready"
    if not group_started(h, r, g):
        return "scheduled"
    if is_final(h, r, g):
        return "finished"
    return "error" if error(h, r, g) else "running"


def action_word(h, a):
    if outcome(h, a) != OPEN:
        return {OK: "finished", BAD: "error", GONE: "canceled"}[outcome(h, a)]
    if not action_started(h, a):
        return "scheduled"
    return "canceling" if canceling(h, a) else "running"


def target_word(h, t):
    found = [outcome(h, a) for a in started_actions(h, t)]
    if OPEN in found:
        return "pending"
    return {OK: "in_sync", BAD: "error", GONE: "unknown"}[found[-1]] if found else "unknown"


# --- lists


def subjects(h, c):
    """What a command is about, where it is accepted at this list."""
    if isinstance(c, (AddModule, AddArtifact, AddSet)):
        return [{AddModule: MODULES, AddArtifact: ARTIFACTS, AddSet: SETS}[type(c)]]
    if isinstance(c, PutTargets):
        return [TARGETS, *dict.fromkeys(of_target(it.id) for it in c.rows)]
    if isinstance(c, (Tag, Untag)):
        return [of_target(c.target)]
    if isinstance(c, PutAttributes):
        return [of_target(c.credential.id)]
    if isinstance(c, CreateRollout):
        return [ROLLOUTS, of_plan(len(rollouts(h)) + 1), of_rollout(len(rollouts(h)) + 1)]
    if isinstance(c, (Cancel, Feedback, CancelFeedback)):
        return [of_action(c.action), of_rollout(rollout_of(h, c.action))]
    return [] if isinstance(c, Make) else [of_rollout(c.rollout)] + [STARTS] * isinstance(c, Start)


def followed_by(h, c):
    """The list and one more accepted command."""
    return h.followed_by(c, subjects(h, c))


def made(with_approval):
    """The list of a new desk."""
    return followed_by(CommandList(), Make(with_approval))


def repeated(h):
    """A list of the same commands that shares nothing with this one."""
    found = CommandList()
    for c in h.commands():
        found = followed_by(found, c)
    return found
