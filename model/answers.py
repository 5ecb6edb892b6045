"""What is answered: the objects that a query shows at a list, and those that an accepted command gives back."""
import hashlib
from functools import lru_cache

from . import files
from .commands import (
    AddArtifact,
    AddModule,
    AddSet,
    CreateRollout,
    Download,
    Poll,
    PutTargets,
    ShowAction,
    ShowActionsTable,
    ShowArtifact,
    ShowArtifacts,
    ShowCancel,
    ShowContents,
    ShowDeployment,
    ShowGroup,
    ShowGroups,
    ShowGroupTargets,
    ShowHistory,
    ShowModule,
    ShowModules,
    ShowReport,
    ShowRollout,
    ShowRollouts,
    ShowSet,
    ShowSets,
    ShowTarget,
    ShowTargetActions,
    ShowTargets,
)
from .machine import (
    BAD,
    CANCEL,
    DEPLOYMENT,
    GONE,
    OK,
    action_word,
    actions_of,
    artifacts,
    artifacts_of,
    attributes,
    count,
    first_action,
    group_bounds,
    group_of,
    group_size,
    group_word,
    groups,
    history,
    is_started,
    locked,
    matching,
    members,
    modules,
    offer,
    plan,
    rollout_of,
    rollout_word,
    rollouts,
    rows,
    sets,
    tags,
    target_of,
    target_word,
    targets,
)
from .refusals import must
from .verdicts import has_action, is_known, module_is_there, rollout_is_there, target_is_there


@lru_cache(1000)
def digest(contents):
    return hashlib.sha256(contents).hexdigest()


def module(h, m):
    it = modules(h)[m - 1]
    return {
        "id": m,
        "locked": locked(h, m),
        "name": it.name,
        "type": it.type,
        "version": it.version,
    }


def artifact(h, number):
    it = artifacts(h)[number - 1]
    hashes = {"sha256": digest(it.contents)}
    return {
        "hashes": hashes,
        "id": number,
        "providedFilename": it.filename,
        "size": len(it.contents),
    }


def dset(h, number):
    it = sets(h)[number - 1]
    return {
        "id": number,
        "modules": [{"id": m} for m in it.modules],
        "name": it.name,
        "version": it.version,
    }


def target(h, t):
    return {
        "attributes": attributes(h, t),
        "controllerId": t,
        "name": rows(h)[t].name,
        "tags": tags(h, t),
        "updateStatus": target_word(h, t),
    }


def rollout(h, r):
    it = rollouts(h)[r - 1]
    return {
        "distributionSetId": it.set,
        "id": r,
        "name": it.name,
        "status": rollout_word(h, r),
        "targetFilterQuery": it.filter,
        "totalGroups": len(it.plan),
        "totalTargets": len(members(h, r)),
    }


def group(h, r, g):
    counts = {"bad": count(h, r, g, BAD), "gone": count(h, r, g, GONE), "ok": count(h, r, g, OK)}
    thresholds = {"error": plan(h, r)[g - 1].error, "success": plan(h, r)[g - 1].success}
    return (
        counts | thresholds | {"id": g, "size": group_size(h, r, g), "status": group_word(h, r, g)}
    )


def action(h, a):
    return {
        "group": group_of(h, a),
        "id": a,
        "rollout": rollout_of(h, a),
        "status": action_word(h, a),
        "target": target_of(h, a),
    }


def entry(number, c):
    by_number = {} if c.number is None else {"number": c.number}
    said = {"details": list(c.details), "execution": c.said[0], "finished": c.said[1]}
    return said | {"id": number, "kind": c.kind} | by_number


def page(asked, numbers, shown):
    """The part of a list that a page asks for."""
    content = [shown(it) for it in numbers[asked.offset : asked.offset + asked.limit]]
    return {"content": content, "size": len(content), "total": len(numbers)}


def group_is_there(h, r, g):
    rollout_is_there(h, r)
    must(g <= len(plan(h, r)), 3, f"rollout {r} has no group {g}")


def artifact_is_there(h, m, number):
    module_is_there(h, m)
    must(number in artifacts_of(h, m), 3, f"module {m} has no artifact {number}")


def show_module(h, x):
    module_is_there(h, x.module)
    return module(h, x.module)


def show_artifacts(h, x):
    module_is_there(h, x.module)
    return page(x.page, artifacts_of(h, x.module), lambda it: artifact(h, it))


def show_artifact(h, x):
    artifact_is_there(h, x.module, x.artifact)
    return artifact(h, x.artifact)


def show_contents(h, x):
    artifact_is_there(h, x.module, x.artifact)
    return artifacts(h)[x.artifact - 1].contents


def show_set(h, x):
    must(x.set <= len(sets(h)), 3, f"there is no set {x.set}")
    return dset(h, x.set)


def show_target(h, x):
    target_is_there(h, x.target)
    return target(h, x.target)


def show_targets(h, x):
    found = targets(h) if x.filter is None else matching(h, x.filter)
    return page(x.page, found, lambda it: target(h, it))


def show_action(h, x):
    has_action(h, x.target, x.action)
    return action(h, x.action)


def show_target_actions(h, x):
    target_is_there(h, x.target)
    return page(x.page, actions_of(h, x.target), lambda it: action(h, it))


def show_history(h, x):
    has_action(h, x.target, x.action)
    found = list(enumerate((p.last for p in history(h, x.action)), 1))
    return page(x.page, found, lambda it: entry(*it))


def show_rollout(h, x):
    rollout_is_there(h, x.rollout)
    return rollout(h, x.rollout)


def show_group(h, x):
    group_is_there(h, x.rollout, x.group)
    return group(h, x.rollout, x.group)


def show_groups(h, x):
    rollout_is_there(h, x.rollout)
    return page(x.page, groups(h, x.rollout), lambda it: group(h, x.rollout, it))


def show_group_targets(h, x):
    group_is_there(h, x.rollout, x.group)
    first, last = group_bounds(h, x.rollout)[x.group - 1]
    return page(x.page, members(h, x.rollout)[first - 1 : last], lambda it: target(h, it))


def show_report(h, x):
    rollout_is_there(h, x.rollout)
    each = [group(h, x.rollout, g) for g in groups(h, x.rollout)]
    return files.report(rollout(h, x.rollout), each)


def show_actions_table(h, x):
    rollout_is_there(h, x.rollout)
    if not is_started(h, x.rollout):
        return files.actions_table([])
    first = first_action(h, x.rollout)
    numbers = range(first, first + len(members(h, x.rollout)))
    return files.actions_table(
        [(a, target_of(h, a), group_of(h, a), action_word(h, a)) for a in numbers]
    )


# --- what devices ask


def base(t):
    return f"/DEFAULT/controller/v1/{t}"


def poll(h, x):
    is_known(h, x.credential)
    t = x.credential.id
    offered = offer(h, t)
    links = {}
    if offered:
        a, kind = offered
        call = "deploymentBase" if kind == DEPLOYMENT else "cancelAction"
        links = {call: {"href": f"{base(t)}/{call}/{a}"}}
    return {"_links": links, "config": {"polling": {"sleep": "00:05:00"}}}


def modules_offered(h, t):
    """The modules of the set of the action that a target is offered as a deployment."""
    a, kind = offer(h, t) or (0, CANCEL)
    return sets(h)[rollouts(h)[rollout_of(h, a) - 1].set - 1].modules if kind == DEPLOYMENT else ()


def chunk(h, t, m):
    def shown(number):
        it = artifact(h, number)
        name = it["providedFilename"]
        links = {"download-http": {"href": f"{base(t)}/softwaremodules/{m}/artifacts/{name}"}}
        return {"_links": links, "filename": name, "hashes": it["hashes"], "size": it["size"]}

    it = modules(h)[m - 1]
    return {
        "artifacts": [shown(number) for number in artifacts_of(h, m)],
        "name": it.name,
        "part": it.type,
        "version": it.version,
    }


def show_deployment(h, x):
    is_known(h, x.credential)
    t = x.credential.id
    must(
        offer(h, t) == (x.action, DEPLOYMENT),
        3,
        f"action {x.action} isn't offered to {t} as a deployment",
    )
    chunks = [chunk(h, t, m) for m in modules_offered(h, t)]
    return {
        "deployment": {"chunks": chunks, "download": "forced", "update": "forced"},
        "id": str(x.action),
    }


def show_cancel(h, x):
    is_known(h, x.credential)
    t = x.credential.id
    must(
        offer(h, t) == (x.action, CANCEL), 3, f"action {x.action} isn't offered to {t} as a cancel"
    )
    return {"cancelAction": {"stopId": str(x.action)}, "id": str(x.action)}


def download(h, x):
    is_known(h, x.credential)
    t = x.credential.id
    must(x.module in modules_offered(h, t), 3, f"no set with module {x.module} is offered to {t}")
    found = [
        it.contents for it in artifacts(h) if (it.module, it.filename) == (x.module, x.filename)
    ]
    must(found, 3, f"module {x.module} has no file {x.filename}")
    return found[0]


SHOWN = {
    ShowModule: show_module,
    ShowModules: lambda h, x: page(x.page, range(1, len(modules(h)) + 1), lambda it: module(h, it)),
    ShowArtifact: show_artifact,
    ShowArtifacts: show_artifacts,
    ShowContents: show_contents,
    ShowSet: show_set,
    ShowSets: lambda h, x: page(x.page, range(1, len(sets(h)) + 1), lambda it: dset(h, it)),
    ShowTarget: show_target,
    ShowTargets: show_targets,
    ShowAction: show_action,
    ShowTargetActions: show_target_actions,
    ShowHistory: show_history,
    ShowRollout: show_rollout,
    ShowRollouts: lambda h, x: page(
        x.page, range(1, len(rollouts(h)) + 1), lambda it: rollout(h, it)
    ),
    ShowGroup: show_group,
    ShowGroups: show_groups,
    ShowGroupTargets: show_group_targets,
    ShowReport: show_report,
    ShowActionsTable: show_actions_table,
    Poll: poll,
    ShowDeployment: show_deployment,
    ShowCancel: show_cancel,
    Download: download,
}


def answer(h, x):
    """What a query shows."""
    return SHOWN[type(x)](h, x)


def done(h, c):
    """What an accepted command gives back, at the list that ends in it."""
    if isinstance(c, AddModule):
        return [module(h, len(modules(h)))]
    if isinstance(c, AddArtifact):
        return artifact(h, len(artifacts(h)))
    if isinstance(c, AddSet):
        return [dset(h, len(sets(h)))]
    if isinstance(c, CreateRollout):
        return rollout(h, len(rollouts(h)))
    return {"accepted": len(c.rows)} if isinstance(c, PutTargets) else {}
