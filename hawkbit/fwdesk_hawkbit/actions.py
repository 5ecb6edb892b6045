"""Actions, and the assignment of a set to targets.

An assignment is a rollout of one group whose name follows from what the desk has: the set, the kind, and of each target
its last action. So who asks again after a death finds it by its name and goes on, and several who ask at once make one."""

import csv
import hashlib
import io
from typing import Any

from fwdesk_hawkbit import kinds
from fwdesk_hawkbit.calls import OWN, STAMPS, Call, Json, missing, need, on, refuse
from fwdesk_hawkbit.desk import R
from fwdesk_hawkbit.devices import token_of
from fwdesk_hawkbit.faults import Fault
from fwdesk_hawkbit.modules import SETS, get_set
from fwdesk_hawkbit.targets import all_targets, find_target, set_tag

CLOSED = ("finished", "error", "canceled")
# the desk's refusals of a cancel that came too late, and of a start that another one was first with
TOO_LATE, WRONG_STATE = (7, 8), 7
EXISTS = 5
# the longest text of a filter that still has room for its kind; with more targets a tag stands for them
LONGEST = 440
# how often an assignment whose rollout has other members than it asked for is begun anew
TRIES = 5
# the greatest number of targets in one assignment
MOST = 1000
# from how many on it costs less to ask for all targets and all rollouts
MANY = 10
THRESHOLD = {"condition": "THRESHOLD", "expression": "100"}
# hawkBit's word for a report, by what the desk keeps of it
TYPES = {
    ("deployment", "closed", "success"): "finished",
    ("deployment", "closed", "failure"): "error",
    ("deployment", "rejected", "none"): "warning",
    ("cancel", "closed", "success"): "canceled",
    ("cancel", "canceled", "success"): "canceled",
    ("cancel", "rejected", "none"): "cancel_rejected",
}
SAID = {"download, none": "download", "downloaded, none": "downloaded"}


def is_own(plan: Json) -> bool:
    """Whether a rollout is an assignment: no client is shown it as a rollout."""
    return str(plan["name"]).startswith(OWN)


def show_action(c: Call, it: Json, plan: Json) -> Json:
    gives_up = it["status"] in ("canceling", "canceled")
    place = f"targets/{it['target']}/actions/{it['id']}"
    told = {"id": it["id"], "type": "cancel" if gives_up else "update"}
    told |= {"status": "finished" if it["status"] in CLOSED else "pending"}
    told |= {"detailStatus": it["status"], "forceType": kinds.kind_of(plan["targetFilterQuery"])}
    told |= c.links(place, "status")
    told["_links"] |= {
        "target": c.link(f"targets/{it['target']}"),
        "distributionset": c.link(f"{SETS}/{plan['distributionSetId']}"),
    }
    of = {} if is_own(plan) else {"rollout": plan["id"], "rolloutName": plan["name"]}
    return STAMPS | told | of


Plans = dict[int, Json]


async def all_plans(c: Call) -> Plans:
    """The desk's rollouts by their numbers."""
    return {it["id"]: it for it in await c.desk.every(f"{R}/rollouts")}


async def actions_of(c: Call, who: str, plans: Plans | None = None) -> list[tuple[Json, Json]]:
    """The actions of a target with their rollouts, the oldest first. `plans` are those that are known already."""
    held = await c.desk.every(f"{R}/targets/{who}/actions")
    wanted = {it["rollout"] for it in held}
    known = dict(plans or {})
    if missing_ones := wanted - set(known):
        if len(missing_ones) > 4:
            known = await all_plans(c)
        else:
            known |= {it: await c.desk.ask("GET", f"{R}/rollouts/{it}") for it in missing_ones}
    return [(it, known[it["rollout"]]) for it in held]


def sets_of(held: list[tuple[Json, Json]]) -> tuple[int | None, int | None]:
    """The set that a target is to have, and the one that it has, by its actions."""
    standing = [(it["status"], int(plan["distributionSetId"])) for it, plan in held]
    done = [ident for state, ident in standing if state == "finished"]
    given = [it for it in standing if it[0] not in ("canceled", "canceling", "scheduled")]
    installed = done[-1] if done else None
    if not given:
        return installed, installed
    return (None if given[-1][0] == "error" else given[-1][1]), installed


@on("GET", "targets/{who}/{word:assignedDS|installedDS}")
async def get_set_of_target(c: Call, who: str, which: str) -> Any:
    await find_target(c, who)
    ident = sets_of(await actions_of(c, who))[which != "assignedDS"]
    return (204, None) if ident is None else await get_set(c, ident)


@on("GET", "targets/{who}/actions")
async def list_actions(c: Call, who: str) -> Json:
    await find_target(c, who)
    return c.page([show_action(c, *it) for it in await actions_of(c, who)])


async def find_action(c: Call, who: str, ident: int) -> Json:
    await find_target(c, who)
    it: Json | None = await c.desk.maybe(f"{R}/targets/{who}/actions/{ident}")
    if it is None:
        raise missing("Action", ident)
    return it


@on("GET PUT", "targets/{who}/actions/{action}")
async def get_action(c: Call, who: str, ident: int) -> Json:
    """An action keeps the kind that it was made with."""
    it = await find_action(c, who, ident)
    plan = await c.desk.ask("GET", f"{R}/rollouts/{it['rollout']}")
    shown = show_action(c, it, plan)
    if c.request.method == "PUT" and (await c.object()).get("forceType") != shown["forceType"]:
        raise Fault("unsupported", "an action keeps the kind that it was made with")
    return shown


@on("DELETE", "targets/{who}/actions/{action}")
async def cancel(c: Call, who: str, ident: int) -> tuple[int, None]:
    it, force = await find_action(c, who, ident), c.query.get("force", "false").lower() == "true"
    if it["status"] in (*CLOSED, "scheduled") or (not force and it["status"] == "canceling"):
        raise Fault("cancel", f"action {ident} is {it['status']}")
    if force and it["status"] != "canceling":
        raise Fault("quit", f"action {ident} is {it['status']}: cancel it first")
    query = {"force": "true"} if force else {}
    await c.desk.ask("DELETE", f"{R}/targets/{who}/actions/{ident}", **query)
    return 204, None


def type_of(it: Json) -> str:
    """hawkBit's word for a report."""
    first = it["details"][0] if it["details"] else ""
    usual = SAID.get(first, "running")
    return TYPES.get((it["kind"], it["execution"], it["finished"]), usual)


@on("GET", "targets/{who}/actions/{action}/status")
async def list_status(c: Call, who: str, ident: int) -> Json:
    """What the device said, and what hawkBit itself would have noted."""
    it = await find_action(c, who, ident)
    told = await c.desk.every(f"{R}/targets/{who}/actions/{ident}/status")
    first = "scheduled" if it["status"] == "scheduled" else "running"
    shown = [(first, ["Update Server: assigned by an operator"])]
    shown += [(type_of(one), list(one["details"])) for one in told]
    if it["status"] == "canceling" or (it["status"] == "canceled" and shown[-1][0] != "canceled"):
        shown.append((it["status"], ["Update Server: canceled by an operator"]))
    return c.page(
        [
            {"id": ident * 1000 + at, "type": kind, "messages": lines, "reportedAt": 0}
            for at, (kind, lines) in enumerate(shown)
        ]
    )


async def table(c: Call, ident: int) -> list[dict[str, str]]:
    """A rollout's actions: action, controllerid, group, state."""
    told = await c.desk.bytes_of("GET", f"/desk/v1/rollouts/{ident}/actions")
    return list(csv.DictReader(io.StringIO(told.decode())))


# --- assignment


async def find_wants(c: Call, asked: list[Json]) -> dict[str, str]:
    """Each target that is asked for, with the kind of its action."""
    wants: dict[str, str] = {}
    there = {one["controllerId"]: one for one in await all_targets(c)} if len(asked) > MANY else {}
    for it in asked:
        need(it, "id")
        refuse(it, maintenanceWindow="fwdesk has no windows: the device decides when it installs")
        refuse(it, confirmationRequired="fwdesk asks nobody", forcetime="fwdesk has no clock")
        refuse(it, weight="fwdesk offers the oldest first")
        kind = kinds.asked_kind(it)
        found = there.get(str(it["id"])) or await find_target(c, str(it["id"]))
        wants[found["controllerId"]] = kind
        if kind != kinds.FORCED:
            await need_to_come(c, found, kind)
    return wants


async def need_to_come(c: Call, it: Json, kind: str) -> None:
    """Another kind than forced is for those alone who come by the gateway. In a lab all do."""
    if kind in it["attributes"].get(kinds.KEY, "").split():
        return
    who, key = it["controllerId"], c.gateway.key
    if c.gateway.is_lab and key is not None:
        path, data = f"/DEFAULT/controller/v1/{who}/configData", {kinds.KEY: kinds.VALUE}
        told = await c.gateway.devices.raw("PUT", path, {"data": data}, token=token_of(key, who))
        if told.status == 200:
            return
    why = "hasn't sent its attributes by the gateway, and would be told of it as forced"
    raise Fault("unsupported", f"type {kind}: {who} {why}")


async def find_plan(c: Call, name: str) -> Json | None:
    plans = await c.desk.every(f"{R}/rollouts")
    return next((it for it in plans if it["name"] == name), None)


async def plan_for(c: Call, name: str, ident: int, who: list[str], kind: str) -> Json:
    """The rollout of these alone, by this name: made now, or by an earlier try or another gateway."""
    text = ",".join(f"controllerid=={it}" for it in who)
    if len(text) > LONGEST:
        text = f"tag=={name}"
        for it in who:
            await set_tag(c, it, name, True)
    body = {"name": name, "distributionSetId": ident, "amountGroups": 1}
    body |= {"targetFilterQuery": kinds.with_kind(text, kind)}
    body |= {"successCondition": THRESHOLD, "errorCondition": THRESHOLD}
    try:
        made: Json = await c.desk.ask("POST", f"{R}/rollouts", body)
        return made
    except Fault as why:
        found = await find_plan(c, name) if why.number == EXISTS else None
        if found is None:
            raise
        return found


async def begin(c: Call, name: str, ident: int, who: list[str], kind: str) -> list[Json]:
    """Starts the rollout of these, and answers a row for each action.

    Where its members are others, since somebody changed a tag meanwhile, it is never started, and one by the next name
    is made."""
    for number in range(TRIES):
        own = f"{name}.{number}" if number else name
        plan = await find_plan(c, own) or await plan_for(c, own, ident, who, kind)
        if plan["totalTargets"] == len(who):
            break
    else:
        raise Fault("rollout", "the targets are changed by others meanwhile: ask again")
    if plan["status"] == "waiting_for_approval":
        raise Fault("rollout", f"rollout {plan['id']} waits for approval: ask again then")
    if plan["status"] == "ready":
        await start(c, plan["id"])
    if f"tag=={own}" in plan["targetFilterQuery"]:
        for it in who:
            await set_tag(c, it, own, False)
    return await table(c, plan["id"])


async def start(c: Call, ident: int) -> None:
    """Starts a rollout; another one may have been first."""
    try:
        await c.desk.ask("POST", f"{R}/rollouts/{ident}/start")
    except Fault as why:
        if why.number != WRONG_STATE:
            raise


async def ask_back(c: Call, older: list[tuple[str, int]]) -> None:
    """Cancels what is open of older ones, as hawkBit does; what has ended by now is left."""
    for who, action in older:
        try:
            await c.desk.ask("DELETE", f"{R}/targets/{who}/actions/{action}")
        except Fault as why:
            if why.number not in TOO_LATE:
                raise


async def assign(c: Call, ident: int, asked: list[Json]) -> Json:
    """Who has the set already isn't given it again. What is open of older ones is asked back."""
    if len(asked) > MOST:
        raise Fault("quota", f"{MOST} targets at once; a rollout takes more")
    wants = await find_wants(c, asked)
    made: list[Json] = []
    older: list[tuple[str, int]] = []
    already = 0
    async with c.gateway.alone("assign"):
        plans = await all_plans(c) if len(wants) > MANY else None
        for kind in sorted(set(wants.values())):
            fresh, basis = [], [kind]
            for who in sorted(it for it in wants if wants[it] == kind):
                held = await actions_of(c, who, plans)
                has = sets_of(held)[0] == ident
                older += [
                    (who, it["id"])
                    for it, plan in held
                    if it["status"] == "running"
                    and not (has and plan["distributionSetId"] == ident)
                ]
                already += has
                if not has:
                    fresh.append(who)
                    basis.append(f"{who} {held[-1][0]['id'] if held else 0}")
            if fresh:
                digest = hashlib.sha256("\n".join(basis).encode()).hexdigest()
                made += await begin(c, f"{OWN}{ident}.{digest[:24]}", ident, fresh, kind)
        await ask_back(c, older)
    links = [
        {"id": int(it["action"])} | c.links(f"targets/{it['controllerid']}/actions/{it['action']}")
        for it in made
    ]
    told = {"assigned": len(made), "alreadyAssigned": already, "total": len(wants)}
    return told | {"assignedActions": links}


@on("POST", f"{SETS}/{{set}}/assignedTargets")
async def assign_targets(c: Call, ident: int) -> Json:
    await c.there("DistributionSet", SETS, ident)
    return await assign(c, ident, await c.objects())


@on("POST", "targets/{who}/assignedDS")
async def assign_set(c: Call, who: str) -> Json:
    await find_target(c, who)
    asked = await c.objects()
    if len(asked) != 1:
        raise Fault("unsupported", "one set at a time")
    ident = asked[0].get("id")
    if isinstance(ident, bool) or not isinstance(ident, int) or ident < 1:
        raise Fault("constraint", "id is the number of a set")
    await c.there("DistributionSet", SETS, ident)
    return await assign(c, ident, [asked[0] | {"id": who}])
