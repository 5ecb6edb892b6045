"""Rollouts and their groups."""

from typing import Any

from fwdesk_hawkbit import kinds, rsql
from fwdesk_hawkbit.actions import find_plan, is_own, need_to_come, show_action, table
from fwdesk_hawkbit.calls import (
    GONE,
    OWN,
    STAMPS,
    Call,
    Json,
    may_hide,
    missing,
    need,
    number_of,
    on,
    page_of,
    refuse,
)
from fwdesk_hawkbit.desk import R
from fwdesk_hawkbit.faults import Fault
from fwdesk_hawkbit.targets import find_targets, set_tag, show_target

# hawkBit's counts, by the states of the desk's actions
STATES = {
    "running": "running",
    "canceling": "running",
    "scheduled": "scheduled",
    "finished": "finished",
    "error": "error",
    "canceled": "cancelled",
}
COUNTS = ("running", "notstarted", "scheduled", "cancelled", "finished", "error")
STEPS = ("start", "pause", "resume", "triggerNextGroup", "approve", "deny")
FILTER = 512


async def rows_of(c: Call, plan: Json) -> list[dict[str, str]]:
    """A rollout's actions; those of a finished one never change again."""
    known = c.gateway.ended.get(plan["id"])
    if known is not None and plan["status"] == "finished":
        return known
    async with c.gateway.reads:
        rows = await table(c, plan["id"])
    if plan["status"] == "finished":
        c.gateway.ended[plan["id"]] = rows
    return rows


def show_plain(it: Json) -> Json:
    """What of a rollout needs no further call."""
    told = {"description": "", "deleted": False, "dynamic": False}
    return STAMPS | it | told | {"type": kinds.kind_of(it["targetFilterQuery"])}


async def show_rollout(c: Call, it: Json) -> Json:
    rows = await rows_of(c, it)
    counts = dict.fromkeys(COUNTS, 0)
    for row in rows:
        counts[STATES[row["state"]]] += 1
    counts["notstarted"] = it["totalTargets"] - len(rows)
    links = c.links(f"rollouts/{it['id']}", *STEPS, "deploygroups")
    return show_plain(it) | {"totalTargetsPerStatus": counts} | links


async def find_rollout(c: Call, ident: int) -> Json:
    it = await c.there("Rollout", "rollouts", ident)
    if is_own(it):
        raise missing("Rollout", ident)
    return it


@on("GET", "rollouts")
async def list_rollouts(c: Call) -> Json:
    plain = [it for it in await c.listed("rollouts") if not is_own(it)]
    shown, total = c.cut([show_plain(it) for it in plain])
    by_number = {it["id"]: it for it in plain}
    return page_of([await show_rollout(c, by_number[it["id"]]) for it in shown], total)


def condition(it: Json, key: str, usual: str) -> Json:
    """A threshold in whole percents, as the desk has it."""
    held = it.get(key) or {"condition": "THRESHOLD", "expression": usual}
    if not isinstance(held, dict) or held.get("condition", "THRESHOLD") != "THRESHOLD":
        raise Fault("constraint", f"{key} is a THRESHOLD")
    return {"condition": "THRESHOLD", "expression": str(held.get("expression", usual))}


def action_is(it: Json, key: str, name: str) -> None:
    """What happens at a threshold is always the same here."""
    held = it.get(key)
    if held is not None and (not isinstance(held, dict) or held.get("action") != name):
        raise Fault("unsupported", f"{key}: it is {name} always")


def group_of(it: Any) -> Json:
    """A group of a plan."""
    if not isinstance(it, dict):
        raise Fault("constraint", "groups is a list of objects")
    refuse(
        it,
        targetFilterQuery="a group has no filter of its own",
        confirmationRequired="isn't asked for",
    )
    action_is(it, "successAction", "NEXTGROUP")
    action_is(it, "errorAction", "PAUSE")
    share = it.get("targetPercentage", 100)
    if isinstance(share, bool) or not isinstance(share, int | float) or share != int(share):
        raise Fault("unsupported", "targetPercentage: whole percents")
    names = [key for key in ("successCondition", "errorCondition") if it.get(key)]
    return {"targetPercentage": int(share)} | {key: condition(it, key, "") for key in names}


def plan_of(asked: Json) -> Json:
    """The desk's body of what is asked for, without its filter."""
    need(asked, "name", "distributionSetId", "targetFilterQuery")
    refuse(asked, startAt="give the order at that time", forcetime="fwdesk has no clock")
    refuse(asked, dynamic="members are those of the moment", weight="the oldest is offered first")
    refuse(asked, confirmationRequired="fwdesk asks nobody")
    action_is(asked, "successAction", "NEXTGROUP")
    action_is(asked, "errorAction", "PAUSE")
    plan: Json = {"name": asked["name"], "distributionSetId": asked["distributionSetId"]}
    plan |= {"successCondition": condition(asked, "successCondition", "50")}
    plan |= {"errorCondition": condition(asked, "errorCondition", "50")}
    if groups := asked.get("groups"):
        if not isinstance(groups, list):
            raise Fault("constraint", "groups is a list")
        return plan | {"groups": [group_of(it) for it in groups]}
    amount = asked.get("amountGroups") or 1
    if isinstance(amount, bool) or not isinstance(amount, int):
        raise Fault("constraint", "amountGroups is a whole number")
    return plan | {"amountGroups": amount}


@on("POST", "rollouts")
async def add_rollout(c: Call) -> tuple[int, Json]:
    """The members are those of hawkBit's filter: by the desk's where that finds the same, else by a tag on each of them."""
    asked = await c.object()
    plan = plan_of(asked)
    kind = kinds.asked_kind(asked)
    if not isinstance(asked["name"], str) or asked["name"].startswith(OWN):
        raise Fault("constraint", f"a name is a text that doesn't begin with {OWN}")
    if not isinstance(asked["distributionSetId"], int):
        raise Fault("constraint", "distributionSetId is a number")
    text = str(asked["targetFilterQuery"])
    who = await find_targets(c, text)
    if kind != kinds.FORCED:
        for it in who:
            await need_to_come(c, it, kind)
    ids = sorted(it["controllerId"] for it in who)
    plain = rsql.as_desk(rsql.read(text))
    for form in (plain, f"({plain});tag!={GONE}") if plain else ():
        if await finds(c, own := kinds.with_kind(form, kind), ids):
            made = await c.desk.ask("POST", f"{R}/rollouts", plan | {"targetFilterQuery": own})
            return 201, await show_rollout(c, made)
    return 201, await show_rollout(c, await plan_by_tag(c, plan, ids, kind))


async def plan_by_tag(c: Call, plan: Json, ids: list[str], kind: str) -> Json:
    """A rollout of these, by a tag that they have for a moment. A name that is taken is refused before any is tagged."""
    if await find_plan(c, plan["name"]):
        raise Fault("exists", "The given entity already exists in database")
    tag = f"{OWN}{number_of(plan['name'])}"
    try:
        for it in ids:
            await set_tag(c, it, tag, True)
        body = plan | {"targetFilterQuery": kinds.with_kind(f"tag=={tag}", kind)}
        made: Json = await c.desk.ask("POST", f"{R}/rollouts", body)
        return made
    finally:
        for it in ids:
            await set_tag(c, it, tag, False)


async def finds(c: Call, text: str, ids: list[str]) -> bool:
    """Whether the desk's filter finds these, and nobody else."""
    if len(text.encode()) > FILTER:
        return False
    held = await c.desk.every(f"{R}/targets", q=text)
    return sorted(it["controllerId"] for it in held) == ids


@on("GET", "rollouts/{rollout}")
async def get_rollout(c: Call, ident: int) -> Json:
    return await show_rollout(c, await find_rollout(c, ident))


@on("POST", f"rollouts/{{rollout}}/{{word:{'|'.join(STEPS)}}}")
async def steer(c: Call, ident: int, verb: str) -> None:
    await find_rollout(c, ident)
    await c.desk.ask("POST", f"{R}/rollouts/{ident}/{verb}")


@on("DELETE", "rollouts/{rollout}")
async def delete_rollout(c: Call, ident: int) -> None:
    it = await find_rollout(c, ident)
    may_hide(c, "it")
    if it["status"] == "running":
        raise Fault("rollout", "it is running: pause it, and cancel what is open")
    c.kept.hide("rollouts", ident)


def show_group(c: Call, ident: int, it: Json) -> Json:
    left = it["size"] - it["ok"] - it["bad"] - it["gone"]
    begun = it["status"] in ("running", "error")
    counts = {"finished": it["ok"], "error": it["bad"], "cancelled": it["gone"], "notstarted": 0}
    counts |= {"running": left if begun else 0, "scheduled": 0 if begun else left}
    told = {"id": it["id"], "name": f"group-{it['id']}", "status": it["status"]}
    told |= {"description": "", "targetFilterQuery": "", "totalTargets": it["size"]}
    told |= {"totalTargetsPerStatus": counts}
    for key, name in (("successCondition", "success"), ("errorCondition", "error")):
        told[key] = {"condition": "THRESHOLD", "expression": str(it[name])}
    told |= {"successAction": {"action": "NEXTGROUP"}, "errorAction": {"action": "PAUSE"}}
    place = f"rollouts/{ident}/deploygroups/{it['id']}"
    return STAMPS | told | c.links(place, "targets")


@on("GET", "rollouts/{rollout}/deploygroups")
async def list_groups(c: Call, ident: int) -> Json:
    await find_rollout(c, ident)
    held = await c.desk.every(f"{R}/rollouts/{ident}/deploygroups")
    return c.page([show_group(c, ident, it) for it in held])


@on("GET", "rollouts/{rollout}/deploygroups/{group}")
async def get_group(c: Call, ident: int, its: int) -> Json:
    await find_rollout(c, ident)
    it = await c.desk.maybe(f"{R}/rollouts/{ident}/deploygroups/{its}")
    if it is None:
        raise missing("RolloutGroup", its)
    return show_group(c, ident, it)


@on("GET", "rollouts/{rollout}/deploygroups/{group}/targets")
async def list_group_targets(c: Call, ident: int, its: int) -> Json:
    await get_group(c, ident, its)
    held = await c.desk.every(f"{R}/rollouts/{ident}/deploygroups/{its}/targets")
    return c.page([show_target(c, it) for it in held])


# --- all actions of the desk, by the tables of its rollouts


async def all_actions(c: Call) -> list[Json]:
    shown = []
    for plan in await c.desk.every(f"{R}/rollouts"):
        for row in await rows_of(c, plan):
            it = {"id": int(row["action"]), "status": row["state"], "target": row["controllerid"]}
            shown.append(show_action(c, it, plan) | {"target": {"controllerId": it["target"]}})
    return sorted(shown, key=lambda it: int(it["id"]))


@on("GET", "actions")
async def list_all_actions(c: Call) -> Json:
    return c.page(await all_actions(c))


@on("GET", "actions/{action}")
async def get_any_action(c: Call, ident: int) -> Json:
    for it in await all_actions(c):
        if it["id"] == ident:
            return it
    raise missing("Action", ident)


async def tidy(c: Call) -> None:
    """Takes off what a gateway that died left at targets for a moment.

    A tag goes only once its rollout is there, since until then another gateway may be at it."""
    held = await c.desk.every(f"{R}/targets", q=f"tag=={OWN}*")
    if not held:
        return
    names = {it["name"] for it in await c.desk.every(f"{R}/rollouts")}
    planned = names | {f"{OWN}{number_of(it)}" for it in names}
    for it in held:
        for tag in it["tags"]:
            if tag != GONE and tag in planned:
                await set_tag(c, it["controllerId"], tag, False)
