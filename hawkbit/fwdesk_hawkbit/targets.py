"""Targets, their attributes, and their tags."""

import csv
import io
import secrets
from typing import Any

from fwdesk_hawkbit import kinds, rsql
from fwdesk_hawkbit.calls import (
    GONE,
    OWN,
    STAMPS,
    Call,
    Json,
    may_hide,
    missing,
    need,
    need_word,
    number_of,
    on,
    page_of,
    refuse,
    values,
)
from fwdesk_hawkbit.desk import TARGETS as TOLD
from fwdesk_hawkbit.desk import R
from fwdesk_hawkbit.devices import TOKEN, TRIES, WORD, token_of
from fwdesk_hawkbit.faults import Fault

# how many targets the desk takes in one request; more go as a file, which is one command too
AT_ONCE, MOST = 100, 10_000
# an action that no device has: what the desk says of it tells whether a token is right, and no device counts as seen
NO_ACTION = 2_147_483_647
TAGS = "targettags"


def own_attributes(it: Json) -> dict[str, str]:
    """Those that the device sent. What is empty was taken back; the gateway's own is shown to nobody."""
    held: dict[str, str] = it["attributes"]
    return {key: v for key, v in held.items() if v != "" and not key.startswith(kinds.OWN)}


def show_target(c: Call, it: Json, token: str | None = None) -> Json:
    attributes = own_attributes(it)
    told = {"description": "", "attributes": attributes, "requestAttributes": not attributes}
    told |= {"tags": [one for one in it["tags"] if not one.startswith(OWN)]}
    told |= {"securityToken": token} if token else {}
    names = ("assignedDS", "installedDS", "attributes", "actions", "tags")
    return STAMPS | it | told | c.links(f"targets/{it['controllerId']}", *names)


async def all_targets(c: Call) -> list[Json]:
    """All that aren't hidden, as the desk tells them: twenty pages of a full desk, so few at once."""
    async with c.gateway.reads:
        return [it for it in await c.desk.every(f"{R}/targets") if GONE not in it["tags"]]


async def find_target(c: Call, who: str) -> Json:
    it: Json | None = await c.desk.maybe(f"{R}/targets/{who}") if WORD.fullmatch(who) else None
    if it is None or GONE in it["tags"]:
        raise missing("Target", who)
    return it


async def find_targets(c: Call, text: str) -> list[Json]:
    """The targets of hawkBit's filter."""
    try:
        found = rsql.read(text)
        return [
            it
            for it in await all_targets(c)
            if rsql.holds(found, lambda name, it=it: values(it, name))  # type: ignore[misc]
        ]
    except rsql.Wrong as why:
        raise Fault("field" if why.field else "filter", str(why)) from None


async def own_token(c: Call, who: str) -> str | None:
    """A target's token where it is the one that the gateway makes; the desk shows none."""
    if c.gateway.key is None or not c.may_steer():
        return None
    own = token_of(c.gateway.key, who)
    path = f"/DEFAULT/controller/v1/{who}/cancelAction/{NO_ACTION}"
    return own if (await c.gateway.devices.raw("GET", path, token=own)).status == 404 else None


@on("GET", "targets")
async def list_targets(c: Call) -> Json:
    """A plain page is the desk's own; for a filter or an order all are asked for."""
    if c.query.get("q") or c.query.get("sort", "").lower() not in (
        "",
        "controllerid:asc",
        "id:asc",
    ):
        shown, total = c.cut(await all_targets(c))
        return page_of([show_target(c, it) for it in shown], total)
    offset, limit = c.window()
    held = await c.desk.ask("GET", f"{R}/targets", q=f"tag!={GONE}", offset=offset, limit=limit)
    return page_of([show_target(c, it) for it in held["content"]], held["total"])


def row_of(c: Call, it: Json) -> Json:
    """A target as the desk takes it, with a token that the gateway makes where it comes without one."""
    need(it, "controllerId")
    refuse(it, metadata="isn't kept", targetType="isn't kept")
    who = need_word(it["controllerId"], "a controllerId")
    token = it.get("securityToken")
    if token is None and c.gateway.key is None:
        raise Fault(
            "constraint", "securityToken is missing, and the gateway has no key to make one"
        )
    token = token_of(c.gateway.key, who) if token is None and c.gateway.key else token
    if not isinstance(token, str) or not TOKEN.fullmatch(token):
        raise Fault("constraint", "a securityToken is 8 to 64 letters, digits and . _ -")
    name = it.get("name") or who
    if not isinstance(name, str) or len(name.encode(errors="replace")) > 128:
        raise Fault("constraint", "a name is 1 to 128 bytes")
    return {"controllerId": who, "name": name, "securityToken": token, "tags": []}


@on("POST", "targets")
async def add_targets(c: Call) -> tuple[int, list[Json]]:
    """The desk would change one that is there already; hawkBit refuses it."""
    rows = [row_of(c, it) for it in await c.objects()]
    if len({it["controllerId"] for it in rows}) < len(rows):
        raise Fault("exists", "One is asked for twice")
    if len(rows) > MOST:
        raise Fault("quota", f"a desk has {MOST} targets")
    async with c.gateway.alone("targets"):
        for _ in range(TRIES):
            seen = await written(c)
            held = {it["controllerId"] for it in await all_or_these(c, rows)}
            if held & {it["controllerId"] for it in rows}:
                raise Fault("exists", "The given entity already exists in database")
            if await write_targets(c, rows, seen):
                break
        else:
            raise busy()
    shows = c.may_steer()
    fresh = {"attributes": {}, "updateStatus": "unknown"}
    return 201, [
        show_target(
            c,
            fresh | {key: v for key, v in it.items() if key != "securityToken"},
            it["securityToken"] if shows else None,
        )
        for it in rows
    ]


async def all_or_these(c: Call, rows: list[Json]) -> list[Json]:
    """Those of the rows that are there; where they are many, all that are."""
    if len(rows) > 20:
        return await all_targets(c)
    held = [await c.desk.maybe(f"{R}/targets/{it['controllerId']}") for it in rows]
    return [it for it in held if it is not None and GONE not in it["tags"]]


def busy() -> Fault:
    return Fault("desk", "others write targets all the time: ask again")


async def written(c: Call) -> str | None:
    """How often targets have been written by now, where HAProxy before the desk tells that."""
    path, query = f"{R}/targets", {"limit": "1"}
    told = await c.desk.raw("GET", path, query=query, fields={TOLD: "asked"})
    return c.desk.need_success(told, path).targets


async def write_targets(c: Call, rows: list[Json], seen: str | None) -> bool:
    """One command, so that all are there or none. False where others wrote targets since `seen` was told."""
    if len(rows) <= AT_ONCE:
        return await c.desk.writes_targets(rows, seen)
    out = csv.writer(text := io.StringIO(), lineterminator="\n")
    out.writerow(("controllerid", "name", "token", "tags"))
    out.writerows((it["controllerId"], it["name"], it["securityToken"], "") for it in rows)
    return await c.desk.writes_targets(text.getvalue().encode(), seen)


@on("GET", "targets/{who}")
async def get_target(c: Call, who: str) -> Json:
    return show_target(c, await find_target(c, who), await own_token(c, who))


@on("PUT", "targets/{who}")
async def change_target(c: Call, who: str) -> Json:
    """Its name, and its token where one is given."""
    asked = await c.object()
    refuse(asked, targetType="isn't kept", requestAttributes="a device is asked at each poll")
    async with c.gateway.alone("targets"):
        for _ in range(TRIES):
            seen = await written(c)
            it = await find_target(c, who)
            token = asked.get("securityToken") or await own_token(c, who)
            if not token:
                why = "a name is written together with the token, which only the device knows here"
                raise Fault("read only", f"{why}: give securityToken too")
            named = {"controllerId": who, "name": asked.get("name") or it["name"]}
            row = row_of(c, named | {"securityToken": token}) | {"tags": it["tags"]}
            if await c.desk.writes_targets([row], seen):
                break
        else:
            raise busy()
    held = it | {"name": row["name"]}
    return show_target(c, held, token if c.may_steer() else None)


@on("DELETE", "targets/{who}")
async def delete_target(c: Call, who: str) -> None:
    """It stays, locked out by a token that nobody has, without an open action, and out of all lists by a tag."""
    it = await find_target(c, who)
    may_hide(c, "a target")
    for one in await c.desk.every(f"{R}/targets/{who}/actions"):
        for force in {"running": ("", "true"), "canceling": ("true",)}.get(one["status"], ()):
            query = {"force": force} if force else {}
            await c.desk.ask("DELETE", f"{R}/targets/{who}/actions/{one['id']}", **query)
    lost = {"controllerId": who, "name": it["name"], "securityToken": secrets.token_hex(32)}
    await c.desk.ask("POST", f"{R}/targets", [lost | {"tags": [GONE]}])


@on("GET", "targets/{who}/attributes")
async def get_attributes(c: Call, who: str) -> dict[str, str]:
    return own_attributes(await find_target(c, who))


@on("GET", "targets/{who}/tags")
async def get_tags(c: Call, who: str) -> list[Json]:
    held = (await find_target(c, who))["tags"]
    return [show_tag(c, it) for it in held if not it.startswith(OWN)]


# --- tags: the desk has their names alone, at targets; those that nobody has the gateway keeps


def show_tag(c: Call, name: str) -> Json:
    told = {"id": number_of(name), "name": name, "colour": "", "description": ""}
    return STAMPS | told | c.links(f"{TAGS}/{number_of(name)}", "assigned")


async def all_tags(c: Call) -> dict[int, str]:
    """By their numbers."""
    used = {tag for it in await all_targets(c) for tag in it["tags"] if not tag.startswith(OWN)}
    return {number_of(it): it for it in sorted(used | c.kept.tags)}


async def find_tag(c: Call, ident: int) -> str:
    if ident not in (held := await all_tags(c)):
        raise missing("TargetTag", ident)
    return held[ident]


@on("GET", TAGS)
async def list_tags(c: Call) -> Json:
    return c.page([show_tag(c, it) for it in (await all_tags(c)).values()])


@on("POST", TAGS)
async def add_tags(c: Call) -> tuple[int, list[Json]]:
    there, asked = await all_tags(c), await c.objects()
    for it in asked:
        need(it, "name")
        refuse(it, colour="isn't kept")
        if need_word(it["name"], "a tag").startswith(OWN):
            raise Fault(
                "constraint", f"{it['name']!r}: what begins with {OWN} is the gateway's own"
            )
        if number_of(it["name"]) in there:
            raise Fault("exists", "The given entity already exists in database")
    c.kept.add_tags({it["name"] for it in asked})
    return 201, [show_tag(c, it["name"]) for it in asked]


@on("GET", f"{TAGS}/{{tag}}")
async def get_tag(c: Call, ident: int) -> Json:
    return show_tag(c, await find_tag(c, ident))


@on("DELETE", f"{TAGS}/{{tag}}")
async def delete_tag(c: Call, ident: int) -> None:
    """Off all targets, and then forgotten. A tag that a rollout asked for may go: its members are those of its plan."""
    name = await find_tag(c, ident)
    for it in await c.desk.every(f"{R}/targets", q=f"tag=={name}"):
        await c.desk.ask("DELETE", f"{R}/targets/{it['controllerId']}/tags/{name}")
    c.kept.drop_tag(name)


def ids_of(asked: Any) -> list[str]:
    """The ids of a list of texts, or of objects with a controllerId."""
    if not isinstance(asked, list):
        raise Fault("body", "The request body is no list")
    return [
        need_word(it.get("controllerId") if isinstance(it, dict) else it, "a controllerId")
        for it in asked
    ]


@on("GET POST PUT DELETE", f"{TAGS}/{{tag}}/assigned")
async def tag_many(c: Call, ident: int) -> Json:
    name, method = await find_tag(c, ident), c.request.method
    if method != "GET":
        asked = ids_of(await c.read())
        for who in asked:
            await find_target(c, who)
        for who in asked:
            await set_tag(c, who, name, method != "DELETE")
    held = await c.desk.every(f"{R}/targets", q=f"tag=={name}")
    return c.page([show_target(c, it) for it in held if GONE not in it["tags"]])


@on("POST PUT DELETE", f"{TAGS}/{{tag}}/assigned/{{who}}")
async def tag_one(c: Call, ident: int, who: str) -> None:
    await find_target(c, who)
    await set_tag(c, who, await find_tag(c, ident), c.request.method != "DELETE")


async def set_tag(c: Call, who: str, name: str, is_there: bool) -> None:
    method = "POST" if is_there else "DELETE"
    await c.desk.ask(method, f"{R}/targets/{who}/tags/{name}")
