"""A request of the management: what each handler needs of it, and hawkBit's way of paging, filtering and sorting."""

import asyncio
import contextlib
import json
import logging
import re
import zlib
from collections.abc import AsyncIterator, Awaitable, Callable
from dataclasses import dataclass, field, replace
from pathlib import Path
from typing import Any

from aiohttp import web

from fwdesk_hawkbit import rsql
from fwdesk_hawkbit.desk import PAGE, AsOperator, Calls, OfFleet, R
from fwdesk_hawkbit.devices import HOST, WORD, key_of
from fwdesk_hawkbit.faults import Fault
from fwdesk_hawkbit.kept import Kept
from fwdesk_hawkbit.sums import Artifacts

# what a name or a tag of the gateway's own begins with, and the tag of a target that is hidden
OWN, GONE = "hb.", "hb.gone"
# the desk has no clock and no logins: hawkBit's fields of them are there, and empty
STAMPS = {"createdBy": "fwdesk", "createdAt": 0, "lastModifiedBy": "fwdesk", "lastModifiedAt": 0}
USUAL_PAGE = 50
GREATEST = 2_147_483_647
# fields that not each thing of a list has: an action of an assignment has no rollout
OPTIONAL = ("rollout", "rolloutname", "rollout.id", "rollout.name")
# the bytes of a request that isn't an upload: 1,000 targets with long names
BODY = 1 << 20
# what stands before a path that names one of many fleets, and how many are known at most
PREFIX = re.compile(r"(/fleets/[a-z0-9]{1,24})?", re.ASCII)
FLEETS = 1000
GATEWAY = "gateway"


@dataclass
class Gateway:
    """All that a request of the management needs."""

    desk: Calls
    artifacts: Artifacts
    kept: Kept
    # the key that makes the tokens of targets which come without one
    key: bytes | None = None
    # the greatest file, in bytes; uploads at once, each of which is a file beside the images
    largest: int = 2_000_000_000
    uploads: asyncio.Semaphore = field(default_factory=lambda: asyncio.Semaphore(4))
    # reads of all targets or of a rollout's table at once
    reads: asyncio.Semaphore = field(default_factory=lambda: asyncio.Semaphore(2))
    hides: bool = False
    # a lab has no proxy that says who may what, and shows tokens to everybody
    is_lab: bool = False
    # of a lab: what hawkBit's settings are, since the device half there goes by them
    settings: dict[str, Any] = field(default_factory=dict)
    locks: dict[str, asyncio.Lock] = field(default_factory=dict)
    # the actions of rollouts that have ended: they never change again
    ended: dict[int, list[dict[str, str]]] = field(default_factory=dict)
    # the way for what devices ask, where it isn't the desk's
    door: Calls | None = None
    # what the first order of a login that may steer begins with; None when it is done
    tidies: Callable[["Call"], Awaitable[None]] | None = None
    # of many fleets each one's own, by its name
    fleets: dict[str, "Gateway"] = field(default_factory=dict)

    def of(self, fleet: str) -> "Gateway":
        """The same of one of many fleets, which shares with the others the images alone, and how much is done at once."""
        if fleet not in self.fleets:
            if len(self.fleets) >= FLEETS:
                raise Fault("quota", f"one service has {FLEETS} fleets at most")
            own: dict[str, Any] = {"locks": {}, "ended": {}, "fleets": {}}
            own |= {"desk": OfFleet(self.desk, fleet)}
            own |= {"kept": self.kept.of(fleet)}
            own |= {"door": OfFleet(self.door, fleet) if self.door else None}
            own |= {"key": self.key and key_of(self.key, fleet)}
            self.fleets[fleet] = replace(self, **own)
        return self.fleets[fleet]

    @property
    def devices(self) -> Calls:
        """The desk by its way for devices."""
        return self.door or self.desk

    @property
    def images(self) -> Path:
        return self.artifacts.firmware

    @contextlib.asynccontextmanager
    async def alone(self, what: str) -> AsyncIterator[None]:
        """One request of this kind after the other, of this gateway."""
        async with self.locks.setdefault(what, asyncio.Lock()):
            yield


Json = dict[str, Any]
Answer = Awaitable[Any]
routes: list[tuple[str, str, Callable[[web.Request], Awaitable[web.StreamResponse]]]] = []


def on(methods: str, path: str) -> Callable[[Callable[..., Answer]], Callable[..., Answer]]:
    """A handler for these methods of a path. What stands in braces is an argument: a number, but for {who} and {word:..}.

    It answers an object, a status and an object, a whole response, or None for 200 without a body.
    """
    place = re.sub(r"\{([a-z]+)\}", lambda it: number_in(it[1]), path)

    def taken(handler: Callable[..., Answer]) -> Callable[..., Answer]:
        async def answer(request: web.Request) -> web.StreamResponse:
            call = Call(request)
            try:
                await call.tidy()
                told = await handler(call, *call.arguments())
            except (KeyError, TypeError, AttributeError, IndexError) as why:
                raise Fault("desk", f"the desk's answer has another form: {why!r}") from why
            return call.answer(told)

        routes.extend((it, f"{R}/{place}", answer) for it in methods.split())
        return handler

    return taken


def number_in(name: str) -> str:
    return "{who}" if name == "who" else f"{{{name}:[1-9][0-9]{{0,9}}}}"


class Call:
    """A request."""

    def __init__(self, request: web.Request) -> None:
        self.request, self.query = request, request.query
        self.gateway: Gateway = request.app[GATEWAY]
        # of many fleets the edge says which; of a single desk it takes this field away
        if (fleet := request.headers.get("X-Fleet", "")) and not self.gateway.is_lab:
            self.gateway = self.gateway.of(fleet)
        self.desk, self.kept = AsOperator(self.gateway.desk, self.login()), self.gateway.kept

    def login(self) -> dict[str, str]:
        """The operator's login, and the host that he asked: by both the edge says what he may, here as at its own port."""
        told = self.request.headers
        if not told.get("Authorization", "").lower().startswith("basic "):
            return {}
        return {it: told[it] for it in ("Authorization", "Host") if it in told}

    async def tidy(self) -> None:
        """What a process that died left behind goes before the first order, by the login of who gives that."""
        gateway = self.gateway
        if self.request.method == "GET" or gateway.tidies is None or not self.may_steer():
            return
        async with gateway.alone("tidy"):
            if gateway.tidies is not None:
                try:
                    await gateway.tidies(self)
                    gateway.tidies = None
                except Fault as why:
                    logging.warning("tidying: %s", why)

    def arguments(self) -> list[Any]:
        """What the path says; a number that the desk can't have isn't there."""
        given: list[Any] = []
        for name, it in self.request.match_info.items():
            given.append(it if name in ("who", "word") else int(it))
            if isinstance(given[-1], int) and given[-1] > GREATEST:
                raise missing(name, given[-1])
        return given

    def answer(self, told: Any) -> web.StreamResponse:
        """In the kind that the client reads."""
        # a response is a mapping, and without items as good as false
        if isinstance(told, web.StreamResponse):
            return told
        if told is None:
            return web.Response()
        status, told = told if isinstance(told, tuple) else (200, told)
        if told is None:
            return web.Response(status=status)
        hal = "hal+json" in self.request.headers.get("Accept", "")
        kind = f"application/{'hal+json' if hal else 'json'}"
        return web.json_response(told, status=status, content_type=kind)

    def link(self, path: str) -> Json:
        """A whole address, of the host that was asked."""
        fields = self.request.headers
        host = fields.get("X-Forwarded-Host", self.request.host)
        base = fields.get("X-Forwarded-Prefix", "")
        if not HOST.fullmatch(host) or not PREFIX.fullmatch(base):
            raise Fault("body", "Host is no host")
        scheme = fields.get("X-Forwarded-Proto", self.request.scheme)
        return {"href": f"{'https' if scheme == 'https' else 'http'}://{host}{base}{R}/{path}"}

    def links(self, place: str, *names: str) -> Json:
        """The links of what lies at a place."""
        more = {it: self.link(f"{place}/{it}") for it in names}
        return {"_links": {"self": self.link(place)} | more}

    def may_steer(self) -> bool:
        """Whether tokens are shown: the proxy says what a login may."""
        said = self.request.headers.get("X-Fwdesk-May", "steer" if self.gateway.is_lab else "")
        return "steer" in said.split(",")

    async def object(self) -> Json:
        """The one object of a body."""
        held = await self.read()
        if not isinstance(held, dict):
            raise Fault("body", "The request body is no object")
        return held

    async def objects(self) -> list[Json]:
        """The objects of a body; one alone is a list of it."""
        held = await self.read()
        held = [held] if isinstance(held, dict) else held
        if not isinstance(held, list) or not held or not all(isinstance(it, dict) for it in held):
            raise Fault("body", "The request body is no list of objects")
        return held

    async def read(self) -> Any:
        try:
            return json.loads(await self.request.read())
        except (ValueError, RecursionError):
            raise Fault("body", "The given request body is not well formed") from None

    async def there(self, kind: str, path: str, ident: int) -> Json:
        """What is there and isn't hidden, or hawkBit's 404."""
        hidden = self.kept.hides(path, ident)
        it: Json | None = None if hidden else await self.desk.maybe(f"{R}/{path}/{ident}")
        if it is None:
            raise missing(kind, ident)
        return it

    async def listed(self, path: str) -> list[Json]:
        held = await self.desk.every(f"{R}/{path}")
        return [it for it in held if not self.kept.hides(path, it["id"])]

    def window(self) -> tuple[int, int]:
        """Where a page begins, and how many things it has at most."""
        try:
            offset = int(self.query.get("offset", 0))
            limit = int(self.query.get("limit", USUAL_PAGE))
        except ValueError:
            raise Fault("body", "offset and limit are numbers") from None
        if not 0 <= offset <= GREATEST or not 0 <= limit <= GREATEST:
            raise Fault("body", "offset and limit are numbers from 0 on")
        return offset, min(PAGE, max(1, limit))

    def chosen(self, things: list[Json]) -> list[Json]:
        """Those that q finds, in the order of sort."""
        try:
            if text := self.query.get("q", "").strip():
                found = rsql.read(text)
                things = [it for it in things if rsql.holds(found, lambda name: values(it, name))]
        except rsql.Wrong as why:
            raise Fault("field" if why.field else "filter", str(why)) from None
        for part in reversed([it for it in self.query.get("sort", "").split(",") if it]):
            name, _, way = part.partition(":")
            if way.upper() not in ("", "ASC", "DESC"):
                raise Fault("sort", f"{way} is neither ASC nor DESC")
            try:
                things = sorted(things, key=order_by(name), reverse=way.upper() == "DESC")
            except rsql.Wrong as why:
                raise Fault("sort", str(why)) from None
        return things

    def cut(self, things: list[Json]) -> tuple[list[Json], int]:
        """The things of the page, and how many there are in all."""
        found = self.chosen(things)
        offset, limit = self.window()
        return found[offset : offset + limit], len(found)

    def page(self, things: list[Json]) -> Json:
        shown, total = self.cut(things)
        return page_of(shown, total)


def page_of(shown: list[Json], total: int) -> Json:
    return {"content": shown, "total": total, "size": len(shown)}


def order_by(name: str) -> Callable[[Json], tuple[bool, bool, Any]]:
    """The key of an order: what isn't there comes first, then numbers, then texts."""

    def key(it: Json) -> tuple[bool, bool, Any]:
        held = values(it, name)
        first = held[0] if held else None
        return first is not None, isinstance(first, str), 0 if first is None else first

    return key


def values(it: Json, name: str) -> list[Any]:
    """The values of a field, as a filter or an order names it; Wrong where there is none of this name."""
    low = "controllerid" if name.lower() == "id" and "controllerId" in it else name.lower()
    head, _, rest = low.partition(".")
    if head in ("attribute", "controllerattributes") and "attributes" in it:
        return [it["attributes"].get(name.partition(".")[2])]
    if low in ("tag", "tag.name") and "tags" in it:
        return list(it["tags"])
    for key, held in it.items():
        if key.lower() == low and not isinstance(held, dict | list):
            return [held]
        if rest and key.lower() == head and isinstance(held, dict):
            return values(held, rest)
    if low in OPTIONAL:
        return []
    raise rsql.Wrong(f"The given search parameter field {{{name}}} does not exist", name)


def missing(kind: str, ident: Any) -> Fault:
    return Fault("not found", f"{kind} with given identifier {{{ident}}} does not exist.")


def need(it: Json, *names: str) -> None:
    """What has to be there, as a text or a number."""
    for name in names:
        held = it.get(name)
        if isinstance(held, bool) or not isinstance(held, str | int) or held == "":
            raise Fault("constraint", f"{name} is missing")


def refuse(it: Json, **why: str) -> None:
    """What may not be dropped without a word, since what is asked for would mean something else then."""
    for name, reason in why.items():
        if it.get(name) not in (None, False, "", [], {}):
            raise Fault("unsupported", f"{name}: {reason}")


def need_word(text: Any, what: str) -> str:
    """An id or a tag as the desk takes it."""
    if not isinstance(text, str) or not WORD.fullmatch(text):
        raise Fault("constraint", f"{text!r}: {what} is 1 to 64 letters, digits and . _ -")
    return text


def number_of(text: str) -> int:
    """The number of what has a name alone in the desk."""
    return 1 + zlib.crc32(text.encode()) % (GREATEST - 1)


def may_hide(c: Call, what: str) -> None:
    if not c.gateway.hides:
        raise Fault("unsupported", f"fwdesk deletes nothing; --hide would only hide {what}")
