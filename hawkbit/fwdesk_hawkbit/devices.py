"""hawkBit's Direct Device Integration API, version 1.

Each request is asked of the desk with the device's own token first, and what the desk refuses is sent on as it is. So
nobody is told anything whom the desk doesn't know, nothing is handed out that the desk doesn't offer, and what holds
at HAProxy before the desk holds here."""

import asyncio
import hashlib
import hmac
import re
import time
from collections.abc import Awaitable, Callable
from dataclasses import dataclass, field
from pathlib import Path
from typing import Any

from aiohttp import web

from fwdesk_hawkbit import kinds, words
from fwdesk_hawkbit.desk import TARGETS, Calls, Desk, OfFleet, OnBehalf, R, Reply
from fwdesk_hawkbit.faults import Fault
from fwdesk_hawkbit.sums import STUB, Artifacts, Sums

B = "/{tenant}/controller/v1/{who}"
WORD = re.compile(r"[A-Za-z0-9._-]{1,64}", re.ASCII)
TOKEN = re.compile(r"[A-Za-z0-9._-]{8,64}", re.ASCII)
HOST = re.compile(r"[A-Za-z0-9._:\[\]-]{1,255}", re.ASCII)
# for how many seconds a rollout's kind, and what a device said of itself, is known without asking
KIND_STAYS, SAID_STAYS = 60.0, 86_400.0
# how many of these are known at most: of each the oldest is forgotten
KNOWN = 20_000
# a request's body, in bytes
BODY = 65_536
# how often a registration is begun anew, since somebody else wrote targets meanwhile
TRIES = 5
# of a target, by the limits of the desk
ATTRIBUTES = 32
OCTETS = "application/octet-stream"


class Recent:
    """A bounded memory of what holds for a while."""

    def __init__(self, seconds: float, size: int = KNOWN) -> None:
        self.seconds, self.size = seconds, size
        self.held: dict[Any, tuple[float, Any]] = {}

    def get(self, key: Any) -> Any:
        until, value = self.held.get(key, (0.0, None))
        return value if until > time.monotonic() else None

    def put(self, key: Any, value: Any) -> None:
        self.held.pop(key, None)
        while len(self.held) >= self.size:
            self.held.pop(next(iter(self.held)))
        self.held[key] = (time.monotonic() + self.seconds, value)


def token_of(key: bytes, who: str) -> str:
    """The token of a device that comes by the gateway's: nobody keeps it. Whoever reads the key is every such device."""
    return hmac.new(key, who.encode(), hashlib.sha256).hexdigest()[:32]


def key_of(key: bytes, fleet: str) -> bytes:
    """The key of one of many fleets: who is told a token of one knows none of another. A single desk has the key itself."""
    return hmac.new(key, f"fleet {fleet}".encode(), hashlib.sha256).digest() if fleet else key


@dataclass
class Service:
    """All that a device's request needs."""

    # the way for what a device may ask, and the one for the few reads of the management
    desk: Desk
    reads: Desk
    artifacts: Artifacts
    polling: str = "00:05:00"
    # the gateway token, and the key of which tokens are made; without both of them nobody comes by it
    gateway_token: str | None = None
    key: bytes | None = None
    # whether who comes by the gateway token and isn't there yet is made a target
    registers: bool = False
    kind_of_rollout: Recent = field(default_factory=lambda: Recent(KIND_STAYS))
    # the fleets of those who came by the gateway token
    fleet_of: Recent = field(default_factory=lambda: Recent(KIND_STAYS))
    said: Recent = field(default_factory=lambda: Recent(SAID_STAYS))
    registering: asyncio.Lock = field(default_factory=asyncio.Lock)


SERVICE = "service"


class Refused(Exception):
    """What the desk answered, to be sent on."""

    def __init__(self, told: Reply) -> None:
        super().__init__(told.status)
        self.told = told

    def answer(self) -> web.Response:
        later = {"Retry-After": self.told.later} if self.told.later else {}
        return web.Response(
            status=self.told.status,
            body=self.told.body,
            content_type=self.told.kind,
            headers=later,
        )


class Device:
    """A device's request: who it is, and the token by which the desk is asked."""

    def __init__(self, request: web.Request) -> None:
        self.request, self.service = request, request.app[SERVICE]
        self.who: str = request.match_info["who"]
        # of many fleets the edge finds the device's own by its id; on a node of a cluster the proxy before names it
        self.fleet, fields = request.headers.get("X-Fleet", ""), {"X-Fwdesk-Device": self.who}
        # the edge counts what a device has under way by its address too, which nginx names
        at = {it: request.headers[it] for it in ("X-Real-IP",) if it in request.headers}
        self.desk: Calls = OnBehalf(self.service.desk, at)
        self.reads: Calls = OnBehalf(self.service.reads, fields)
        if self.fleet:
            self.desk, self.reads = OfFleet(self.desk, self.fleet), OfFleet(self.reads, self.fleet)
        # by which it is known
        self.name = self.fleet, self.who
        self.path, self.token = f"/DEFAULT/controller/v1/{self.who}", ""

    async def identify(self) -> "Device":
        """Takes the token that it shows, or the one that it has by the gateway token's right."""
        kind, _, said = self.request.headers.get("Authorization", "").partition(" ")
        self.token = said.strip()
        if self.request.match_info["tenant"] != "DEFAULT" or not WORD.fullmatch(self.who):
            raise web.HTTPUnauthorized()
        if kind == "GatewayToken":
            await self.take_gateway_token()
        elif kind != "TargetToken" or not TOKEN.fullmatch(self.token):
            raise web.HTTPUnauthorized()
        return self

    async def take_gateway_token(self) -> None:
        right, key = self.service.gateway_token, self.service.key
        if not right or not key:
            raise web.HTTPUnauthorized()
        if not hmac.compare_digest(right.encode(), self.token.encode(errors="replace")):
            raise web.HTTPUnauthorized()
        fleet = self.service.fleet_of.get(self.name)
        if self.service.registers:
            async with self.service.registering:
                fleet = await self.register(key)
        elif fleet is None:
            fleet = (await self.look()).fleet
        self.service.fleet_of.put(self.name, fleet)
        self.token = token_of(key_of(key, fleet), self.who)

    async def look(self) -> Reply:
        """What the desk says of its target, and how often targets were written there."""
        return await self.reads.raw("GET", f"{R}/targets/{self.who}", fields={TARGETS: "asked"})

    async def register(self, key: bytes) -> str:
        """Makes a target of it where there is none, and tells its fleet. One that is there is left as it is.

        The desk would write over it, so the HAProxy before the desk refuses what is written behind another writer, and
        then it is looked for once more."""
        for _ in range(TRIES):
            there = await self.look()
            if there.status == 200:
                return there.fleet
            if there.status != 404:
                raise Fault("desk", f"the desk: {there.status} for target {self.who}")
            token = token_of(key_of(key, there.fleet), self.who)
            row = {"controllerId": self.who, "name": self.who, "tags": []}
            if await self.reads.writes_targets([row | {"securityToken": token}], there.targets):
                return there.fleet
        raise Fault("desk", "others write targets all the time: ask again")

    async def raw(self, method: str, rest: str = "", body: Any = None) -> bytes:
        """The bytes of a success; the desk's refusals go on as they are."""
        told = await self.desk.raw(method, self.path + rest, body, token=self.token)
        if told.status >= 300:
            raise Refused(told)
        return told.body

    async def ask(self, method: str, rest: str = "", body: Any = None) -> Any:
        return Reply(200, "", await self.raw(method, rest, body)).read()

    def link(self, rest: str) -> dict[str, str]:
        """A whole address, of the host that the device asked."""
        fields = self.request.headers
        host = fields.get("X-Forwarded-Host", self.request.host)
        if not HOST.fullmatch(host):
            raise Fault("body", "Host is no host")
        return {"href": f"{self.scheme}://{host}{self.path}{rest}"}

    @property
    def scheme(self) -> str:
        said = self.request.headers.get("X-Forwarded-Proto", self.request.scheme)
        return "https" if said == "https" else "http"

    async def body(self) -> dict[str, Any]:
        return words.read_object(await self.request.read())

    async def kind(self, action: str) -> str:
        """Whether an action of its own is forced, soft, or for the download alone. The desk has told who it is by now."""
        told = await self.reads.success("GET", f"{R}/targets/{self.who}/actions/{action}")
        rollout = told.read()["rollout"]
        key = told.fleet, rollout
        if (known := self.service.kind_of_rollout.get(key)) is None:
            plan = await self.reads.ask("GET", f"{R}/rollouts/{rollout}")
            known = kinds.kind_of(plan["targetFilterQuery"])
            self.service.kind_of_rollout.put(key, known)
        return str(known)

    def shown(self, name: str, sums: Sums, rest: str) -> dict[str, Any]:
        """An artifact as devices are told of it."""
        names = ("download", "md5sum") if self.scheme == "https" else ()
        links = {it: self.link(rest + ("" if it == "download" else ".MD5SUM")) for it in names}
        links |= {"download-http": self.link(rest), "md5sum-http": self.link(f"{rest}.MD5SUM")}
        return {"filename": name, "hashes": sums.hashes, "size": sums.size, "_links": links}

    async def artifact(self, it: dict[str, Any]) -> dict[str, Any]:
        """One of a deployment, with all that the desk doesn't tell of it."""
        rest = it["_links"]["download-http"]["href"].removeprefix(self.path)
        held, size, name = it["hashes"]["sha256"], it["size"], it["filename"]
        sums = await self.service.artifacts.whole(name, size, held, lambda: self.raw("GET", rest))
        return self.shown(name, sums, rest)


Handler = Callable[[Device], Awaitable[Any]]


def answered(handler: Handler) -> Callable[[web.Request], Awaitable[web.StreamResponse]]:
    """The handler of a route: an object is told as JSON, None is a success without a body."""

    async def answer(request: web.Request) -> web.StreamResponse:
        try:
            told = await handler(await Device(request).identify())
        except Refused as why:
            return why.answer()
        except (KeyError, TypeError, AttributeError) as why:
            raise Fault("desk", f"the desk's answer has another form: {why!r}") from why
        if isinstance(told, web.StreamResponse):
            return told
        return web.Response() if told is None else web.json_response(told)

    return answer


async def poll(d: Device) -> dict[str, Any]:
    """What there is to do. A device that said nothing of itself lately is asked for that."""
    told = await d.ask("GET")
    links = {key: d.link(it["href"].removeprefix(d.path)) for key, it in told["_links"].items()}
    if not links and d.service.said.get(d.name) is None:
        links["configData"] = d.link("/configData")
    return {"config": {"polling": {"sleep": d.service.polling}}, "_links": links}


async def show_deployment(d: Device) -> dict[str, Any]:
    """What is to be installed."""
    action = d.request.match_info["action"]
    told: dict[str, Any] = await d.ask("GET", f"/deploymentBase/{action}")
    for chunk in told["deployment"]["chunks"]:
        chunk["artifacts"] = [await d.artifact(it) for it in chunk["artifacts"]]
    download, update = kinds.HANDLING[await d.kind(action)]
    told["deployment"] |= {"download": download, "update": update}
    return told


async def show_installed(d: Device) -> dict[str, Any]:
    """What it has installed by an action of its own that has ended well."""
    action = d.request.match_info["action"]
    await d.ask("GET")
    it = await d.reads.maybe(f"{R}/targets/{d.who}/actions/{action}")
    if it is None or it["status"] != "finished":
        raise Fault("not found", f"Action with given identifier {{{action}}} does not exist.")
    plan = await d.reads.ask("GET", f"{R}/rollouts/{it['rollout']}")
    bundle = await d.reads.ask("GET", f"{R}/distributionsets/{plan['distributionSetId']}")
    download, update = kinds.HANDLING[kinds.kind_of(plan["targetFilterQuery"])]
    chunks = [await show_module(d, one["id"]) for one in bundle["modules"]]
    deployment = {"download": download, "update": update, "chunks": chunks}
    return {"id": action, "deployment": deployment}


async def show_module(d: Device, number: int) -> dict[str, Any]:
    """A module of what is installed, by what the management tells of it."""
    module = await d.reads.ask("GET", f"{R}/softwaremodules/{number}")
    place, shown = f"{R}/softwaremodules/{number}/artifacts", []
    for it in await d.reads.every(place):
        held, name = it["hashes"]["sha256"], it["providedFilename"]
        path = f"{place}/{it['id']}/download"
        sums = await d.service.artifacts.whole(
            name, it["size"], held, lambda path=path: d.reads.bytes_of("GET", path)
        )
        shown.append(d.shown(name, sums, f"/softwaremodules/{number}/artifacts/{name}"))
    told = {"part": module["type"], "name": module["name"], "version": module["version"]}
    return told | {"artifacts": shown}


async def list_artifacts(d: Device) -> list[dict[str, Any]]:
    """Those of a module that it is offered now."""
    module = d.request.match_info["module"]
    offered = (await d.ask("GET"))["_links"].get("deploymentBase")
    if offered is not None:
        told = await d.ask("GET", offered["href"].removeprefix(d.path))
        place = f"{d.path}/softwaremodules/{module}/artifacts/"
        held = [it for chunk in told["deployment"]["chunks"] for it in chunk["artifacts"]]
        mine = [it for it in held if it["_links"]["download-http"]["href"].startswith(place)]
        if mine:
            return [await d.artifact(it) for it in mine]
    raise Fault("not found", f"SoftwareModule with given identifier {{{module}}} does not exist.")


async def show_cancel(d: Device) -> Any:
    return await d.ask("GET", f"/cancelAction/{d.request.match_info['action']}")


async def take_feedback(d: Device) -> None:
    """A report, in the desk's words. Whether an action is for the download alone is asked where it matters."""
    which, action = d.request.match_info["which"], d.request.match_info["action"]
    told = await d.body()
    made = words.feedback(which, told)
    if which == "deploymentBase" and told["status"]["execution"] == "downloaded":
        await d.ask("GET")
        if await d.reads.maybe(f"{R}/targets/{d.who}/actions/{action}") is not None:
            made = words.feedback(which, told, await d.kind(action) == "downloadonly")
    await d.ask("POST", f"/{which}/{action}/feedback", made)


async def put_attributes(d: Device, data: dict[str, str]) -> None:
    """Writes them, and with them that the device comes this way, where the desk has room for that too."""
    if len(data) < ATTRIBUTES:
        try:
            await d.ask("PUT", "/configData", {"data": data | {kinds.KEY: kinds.VALUE}})
            return
        except Refused as why:
            if why.told.status != 403:
                raise
    await d.ask("PUT", "/configData", {"data": data})


async def take_attributes(d: Device) -> None:
    """Merged, as the desk does it. What is replaced or removed becomes empty, since the desk forgets no name.

    What it said already within a day isn't written again; then the desk is asked by a poll whether it may.
    """
    mode, data = words.attributes(await d.body())
    said = hashlib.sha256(repr((mode, sorted(data.items()))).encode()).digest()
    if hmac.compare_digest(d.service.said.get(d.name) or b"", said):
        await d.ask("GET")
        return
    if mode != "merge":
        await d.ask("GET")
        held = (await d.reads.ask("GET", f"{R}/targets/{d.who}"))["attributes"]
        there = dict.fromkeys((it for it in held if not it.startswith(kinds.OWN)), "")
        data = there | data if mode == "replace" else {it: "" for it in data if it in there}
    data = {key: it for key, it in data.items() if not key.startswith(kinds.OWN)}
    await put_attributes(d, data)
    d.service.said.put(d.name, said)


def send_file(d: Device, path: Path) -> web.StreamResponse:
    """A file of the proxy's folder: by nginx itself where that says how, or from here."""
    place = d.request.headers.get("X-Fwdesk-Images")
    if place:
        return web.Response(
            content_type=OCTETS, headers={"X-Accel-Redirect": f"{place}{path.name}"}
        )
    return web.FileResponse(path, headers={"Content-Type": OCTETS})


def send_bytes(d: Device, data: bytes) -> web.Response:
    """The bytes, or the one range of them that is asked for; of any other form of a range all of them."""
    fields = {"Accept-Ranges": "bytes", "ETag": f'"{hashlib.sha256(data).hexdigest()}"'}
    asked = re.fullmatch(
        r"bytes=(\d{0,18})-(\d{0,18})", d.request.headers.get("Range", ""), re.ASCII
    )
    if d.request.headers.get("If-Range", fields["ETag"]) != fields["ETag"]:
        asked = None
    if not asked or not (asked[1] or asked[2]):
        return web.Response(body=data, content_type=OCTETS, headers=fields)
    size = len(data)
    first = int(asked[1]) if asked[1] else max(0, size - int(asked[2]))
    last = min(int(asked[2]), size - 1) if asked[1] and asked[2] else size - 1
    if asked[1] and asked[2] and int(asked[2]) < first:
        return web.Response(body=data, content_type=OCTETS, headers=fields)
    if first >= size or (not asked[1] and int(asked[2]) == 0):
        return web.Response(status=416, headers={"Content-Range": f"bytes */{size}"})
    fields["Content-Range"] = f"bytes {first}-{last}/{size}"
    return web.Response(
        status=206, body=data[first : last + 1], content_type=OCTETS, headers=fields
    )


async def download(d: Device) -> web.StreamResponse:
    """An artifact, or its MD5. The desk says whether this device may have it now, also of an image that lies here."""
    module, name = d.request.match_info["module"], d.request.match_info["file"]
    is_sum, name = name.endswith(".MD5SUM"), name.removesuffix(".MD5SUM")
    data = await d.raw("GET", f"/softwaremodules/{module}/artifacts/{name}")
    held = hashlib.sha256(data).hexdigest()
    image = await d.service.artifacts.image(name, len(data), held)
    if image is None and STUB.fullmatch(data):
        raise Fault("desk", f"{name}: its image isn't in the folder of the proxy")
    if is_sum:

        async def fetch() -> bytes:
            return data

        sums = await d.service.artifacts.whole(name, len(data), held, fetch)
        return web.Response(text=f"{sums.md5}  {name}")
    return send_file(d, image.path) if image else send_bytes(d, data)


def number(name: str) -> str:
    """A number in a path."""
    return f"{{{name}:[1-9][0-9]{{0,9}}}}"


def routes() -> list[web.RouteDef]:
    """The paths of the interface."""
    of_module = f"{B}/softwaremodules/{number('module')}/artifacts"
    report = f"{B}/{{which:deploymentBase|cancelAction}}/{number('action')}/feedback"
    return [
        web.get(B, answered(poll)),
        web.get(f"{B}/deploymentBase/{number('action')}", answered(show_deployment)),
        web.get(f"{B}/installedBase/{number('action')}", answered(show_installed)),
        web.get(f"{B}/cancelAction/{number('action')}", answered(show_cancel)),
        web.post(report, answered(take_feedback)),
        web.put(f"{B}/configData", answered(take_attributes)),
        web.get(of_module, answered(list_artifacts)),
        web.get(f"{of_module}/{{file:[A-Za-z0-9._-]{{1,140}}}}", answered(download)),
    ]
